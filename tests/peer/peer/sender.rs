//! The sender: a queue of the blocks that it keeps, each with its number and
//! its method.

use super::block::{self, Parts};
use super::signs::{Link, ETX, SHAPES};
use super::{ask, Refusal};
use std::collections::VecDeque;

/// Bytes of a cell of the store.
pub const CELL: usize = 4_096;

/// The record of a station in whole numbers.
#[derive(Clone, PartialEq, Eq, Debug)]
pub struct Record {
    pub next: usize,
    pub stored: usize,
    pub cell: usize,
    /// The length of the block that each of seven cells got last.
    pub lengths: Vec<usize>,
    /// The methods of the last order and of the one before it, 0 for none.
    pub orders: [u8; 2],
    /// How many of the stored blocks are from before the last order.
    pub older: usize,
}

impl Record {
    pub fn fresh() -> Record {
        Record {
            next: 0,
            stored: 0,
            cell: 0,
            lengths: vec![0; 7],
            orders: [0; 2],
            older: 0,
        }
    }
}

/// The method that an order named; a station without one sends under method 4.
pub fn method_of(order: u8) -> u8 {
    if order == 0 {
        4
    } else {
        order
    }
}

/// Questions 41, 51 and 6, for a store of so many bytes.
pub fn questions(n: usize, w: usize, record: &Record, room: usize) -> Result<(), Refusal> {
    ask((1..=7).contains(&n), Refusal::plain(41))?;
    let modulus = 1 << n;
    let window = (1..=7).contains(&w) && w < modulus;
    let places = record.stored <= w && record.cell < w && record.next < modulus;
    let lengths = record.lengths.iter().all(|length| *length <= 4_095);
    let orders = record.orders.iter().all(|order| [0, 3, 4].contains(order));
    let older = record.older <= record.stored;
    let right = window && places && lengths && orders && older;
    ask(right, Refusal::plain(51))?;
    ask(w * CELL <= room, Refusal::with(6, w * CELL))
}

/// A stored block.
#[derive(Clone, PartialEq, Eq, Debug)]
pub struct Stored {
    pub number: usize,
    pub method: u8,
    pub bytes: Vec<u8>,
    /// Submitted before the last order.
    before: bool,
}

/// A station whose n, w and record pass questions 41 and 51.
pub struct Sender {
    modulus: usize,
    w: usize,
    next: usize,
    cell: usize,
    lengths: Vec<usize>,
    orders: [u8; 2],
    /// The stored blocks, the oldest first.
    queue: VecDeque<Stored>,
}

impl Sender {
    /// The station with a record and a store that hold stored blocks: these
    /// have the numbers before the next one, and the cells before the next, and
    /// the oldest of them are from before the last order.
    pub fn of_record(n: usize, w: usize, record: &Record, store: &[u8]) -> Sender {
        let modulus = 1 << n;
        let block = |back: usize| {
            let number = (record.next + modulus - back) % modulus;
            let cell = (record.cell + w - back) % w;
            let bytes = &store[cell * CELL..][..record.lengths[cell]];
            let before = record.stored - back < record.older;
            Stored {
                number,
                method: method_of(record.orders[usize::from(before)]),
                bytes: bytes.to_vec(),
                before,
            }
        };
        Sender {
            modulus,
            w,
            next: record.next,
            cell: record.cell,
            lengths: record.lengths.clone(),
            orders: record.orders,
            queue: (1..=record.stored).rev().map(block).collect(),
        }
    }

    /// The record as it has to be.
    pub fn record(&self) -> Record {
        Record {
            next: self.next,
            stored: self.queue.len(),
            cell: self.cell,
            lengths: self.lengths.clone(),
            orders: self.orders,
            older: self.queue.iter().filter(|block| block.before).count(),
        }
    }

    pub fn stored(&self) -> impl Iterator<Item = &Stored> + '_ {
        self.queue.iter()
    }

    pub fn numbers(&self) -> impl Iterator<Item = usize> + '_ {
        self.queue.iter().map(|block| block.number)
    }

    /// Takes a block behind the others: its number and the cell that it goes
    /// to. Questions 57 and 55.
    pub fn submit(&mut self, block: &[u8]) -> Result<(usize, usize), Refusal> {
        ask(block.len() <= 4_095, Refusal::plain(57))?;
        ask(self.queue.len() < self.w, Refusal::plain(55))?;
        let (number, cell) = (self.next, self.cell);
        self.queue.push_back(Stored {
            number,
            method: method_of(self.orders[0]),
            bytes: block.to_vec(),
            before: false,
        });
        self.lengths[cell] = block.len();
        self.next = (number + 1) % self.modulus;
        self.cell = (cell + 1) % self.w;
        Ok((number, cell))
    }

    /// The named block is the last that was received: it and all before it
    /// leave the queue. Question 56.
    pub fn acknowledge(&mut self, named: usize) -> Result<usize, Refusal> {
        let place = self.numbers().position(|number| number == named);
        let last = place.ok_or(Refusal::plain(56))?;
        Ok(self.queue.drain(..=last).count())
    }

    /// Later blocks go under another method, those in the queue under their
    /// own; gives the number of the next. Question 67.
    pub fn order(&mut self, method: u8) -> Result<usize, Refusal> {
        let free = self.queue.iter().all(|block| !block.before);
        ask(free, Refusal::plain(67))?;
        self.queue.iter_mut().for_each(|block| block.before = true);
        self.orders = [method, self.orders[0]];
        Ok(self.next)
    }

    /// The line of a stored block, shape 4 with ETX. Questions 56, and 6 for an
    /// output of so many bytes.
    pub fn send(&self, named: usize, room: usize) -> Result<Vec<u8>, Refusal> {
        let block = self.queue.iter().find(|block| block.number == named);
        let block = block.ok_or(Refusal::plain(56))?;
        let line = block::write(&Parts {
            link: Link::koi7(block.method, false),
            shape: SHAPES[3],
            end_sign: ETX,
            header: Vec::new(),
            text: block.bytes.clone(),
        })?;
        ask(line.len() <= room, Refusal::with(6, line.len()))?;
        Ok(line)
    }

    /// Whether a store holds every stored block in its cell.
    pub fn stands_in(&self, store: &[u8]) -> bool {
        let count = self.queue.len();
        self.queue.iter().enumerate().all(|(place, block)| {
            let cell = (self.cell + 7 * self.w - count + place) % self.w;
            store[cell * CELL..].starts_with(&block.bytes)
        })
    }
}

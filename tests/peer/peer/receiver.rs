//! The receiver: told orders and blocks by their numbers, it reads what is new.

use super::block;
use super::grammar::Walked;
use super::number::{self, Arrival};
use super::sender::method_of;
use super::signs::Link;
use super::{ask, Refusal};

/// A receiving station: the link's n and w, the awaited number, the last order
/// that is in force, 0 for none, and the order that waits, with its number.
#[derive(Clone, Copy, PartialEq, Eq, Debug)]
pub struct Receiver {
    pub n: u8,
    pub w: u8,
    pub awaited: u8,
    pub order: u8,
    pub waiting: Option<(u8, u8)>,
}

impl Receiver {
    pub fn fresh(n: u8, w: u8) -> Receiver {
        Receiver {
            n,
            w,
            awaited: 0,
            order: 0,
            waiting: None,
        }
    }

    /// Judges a number: questions 41, 51, 42 and 43, where 51 is asked of the
    /// orders and of the number that is waited for too.
    fn judge(&self, number: u8) -> Result<Arrival, Refusal> {
        ask((1..=7).contains(&self.n), Refusal::plain(41))?;
        let ahead = |(method, number): (u8, u8)| {
            [3, 4].contains(&method) && number < 1 << self.n && number != self.awaited
        };
        let right = [0, 3, 4].contains(&self.order) && self.waiting.map_or(true, ahead);
        ask(right, Refusal::plain(51))?;
        number::receive(self.n, self.w, self.awaited, number).map(|(arrival, _)| arrival)
    }

    /// The order that waits is in force once its number is awaited.
    fn change(&mut self) {
        if let Some((method, number)) = self.waiting {
            if number == self.awaited {
                self.order = method;
                self.waiting = None;
            }
        }
    }

    /// Is told an order with its number. The same questions, and 67.
    pub fn tell_order(&mut self, number: u8, method: u8) -> Result<(), Refusal> {
        self.judge(number)?;
        ask(self.waiting.is_none(), Refusal::plain(67))?;
        self.waiting = Some((method, number));
        self.change();
        Ok(())
    }

    /// Is told a block's number beside its line. The same questions; of a new
    /// block those of reading, and 19 for an output of so many bytes.
    pub fn tell_block(
        &mut self,
        number: u8,
        line: &[u8],
        room: usize,
    ) -> Result<(Arrival, Option<Walked>), Refusal> {
        let arrival = self.judge(number)?;
        if arrival != Arrival::New {
            return Ok((arrival, None));
        }
        let link = Link::koi7(method_of(self.order), false);
        let taken = block::take(link, line)?;
        let needed = taken.header.len() + taken.text.len();
        ask(needed <= room, Refusal::with(19, needed))?;
        self.awaited = ((u16::from(self.awaited) + 1) % (1 << self.n)) as u8;
        self.change();
        Ok((arrival, Some(taken)))
    }
}

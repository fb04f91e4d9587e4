//! Orders of another method, and the blocks sent and told under them, on the
//! records of the interface itself.

use super::block::{self, Parts};
use super::number;
use super::sender::questions;
use crate::calls::{Receiver, Station};
use crate::peer::number::Arrival;
use crate::peer::sender::CELL;
use crate::peer::signs::{Link, ETX, SHAPES};
use crate::peer::{ask, Refusal};

/// The link of a method that a record keeps.
fn under(kept: u8) -> Link {
    Link::koi7(if kept == 0 { 4 } else { kept }, false)
}

pub fn order((n, w): (u8, u8), station: &mut Station, method: u8) -> Result<u8, Refusal> {
    questions(n, w, station, usize::MAX)?;
    ask(station.older == 0, Refusal::plain(67))?;
    station.former = station.method;
    station.method = method;
    station.older = station.stored;
    Ok(station.next)
}

pub fn send(
    (n, w): (u8, u8),
    station: &Station,
    store: &[u8],
    number: u8,
    out: &mut [u8],
) -> Result<[usize; 1], Refusal> {
    let mask = questions(n, w, station, store.len())?;
    let after = station.next.wrapping_sub(1).wrapping_sub(number) & mask;
    ask(number <= mask && after < station.stored, Refusal::plain(56))?;
    let back = after + 1;
    let round = if station.cell < back { w } else { 0 };
    let cell = usize::from(station.cell + round - back);
    let older = after >= station.stored - station.older;
    let kept = if older {
        station.former
    } else {
        station.method
    };
    let length = usize::from(station.lengths[cell]);
    let parts = Parts {
        link: under(kept),
        shape: SHAPES[3],
        end_sign: ETX,
        header: &[],
        text: &store[cell * CELL..][..length],
    };
    block::write(&parts, out).map(|length| [length])
}

/// Questions 41, 51, 42 and 43, and the verdict.
fn judged(receiver: &Receiver, number: u8) -> Result<(Arrival, u8), Refusal> {
    ask((1..=7).contains(&receiver.n), Refusal::plain(41))?;
    let kept = |byte: u8| [0, 3, 4].contains(&byte);
    let ahead = receiver.waiting == 0
        || receiver.number >> receiver.n == 0 && receiver.number != receiver.c;
    let right = kept(receiver.method) && kept(receiver.waiting) && ahead;
    ask(right, Refusal::plain(51))?;
    number::receive(receiver.n, receiver.w, receiver.c, number)
}

fn change(receiver: &mut Receiver) {
    if receiver.waiting != 0 && receiver.number == receiver.c {
        receiver.method = receiver.waiting;
        receiver.waiting = 0;
        receiver.number = 0;
    }
}

pub fn tell_order(receiver: &mut Receiver, number: u8, method: u8) -> Result<(), Refusal> {
    judged(receiver, number)?;
    ask(receiver.waiting == 0, Refusal::plain(67))?;
    receiver.waiting = method;
    receiver.number = number;
    change(receiver);
    Ok(())
}

/// Gives the verdict and what a new block holds.
pub fn tell_block(
    receiver: &mut Receiver,
    number: u8,
    line: &[u8],
    out: &mut [u8],
) -> Result<[usize; 6], Refusal> {
    let (arrival, next) = judged(receiver, number)?;
    let mut told = [arrival as usize, 0, 0, 0, 0, 0];
    if arrival == Arrival::New {
        let held = block::read(under(receiver.method), line, out)?;
        told[1..].copy_from_slice(&held);
        receiver.c = next;
        change(receiver);
    }
    Ok(told)
}

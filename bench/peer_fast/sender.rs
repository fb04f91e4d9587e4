//! The sender, on the record of the interface itself.

use crate::calls::Station;
use crate::peer::sender::CELL;
use crate::peer::{ask, Refusal};

/// Questions 41, 51 and 6; gives the mask of the numbers.
pub fn questions(n: u8, w: u8, station: &Station, room: usize) -> Result<u8, Refusal> {
    ask((1..=7).contains(&n), Refusal::plain(41))?;
    let modulus = 1_u8 << n;
    let window = (1..=7).contains(&w) && w < modulus;
    let places = station.stored <= w && station.cell < w && station.next < modulus;
    let longest = station
        .lengths
        .iter()
        .fold(0, |most, length| most.max(*length));
    let kept = |byte: u8| [0, 3, 4].contains(&byte);
    let orders = station.older <= station.stored && kept(station.method) && kept(station.former);
    ask(
        window && places && longest <= 4_095 && orders,
        Refusal::plain(51),
    )?;
    let needed = usize::from(w) * CELL;
    ask(needed <= room, Refusal::with(6, needed))?;
    Ok(modulus - 1)
}

pub fn submit(
    (n, w): (u8, u8),
    station: &mut Station,
    store: &mut [u8],
    block: &[u8],
) -> Result<u8, Refusal> {
    let mask = questions(n, w, station, store.len())?;
    ask(block.len() <= 4_095, Refusal::plain(57))?;
    ask(station.stored < w, Refusal::plain(55))?;
    let (number, cell) = (station.next, usize::from(station.cell));
    store[cell * CELL..][..block.len()].copy_from_slice(block);
    station.lengths[cell] = block.len() as u16;
    station.next = (number + 1) & mask;
    station.stored += 1;
    station.cell = if station.cell + 1 == w {
        0
    } else {
        station.cell + 1
    };
    Ok(number)
}

/// Gives how many blocks were freed.
pub fn acknowledge(
    (n, w): (u8, u8),
    station: &mut Station,
    room: usize,
    number: u8,
) -> Result<u8, Refusal> {
    let mask = questions(n, w, station, room)?;
    let left = station.next.wrapping_sub(1).wrapping_sub(number) & mask;
    ask(number <= mask && left < station.stored, Refusal::plain(56))?;
    let freed = station.stored - left;
    station.older = station.older.saturating_sub(freed);
    station.stored = left;
    Ok(freed)
}

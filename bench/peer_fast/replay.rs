//! Replay for the panel's reader. Fresh, a record is right, so it is asked for
//! no more.

use crate::calls::Station;
use crate::peer::replay::RECORD;
use crate::peer::sender::CELL;
use crate::peer::{ask, Refusal};

/// Questions 41, 51, 6, 61 and 62; gives the mask of the numbers.
fn questions(n: u8, w: u8, trace: &[u8], room: usize) -> Result<u8, Refusal> {
    ask((1..=7).contains(&n), Refusal::plain(41))?;
    let modulus = 1_u8 << n;
    let window = (1..=7).contains(&w) && w < modulus;
    ask(window, Refusal::plain(51))?;
    let needed = usize::from(w) * CELL;
    ask(needed <= room, Refusal::with(6, needed))?;
    ask(trace.len() % RECORD == 0, Refusal::plain(61))?;
    let mut records = trace.chunks_exact(RECORD);
    match records.position(|record| !(1..=3).contains(&record[0])) {
        Some(index) => Err(Refusal::with(62, index)),
        None => Ok(modulus - 1),
    }
}

/// Gives the record and the awaited number at the end.
pub fn replay_panel(
    (n, w): (u8, u8),
    trace: &[u8],
    store: &mut [u8],
) -> Result<(Station, u8), Refusal> {
    let mask = questions(n, w, trace, store.len())?;
    let (mut station, mut awaited) = (Station::default(), 0);
    for record in trace.chunks_exact(RECORD) {
        let number = record[1];
        match record[0] {
            1 => submit(w, mask, &mut station, store, [record[2], record[3]]),
            2 => {
                let left = station.next.wrapping_sub(1).wrapping_sub(number) & mask;
                if number <= mask && left < station.stored {
                    station.stored = left;
                }
            }
            _ if number == awaited => awaited = (awaited + 1) & mask,
            _ => {}
        }
    }
    Ok((station, awaited))
}

fn submit(w: u8, mask: u8, station: &mut Station, store: &mut [u8], length: [u8; 2]) {
    let length = u16::from_be_bytes(length);
    if length > 4_095 || station.stored >= w {
        return;
    }
    let cell = usize::from(station.cell);
    store[cell * CELL..][..usize::from(length)].fill(0);
    station.lengths[cell] = length;
    station.next = (station.next + 1) & mask;
    station.stored += 1;
    station.cell = if station.cell + 1 == w {
        0
    } else {
        station.cell + 1
    };
}

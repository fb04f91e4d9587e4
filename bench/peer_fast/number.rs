//! The number check, with the remainder taken by a mask.

use crate::peer::number::Arrival;
use crate::peer::{ask, Refusal};

/// Gives the arrival and the number awaited afterwards.
pub fn receive(n: u8, window: u8, awaited: u8, received: u8) -> Result<(Arrival, u8), Refusal> {
    ask((1..=7).contains(&n), Refusal::plain(41))?;
    let modulus = 1_u8 << n;
    ask((1..modulus).contains(&window), Refusal::plain(51))?;
    ask(awaited < modulus, Refusal::plain(42))?;
    ask(received < modulus, Refusal::plain(43))?;
    let mask = modulus - 1;
    Ok(match awaited.wrapping_sub(received) & mask {
        0 => (Arrival::New, (awaited + 1) & mask),
        behind if behind <= window => (Arrival::Repeat, awaited),
        _ => (Arrival::Lost, awaited),
    })
}

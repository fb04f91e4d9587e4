//! The number check, in whole numbers.

use super::{ask, Refusal};

/// What a received number tells.
#[derive(Clone, Copy, PartialEq, Eq, Debug)]
pub enum Arrival {
    New = 1,
    Repeat = 2,
    Lost = 3,
}

/// Judges `received` against the awaited number, modulus 2^n, on a link with
/// this window; gives the arrival and the number awaited afterwards.
/// Questions 41, 51, 42 and 43.
pub fn receive(n: u8, window: u8, awaited: u8, received: u8) -> Result<(Arrival, u8), Refusal> {
    ask((1..=7).contains(&n), Refusal::plain(41))?;
    let modulus = 2_i64.pow(u32::from(n));
    let (w, c, b) = (i64::from(window), i64::from(awaited), i64::from(received));
    ask((1..=modulus - 1).contains(&w), Refusal::plain(51))?;
    ask(c < modulus, Refusal::plain(42))?;
    ask(b < modulus, Refusal::plain(43))?;
    let difference = (c - b).rem_euclid(modulus);
    Ok(match difference {
        0 => (Arrival::New, ((c + 1) % modulus) as u8),
        behind if behind <= w => (Arrival::Repeat, awaited),
        _ => (Arrival::Lost, awaited),
    })
}

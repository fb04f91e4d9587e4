//! Interleaving, column by column.

use crate::peer::{ask, Refusal};

fn questions(d: usize, n: usize, room: usize) -> Result<(), Refusal> {
    ask(d >= 1, Refusal::plain(59))?;
    ask(room >= n, Refusal::plain(60))
}

pub fn interleave(d: usize, text: &[u8], out: &mut [u8]) -> Result<(), Refusal> {
    questions(d, text.len(), out.len())?;
    let mut places = out.iter_mut();
    for column in 0..d.min(text.len()) {
        for (byte, place) in text[column..].iter().step_by(d).zip(&mut places) {
            *place = *byte;
        }
    }
    Ok(())
}

pub fn deinterleave(d: usize, line: &[u8], out: &mut [u8]) -> Result<(), Refusal> {
    questions(d, line.len(), out.len())?;
    let text = &mut out[..line.len()];
    let mut bytes = line.iter();
    for column in 0..d.min(line.len()) {
        for (place, byte) in text[column..].iter_mut().step_by(d).zip(&mut bytes) {
            *place = *byte;
        }
    }
    Ok(())
}

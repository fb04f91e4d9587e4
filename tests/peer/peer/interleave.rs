//! Interleaving: the bytes of a text sorted by column, then by row.

use super::{ask, Refusal};

/// Questions 59 and 60, for n bytes and an output of `room`.
fn questions(d: usize, n: usize, room: usize) -> Result<(), Refusal> {
    ask(d >= 1, Refusal::plain(59))?;
    ask(room >= n, Refusal::plain(60))
}

/// The numbers of n bytes in the order in which they are sent: byte i goes by
/// i modulo d, then by i divided by d.
pub fn order(d: usize, n: usize) -> Vec<usize> {
    let mut order: Vec<usize> = (0..n).collect();
    order.sort_by_key(|i| (i % d, i / d));
    order
}

/// The line of a text.
pub fn interleave(d: usize, text: &[u8], room: usize) -> Result<Vec<u8>, Refusal> {
    questions(d, text.len(), room)?;
    let sent = order(d, text.len()).into_iter().map(|i| text[i]);
    Ok(sent.collect())
}

/// The text of a line: the one that is sent as this line.
pub fn deinterleave(d: usize, line: &[u8], room: usize) -> Result<Vec<u8>, Refusal> {
    questions(d, line.len(), room)?;
    let mut text = vec![0; line.len()];
    for (i, byte) in order(d, line.len()).into_iter().zip(line) {
        text[i] = *byte;
    }
    Ok(text)
}

//! Writing and reading of one frame, bit by bit.

use super::check::{Check, Register, APPENDIX_1, APPENDIX_2};
use crate::peer::frame::longest_content;
use crate::peer::{ask, Refusal};

const FLAG: u8 = 0x7E;

/// The check of a frame method before the first byte, its bytes, and the
/// remainder that a sound content leaves with its check.
fn rule(method: u8) -> (Register, usize, u32) {
    if method == 5 {
        (APPENDIX_1, 2, 0xF0B8)
    } else {
        (APPENDIX_2, 4, 0xDEBB_20E3)
    }
}

/// Bits in the order sent, packed into bytes; where there is no output they
/// are only counted.
struct Bits<'a> {
    out: Option<&'a mut [u8]>,
    count: usize,
    held: u8,
    ones: u32,
}

impl<'a> Bits<'a> {
    fn to(out: Option<&'a mut [u8]>) -> Bits<'a> {
        Bits {
            out,
            count: 0,
            held: 0,
            ones: 0,
        }
    }

    fn push(&mut self, bit: u8) {
        self.held |= bit << (self.count % 8);
        self.count += 1;
        if self.count % 8 == 0 {
            self.store();
        }
    }

    fn store(&mut self) {
        if let Some(out) = &mut self.out {
            out[(self.count - 1) / 8] = self.held;
        }
        self.held = 0;
    }

    fn flag(&mut self) {
        (0..8).for_each(|power| self.push(FLAG >> power & 1));
    }

    /// The lowest so many bits of a byte of content or check, a zero inserted
    /// after each five ones.
    fn stuffed(&mut self, byte: u8, count: usize) {
        for power in 0..count {
            let bit = byte >> power & 1;
            self.push(bit);
            self.ones = if bit == 1 { self.ones + 1 } else { 0 };
            if self.ones == 5 {
                self.push(0);
                self.ones = 0;
            }
        }
    }

    fn frame(&mut self, (whole, part, count): (&[u8], u8, usize), check: &[u8]) {
        self.flag();
        whole.iter().for_each(|byte| self.stuffed(*byte, 8));
        self.stuffed(part, count);
        check.iter().for_each(|byte| self.stuffed(*byte, 8));
        self.flag();
        if self.count % 8 != 0 {
            self.store();
        }
    }
}

/// Writes a frame of so many bits of a content; gives its number of bits.
pub fn write(method: u8, claimed: usize, content: &[u8], out: &mut [u8]) -> Result<usize, Refusal> {
    ask(claimed.div_ceil(8) <= content.len(), Refusal::plain(66))?;
    ask(claimed > 0, Refusal::plain(21))?;
    ask(claimed <= longest_content(method), Refusal::plain(22))?;
    let (mut register, check_bytes, _) = rule(method);
    let (whole, rest) = content.split_at(claimed / 8);
    let part = rest.first().map_or(0, |byte| *byte);
    register.enter_all(whole);
    register.enter_low(part, claimed % 8);
    let content = (whole, part, claimed % 8);
    let check = &register.check().to_le_bytes()[..check_bytes];
    let mut counted = Bits::to(None);
    counted.frame(content, check);
    let needed = counted.count.div_ceil(8);
    ask(needed <= out.len(), Refusal::with(23, needed))?;
    Bits::to(Some(out)).frame(content, check);
    Ok(counted.count)
}

fn is_flag(lent: &[u8], at: usize) -> bool {
    (0..8).all(|power| lent[(at + power) / 8] >> ((at + power) % 8) & 1 == FLAG >> power & 1)
}

/// Takes the inserted zeros out of the bits before the closing flag and hands
/// on every full byte, until `take` wants no more: question 33. Gives the
/// number of bits, and the last of them that fill no byte.
fn unstuffed(
    lent: &[u8],
    closing: usize,
    mut take: impl FnMut(u8) -> bool,
) -> Result<(usize, u8), Refusal> {
    let (mut ones, mut count, mut held) = (0, 0, 0);
    for place in 8..closing {
        let bit = lent[place / 8] >> (place % 8) & 1;
        if ones == 5 {
            ask(bit == 0, Refusal::with(33, place))?;
            ones = 0;
            continue;
        }
        ones = if bit == 1 { ones + 1 } else { 0 };
        held |= bit << (count % 8);
        count += 1;
        if count % 8 == 0 {
            if !take(held) {
                return Ok((count, 0));
            }
            held = 0;
        }
    }
    ask(ones < 5, Refusal::with(33, closing))?;
    Ok((count, held))
}

/// Reads a frame; gives the number of content bits.
pub fn read(method: u8, bits: usize, lent: &[u8], out: &mut [u8]) -> Result<usize, Refusal> {
    ask(bits.div_ceil(8) <= lent.len(), Refusal::plain(31))?;
    ask(
        bits >= 16 && is_flag(lent, 0) && is_flag(lent, bits - 8),
        Refusal::plain(32),
    )?;
    let (mut register, check_bytes, remainder) = rule(method);
    let (left, last) = unstuffed(lent, bits - 8, |byte| {
        register.enter(byte);
        true
    })?;
    register.enter_low(last, left % 8);
    ask(left > 8 * check_bytes, Refusal::plain(35))?;
    let claimed = left - 8 * check_bytes;
    ask(claimed <= longest_content(method), Refusal::plain(36))?;
    ask(register.value == remainder, Refusal::plain(37))?;
    let length = claimed.div_ceil(8);
    ask(length <= out.len(), Refusal::with(38, length))?;
    let mut places = out[..length].iter_mut();
    unstuffed(lent, bits - 8, |byte| {
        let place = places.next();
        place.map(|place| *place = byte).is_some()
    })?;
    if claimed % 8 > 0 {
        out[length - 1] &= (1 << (claimed % 8)) - 1;
    }
    Ok(claimed)
}

//! Writing and reading of one frame, methods 5 and 6, as vectors of bits. The
//! content is any number of bits (document 02, card 13); the check covers them
//! alone, and nothing here asks whether they fill bytes.

use super::bits;
use super::division::{Rule, APPENDIX_1, APPENDIX_2};
use super::{ask, Refusal};

/// The flag 7E in the order sent.
pub const FLAG: [bool; 8] = [false, true, true, true, true, true, true, false];

/// The check of a frame method.
pub fn rule(method: u8) -> &'static Rule {
    if method == 5 {
        &APPENDIX_1
    } else {
        &APPENDIX_2
    }
}

/// The most content bits of a frame.
pub fn longest_content(method: u8) -> usize {
    if method == 5 {
        32_768
    } else {
        524_288
    }
}

/// The first so many bits of the bytes lent, where they hold as many.
fn first_bits(claimed: usize, lent: &[u8]) -> Option<Vec<bool>> {
    let mut all = bits::of_bytes(lent);
    if claimed > all.len() {
        return None;
    }
    all.truncate(claimed);
    Some(all)
}

/// Writes the bits of a frame, its content the claimed bits of the bytes lent:
/// questions 66, 21 and 22.
pub fn write(method: u8, claimed: usize, lent: &[u8]) -> Result<Vec<bool>, Refusal> {
    let content = first_bits(claimed, lent).ok_or(Refusal::plain(66))?;
    ask(!content.is_empty(), Refusal::plain(21))?;
    ask(content.len() <= longest_content(method), Refusal::plain(22))?;
    let check = rule(method).check(&content);
    Ok(between_flags(&[content, check].concat()))
}

/// Puts bits between two flags, a zero inserted after each five ones.
pub fn between_flags(checked: &[bool]) -> Vec<bool> {
    let mut line = FLAG.to_vec();
    let mut ones = 0;
    for bit in checked {
        line.push(*bit);
        ones = if *bit { ones + 1 } else { 0 };
        if ones == 5 {
            line.push(false);
            ones = 0;
        }
    }
    line.extend(FLAG);
    line
}

/// What stands between the flags of a frame.
#[derive(Clone, PartialEq, Eq, Debug)]
pub struct Body {
    /// Content and check, the inserted zeros taken out.
    pub checked: Vec<bool>,
    /// Places of the checked bits among the told bits.
    pub places: Vec<usize>,
    /// Places of the inserted zeros: the framing of the frame.
    pub inserted: Vec<usize>,
}

/// Takes the inserted zeros out of the told bits: question 33.
fn body(told: &[bool]) -> Result<Body, Refusal> {
    let closing = told.len() - FLAG.len();
    let mut body = Body {
        checked: Vec::new(),
        places: Vec::new(),
        inserted: Vec::new(),
    };
    let mut ones = 0;
    for (place, bit) in told.iter().enumerate().take(closing).skip(FLAG.len()) {
        if ones == 5 {
            ask(!bit, Refusal::with(33, place))?;
            body.inserted.push(place);
            ones = 0;
            continue;
        }
        body.checked.push(*bit);
        body.places.push(place);
        ones = if *bit { ones + 1 } else { 0 };
    }
    ask(ones < 5, Refusal::with(33, closing))?;
    Ok(body)
}

/// Finds the framing of a frame: questions 31 to 33, 35 and 36.
pub fn frame(method: u8, bits: usize, lent: &[u8]) -> Result<Body, Refusal> {
    let told = first_bits(bits, lent).ok_or(Refusal::plain(31))?;
    ask(told.len() >= 2 * FLAG.len(), Refusal::plain(32))?;
    let flags = told.starts_with(&FLAG) && told.ends_with(&FLAG);
    ask(flags, Refusal::plain(32))?;
    let body = body(&told)?;
    let content = body.checked.len().checked_sub(rule(method).width());
    let content = content.filter(|bits| *bits > 0);
    let content = content.ok_or(Refusal::plain(35))?;
    ask(content <= longest_content(method), Refusal::plain(36))?;
    Ok(body)
}

/// Takes a frame and gives the bits of its content: questions 31 to 33 and 35
/// to 37.
pub fn take(method: u8, bits: usize, lent: &[u8]) -> Result<Vec<bool>, Refusal> {
    let mut checked = frame(method, bits, lent)?.checked;
    let rule = rule(method);
    ask(rule.accepts(&checked), Refusal::plain(37))?;
    checked.truncate(checked.len() - rule.width());
    Ok(checked)
}

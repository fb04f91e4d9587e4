//! Writing and reading of one block, question by question.

use super::check::{Check, Register, Sum, Sums, APPENDIX_1, APPENDIX_3};
use super::grammar::{walk, Part, Walked};
use super::signs::{sent, sent_byte};
use crate::peer::block::{LONGEST_COUNT, LONGEST_LINE};
use crate::peer::signs::{Link, Shape, Text, DLE, ETB, ETX, SOH, STX, SYN, US};
use crate::peer::{ask, Refusal};

/// What a block is written from.
pub struct Parts<'a> {
    pub link: Link,
    pub shape: Shape,
    pub end_sign: u8,
    pub header: &'a [u8],
    pub text: &'a [u8],
}

fn register(link: Link) -> Register {
    if link.method == 3 {
        APPENDIX_1
    } else {
        APPENDIX_3
    }
}

/// Reads a block; gives the five values of the answer.
pub fn read(link: Link, line: &[u8], out: &mut [u8]) -> Result<[usize; 5], Refusal> {
    ask(line.len() <= LONGEST_LINE, Refusal::plain(11))?;
    if !link.seven_bits() {
        let right = |register: Register, tail: &[u8]| {
            ask(
                register.check() as u16 == u16::from_le_bytes([tail[0], tail[1]]),
                Refusal::plain(18),
            )
        };
        return take(link, line, register(link), right, out);
    }
    let table = sent(link.odd);
    let wrong = line
        .iter()
        .position(|byte| sent_byte(table, *byte) != *byte);
    ask(wrong.is_none(), Refusal::with(12, wrong.unwrap_or(0)))?;
    let equal = |character: u8, byte: Option<&u8>| byte == Some(&sent_byte(table, character));
    if link.method == 7 {
        let right = |sums: Sums, tail: &[u8]| {
            let [rows, diagonals] = sums.characters();
            ask(equal(rows, tail.first()), Refusal::plain(18))?;
            ask(equal(diagonals, tail.last()), Refusal::plain(54))
        };
        return take(link, line, Sums::NONE, right, out);
    }
    let right = |sum: Sum, tail: &[u8]| {
        let right = tail.is_empty() || equal(sum.0, tail.first());
        ask(right, Refusal::plain(18))
    };
    take(link, line, Sum(0), right, out)
}

/// Questions 13 to 15, 52, 53, 17, those of the check and 19.
fn take<C: Check>(
    link: Link,
    line: &[u8],
    check: C,
    right: impl Fn(C, &[u8]) -> Result<(), Refusal>,
    out: &mut [u8],
) -> Result<[usize; 5], Refusal> {
    let walked = walk(line, check)?;
    let tail = &line[walked.behind..];
    let needed = link.check_bytes();
    ask(tail.len() >= needed, Refusal::with(52, walked.behind))?;
    ask(tail.len() <= needed, Refusal::with(53, walked.behind))?;
    ask(walked.counted <= LONGEST_COUNT, Refusal::plain(17))?;
    right(walked.check, tail)?;
    let needed = walked.header.length + walked.text.length;
    ask(needed <= out.len(), Refusal::with(19, needed))?;
    hand_out(&walked, line, out);
    let lengths = (walked.header.length, walked.text.length);
    let (shape, end_sign) = (walked.shape.number(), usize::from(walked.end_sign));
    Ok([shape, end_sign, lengths.0, lengths.1, walked.counted])
}

/// Header, then text, at the start of the output.
fn hand_out<C: Check>(walked: &Walked<C>, line: &[u8], out: &mut [u8]) {
    let (header, rest) = out.split_at_mut(walked.header.length);
    let text = &mut rest[..walked.text.length];
    copy_characters::<C>(walked.header, line, header);
    if walked.shape.text == Text::Clear {
        copy_clear(walked.text, line, text);
    } else {
        copy_characters::<C>(walked.text, line, text);
    }
}

fn copy_characters<C: Check>(part: Part, line: &[u8], out: &mut [u8]) {
    let bytes = &line[part.from..part.to];
    if !C::SEVEN && bytes.len() == out.len() {
        return out.copy_from_slice(bytes);
    }
    let character = |byte: &u8| if C::SEVEN { *byte & 0x7F } else { *byte };
    let kept = bytes
        .iter()
        .map(character)
        .filter(|character| *character != SYN);
    for (place, character) in out.iter_mut().zip(kept) {
        *place = character;
    }
}

fn copy_clear(part: Part, line: &[u8], out: &mut [u8]) {
    let bytes = &line[part.from..part.to];
    let (mut at, mut length) = (0, 0);
    while at < bytes.len() {
        if bytes[at] == DLE {
            at += 1;
            if bytes[at] == SYN {
                at += 1;
                continue;
            }
        }
        out[length] = bytes[at];
        length += 1;
        at += 1;
    }
}

/// Asks what can be asked of the parts one by one: questions 1 to 4.
fn ask_parts(parts: &Parts) -> Result<(), Refusal> {
    let (link, shape) = (parts.link, parts.shape);
    let clear = shape.text == Text::Clear;
    ask(!(clear && link.seven_bits()), Refusal::plain(1))?;
    let header_right = shape.header || parts.header.is_empty();
    let text_right = shape.text != Text::Absent || parts.text.is_empty();
    ask(header_right && text_right, Refusal::plain(4))?;
    ask_characters(link, parts.header, 2)?;
    if !clear {
        ask_characters(link, parts.text, 3)?;
    }
    Ok(())
}

/// Asks whether every byte may stand in a header or a plain text.
fn ask_characters(link: Link, part: &[u8], number: u32) -> Result<(), Refusal> {
    let seven = link.seven_bits();
    let wrong = |byte: &u8| match *byte {
        SOH | STX | ETX | DLE | SYN | ETB | US => true,
        byte => seven && byte >= 0x80,
    };
    match part.iter().position(wrong) {
        Some(place) => Err(Refusal::with(number, place)),
        None => Ok(()),
    }
}

/// Writes a block; gives the length of its line.
pub fn write(parts: &Parts, out: &mut [u8]) -> Result<usize, Refusal> {
    ask_parts(parts)?;
    let clear = parts.shape.text == Text::Clear;
    let (start, inner_start) = parts.shape.starts();
    let counted = parts.header.len() + inner_start.len() + parts.text.len() + 1;
    ask(counted <= LONGEST_COUNT, Refusal::plain(5))?;
    let doubled = if clear {
        1 + parts.text.iter().filter(|byte| **byte == DLE).count()
    } else {
        0
    };
    let needed = start.len() + counted + doubled + parts.link.check_bytes();
    let Some(line) = out.get_mut(..needed) else {
        return Err(Refusal::with(6, needed));
    };
    put_line(parts, start, inner_start, line);
    Ok(needed)
}

/// Bytes stored one behind the other.
struct Line<'a> {
    out: &'a mut [u8],
    length: usize,
}

impl Line<'_> {
    fn put(&mut self, bytes: &[u8]) {
        self.out[self.length..self.length + bytes.len()].copy_from_slice(bytes);
        self.length += bytes.len();
    }

    fn put_clear(&mut self, text: &[u8]) {
        for byte in text {
            self.put(&[*byte]);
            if *byte == DLE {
                self.put(&[DLE]);
            }
        }
        self.put(&[DLE]);
    }
}

fn put_line(parts: &Parts, start: &[u8], inner_start: &[u8], out: &mut [u8]) {
    let mut line = Line { out, length: 0 };
    line.put(start);
    line.put(parts.header);
    line.put(inner_start);
    if parts.shape.text == Text::Clear {
        line.put_clear(parts.text);
    } else {
        line.put(parts.text);
    }
    line.put(&[parts.end_sign]);
    if parts.link.seven_bits() {
        return seal_seven(parts.link, line);
    }
    let mut register = register(parts.link);
    register.enter_all(parts.header);
    register.enter_all(inner_start);
    register.enter_all(parts.text);
    register.enter(parts.end_sign);
    line.put(&(register.check() as u16).to_le_bytes());
}

/// Gives every byte its parity; method 2 adds the sum of what is counted,
/// method 7 that and the diagonal character.
fn seal_seven(link: Link, mut line: Line) {
    let table = sent(link.odd);
    let mut sum = Sum(0);
    sum.enter_all(&line.out[1..line.length]);
    let mut sums = Sums::NONE;
    if link.method == 7 {
        sums.enter_all(&line.out[1..line.length]);
    }
    for byte in &mut line.out[..line.length] {
        *byte = sent_byte(table, *byte);
    }
    if link.method == 2 {
        line.put(&[sent_byte(table, sum.0)]);
    }
    if link.method == 7 {
        line.put(&sums.characters().map(|c| sent_byte(table, c)));
    }
}

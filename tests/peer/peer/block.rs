//! Writing and reading of one block, methods 1 to 4 and 7.

use super::bits;
use super::diagonals;
use super::division::{APPENDIX_1, APPENDIX_3};
use super::grammar::{walk, Walked};
use super::signs::{Code, Link, Shape, Text, DLE};
use super::{ask, Refusal};

/// The most bytes of a line that is read.
pub const LONGEST_LINE: usize = 16_384;

/// The most counted bytes of a block (003 par. 2.1.9).
pub const LONGEST_COUNT: usize = 4_096;

/// What a block is written from.
#[derive(Clone, Debug)]
pub struct Parts {
    pub link: Link,
    pub shape: Shape,
    pub end_sign: u8,
    pub header: Vec<u8>,
    pub text: Vec<u8>,
}

/// Writes the line of a block: questions 58 and 1 to 5.
pub fn write(parts: &Parts) -> Result<Vec<u8>, Refusal> {
    ask_code(parts.link)?;
    ask_parts(parts.link, parts.shape, &parts.header, &parts.text)?;
    let clear = parts.shape.text == Text::Clear;
    let code = parts.link.code;
    let values = |signs: &[u8]| -> Vec<u8> { signs.iter().map(|s| code.value(*s)).collect() };
    let (start, inner_start) = parts.shape.starts();
    let (start, inner_start) = (values(start), values(inner_start));
    let end = values(&[parts.end_sign]);
    let counted = [&parts.header[..], &inner_start, &parts.text, &end].concat();
    ask(counted.len() <= LONGEST_COUNT, Refusal::plain(5))?;
    let text = if clear {
        doubled(code, &parts.text)
    } else {
        parts.text.clone()
    };
    let before_end = values(if clear { &[DLE] } else { &[] });
    let fields = [&start[..], &parts.header, &inner_start, &text, &before_end];
    let characters = [&fields.concat()[..], &end].concat();
    let sent = |characters: &[u8]| characters.iter().map(|c| parts.link.sent(*c)).collect();
    let mut line: Vec<u8> = sent(&characters);
    line.extend(check(parts.link, &sent(&counted)));
    Ok(line)
}

/// Asks whether the method carries the code: question 58, the first of all.
fn ask_code(link: Link) -> Result<(), Refusal> {
    ask(link.carries_code(), Refusal::plain(58))
}

/// Asks what can be asked of the parts one by one: questions 1 to 4.
fn ask_parts(link: Link, shape: Shape, header: &[u8], text: &[u8]) -> Result<(), Refusal> {
    let clear = shape.text == Text::Clear;
    ask(!(clear && link.seven_bits()), Refusal::plain(1))?;
    ask(shape.header || header.is_empty(), Refusal::plain(4))?;
    ask(
        shape.text != Text::Absent || text.is_empty(),
        Refusal::plain(4),
    )?;
    ask_characters(link, header, 2)?;
    if !clear {
        ask_characters(link, text, 3)?;
    }
    Ok(())
}

/// Asks whether every byte may stand in a header or a plain text.
fn ask_characters(link: Link, part: &[u8], number: u32) -> Result<(), Refusal> {
    let seven = link.seven_bits();
    let wrong = |byte: &u8| link.code.sign(*byte).is_some() || seven && *byte >= 0x80;
    match part.iter().position(wrong) {
        Some(place) => Err(Refusal::with(number, place)),
        None => Ok(()),
    }
}

/// Clear text as sent: each DLE twice.
fn doubled(code: Code, text: &[u8]) -> Vec<u8> {
    let dle = code.value(DLE);
    let twice = |byte: &u8| vec![*byte; if *byte == dle { 2 } else { 1 }];
    text.iter().flat_map(twice).collect()
}

/// The check behind the end sign, from the counted bytes as they are sent.
pub fn check(link: Link, counted: &[u8]) -> Vec<u8> {
    match link.method {
        1 => Vec::new(),
        2 => vec![link.sent(counted.iter().fold(0, |sum, byte| sum ^ byte) & 0x7F)],
        3 => bits::to_bytes(&APPENDIX_1.check(&bits::of_bytes(counted))),
        4 => bits::to_bytes(&APPENDIX_3.check(&bits::of_bytes(counted))),
        _ => {
            let matrix = Link { method: 2, ..link };
            let row_check = check(matrix, counted);
            let diagonal = link.sent(diagonals::character(counted, row_check[0]));
            [row_check, vec![diagonal]].concat()
        }
    }
}

/// The receiver's judgement of counted bytes and check.
fn accepts(link: Link, counted: &[u8], tail: &[u8]) -> bool {
    let received = || bits::of_bytes(&[counted, tail].concat());
    match link.method {
        1 => true,
        2 | 7 => check(link, counted) == tail,
        3 => APPENDIX_1.accepts(&received()),
        _ => APPENDIX_3.accepts(&received()),
    }
}

/// Finds the framing of a line: questions 58, 11 to 15, 52, 53 and 17.
pub fn frame(link: Link, line: &[u8]) -> Result<Walked, Refusal> {
    ask_code(link)?;
    ask(line.len() <= LONGEST_LINE, Refusal::plain(11))?;
    let wrong = line.iter().position(|byte| !link.parity_right(*byte));
    ask(wrong.is_none(), Refusal::with(12, wrong.unwrap_or(0)))?;
    let walked = walk(link, line)?;
    let tail = line.len() - walked.behind;
    ask(tail >= link.check_bytes(), Refusal::with(52, walked.behind))?;
    ask(tail <= link.check_bytes(), Refusal::with(53, walked.behind))?;
    ask(walked.counted.len() <= LONGEST_COUNT, Refusal::plain(17))?;
    Ok(walked)
}

/// Takes a line: the same, 18 and 54.
pub fn take(link: Link, line: &[u8]) -> Result<Walked, Refusal> {
    let walked = frame(link, line)?;
    let counted: Vec<u8> = walked.counted.iter().map(|place| line[*place]).collect();
    let tail = &line[walked.behind..];
    if link.method == 7 {
        let matrix = Link { method: 2, ..link };
        ask(accepts(matrix, &counted, &tail[..1]), Refusal::plain(18))?;
        ask(accepts(link, &counted, tail), Refusal::plain(54))?;
    }
    ask(accepts(link, &counted, tail), Refusal::plain(18))?;
    Ok(walked)
}

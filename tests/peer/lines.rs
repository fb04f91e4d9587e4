//! Generated lines of blocks: sound ones, with fill signs, and damaged ones.

use crate::peer::block::{self, Parts};
use crate::peer::grammar::walk;
use crate::peer::signs::{Code, Link, Text, CODES, DLE, ENDS, METHODS, SHAPES, SOH, STX, SYN};
use crate::random::Random;

/// Where fill signs are put into a line.
#[derive(Clone, Copy, PartialEq, Eq, Debug)]
pub enum Fill {
    Nowhere,
    Somewhere,
    Everywhere,
}

/// Every setting of a link whose method carries its code. Methods 3 and 4
/// carry no parity, so one setting of it is enough.
pub const LINKS: [Link; 10] = [
    Link::koi7(1, false),
    Link::koi7(1, true),
    Link::koi7(2, false),
    Link::koi7(2, true),
    Link::koi7(3, false),
    Link::koi7(4, false),
    Link::koi7(7, false),
    Link::koi7(7, true),
    Link::dkoi(3),
    Link::dkoi(4),
];

/// The values that KOI-7 or DKOI reserves and the other does not.
pub const OF_ONE_CODE: [u8; 4] = [0x16, 0x17, 0x32, 0x26];

/// Characters beside the signs of both codes, data under either.
const BESIDE: [u8; 13] = [
    0x00, 0x04, 0x0F, 0x11, 0x15, 0x18, 0x1E, 0x20, 0x25, 0x27, 0x31, 0x33, 0x7F,
];

/// A link under a code that its method carries.
pub fn link(random: &mut Random, code: Code) -> Link {
    loop {
        let (method, odd) = (random.of(&METHODS), random.once_in(2));
        let link = Link { method, odd, code };
        if link.carries_code() {
            return link;
        }
    }
}

/// What stands for characters of KOI-7 under a code: each sign by its value,
/// and the byte that has this value by the one that the sign has left.
pub fn in_code(code: Code, characters: &[u8]) -> Vec<u8> {
    let of = |character: &u8| match (Code::Koi7.sign(*character), code.sign(*character)) {
        (Some(sign), _) => code.value(sign),
        (None, Some(sign)) => Code::Koi7.value(sign),
        (None, None) => *character,
    };
    characters.iter().map(of).collect()
}

/// A byte for header or plain text that is not reserved.
pub fn character(random: &mut Random, link: Link) -> u8 {
    let reserved = link.code.values();
    loop {
        let character = match random.below(8) {
            0 | 1 => random.of(&BESIDE),
            2 => random.of(&OF_ONE_CODE),
            3 if !link.seven_bits() => 0x80 | random.of(&reserved),
            _ => link.character(random.byte()),
        };
        if !reserved.contains(&character) {
            return character;
        }
    }
}

/// A byte for clear text: often a sign, or a byte that the other code reserves.
pub fn clear_byte(random: &mut Random, link: Link) -> u8 {
    match random.below(8) {
        0 | 1 => link.code.value(DLE),
        2 => random.of(&link.code.values()),
        3 => random.of(&OF_ONE_CODE),
        _ => random.byte(),
    }
}

/// Parts that can be written over a link, with at most `longest` bytes each.
pub fn parts(random: &mut Random, link: Link, longest: usize) -> Parts {
    let shapes = if link.seven_bits() {
        &SHAPES[..3]
    } else {
        &SHAPES[..]
    };
    let shape = random.of(shapes);
    let (mut header, mut text) = (Vec::new(), Vec::new());
    if shape.header {
        header = (0..random.few(longest))
            .map(|_| character(random, link))
            .collect();
    }
    let length = random.few(longest);
    match shape.text {
        Text::Absent => {}
        Text::Plain => text = (0..length).map(|_| character(random, link)).collect(),
        Text::Clear => text = (0..length).map(|_| clear_byte(random, link)).collect(),
    }
    Parts {
        link,
        shape,
        end_sign: random.of(&ENDS),
        header,
        text,
    }
}

/// The same parts with something that may be refused.
pub fn spoiled(random: &mut Random, mut parts: Parts) -> Parts {
    let reserved = random.of(&parts.link.code.values());
    let of_one_code = random.of(&OF_ONE_CODE);
    let any = random.byte();
    let byte = random.of(&[reserved, reserved | 0x80, of_one_code, 0x80, 0xFF, any]);
    let choice = random.below(5);
    match choice {
        0 => parts.shape = random.of(&SHAPES),
        1 => parts.link.method = random.of(&METHODS),
        2 => parts.link.code = random.of(&CODES),
        3 => put(random, &mut parts.header, byte),
        _ => put(random, &mut parts.text, byte),
    }
    parts
}

/// Puts a byte in place of another, or into an empty part.
fn put(random: &mut Random, part: &mut Vec<u8>, byte: u8) {
    if part.is_empty() {
        part.push(byte);
    } else {
        let place = random.below(part.len());
        part[place] = byte;
    }
}

/// A piece of a line that no fill sign parts, and whether the fill sign that
/// may stand before it is that of clear text.
type Piece = (Vec<u8>, bool);

/// The pieces of a line up to its end sign, as characters without parity.
fn pieces(parts: &Parts) -> Vec<Piece> {
    let value = |sign: &u8| parts.link.code.value(*sign);
    let values = |signs: &[u8]| -> Vec<u8> { signs.iter().map(value).collect() };
    let clear = parts.shape.text == Text::Clear;
    let mut pieces: Vec<Piece> = Vec::new();
    if parts.shape.header {
        pieces.push((values(&[SOH]), false));
        pieces.extend(parts.header.iter().map(|c| (vec![*c], false)));
    }
    if parts.shape.text != Text::Absent {
        let start: &[u8] = if clear { &[DLE, STX] } else { &[STX] };
        pieces.push((values(start), false));
    }
    let dle = value(&DLE);
    for byte in &parts.text {
        let times = if clear && *byte == dle { 2 } else { 1 };
        pieces.push((vec![*byte; times], clear));
    }
    let end: &[u8] = &[DLE, parts.end_sign];
    pieces.push((values(&end[usize::from(!clear)..]), clear));
    pieces
}

/// The sound line of parts that can be written, with fill signs.
pub fn line(random: &mut Random, parts: &Parts, fill: Fill) -> Vec<u8> {
    filled(parts, |_| match fill {
        Fill::Nowhere => 0,
        Fill::Somewhere => random.few(4),
        Fill::Everywhere => 1,
    })
}

/// The sound line of parts that can be written, with so many fill signs
/// before each piece: a sign, a byte of header or text, a doubled DLE.
pub fn filled(parts: &Parts, mut times: impl FnMut(usize) -> usize) -> Vec<u8> {
    let mut line = Vec::new();
    let [dle, syn] = [DLE, SYN].map(|sign| parts.link.code.value(sign));
    for (place, (piece, clear)) in pieces(parts).into_iter().enumerate() {
        let fill: &[u8] = if clear { &[dle, syn] } else { &[syn] };
        line.extend(fill.repeat(times(place)));
        line.extend(piece);
    }
    let sent = line.iter().map(|character| parts.link.sent(*character));
    sealed(parts.link, sent.collect())
}

/// The line cut behind its end sign and closed with the right check, where
/// it has an end sign; otherwise as it is.
pub fn sealed(link: Link, mut line: Vec<u8>) -> Vec<u8> {
    if let Ok(walked) = walk(link, &line) {
        let counted: Vec<u8> = walked.counted.iter().map(|place| line[*place]).collect();
        line.truncate(walked.behind);
        line.extend(block::check(link, &counted));
    }
    line
}

/// Gives every byte the link's parity (methods 1 and 2).
pub fn with_parity(link: Link, line: &mut [u8]) {
    for byte in line {
        *byte = link.sent(link.character(*byte));
    }
}

/// One to three damages, then perhaps right parities and a right check, so
/// that the damage reaches the questions behind them.
pub fn damaged(random: &mut Random, link: Link, mut line: Vec<u8>) -> Vec<u8> {
    for _ in 0..1 + random.few(3) {
        damage(random, link, &mut line);
    }
    if random.once_in(2) {
        with_parity(link, &mut line);
    }
    if random.once_in(2) {
        line = sealed(link, line);
    }
    line
}

fn damage(random: &mut Random, link: Link, line: &mut Vec<u8>) {
    let place = random.below(line.len() + 1);
    let reserved = random.of(&link.code.values());
    let of_one_code = random.of(&OF_ONE_CODE);
    let sign = link.sent(random.of(&[reserved, reserved, reserved, of_one_code]));
    let inside = place < line.len();
    match random.below(9) {
        0 if inside => line[place] ^= 1 << random.below(8),
        1 => flip_some(random, line),
        2 | 3 if inside => line[place] = sign,
        4 if inside => line[place] = random.byte(),
        5 => line.truncate(place),
        6 if inside => drop(line.remove(place)),
        7 if inside => line.swap(place, 0),
        8 => line.extend(random.bytes(1)),
        _ => line.insert(place, sign),
    }
}

fn flip_some(random: &mut Random, line: &mut [u8]) {
    if !line.is_empty() {
        for _ in 0..2 + random.below(4) {
            let place = random.below(line.len());
            line[place] ^= 1 << random.below(8);
        }
    }
}

/// Bytes that were never a line: any values, or signs alone.
pub fn noise(random: &mut Random, link: Link) -> Vec<u8> {
    let length = random.few(24);
    let mut line = random.bytes(length);
    if random.once_in(2) {
        line = line
            .iter()
            .map(|byte| link.code.values()[usize::from(*byte) % 7])
            .collect();
    }
    if random.once_in(2) {
        with_parity(link, &mut line);
    }
    line
}

//! Fixed blocks: both calls beside the peer's, at every length, with every
//! single bit, damaged and drawn.

use crate::corridor::{self, codes, Degree};
use crate::judge::{before, differ, hex};
use crate::peer::bits::flip;
use crate::peer::fixed::{self, CODES};
use crate::peer::Refusal;
use crate::random::Random;
use crate::tally::{Call, Tally};

/// Bytes behind the lent output that no call may touch.
const GUARD: usize = 8;

/// The value of every call beforehand.
const BEFORE: usize = 0x5A5A;

/// Contents and blocks that are drawn.
const DRAWN: usize = 60_000;

fn typed(degree: u8) -> Option<Degree> {
    match degree {
        8 => Some(Degree::Eight),
        16 => Some(Degree::Sixteen),
        24 => Some(Degree::TwentyFour),
        _ => None,
    }
}

/// One of the two calls of the library.
fn library(call: Call, degree: u8, bytes: &[u8], out: &mut [u8]) -> (u32, usize) {
    let mut value = BEFORE;
    let number = match call {
        Call::WriteFixed => codes::write_fixed(degree, bytes, out, &mut value),
        _ => codes::read_fixed(degree, bytes, out, &mut value),
    };
    (number, value)
}

/// The same by the typed calls.
fn by_type(call: Call, degree: Degree, bytes: &[u8], out: &mut [u8]) -> (u32, usize) {
    let answer = match call {
        Call::WriteFixed => corridor::write_fixed(degree, bytes, out),
        _ => corridor::read_fixed(degree, bytes, out),
    };
    answer.map_or_else(
        |refusal| (refusal.number, refusal.value),
        |value| (0, value),
    )
}

/// The peer's answer; a degree outside the list is 1.
fn peer(call: Call, degree: u8, bytes: &[u8], room: usize) -> Result<Vec<u8>, Refusal> {
    let code = fixed::of_degree(degree).ok_or(Refusal::plain(1))?;
    match call {
        Call::WriteFixed => code.write(bytes, room),
        _ => code.read(bytes, room),
    }
}

/// Compares number, value and every byte of the output; gives the result,
/// which is empty after a refusal.
fn compare(tally: &mut Tally, call: Call, degree: u8, bytes: &[u8], room: usize) -> Vec<u8> {
    let answer = peer(call, degree, bytes, room);
    let mut expected = before(room + GUARD);
    let told = match &answer {
        Ok(result) => (0, result.len()),
        Err(refusal) => (refusal.number, refusal.value),
    };
    let result = answer.unwrap_or_default();
    expected[..result.len()].copy_from_slice(&result);
    let mut out = before(room + GUARD);
    let said = library(call, degree, bytes, &mut out[..room]);
    let input = || format!("degree {degree} room {room} bytes {}", hex(bytes));
    let show = |(number, value): (u32, usize), out: &[u8]| format!("{number} {value} {}", hex(out));
    if (said, &out) != (told, &expected) {
        let (library, peer) = (show(said, &out), show(told, &expected));
        differ(&format!("{call:?}"), &input(), &library, &peer);
    }
    tally.note(call, said.0, 0);
    if let Some(degree) = typed(degree) {
        let mut out = before(room + GUARD);
        let said = by_type(call, degree, bytes, &mut out[..room]);
        if (said, &out) != (told, &expected) {
            let (library, peer) = (show(said, &out), show(told, &expected));
            differ(&format!("{call:?}, typed"), &input(), &library, &peer);
        }
        tally.typed += 1;
    }
    result
}

/// Writes a content and reads the block back, with outputs around the needed.
fn there_and_back(tally: &mut Tally, degree: u8, content: &[u8]) {
    let needed = content.len() + usize::from(degree) / 8;
    for room in [0, content.len(), needed - 1, needed, needed + 3] {
        compare(tally, Call::WriteFixed, degree, content, room);
    }
    let block = compare(tally, Call::WriteFixed, degree, content, needed);
    for room in [0, content.len().saturating_sub(1), content.len(), needed] {
        compare(tally, Call::ReadFixed, degree, &block, room);
    }
    if !block.is_empty() {
        assert_eq!(
            compare(tally, Call::ReadFixed, degree, &block, needed),
            content
        );
        tally.round_trips += 1;
    }
}

pub fn run(tally: &mut Tally, random: &mut Random) {
    for degree in 0..=u8::MAX {
        compare(tally, Call::WriteFixed, degree, b"7B", 8);
        compare(tally, Call::ReadFixed, degree, b"7B 12", 8);
    }
    for code in &CODES {
        let degree = code.degree() as u8;
        every_length(tally, random, degree, code.longest / 8);
        every_bit(tally, degree, code.longest / 8);
        every_byte(tally, degree);
    }
    for _ in 0..DRAWN {
        drawn(tally, random);
    }
}

/// Every length up to three bytes over the limit, of any bytes, of zeros and
/// of ones; blocks of every length that nothing wrote.
fn every_length(tally: &mut Tally, random: &mut Random, degree: u8, longest: usize) {
    for length in 0..=longest + 3 {
        for content in [random.bytes(length), vec![0; length], vec![0xFF; length]] {
            there_and_back(tally, degree, &content);
            compare(tally, Call::ReadFixed, degree, &content, longest);
        }
    }
}

/// The longest content, and the one with each single bit.
fn every_bit(tally: &mut Tally, degree: u8, longest: usize) {
    let length = longest - usize::from(degree) / 8;
    for place in 0..8 * length {
        let mut content = vec![0; length];
        flip(&mut content, place);
        there_and_back(tally, degree, &content);
    }
}

/// Every content of one byte and of two; every block of two bytes.
fn every_byte(tally: &mut Tally, degree: u8) {
    for pair in 0..=u16::MAX {
        let pair = pair.to_le_bytes();
        compare(tally, Call::WriteFixed, degree, &pair, 8);
        compare(tally, Call::ReadFixed, degree, &pair, 8);
        if pair[1] == 0 {
            there_and_back(tally, degree, &pair[..1]);
        }
    }
}

/// A drawn content, written, and read back with a few bits changed.
fn drawn(tally: &mut Tally, random: &mut Random) {
    let code = &CODES[random.below(CODES.len())];
    let degree = code.degree() as u8;
    let length = random.below(code.longest / 8 + 2);
    let content = random.bytes(length);
    there_and_back(tally, degree, &content);
    let mut block = compare(tally, Call::WriteFixed, degree, &content, length + 3);
    for _ in 0..1 + random.below(4) {
        if !block.is_empty() {
            let place = random.below(8 * block.len());
            flip(&mut block, place);
        }
    }
    let room = random.below(length + 2);
    compare(tally, Call::ReadFixed, degree, &block, room);
}

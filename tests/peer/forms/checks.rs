//! The checks of whole slices. 8 bytes enter at a time; a content of at least
//! 64 bytes (methods 3 and 5), 48 (4) or 80 (6) is folded first, but for its
//! last 32, 24 or 40 bytes and what makes no word of 8.

use crate::judge::Judge;
use crate::peer::bits::flip;
use crate::random::Random;

/// Contents are tried up to this length, far behind where folding starts.
const LONGEST: usize = 200;

/// Single bits are tried up to this length: there each check folds twelve
/// words and more.
const LONGEST_OF_BITS: usize = 136;

pub fn run(judge: &mut Judge, random: &mut Random) {
    for length in (0..=LONGEST).chain(4_080..=4_112) {
        patterns(judge, random, length);
    }
    for length in 0..=LONGEST_OF_BITS {
        single_bits(judge, length);
    }
}

/// Any bytes, from each of eight places in memory on, and all bytes alike.
fn patterns(judge: &mut Judge, random: &mut Random, length: usize) {
    let bytes = random.bytes(length + 8);
    for start in 0..8 {
        judge.checks(&bytes[start..start + length]);
    }
    for byte in [0x00, 0xFF] {
        judge.checks(&vec![byte; length]);
    }
}

/// Every bit alone: a check is the sum modulo 2 of what each bit adds to the
/// check of zeros, so a bit that is folded to a wrong place shows here.
fn single_bits(judge: &mut Judge, length: usize) {
    let mut content = vec![0; length];
    for place in 0..8 * length {
        flip(&mut content, place);
        judge.checks(&content);
        flip(&mut content, place);
    }
}

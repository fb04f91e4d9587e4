//! Generated frames: sound ones and damaged ones.

use crate::peer::bits;
use crate::peer::frame::{between_flags, rule, FLAG};
use crate::random::Random;

/// A frame as the reader gets it: lent bytes and told bits.
#[derive(Clone, Debug)]
pub struct Lent {
    pub bytes: Vec<u8>,
    pub told: usize,
}

/// Content with many runs of ones, below `longest` bytes, now and then none.
pub fn content(random: &mut Random, longest: usize) -> Vec<u8> {
    let length = random.few(longest);
    let byte = |random: &mut Random| match random.below(4) {
        0 => 0xFF,
        1 => random.of(&[0x00, 0x7E, 0x7D, 0x3F, 0x1F, 0x3E, 0xF8, 0xFC]),
        _ => random.byte(),
    };
    (0..length).map(|_| byte(random)).collect()
}

/// A frame around any bits with their right check behind them.
pub fn sealed(method: u8, content: &[bool]) -> Vec<bool> {
    between_flags(&[content, &rule(method).check(content)].concat())
}

/// How many bits of so many bytes of content are claimed: all, fewer, or now
/// and then more than there are.
pub fn claimed(random: &mut Random, length: usize) -> usize {
    let all = 8 * length;
    match random.below(32) {
        0 => all + 1 + random.below(9),
        1 => random.of(&HUGE),
        2..=11 => all,
        12..=21 => all.saturating_sub(1 + random.below(7)),
        _ => random.below(all + 1),
    }
}

/// One frame of a kind: sound, without check, without inserted zeros, damaged,
/// or noise. The content is the bytes whole or cut at any bit, down to none.
pub fn line(random: &mut Random, method: u8, content: &[u8]) -> Vec<bool> {
    let mut sound = bits::of_bytes(content);
    if random.once_in(2) {
        sound.truncate(random.below(sound.len() + 1));
    }
    match random.below(8) {
        0..=2 => sealed(method, &sound),
        3 => between_flags(&sound),
        4 => [&FLAG[..], &sound, &FLAG].concat(),
        5 => sound,
        _ => {
            let mut line = sealed(method, &sound);
            for _ in 0..1 + random.few(4) {
                damage(random, &mut line);
            }
            line
        }
    }
}

fn damage(random: &mut Random, line: &mut Vec<bool>) {
    let place = random.below(line.len() + 1);
    let inside = place < line.len();
    match random.below(6) {
        0 | 1 if inside => line[place] ^= true,
        2 if inside => drop(line.remove(place)),
        3 => line.insert(place, random.once_in(2)),
        4 => line.truncate(place),
        _ => burst(random, line, place),
    }
}

/// Random bits over a short stretch.
fn burst(random: &mut Random, line: &mut [bool], start: usize) {
    let end = line.len().min(start + 1 + random.below(33));
    for bit in &mut line[start..end] {
        *bit = random.once_in(2);
    }
}

/// Lends a frame with rubbish in the rest, and now and then tells another
/// number of bits than it has.
pub fn lent(random: &mut Random, line: &[bool]) -> Lent {
    let mut all = line.to_vec();
    let rest = random.of(&[0, 0, 0, 8, 16, 40]) + (8 - line.len() % 8) % 8;
    all.extend((0..rest).map(|_| random.once_in(2)));
    let told = match random.below(16) {
        0 => random.below(line.len() + 17),
        1 => all.len() + random.below(3),
        2 => random.of(&HUGE),
        _ => line.len(),
    };
    Lent {
        bytes: bits::to_bytes(&all),
        told,
    }
}

/// Told bits that no output of a careless product holds.
pub const HUGE: [usize; 6] = [
    usize::MAX,
    usize::MAX - 7,
    usize::MAX / 2 + 1,
    usize::MAX / 8 + 1,
    usize::MAX / 8 + 17,
    1 << 32,
];

//! Joined checks: of really joined contents, and of any values.

use crate::corridor::{self, codes};
use crate::judge::differ;
use crate::peer::join::{join, rule, Part};
use crate::peer::Refusal;
use crate::random::Random;
use crate::tally::{Call, Tally};

const METHODS: [u8; 4] = [3, 4, 5, 6];

/// Contents that are split at every place, and the longest of them.
const CONTENTS: usize = 400;
const LONGEST: usize = 96;

/// Values that are no checks, of short and of long parts.
const VALUES: usize = 60_000;
const LONG_VALUES: usize = 600;

/// Lengths whose sums wrap, or come near it.
const HUGE: [usize; 5] = [
    usize::MAX,
    usize::MAX - 1,
    usize::MAX / 2,
    usize::MAX / 2 + 1,
    1 << 32,
];

/// The library's check of a content.
fn check(method: u8, content: &[u8]) -> Part {
    let check = match method {
        3 => u32::from(corridor::check_3(content)),
        4 => u32::from(corridor::check_4(content)),
        5 => u32::from(corridor::check_5(content)),
        _ => corridor::check_6(content),
    };
    let length = content.len();
    Part { check, length }
}

/// The library's number and value by codes. Checks of methods 3 to 5 have 16
/// bits.
fn by_codes(method: u8, first: Part, second: Part) -> (u32, usize) {
    let short = |part: Part| (part.check as u16, part.length);
    let long = |part: Part| (part.check, part.length);
    let mut value = 0x5A5A;
    let number = match method {
        3 => codes::join_3(short(first), short(second), &mut value),
        4 => codes::join_4(short(first), short(second), &mut value),
        5 => codes::join_5(short(first), short(second), &mut value),
        _ => codes::join_6(long(first), long(second), &mut value),
    };
    (number, value)
}

/// The same by the typed calls.
fn typed(method: u8, first: Part, second: Part) -> Result<u32, corridor::Refusal> {
    let short = |part: Part| corridor::Part {
        check: part.check as u16,
        length: part.length,
    };
    let long = |part: Part| corridor::Part {
        check: part.check,
        length: part.length,
    };
    match method {
        3 => corridor::join_3(short(first), short(second)).map(u32::from),
        4 => corridor::join_4(short(first), short(second)).map(u32::from),
        5 => corridor::join_5(short(first), short(second)).map(u32::from),
        _ => corridor::join_6(long(first), long(second)),
    }
}

/// Fails unless both ways to call answer what is wanted.
fn wanted(tally: &mut Tally, method: u8, first: Part, second: Part, wanted: Result<u32, Refusal>) {
    let pair = match wanted {
        Ok(check) => (0, check as usize),
        Err(refusal) => (refusal.number, refusal.value),
    };
    let got = by_codes(method, first, second);
    let typed = typed(method, first, second).map_err(|refusal| (refusal.number, refusal.value));
    let same = typed == wanted.map_err(|refusal| (refusal.number, refusal.value));
    if got != pair || !same {
        let input = format!("method {method} {first:X?} {second:X?}");
        let (library, peer) = (format!("{got:X?} {typed:X?}"), format!("{wanted:X?}"));
        differ("join", &input, &library, &peer);
    }
    tally.note(Call::Join, got.0, method);
    tally.typed += 1;
}

/// A content cut at a place: the checks of both pieces join to its own, by
/// the division of the whole content and by that of the moved checks.
fn cut(tally: &mut Tally, method: u8, content: &[u8], place: usize, whole: u32) {
    let (head, tail) = content.split_at(place);
    let (first, second) = (check(method, head), check(method, tail));
    wanted(tally, method, first, second, Ok(whole));
    if content.len() <= LONGEST {
        wanted(tally, method, first, second, join(method, first, second));
    }
}

fn contents(tally: &mut Tally, random: &mut Random) {
    for round in 0..CONTENTS {
        let length = match round {
            0..=LONGEST => round,
            _ => random.below(LONGEST + 1),
        };
        let content = match random.below(8) {
            0 => vec![random.of(&[0x00, 0xFF]); length],
            _ => random.bytes(length),
        };
        for method in METHODS {
            let whole = rule(method).0.number(&content);
            for place in 0..=length {
                cut(tally, method, &content, place, whole);
            }
        }
    }
}

/// Contents of just the limit, cut at both ends, in the middle and anywhere.
fn full_contents(tally: &mut Tally, random: &mut Random) {
    for method in METHODS {
        let limit = rule(method).1 as usize;
        let content = random.bytes(limit);
        let whole = rule(method).0.number(&content);
        let ends = (0..=20).flat_map(|near| [near, limit - near]);
        let powers = (4..16).map(|power| (1 << power) % limit);
        let anywhere: Vec<usize> = (0..60).map(|_| random.below(limit)).collect();
        for place in ends.chain(powers).chain(anywhere) {
            cut(tally, method, &content, place, whole);
        }
    }
}

/// The method's limit and the lengths around it, in every way to reach them.
fn limits(tally: &mut Tally, random: &mut Random) {
    for method in METHODS {
        let limit = rule(method).1 as usize;
        let parts = [0, 1, limit / 2, limit - 1, limit, limit + 1];
        let lengths: Vec<usize> = parts.into_iter().chain(HUGE).collect();
        for &first in &lengths {
            for &second in &lengths {
                any_values(tally, random, method, (first, second));
            }
        }
    }
}

/// Any two values, checks or not, of parts of these lengths.
fn any_values(tally: &mut Tally, random: &mut Random, method: u8, lengths: (usize, usize)) {
    let width = rule(method).0.width();
    let mut value = || match random.below(6) {
        0 => 0,
        1 => u32::MAX >> (32 - width),
        2 => 1 << random.below(width),
        _ => random.next() as u32 >> (32 - width),
    };
    let (first, second) = (value(), value());
    let part = |check, length| Part { check, length };
    let (first, second) = (part(first, lengths.0), part(second, lengths.1));
    wanted(tally, method, first, second, join(method, first, second));
}

/// All of it.
pub fn run(tally: &mut Tally, random: &mut Random) {
    contents(tally, random);
    full_contents(tally, random);
    limits(tally, random);
    for _ in 0..VALUES {
        let (method, lengths) = (random.of(&METHODS), (random.few(200), random.few(40)));
        any_values(tally, random, method, lengths);
    }
    for _ in 0..LONG_VALUES {
        let method = random.of(&METHODS);
        let limit = rule(method).1 as usize;
        let second = random.below(limit + 1);
        let first = random.below(limit + 2 - second);
        any_values(tally, random, method, (first, second));
    }
}

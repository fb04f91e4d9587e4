//! Interleaving: both calls beside bytes that are sorted, and what damage on
//! the line leaves of a text.

use crate::corridor::{self, codes};
use crate::judge::{before, differ, hex};
use crate::peer::interleave as peer;
use crate::peer::Refusal;
use crate::random::Random;
use crate::tally::{Call, Tally};

/// Every length up to this one is tried with every d up to the other.
const LONGEST: usize = 40;
const WIDEST: usize = 45;

/// Bytes behind the lent output that no call may touch.
const GUARD: usize = 8;

/// One of the two calls: of the library, typed, and of the peer.
struct Calls {
    call: Call,
    library: fn(usize, &[u8], &mut [u8]) -> u32,
    typed: fn(usize, &[u8], &mut [u8]) -> Result<(), corridor::Refusal>,
    peer: fn(usize, &[u8], usize) -> Result<Vec<u8>, Refusal>,
}

const INTERLEAVE: Calls = Calls {
    call: Call::Interleave,
    library: codes::interleave,
    typed: corridor::interleave,
    peer: peer::interleave,
};

const DEINTERLEAVE: Calls = Calls {
    call: Call::Deinterleave,
    library: codes::deinterleave,
    typed: corridor::deinterleave,
    peer: peer::deinterleave,
};

impl Calls {
    /// Compares number and every byte of the output; gives the result.
    fn compare(&self, tally: &mut Tally, d: usize, bytes: &[u8], room: usize) -> Vec<u8> {
        let answer = (self.peer)(d, bytes, room);
        let mut expected = before(room + GUARD);
        let number = answer.as_ref().map_or_else(|refusal| refusal.number, |_| 0);
        let result = answer.unwrap_or_default();
        expected[..result.len()].copy_from_slice(&result);
        let mut out = before(room + GUARD);
        let told = (self.library)(d, bytes, &mut out[..room]);
        let mut typed = before(room + GUARD);
        let said = (self.typed)(d, bytes, &mut typed[..room]);
        let said = said.map_or_else(|refusal| (refusal.number, refusal.value), |()| (0, 0));
        if (told, &out) != (number, &expected) || (said, &typed) != ((number, 0), &expected) {
            let input = format!("d {d} room {room} bytes {}", hex(bytes));
            let library = format!("{told}, {said:?} {}", hex(&out));
            let peer = format!("{number} {}", hex(&expected));
            differ(&format!("{:?}", self.call), &input, &library, &peer);
        }
        tally.note(self.call, told, 0);
        tally.typed += 1;
        result
    }
}

/// A text there and back, and the same bytes as a line and there.
fn there_and_back(tally: &mut Tally, d: usize, bytes: &[u8], room: usize) {
    for (first, second) in [(INTERLEAVE, DEINTERLEAVE), (DEINTERLEAVE, INTERLEAVE)] {
        let between = first.compare(tally, d, bytes, room);
        if d >= 1 && room >= bytes.len() {
            let after = second.compare(tally, d, &between, room);
            require(after == bytes, "restored", d, bytes);
            require(sorted(&between) == sorted(bytes), "same bytes", d, bytes);
            let stays = d == 1 || d >= bytes.len();
            require(!stays || between == bytes, "unchanged", d, bytes);
        }
    }
}

fn sorted(bytes: &[u8]) -> Vec<u8> {
    let mut bytes = bytes.to_vec();
    bytes.sort_unstable();
    bytes
}

/// Fails where a property does not hold of the library.
fn require(holds: bool, property: &str, d: usize, bytes: &[u8]) {
    if !holds {
        differ(
            property,
            &format!("d {d} bytes {}", hex(bytes)),
            "not",
            "so",
        );
    }
}

/// Every burst of n / d bytes of the line, each byte changed in it: no two
/// neighbours of the text are damaged. d is from 3 to n.
fn bursts(tally: &mut Tally, d: usize, text: &[u8]) {
    let n = text.len();
    let line = INTERLEAVE.compare(tally, d, text, n);
    for first in 0..=n - n / d {
        let mut damaged = line.clone();
        for byte in &mut damaged[first..first + n / d] {
            *byte ^= 0x40;
        }
        let read = DEINTERLEAVE.compare(tally, d, &damaged, n);
        let differs: Vec<bool> = text.iter().zip(&read).map(|(a, b)| a != b).collect();
        let apart = differs.windows(2).all(|pair| pair != [true, true]);
        require(apart, "burst spread", d, text);
        require(differs.contains(&true), "burst seen", d, text);
    }
}

/// All lengths up to 40 with all d up to 45, and d as large as there is, with
/// outputs of every length up to two over the text's.
fn small(tally: &mut Tally, random: &mut Random) {
    for n in 0..=LONGEST {
        let numbered: Vec<u8> = (1..=n as u8).collect();
        let any = random.bytes(n);
        let huge = [
            usize::MAX,
            usize::MAX - 1,
            usize::MAX / 2,
            usize::MAX / 2 + 1,
        ];
        for d in (0..=WIDEST).chain(huge).chain([usize::MAX - n]) {
            for room in 0..=n + 2 {
                there_and_back(tally, d, &numbered, room);
            }
            there_and_back(tally, d, &any, n);
        }
        for d in 3..=n {
            bursts(tally, d, &numbered);
        }
    }
}

/// A text of some length, a d that often fits it, and an output around it.
fn drawn(tally: &mut Tally, random: &mut Random) {
    let longest = random.of(&[100, 1_000, 5_000]);
    let n = if random.once_in(1_000) {
        60_000 + random.below(10_000)
    } else {
        random.below(longest)
    };
    let d = match random.below(8) {
        0 => random.next() as usize,
        1 => n.saturating_add_signed(random.below(5) as isize - 2),
        2 => random.few(4),
        _ => 1 + random.few(n.max(1)),
    };
    let room = match random.below(6) {
        0 => random.below(n + 1),
        1 => n + random.below(20),
        _ => n,
    };
    let text = random.bytes(n);
    there_and_back(tally, d, &text, room);
}

pub fn run(tally: &mut Tally, random: &mut Random, rounds: u64) {
    small(tally, random);
    for _ in 0..rounds {
        drawn(tally, random);
    }
}

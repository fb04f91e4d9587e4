//! Contents of any number of bits: every one of up to 12 bits, and every split
//! of bits claimed and bytes lent. Each is written with outputs of every length
//! up to some over the needed, and read back with such.

use crate::frames::HUGE;
use crate::generated::frame_trip;
use crate::judge::{differ, hex, Judge, Room};
use crate::random::Random;

/// Contents are tried without a gap up to so many bits.
const LONGEST: usize = 12;

/// Bytes lent in a split; claimed are up to two bits more than they hold.
const MOST_LENT: usize = 3;

/// Bytes of an output over those needed.
const OVER: usize = 3;

pub fn run(judge: &mut Judge, random: &mut Random) {
    for method in [5, 6] {
        for claimed in 0..=LONGEST {
            for content in 0..1 << claimed {
                each_spare(
                    judge,
                    random,
                    method,
                    (claimed, content),
                    claimed.div_ceil(8),
                );
            }
        }
        for length in 0..=MOST_LENT {
            splits(judge, random, method, length);
        }
    }
}

/// So many bytes lent, and of them every number of bits claimed: zeros, ones,
/// one of two, and drawn ones.
fn splits(judge: &mut Judge, random: &mut Random, method: u8, length: usize) {
    for claimed in 0..=8 * MOST_LENT + 2 {
        let drawn: [u32; 3] = std::array::from_fn(|_| random.next() as u32);
        for content in [0, u32::MAX, 0x5555_5555].into_iter().chain(drawn) {
            each_spare(judge, random, method, (claimed, content), length);
        }
    }
    for claimed in HUGE {
        judge.write_frame(method, claimed, &random.bytes(length), Room::Needed(0));
    }
}

/// One content, the bits behind those claimed zeros, ones and drawn: they are
/// ignored, so the frame stays the same.
fn each_spare(
    judge: &mut Judge,
    random: &mut Random,
    method: u8,
    (claimed, content): (usize, u32),
    length: usize,
) {
    let kept = (1_u32 << claimed) - 1;
    let mut first = None;
    for spare in [0, u32::MAX, random.next() as u32] {
        let number = content & kept | spare & !kept;
        let lent = &number.to_le_bytes()[..length];
        let frame = there_and_back(judge, method, claimed, lent);
        let before = first.get_or_insert_with(|| frame.clone());
        if frame != *before {
            let (library, peer) = (format!("{frame:02X?}"), format!("{before:02X?}"));
            let input = format!("method {method} claimed {claimed} of {}", hex(lent));
            differ("spare bits", &input, &library, &peer);
        }
    }
}

/// Writes and reads back; gives the value and the frame.
fn there_and_back(judge: &mut Judge, method: u8, claimed: usize, lent: &[u8]) -> (usize, Vec<u8>) {
    let (told, frame) = judge.write_frame(method, claimed, lent, Room::Needed(0));
    for room in 0..=frame.len() + OVER {
        judge.write_frame(method, claimed, lent, Room::Bytes(room));
    }
    if !frame.is_empty() {
        for room in 0..=claimed.div_ceil(8) + OVER {
            judge.read_frame(method, told, &frame, Room::Bytes(room));
        }
        frame_trip(judge, method, (claimed, lent), told, &frame);
    }
    (told, frame)
}

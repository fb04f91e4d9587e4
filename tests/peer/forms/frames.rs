//! Runs of ones across every border of a frame. Zeros go in and out a byte at
//! a time behind the last four or five bits of the line, the inserted ones
//! shift all that follows, a content that ends inside a byte shifts its check,
//! and an output of n + n/4 + 16 bytes is not measured.

use crate::frames::sealed;
use crate::judge::{Judge, Room};
use crate::peer::bits::{flip, of_bytes, to_bytes};
use crate::peer::frame::{self, FLAG};
use crate::random::Random;

/// Bytes that leave none to four ones behind them, and one that leaves five
/// and their zero.
const LEAVING: [u8; 6] = [0x00, 0x80, 0xC0, 0xE0, 0xF0, 0xF8];

/// Bytes that meet those ones, or have some of their own.
const MEETING: [u8; 8] = [0x00, 0x01, 0x0F, 0x1F, 0x7E, 0xBE, 0xDF, 0xFF];

pub fn run(judge: &mut Judge, random: &mut Random) {
    for method in [5, 6] {
        runs(judge, method);
        shifted(judge, method);
        lengths(judge, random, method);
        closings(judge, method);
        endings(judge, method);
    }
    pairs(judge);
}

/// So many bits of a content written with outputs around what is needed and
/// around what is not measured, and read back with outputs around its length.
/// Gives the bits of the frame and their number.
fn both_ways(judge: &mut Judge, method: u8, claimed: usize, content: &[u8]) -> (Vec<u8>, usize) {
    let whole = claimed / 8;
    let most = whole + whole / 4 + 16;
    for room in most - 1..=most + 1 {
        judge.write_frame(method, claimed, content, Room::Bytes(room));
    }
    for more in [-1, 1] {
        judge.write_frame(method, claimed, content, Room::Needed(more));
    }
    let (told, lent) = judge.write_frame(method, claimed, content, Room::Needed(0));
    for more in [-1, 0, 1] {
        judge.read_frame(method, told, &lent, Room::Needed(more));
    }
    (lent, told)
}

/// Every single bit changed, and every number of bits cut off up to 16.
fn damaged(judge: &mut Judge, method: u8, (mut lent, told): (Vec<u8>, usize)) {
    for place in 0..8 * lent.len() {
        flip(&mut lent, place);
        judge.read_frame(method, told, &lent, Room::Needed(0));
        flip(&mut lent, place);
    }
    for cut in 1..=16 {
        judge.read_frame(method, told - cut, &lent, Room::Needed(0));
    }
}

/// A run of ones, of 1 to 30 from each of the first 41 bits on, among zeros,
/// among single ones and among ones in pairs: in 64 bits, and cut within three
/// bits behind the run.
fn runs(judge: &mut Judge, method: u8) {
    for (start, length) in (0..=40).flat_map(|start| (1..=30).map(move |length| (start, length))) {
        for rest in [0x00_u8, 0x55, 0xAA, 0xB6] {
            let run = ((1_u64 << length) - 1) << start;
            let content = (run | u64::from_le_bytes([rest; 8])).to_le_bytes();
            let frame = both_ways(judge, method, 64, &content);
            if rest == 0x00 || (rest == 0xAA && method == 5) {
                damaged(judge, method, frame);
            }
            let end = (start + length) as usize;
            for claimed in (end.max(2) - 1..end + 4).filter(|claimed| *claimed < 64) {
                let frame = both_ways(judge, method, claimed, &content);
                if rest == 0x00 && method == 5 && claimed == end {
                    damaged(judge, method, frame);
                }
            }
        }
    }
}

/// Every byte at every place of a byte of the line and behind every run: each
/// 1F shifts what follows by one inserted zero. The last byte once whole and
/// once in part.
fn shifted(judge: &mut Judge, method: u8) {
    for (shift, before) in (0..8).flat_map(|shift| LEAVING.map(|before| (shift, before))) {
        for (byte, after) in (0..=255).flat_map(|byte| MEETING.map(|after| (byte, after))) {
            let content = [&[0x1F; 8][..shift], &[before, byte, after]].concat();
            let all = 8 * content.len();
            for claimed in [all, all - 1 - usize::from(byte) % 7] {
                let (told, lent) = judge.write_frame(method, claimed, &content, Room::Needed(0));
                judge.write_frame(method, claimed, &content, Room::Needed(16));
                judge.read_frame(method, told, &lent, Room::Needed(0));
            }
        }
    }
}

/// Every two bytes side by side, behind every run: followed by a whole byte,
/// and the second one cut.
fn pairs(judge: &mut Judge) {
    for both in 0..=u16::MAX {
        let [first, second] = both.to_le_bytes();
        for before in LEAVING {
            let content = [before, first, second, 0x1F];
            for claimed in [32, 17 + usize::from(first ^ before) % 8] {
                let (told, lent) = judge.write_frame(5, claimed, &content, Room::Needed(0));
                judge.read_frame(5, told, &lent, Room::Needed(0));
            }
        }
    }
}

/// Contents of every number of bits over where checks start to fold.
fn lengths(judge: &mut Judge, random: &mut Random, method: u8) {
    for claimed in 1..=8 * 136_usize {
        let length = claimed.div_ceil(8);
        for content in [random.bytes(length), vec![0x00; length], vec![0xFF; length]] {
            both_ways(judge, method, claimed, &content);
        }
    }
}

/// Frames whose last checked bits are five ones, so that an inserted zero
/// stands before the closing flag, which begins at each of the eight places of
/// a byte: damaged, and without that zero. The last byte of the content lacks
/// none to seven bits.
fn closings(judge: &mut Judge, method: u8) {
    for (place, cut) in (0..8).flat_map(|place| (0..8).map(move |cut| (place, cut))) {
        let found = (0..=u16::MAX).filter_map(|number| closing(method, place, cut, number));
        let wanted = if cut == 0 { 8 } else { 2 };
        let found: Vec<Vec<bool>> = found.take(wanted).collect();
        assert_eq!(
            found.len(),
            wanted,
            "method {method}, place {place}, cut {cut}"
        );
        for line in found {
            let told = line.len();
            damaged(judge, method, (to_bytes(&line), told));
            let mut without = line;
            without.remove(told - FLAG.len() - 1);
            judge.read_frame(method, told - 1, &to_bytes(&without), Room::Needed(0));
        }
    }
}

/// The frame of a numbered content without its last few bits, if the bit before
/// its closing flag is an inserted zero and the flag begins at that place of a
/// byte. The zero itself shifts the flag by one, and each 1F before the number
/// by one more.
fn closing(method: u8, place: usize, cut: usize, number: u16) -> Option<Vec<bool>> {
    let before = &[0x1F; 8][..(place + cut + 7) % 8];
    let mut content = of_bytes(&[before, &number.to_le_bytes()].concat());
    content.truncate(content.len() - cut);
    let line = sealed(method, &content);
    let flag = line.len() - FLAG.len();
    let body = frame::frame(method, line.len(), &to_bytes(&line)).ok()?;
    let closes = body.inserted.last() == Some(&(flag - 1));
    (closes && flag % 8 == place).then_some(line)
}

/// Bodies that end with none to eight ones, as they are and behind them a zero,
/// at every place up to 64: most are refused.
fn endings(judge: &mut Judge, method: u8) {
    for (zeros, ones) in (0..=64).flat_map(|zeros| (0..=8).map(move |ones| (zeros, ones))) {
        for behind in [0, 1] {
            let body = [vec![false; zeros], vec![true; ones], vec![false; behind]].concat();
            let line = [&FLAG[..], &body, &FLAG].concat();
            let mut lent = to_bytes(&line);
            judge.read_frame(method, line.len(), &lent, Room::Needed(0));
            lent.push(0xFF);
            judge.read_frame(method, line.len(), &lent, Room::Needed(0));
        }
    }
}

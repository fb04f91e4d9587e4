//! Generated cases: one block and one frame a round, in some rounds a block
//! under DKOI too, written, read back, damaged and read again.

use crate::corridor::codes;
use crate::frames;
use crate::judge::{differ, hex, Judge, Room};
use crate::lines::{self, Fill};
use crate::peer::block::{self, Parts};
use crate::peer::signs::{Code, Link, CODES};
use crate::random::Random;
use crate::small::{form, settings};

/// A long line or frame comes once in so many rounds.
const LONG_ONCE_IN: usize = 4_000;

/// A block under DKOI comes once in so many rounds.
const DKOI_ONCE_IN: usize = 2;

/// A line is read under any code once in so many rounds.
const ANY_CODE_ONCE_IN: usize = 8;

pub fn run(judge: &mut Judge, random: &mut Random, rounds: u64) {
    for _ in 0..rounds {
        let long = random.once_in(LONG_ONCE_IN);
        let longest = if long { 4_200 } else { 14 };
        block_round(judge, random, Code::Koi7, longest);
        if random.once_in(DKOI_ONCE_IN) {
            block_round(judge, random, Code::Dkoi, longest);
        }
        frame_round(judge, random, if long { 4_200 } else { 12 });
    }
}

/// An output length: mostly enough, often just enough or just too short.
fn room(random: &mut Random) -> Room {
    match random.below(8) {
        0 => Room::Needed(-1),
        1 => Room::Bytes(random.below(12)),
        2 => Room::Needed(1 + random.below(20) as isize),
        3 => Room::Needed(-(random.below(6) as isize)),
        4 => Room::Needed(1),
        _ => Room::Needed(0),
    }
}

fn block_round(judge: &mut Judge, random: &mut Random, code: Code, longest: usize) {
    let link = lines::link(random, code);
    let parts = lines::parts(random, link, longest);
    judge.write_block(form(&parts), room(random));
    let fill = random.of(&[
        Fill::Nowhere,
        Fill::Nowhere,
        Fill::Somewhere,
        Fill::Everywhere,
    ]);
    let line = lines::line(random, &parts, fill);
    judge.read_block(settings(link), &line, room(random));
    if block::take(link, &line).is_ok() {
        round_trip(judge, &parts, &line);
    }
    if random.once_in(ANY_CODE_ONCE_IN) {
        let code = random.of(&CODES);
        judge.read_block(settings(Link { code, ..link }), &line, room(random));
    }
    let damaged = lines::damaged(random, link, line);
    judge.read_block(settings(link), &damaged, room(random));
    let noise = lines::noise(random, link);
    judge.read_block(settings(link), &noise, room(random));
    let spoiled = lines::spoiled(random, parts);
    judge.write_block(form(&spoiled), room(random));
}

/// Property 2 by the library alone: the parts are written, and reading that
/// line or the one with fill signs gives the parts.
fn round_trip(judge: &mut Judge, parts: &Parts, filled: &[u8]) {
    let (mut line, mut length) = (vec![0; filled.len()], 0);
    let written = form(parts).write(&mut line, &mut length);
    if written != 0 {
        differ(
            "round trip",
            &hex(filled),
            &format!("written: {written}"),
            "0",
        );
    }
    read_back(parts, filled);
    read_back(parts, &line[..length]);
    judge.tally.round_trips += 1;
}

/// Fails unless the library reads the parts from a line.
fn read_back(parts: &Parts, line: &[u8]) {
    let both = [&parts.header[..], &parts.text].concat();
    let form = form(parts);
    let (mut out, mut answer) = (vec![0; both.len()], [0; 5]);
    let read = codes::read_block(form.settings.codes(), line, &mut out, &mut answer);
    let wanted = [
        usize::from(form.shape),
        usize::from(form.end_sign),
        form.header.len(),
        form.text.len(),
    ];
    if read != 0 || answer[..4] != wanted || out != both {
        let got = format!("{read} {answer:?} {}", hex(&out));
        differ(
            "round trip",
            &hex(line),
            &got,
            &format!("{wanted:?} {}", hex(&both)),
        );
    }
}

fn frame_round(judge: &mut Judge, random: &mut Random, longest: usize) {
    let method = 5 + random.below(2) as u8;
    let content = frames::content(random, longest);
    judge.checks(&content);
    let claimed = frames::claimed(random, content.len());
    judge.write_frame(method, claimed, &content, room(random));
    let (told, written) = judge.write_frame(method, claimed, &content, Room::Needed(0));
    if !written.is_empty() {
        judge.read_frame(method, told, &written, Room::Needed(0));
        frame_trip(judge, method, (claimed, &content), told, &written);
    }
    let line = frames::line(random, method, &content);
    let lent = frames::lent(random, &line);
    judge.read_frame(method, lent.told, &lent.bytes, room(random));
}

/// Property 2 of frames by the library alone: a written frame gives back the
/// bits that were claimed, the spare ones zero, and these give the frame.
pub fn frame_trip(
    judge: &mut Judge,
    method: u8,
    (claimed, content): (usize, &[u8]),
    told: usize,
    written: &[u8],
) {
    let mut wanted = content[..claimed.div_ceil(8)].to_vec();
    if let (Some(last), true) = (wanted.last_mut(), claimed % 8 > 0) {
        *last %= 1 << (claimed % 8);
    }
    let mut out = vec![0xFF; wanted.len()];
    let mut bits = 0;
    let read = codes::read_frame(method, told, written, &mut out, &mut bits);
    let mut again = vec![0xFF; written.len()];
    let mut length = 0;
    let wrote = codes::write_frame(method, bits, &out, &mut again, &mut length);
    let back = (read, bits, &out) == (0, claimed, &wanted);
    let there = (wrote, length, &again[..]) == (0, told, written);
    if !back || !there {
        let got = format!("{read} {bits} {}, {wrote} {length}", hex(&out));
        let wanted = format!("{claimed} {}, {told}", hex(&wanted));
        differ("frame round trip", &hex(written), &got, &wanted);
    }
    judge.tally.round_trips += 1;
}

//! Lines, blocks and frames around the longest.

use crate::frames;
use crate::judge::{Form, Judge, Room, Settings};
use crate::lines::{in_code, sealed, with_parity};
use crate::peer::bits;
use crate::peer::signs::{Link, CODES, DLE, ETX, METHODS, SHAPES, SOH, STX, SYN};
use crate::random::Random;
use crate::small::settings;

pub fn run(judge: &mut Judge, random: &mut Random) {
    for code in CODES {
        for (method, odd) in METHODS.into_iter().flat_map(|m| [(m, false), (m, true)]) {
            let link = Link { method, odd, code };
            counts(judge, link);
            lengths(judge, random, link);
        }
    }
    for (method, longest) in [(5, 32_768), (6, 524_288)] {
        for bits in longest - 1..=longest + 1 {
            contents(judge, random, method, bits);
        }
        for bits in [longest - 8, longest + 8] {
            contents(judge, random, method, bits);
        }
        claims(judge, random, method, longest);
    }
    for length in [1_000, 4_097, 65_537, 100_000] {
        judge.checks(&random.bytes(length));
    }
}

/// Blocks of 4,095, 4,096 and 4,097 counted bytes in each shape.
fn counts(judge: &mut Judge, link: Link) {
    let starts: [(&[u8], &[u8]); 5] = [
        (&[SOH], &[]),
        (&[STX], &[]),
        (&[SOH], &[STX]),
        (&[DLE, STX], &[]),
        (&[SOH], &[DLE, STX]),
    ];
    for (place, (start, inner)) in starts.into_iter().enumerate() {
        for counted in [4_095, 4_096, 4_097] {
            let free = counted - inner.len() - 1;
            let split = if SHAPES[place].header { free / 3 } else { 0 };
            let split = if place == 0 { free } else { split };
            let (header, text) = (vec![0x48; split], vec![0x54; free - split]);
            let form = Form {
                settings: settings(link),
                shape: place as u8 + 1,
                end_sign: ETX,
                header: &header,
                text: &text,
            };
            for more in [-1, 0, 1] {
                judge.write_block(form, Room::Needed(more));
            }
            let end: &[u8] = if place >= 3 { &[DLE, ETX] } else { &[ETX] };
            let line = [start, &header, inner, &text, end].concat();
            read_both(judge, link, line);
        }
    }
}

/// A line from what its characters are in KOI-7: without check, with a right
/// one, with a wrong one.
fn read_both(judge: &mut Judge, link: Link, characters: Vec<u8>) {
    let mut line = in_code(link.code, &characters);
    with_parity(link, &mut line);
    judge.read_block(settings(link), &line, Room::Needed(0));
    let mut line = sealed(link, line);
    for more in [-1, 0, 1] {
        judge.read_block(settings(link), &line, Room::Needed(more));
    }
    if let Some(last) = line.last_mut() {
        *last ^= 0x03;
    }
    judge.read_block(settings(link), &line, Room::Needed(0));
}

/// Lines of 16,383 to 16,385 bytes: filled with SYN, with DLE SYN, never
/// ended, and noise.
fn lengths(judge: &mut Judge, random: &mut Random, link: Link) {
    for length in 16_383..=16_385 {
        let fill = length - 2 - link.check_bytes();
        let filled = [&[STX], &vec![SYN; fill][..], &[ETX]].concat();
        read_both(judge, link, filled);
        let pairs = [DLE, SYN].repeat(length / 2 - 3);
        let start: &[u8] = if length % 2 == 0 {
            &[DLE, STX]
        } else {
            &[DLE, STX, 0x41]
        };
        read_both(judge, link, [start, &pairs, &[DLE, ETX]].concat());
        let doubled = [DLE, DLE].repeat(length / 4);
        read_both(
            judge,
            link,
            [&[DLE, STX], &doubled[..], &[DLE, ETX]].concat(),
        );
        let mut endless = vec![SYN; length];
        endless[0] = SOH;
        endless = in_code(link.code, &endless);
        with_parity(link, &mut endless);
        judge.read_block(settings(link), &endless, Room::Bytes(64));
        let mut noise = random.bytes(length);
        judge.read_block(settings(link), &noise, Room::Bytes(64));
        with_parity(link, &mut noise);
        judge.read_block(settings(link), &noise, Room::Bytes(64));
    }
    let outside = Settings {
        method: 9,
        ..settings(link)
    };
    judge.read_block(outside, &vec![SYN; 16_385], Room::Bytes(64));
}

/// Frames of so many content bits, about the longest, written and read: any,
/// all ones and all zeros.
fn contents(judge: &mut Judge, random: &mut Random, method: u8, claimed: usize) {
    let length = claimed.div_ceil(8);
    for content in [random.bytes(length), vec![0xFF; length], vec![0x00; length]] {
        for more in [-1, 0, 1] {
            judge.write_frame(method, claimed, &content, Room::Needed(more));
        }
        let mut line = frames::sealed(method, &bits::of_bytes(&content)[..claimed]);
        let mut lent = bits::to_bytes(&line);
        lent.extend([0xFF; 3]);
        for more in [-1, 0, 1] {
            judge.read_frame(method, line.len(), &lent, Room::Needed(more));
        }
        judge.read_frame(method, line.len() - 1, &lent, Room::Needed(0));
        judge.read_frame(method, line.len() + 8, &lent, Room::Needed(0));
        let place = random.below(line.len());
        line[place] ^= true;
        judge.read_frame(method, line.len(), &bits::to_bytes(&line), Room::Needed(0));
    }
}

/// Claims of a few bits and of about the limit, of fewer, as many and more
/// bytes: 66 is asked before 21 and 22.
fn claims(judge: &mut Judge, random: &mut Random, method: u8, longest: usize) {
    for length in [0, 1, longest / 8 - 1, longest / 8, longest / 8 + 1] {
        let content = random.bytes(length);
        let about = longest - 9..=longest + 9;
        for claimed in (0..=9).chain(about).chain(frames::HUGE) {
            judge.write_frame(method, claimed, &content, Room::Needed(0));
        }
    }
}

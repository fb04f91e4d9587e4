//! Fill signs at every place. They part the runs that walk and check take at
//! once, and a header or plain text that holds some enters the check by pieces
//! of 256 bytes of the line, what each keeps as one run.

use super::{kinds, parts, Data, DATA};
use crate::judge::{Judge, Room};
use crate::lines::filled;
use crate::peer::block::Parts;
use crate::peer::signs::{Link, Shape, Text, SHAPES};
use crate::random::Random;
use crate::small::settings;

/// The length of the parts with fill signs before every byte, and how far
/// apart two fill signs stand at most.
const LENGTH: usize = 50;
const APART: usize = 20;

/// The bytes of a part that enter the check together.
const PIECE: usize = 256;

pub fn run(judge: &mut Judge, random: &mut Random) {
    for kind in kinds() {
        let (seven, plain) = (kind.0.seven_bits(), kind.1.text != Text::Clear);
        for data in DATA {
            everywhere(judge, &parts(random, kind, data, (LENGTH, LENGTH)));
        }
        if !seven {
            runs(judge, &parts(random, kind, Data::Above, (130, 130)));
        }
        if plain && (kind.0.odd || !seven) {
            pieces(judge, random, kind);
        }
        if plain && !seven {
            kept(judge, random, kind);
        }
    }
}

/// Reads a line with so many fill signs before each of its pieces, and the
/// same with two bits of its last byte changed, which keep its parity.
fn read(judge: &mut Judge, parts: &Parts, times: impl FnMut(usize) -> usize) {
    let mut line = filled(parts, times);
    judge.read_block(settings(parts.link), &line, Room::Needed(0));
    if let Some(last) = line.last_mut() {
        *last ^= 0x11;
    }
    judge.read_block(settings(parts.link), &line, Room::Needed(0));
}

/// One fill sign before every piece of a line, then two at every place and at
/// two places near each other.
fn everywhere(judge: &mut Judge, parts: &Parts) {
    let pieces = parts.header.len() + parts.text.len() + 3;
    for first in 0..pieces {
        read(judge, parts, |place| usize::from(place == first));
        for second in first..=first + APART {
            read(judge, parts, |place| {
                usize::from(place == first) + usize::from(place == second)
            });
        }
    }
}

/// Two fill signs with every number of bytes between them, so that runs of
/// every length enter the check at once, folded or not.
fn runs(judge: &mut Judge, parts: &Parts) {
    let pieces = parts.header.len() + parts.text.len() + 3;
    for second in 2..pieces {
        for first in [2, second.saturating_sub(9)] {
            read(judge, parts, |place| {
                usize::from(place == first || place == second)
            });
        }
    }
}

/// One fill sign around each border of a piece, and two, in parts of which the
/// last piece is full, nearly full or nearly empty.
fn pieces(judge: &mut Judge, random: &mut Random, kind: (Link, Shape)) {
    let around = |border: usize| border - 3..=border + 3;
    let places: Vec<usize> = around(PIECE).chain(around(2 * PIECE)).collect();
    let lengths = (200..=600).step_by(40);
    for length in lengths.chain(around(PIECE)).chain(around(2 * PIECE)) {
        let header = if kind.1.text == Text::Absent {
            length
        } else {
            3
        };
        let parts = parts(random, kind, Data::Above, (header, length));
        let start = if kind.1 == SHAPES[2] { header + 2 } else { 1 };
        for first in &places {
            read(judge, &parts, |place| usize::from(place == start + first));
            for second in [0, PIECE - 1, PIECE, 2 * PIECE - 1, 2 * PIECE] {
                read(judge, &parts, |place| {
                    usize::from(place == start + first) + usize::from(place == start + second)
                });
            }
        }
    }
}

/// A first piece that keeps every number of bytes: fill signs before them,
/// behind them, or between every two until there are enough.
fn kept(judge: &mut Judge, random: &mut Random, kind: (Link, Shape)) {
    for kept in 0..=PIECE {
        let parts = parts(random, kind, Data::Any, (kept + 40, kept + 40));
        let fill = PIECE - kept;
        for behind in [1, kept + 1] {
            read(
                judge,
                &parts,
                |place| if place == behind { fill } else { 0 },
            );
        }
        read(judge, &parts, |place| {
            usize::from((1..=fill).contains(&place))
        });
    }
}

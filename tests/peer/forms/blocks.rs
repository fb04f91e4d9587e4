//! Blocks of every length, and with every sign at every place. Walk and writer
//! take 16 bytes at once where all are data, and byte by byte the rest; the
//! parities of a line are judged 16 at once.

use super::{kinds, parts, Data, DATA};
use crate::judge::{Judge, Room};
use crate::lines::{filled, sealed, OF_ONE_CODE};
use crate::peer::block::Parts;
use crate::peer::signs::{Code, Link, Shape, DLE, SHAPES};
use crate::random::Random;
use crate::small::{form, settings};

/// Header and text are tried up to this length together, and up to `ALONE`
/// where the other is empty.
const TOGETHER: usize = 70;
const ALONE: usize = 200;

/// The parts in which one byte is replaced at every place: three sixteens and
/// a rest, wherever they start.
const REPLACED: usize = 50;

/// Each place below a length, with each sign, each character beside one and
/// those that the other code reserves, without and with the top bit: in methods
/// 1, 2 and 7 just one of the two has the right parity.
fn at_each(code: Code, length: usize) -> impl Iterator<Item = (usize, u8)> {
    let sign = move |character: u8| code.sign(character).is_some();
    let beside = move |c: u8| sign(c) || sign(c + 1) || c > 0 && sign(c - 1);
    let tried = move |c: &u8| beside(*c) || OF_ONE_CODE.contains(c) || *c == 0x7F;
    let characters: Vec<u8> = (0..0x80).filter(tried).collect();
    let bytes: Vec<u8> = characters.iter().flat_map(|c| [*c, *c | 0x80]).collect();
    let at = move |place| bytes.clone().into_iter().map(move |byte| (place, byte));
    (0..length).flat_map(at)
}

pub fn run(judge: &mut Judge, random: &mut Random) {
    for kind in kinds() {
        for data in DATA {
            lengths(judge, random, kind, data);
            replaced(judge, random, kind, data);
        }
        refused(judge, random, kind);
        if kind.0.seven_bits() {
            parities(judge, random, kind);
        }
    }
}

/// Header and text of every length, written and read, with an output just
/// enough and a byte short.
fn lengths(judge: &mut Judge, random: &mut Random, kind: (Link, Shape), data: Data) {
    let together = (0..=TOGETHER).flat_map(|h| (0..=TOGETHER).map(move |t| (h, t)));
    let alone = (0..=ALONE).flat_map(|length| [(length, 0), (0, length)]);
    let both = kind.1 == SHAPES[2] || kind.1 == SHAPES[4];
    for (header, text) in together.filter(|_| both).chain(alone) {
        let parts = parts(random, kind, data, (header, text));
        let line = judge.write_block(form(&parts), Room::Needed(0));
        judge.write_block(form(&parts), Room::Needed(-1));
        judge.read_block(settings(kind.0), &line, Room::Needed(0));
        judge.read_block(settings(kind.0), &line, Room::Needed(-1));
    }
}

/// Each of those bytes in place of every byte of a line, in methods 3 and 4
/// also behind a DLE: under the check of the sound line and under a right one.
fn replaced(judge: &mut Judge, random: &mut Random, kind: (Link, Shape), data: Data) {
    let link = kind.0;
    let sound = filled(&parts(random, kind, data, (REPLACED, REPLACED)), |_| 0);
    for (place, byte) in at_each(link.code, sound.len()) {
        let mut line = sound.clone();
        line[place] = byte;
        judge.read_block(settings(link), &line, Room::Needed(0));
        judge.read_block(settings(link), &sealed(link, line.clone()), Room::Needed(0));
        if !link.seven_bits() && place > 0 {
            line[place - 1] = link.code.value(DLE);
            judge.read_block(settings(link), &line, Room::Needed(0));
            judge.read_block(settings(link), &sealed(link, line), Room::Needed(0));
        }
    }
}

/// Each of those bytes at every place of header and text, written: the first
/// that may not stand there is named, also where the last byte is one too.
fn refused(judge: &mut Judge, random: &mut Random, kind: (Link, Shape)) {
    for length in 14..=REPLACED {
        let sound = parts(random, kind, Data::Above, (length, length));
        for replaced in at_each(kind.0.code, length) {
            write(judge, &sound, |parts| &mut parts.header, replaced);
            write(judge, &sound, |parts| &mut parts.text, replaced);
        }
    }
}

/// Writes with a byte replaced in a part, if the shape has that part; where it
/// is refused, also with the last byte replaced.
fn write(
    judge: &mut Judge,
    sound: &Parts,
    part: impl Fn(&mut Parts) -> &mut [u8],
    (place, byte): (usize, u8),
) {
    let mut parts = sound.clone();
    if part(&mut parts).is_empty() {
        return;
    }
    part(&mut parts)[place] = byte;
    if judge.write_block(form(&parts), Room::Needed(0)).is_empty() {
        let part = part(&mut parts);
        part[part.len() - 1] = byte;
        judge.write_block(form(&parts), Room::Needed(0));
    }
}

/// One wrong parity at every place of lines of every length, then two: the
/// first is named.
fn parities(judge: &mut Judge, random: &mut Random, kind: (Link, Shape)) {
    let link = kind.0;
    for length in 0..=REPLACED {
        let sound = filled(&parts(random, kind, Data::Any, (length, length)), |_| 0);
        for place in 0..sound.len() {
            for second in [place, sound.len() - 1] {
                let mut line = sound.clone();
                line[place] ^= 1 << random.below(8);
                line[second] ^= if second == place { 0 } else { 0x80 };
                judge.read_block(settings(link), &line, Room::Needed(0));
            }
        }
    }
}

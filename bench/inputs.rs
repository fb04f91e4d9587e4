//! The timed inputs: one case for each call, kind and length.

use crate::calls::{Calls, Form, Part, Receiver, Station, LIBRARY};
use crate::corridor::{longest_frame, longest_line, FrameMethod, Shape};
use crate::peer::sender::CELL;
use crate::peer::signs::{Link, SYN};
use crate::random::Random;
use std::hint::black_box;

/// Makes one call again and again, as many times as told.
pub type Case = Box<dyn FnMut(&Calls, u64)>;

/// Text of a kind: characters that every method carries, or any bytes. Under
/// DKOI all lie above its signs, and so above those of KOI-7.
fn text(random: &mut Random, method: u8, code: u8, length: usize) -> Vec<u8> {
    let character = |random: &mut Random| match (method, code) {
        (_, 1) => 0x33 + random.below(0xCD) as u8,
        (4, _) => random.byte(),
        (3, _) => 0x20 + random.below(0xE0) as u8,
        _ => 0x20 + random.below(0x60) as u8,
    };
    (0..length).map(|_| character(random)).collect()
}

/// A block of so many text bytes, one less where they fill the block: the end
/// sign is counted too. Method 4 carries clear text here, the others plain.
fn form(random: &mut Random, (method, code): (u8, u8), length: usize) -> Form {
    let shape = if method == 4 { 4 } else { 2 };
    let text = text(random, method, code, length.min(4_095));
    Form {
        method,
        parity: 0,
        code,
        shape,
        end_sign: 3,
        header: Vec::new(),
        text,
    }
}

fn written(form: &Form) -> Vec<u8> {
    let (mut line, mut length) = (
        vec![0; longest_line(Shape::ClearText, 0, form.text.len())],
        0,
    );
    assert_eq!(LIBRARY.write_block(form, &mut line, &mut length), 0);
    line.truncate(length);
    line
}

/// A fill sign before every twentieth byte of the text, in front of an end sign
/// and two bytes of check.
fn filled(line: &[u8], fill: u8) -> Vec<u8> {
    let (body, tail) = line[1..].split_at(line.len() - 4);
    let mut filled = vec![line[0]];
    for piece in body.chunks(20) {
        filled.extend(piece);
        filled.push(fill);
    }
    filled.extend(tail);
    filled
}

/// Bytes of input of every cell. A processor learns the branches of 16 KiB by
/// heart, and a frame is then read in two thirds of the time that new ones
/// take; from 256 KiB on more inputs change little.
const INPUTS: usize = 524_288;

/// Different inputs of one length, too many to be learnt.
fn several<T>(length: usize, mut input: impl FnMut() -> T) -> Vec<T> {
    (0..INPUTS / length).map(|_| input()).collect()
}

/// Makes the call with one input after the other. A sample goes on where the
/// last one stopped, so that no few inputs are met again and again.
fn in_turn<T: 'static>(inputs: Vec<T>, mut call: impl FnMut(&Calls, &T) + 'static) -> Case {
    let mut place = 0;
    Box::new(move |calls, times| {
        for _ in 0..times {
            call(calls, black_box(&inputs[place]));
            place = if place + 1 < inputs.len() {
                place + 1
            } else {
                0
            };
        }
    })
}

/// Blocks of a method under a code; only KOI-7 has lines with fill signs.
pub fn read_block(
    random: &mut Random,
    (method, code): (u8, u8),
    fill: bool,
    length: usize,
) -> Case {
    let lines = several(length, || {
        let line = written(&form(random, (method, code), length));
        if fill {
            filled(&line, Link::koi7(method, false).sent(SYN))
        } else {
            line
        }
    });
    let (mut out, mut answer) = (vec![0; length], [0; 5]);
    for line in &lines {
        assert_eq!(
            LIBRARY.read_block(method, 0, code, line, &mut out, &mut answer),
            0
        );
    }
    in_turn(lines, move |calls, line| {
        black_box(calls.read_block(method, 0, code, line, &mut out, &mut answer));
        black_box((&out, &answer));
    })
}

pub fn write_block(random: &mut Random, kind: (u8, u8), length: usize) -> Case {
    let forms = several(length, || form(random, kind, length));
    let (mut out, mut value) = (vec![0; longest_line(Shape::ClearText, 0, length)], 0);
    in_turn(forms, move |calls, form| {
        black_box(calls.write_block(form, &mut out, &mut value));
        black_box((&out, &value));
    })
}

/// The bytes that a frame of so many content bits takes at most.
fn frame_bytes(method: u8, claimed: usize) -> usize {
    let method = match method {
        5 => FrameMethod::Cyclic16,
        _ => FrameMethod::Cyclic32,
    };
    longest_frame(method, claimed).div_ceil(8)
}

/// A sound frame around so many bits of a content: its bits and their number.
fn sound_frame(method: u8, claimed: usize, content: &[u8]) -> (Vec<u8>, usize) {
    let (mut lent, mut bits) = (vec![0; frame_bytes(method, claimed)], 0);
    assert_eq!(
        LIBRARY.write_frame(method, claimed, content, &mut lent, &mut bits),
        0
    );
    lent.truncate(bits.div_ceil(8));
    (lent, bits)
}

/// Frames of so many content bytes, of which the last lacks some bits.
pub fn read_frame(random: &mut Random, (method, lacking): (u8, usize), length: usize) -> Case {
    let claimed = 8 * length - lacking;
    let frames = several(length, || {
        sound_frame(method, claimed, &random.bytes(length))
    });
    let (mut out, mut value) = (vec![0; length], 0);
    for (lent, bits) in &frames {
        assert_eq!(
            LIBRARY.read_frame(method, *bits, lent, &mut out, &mut value),
            0
        );
    }
    in_turn(frames, move |calls, (lent, bits)| {
        black_box(calls.read_frame(method, *bits, lent, &mut out, &mut value));
        black_box((&out, &value));
    })
}

/// Contents of so many bytes, of which the last lacks some bits.
pub fn write_frame(random: &mut Random, (method, lacking): (u8, usize), length: usize) -> Case {
    let claimed = 8 * length - lacking;
    let contents = several(length, || random.bytes(length));
    let (mut out, mut value) = (vec![0; frame_bytes(method, claimed)], 0);
    in_turn(contents, move |calls, content| {
        black_box(calls.write_frame(method, claimed, content, &mut out, &mut value));
        black_box((&out, &value));
    })
}

/// Numbers modulo 8, window 2: mostly the awaited one, one in sixteen a repeat,
/// one after a loss.
pub fn receive() -> Case {
    let told = |at: u8| {
        let awaited = at % 8;
        let ahead = match at % 16 {
            15 => 2,
            3 => 7,
            _ => 0,
        };
        (awaited, (awaited + ahead) % 8)
    };
    let mut answer = [0; 2];
    in_turn((0..64).map(told).collect(), move |calls, (c, number)| {
        black_box(calls.receive(3, 2, *c, *number, &mut answer));
        black_box(&answer);
    })
}

/// Blocks modulo 8, window 7, each with no other stored: the ring goes round.
pub fn submit(random: &mut Random, length: usize) -> Case {
    let blocks = several(length, || random.bytes(length));
    let (mut station, mut store, mut value) = (Station::default(), vec![0; 7 * CELL], 0);
    in_turn(blocks, move |calls, block| {
        station.stored = 0;
        black_box(calls.submit((3, 7), &mut station, &mut store, block, &mut value));
        black_box((&station, &store, &value));
    })
}

/// Two of five stored blocks freed, modulus 8, window 7.
pub fn acknowledge() -> Case {
    let (store, mut value) = (vec![0; 7 * CELL], 0);
    in_turn((0..8).collect(), move |calls, next: &u8| {
        let (next, stored) = (*next, 5);
        let mut station = Station {
            next,
            stored,
            ..Station::default()
        };
        let number = (next + 4) % 8;
        black_box(calls.acknowledge((3, 7), &mut station, &store, number, &mut value));
        black_box((&station, &value));
    })
}

/// Orders on a record whose stored blocks all went before, modulus 8.
pub fn order() -> Case {
    let mut value = 0;
    in_turn((0..8).collect(), move |calls, next: &u8| {
        let mut station = Station {
            next: *next,
            stored: 5,
            method: 4,
            ..Station::default()
        };
        black_box(calls.order((3, 7), &mut station, 3, &mut value));
        black_box((&station, &value));
    })
}

/// Orders told ahead of their number, modulus 8.
pub fn tell_order() -> Case {
    in_turn((0..8).collect(), move |calls, c: &u8| {
        let mut receiver = awaiting(*c, 4);
        black_box(calls.tell_order(&mut receiver, (c + 2) % 8, 3));
        black_box(&receiver);
    })
}

fn awaiting(c: u8, method: u8) -> Receiver {
    Receiver {
        n: 3,
        w: 7,
        c,
        method,
        ..Receiver::default()
    }
}

/// Stored blocks of a length sent, under method 3 and, those from before the
/// order, 4.
pub fn send(random: &mut Random, length: usize) -> Case {
    let store = random.bytes(7 * CELL);
    let station = Station {
        stored: 6,
        next: 6,
        cell: 6,
        lengths: [length as u16; 7],
        method: 3,
        former: 4,
        older: 3,
    };
    let (mut out, mut value) = (vec![0; longest_line(Shape::ClearText, 0, length)], 0);
    in_turn((0..6).collect(), move |calls, number: &u8| {
        black_box(calls.send((3, 7), &station, &store, *number, &mut out, &mut value));
        black_box((&out, &value));
    })
}

/// New blocks of clear text told under method 3.
pub fn tell_block(random: &mut Random, length: usize) -> Case {
    let lines = several(length, || {
        written(&Form {
            shape: 4,
            ..form(random, (3, 0), length)
        })
    });
    let (mut out, mut answer) = (vec![0; length], [0; 6]);
    in_turn(lines, move |calls, line| {
        let mut receiver = awaiting(5, 3);
        black_box(calls.tell_block(&mut receiver, 5, line, &mut out, &mut answer));
        black_box((&receiver, &out, &answer));
    })
}

/// Texts in rows of d.
pub fn interleave(random: &mut Random, d: usize, length: usize) -> Case {
    let texts = several(length, || random.bytes(length));
    let mut out = vec![0; length];
    in_turn(texts, move |calls, text| {
        black_box(calls.interleave(d, text, &mut out));
        black_box(&out);
    })
}

/// Lines of rows of d.
pub fn deinterleave(random: &mut Random, d: usize, length: usize) -> Case {
    let lines = several(length, || random.bytes(length));
    let mut out = vec![0; length];
    in_turn(lines, move |calls, line| {
        black_box(calls.deinterleave(d, line, &mut out));
        black_box(&out);
    })
}

/// Traces of so many records, modulus 8, window 7: a third of each event, most
/// submissions short, the awaited number received as often as not.
pub fn replay_panel(random: &mut Random, records: usize) -> Case {
    let traces = several(16 * records, || {
        let mut trace = random.bytes(16 * records);
        let mut awaited = 0;
        for record in trace.chunks_mut(16) {
            record[0] = 1 + random.below(3) as u8;
            record[1] = random.below(8) as u8;
            record[2] = 0;
            record[3] = 16;
            if record[0] == 3 && random.once_in(2) {
                record[1] = awaited;
                awaited = (awaited + 1) % 8;
            }
        }
        trace
    });
    let (mut store, mut value) = (vec![0; 7 * CELL], 0);
    let (mut station, mut c) = (Station::default(), 0);
    in_turn(traces, move |calls, trace| {
        let end = (&mut station, &mut c);
        black_box(calls.replay_panel((3, 7), trace, &mut store, end, &mut value));
        black_box((&station, &c, &store, &value));
    })
}

/// Contents of fixed blocks.
pub fn write_fixed(random: &mut Random, degree: u8, length: usize) -> Case {
    let contents = several(length, || random.bytes(length));
    let (mut out, mut value) = (vec![0; length + 3], 0);
    in_turn(contents, move |calls, content| {
        black_box(calls.write_fixed(degree, content, &mut out, &mut value));
        black_box((&out, &value));
    })
}

/// Fixed blocks with so many bytes of content.
pub fn read_fixed(random: &mut Random, degree: u8, length: usize) -> Case {
    let blocks = several(length, || {
        let (mut block, mut value) = (vec![0; length + usize::from(degree) / 8], 0);
        let number = LIBRARY.write_fixed(degree, &random.bytes(length), &mut block, &mut value);
        assert_eq!(number, 0);
        block
    });
    let (mut out, mut value) = (vec![0; length], 0);
    in_turn(blocks, move |calls, block| {
        black_box(calls.read_fixed(degree, block, &mut out, &mut value));
        black_box((&out, &value));
    })
}

pub fn check(random: &mut Random, method: u8, length: usize) -> Case {
    in_turn(
        several(length, || random.bytes(length)),
        move |calls, content| {
            black_box(calls.check(method, content));
        },
    )
}

/// Any two checks, the second of a part of half to all of so many bytes, both
/// of so many together.
pub fn join(random: &mut Random, method: u8, length: usize) -> Case {
    let pairs = several(16, || {
        let second = length / 2 + random.below(length / 2 + 1);
        let lengths = (length - second, second);
        let mut part = |length| Part {
            check: random.next() as u32,
            length,
        };
        (part(lengths.0), part(lengths.1))
    });
    let mut value = 0;
    in_turn(pairs, move |calls, (first, second)| {
        black_box(calls.join(method, *first, *second, &mut value));
        black_box(&value);
    })
}

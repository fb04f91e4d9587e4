//! The fast peer behind the C interface: codes in, numbers out. KOI-7 is the
//! one code of signs that it knows.

use crate::calls::{Receiver, Station};
use crate::peer::signs::{Link, ENDS, METHODS, SHAPES};
use crate::peer::Refusal;
use crate::peer_fast::{self, Parts};
use std::slice;

/// Number and values of an answer; a refusal's value is the first.
unsafe fn answered<const N: usize>(answer: Result<[usize; N], Refusal>, values: *mut usize) -> u32 {
    let values = slice::from_raw_parts_mut(values, N);
    match answer {
        Ok(told) => {
            values.copy_from_slice(&told);
            0
        }
        Err(Refusal { number, value }) => {
            values.fill(0);
            values[0] = value;
            number
        }
    }
}

fn link(method: u8, parity: u8, code: u8) -> Option<Link> {
    let known = METHODS.contains(&method) && parity <= 1 && code == 0;
    known.then_some(Link::koi7(method, parity == 1))
}

const UNKNOWN_CODE: Refusal = Refusal {
    number: 1,
    value: 0,
};

/// A call of the interface: codes, then slices with their lengths, the last of
/// them the output, then the values of the answer.
macro_rules! call {
    ($name:ident($($code:ident: $kind:ty),*; $($lent:ident[$length:ident]),*; $out:ident[$room:ident]) $answer:expr) => {
        pub unsafe extern "C" fn $name(
            $($code: $kind,)*
            $($lent: *const u8, $length: usize,)*
            $out: *mut u8, $room: usize,
            values: *mut usize,
        ) -> u32 {
            $(let $lent = slice::from_raw_parts($lent, $length);)*
            let $out = slice::from_raw_parts_mut($out, $room);
            answered($answer, values)
        }
    };
}

call! { read_block(method: u8, parity: u8, code: u8; line[line_length]; out[room])
    match link(method, parity, code) {
        Some(link) => peer_fast::read_block(link, line, out),
        None => Err(UNKNOWN_CODE),
    }
}

call! { write_block(method: u8, parity: u8, code: u8, shape: u8, end_sign: u8; header[header_length], text[text_length]; out[room])
    match (link(method, parity, code), SHAPES.get(usize::from(shape).wrapping_sub(1))) {
        (Some(link), Some(&shape)) if ENDS.contains(&end_sign) => {
            let parts = Parts { link, shape, end_sign, header, text };
            peer_fast::write_block(&parts, out).map(|length| [length])
        }
        _ => Err(UNKNOWN_CODE),
    }
}

call! { read_frame(method: u8, bits: usize; lent[lent_length]; out[room])
    match method {
        5 | 6 => peer_fast::read_frame(method, bits, lent, out).map(|bits| [bits]),
        _ => Err(UNKNOWN_CODE),
    }
}

call! { write_frame(method: u8, claimed: usize; content[content_length]; out[room])
    match method {
        5 | 6 => peer_fast::write_frame(method, claimed, content, out).map(|bits| [bits]),
        _ => Err(UNKNOWN_CODE),
    }
}

pub unsafe extern "C" fn receive(n: u8, w: u8, c: u8, number: u8, answer: *mut u8) -> u32 {
    let (refusal, values) = match peer_fast::receive(n, w, c, number) {
        Ok((arrival, awaited)) => (0, [arrival as u8, awaited]),
        Err(refusal) => (refusal.number, [0, c]),
    };
    slice::from_raw_parts_mut(answer, 2).copy_from_slice(&values);
    refusal
}

/// Number and value of a sender's answer.
unsafe fn sent(answer: Result<u8, Refusal>, value: *mut usize) -> u32 {
    answered(answer.map(|told| [usize::from(told)]), value)
}

#[rustfmt::skip]
pub unsafe extern "C" fn submit(
    n: u8, w: u8, station: *mut Station, store: *mut u8, room: usize,
    block: *const u8, length: usize, value: *mut usize,
) -> u32 {
    let store = slice::from_raw_parts_mut(store, room);
    let block = slice::from_raw_parts(block, length);
    sent(peer_fast::submit((n, w), &mut *station, store, block), value)
}

#[rustfmt::skip]
pub unsafe extern "C" fn acknowledge(
    n: u8, w: u8, station: *mut Station, _: *const u8, room: usize, number: u8, value: *mut usize,
) -> u32 {
    sent(peer_fast::acknowledge((n, w), &mut *station, room, number), value)
}

fn ordered(method: u8) -> Result<(), Refusal> {
    match method {
        3 | 4 => Ok(()),
        _ => Err(UNKNOWN_CODE),
    }
}

#[rustfmt::skip]
pub unsafe extern "C" fn order(
    n: u8, w: u8, station: *mut Station, method: u8, value: *mut usize,
) -> u32 {
    let answer = ordered(method).and_then(|()| peer_fast::order((n, w), &mut *station, method));
    sent(answer, value)
}

#[rustfmt::skip]
pub unsafe extern "C" fn send(
    n: u8, w: u8, station: *const Station, store: *const u8, length: usize, number: u8,
    out: *mut u8, room: usize, value: *mut usize,
) -> u32 {
    let store = slice::from_raw_parts(store, length);
    let out = slice::from_raw_parts_mut(out, room);
    answered(peer_fast::send((n, w), &*station, store, number, out), value)
}

pub unsafe extern "C" fn tell_order(receiver: *mut Receiver, number: u8, method: u8) -> u32 {
    told(ordered(method).and_then(|()| peer_fast::tell_order(&mut *receiver, number, method)))
}

#[rustfmt::skip]
pub unsafe extern "C" fn tell_block(
    receiver: *mut Receiver, number: u8, line: *const u8, length: usize,
    out: *mut u8, room: usize, answer: *mut usize,
) -> u32 {
    let line = slice::from_raw_parts(line, length);
    let out = slice::from_raw_parts_mut(out, room);
    let answer = slice::from_raw_parts_mut(answer, 6);
    match peer_fast::tell_block(&mut *receiver, number, line, out) {
        Ok(values) => {
            answer.copy_from_slice(&values);
            0
        }
        Err(Refusal { number, value }) => {
            answer.fill(0);
            answer[1] = value;
            number
        }
    }
}

/// Number of an answer without a value.
fn told(answer: Result<(), Refusal>) -> u32 {
    answer.map_or_else(|refusal| refusal.number, |()| 0)
}

#[rustfmt::skip]
pub unsafe extern "C" fn interleave(
    d: usize, text: *const u8, length: usize, out: *mut u8, room: usize,
) -> u32 {
    let text = slice::from_raw_parts(text, length);
    told(peer_fast::interleave(d, text, slice::from_raw_parts_mut(out, room)))
}

#[rustfmt::skip]
pub unsafe extern "C" fn deinterleave(
    d: usize, line: *const u8, length: usize, out: *mut u8, room: usize,
) -> u32 {
    let line = slice::from_raw_parts(line, length);
    told(peer_fast::deinterleave(d, line, slice::from_raw_parts_mut(out, room)))
}

#[rustfmt::skip]
pub unsafe extern "C" fn replay_panel(
    n: u8, w: u8, trace: *const u8, length: usize, store: *mut u8, room: usize,
    station: *mut Station, c: *mut u8, value: *mut usize,
) -> u32 {
    let trace = slice::from_raw_parts(trace, length);
    let store = slice::from_raw_parts_mut(store, room);
    let end = peer_fast::replay_panel((n, w), trace, store);
    answered(end.map(|told| { (*station, *c) = told; [0] }), value)
}

call! { write_fixed(degree: u8; content[content_length]; out[room])
    peer_fast::write_fixed(degree, content, out).map(|length| [length])
}

call! { read_fixed(degree: u8; block[block_length]; out[room])
    peer_fast::read_fixed(degree, block, out).map(|length| [length])
}

pub unsafe extern "C" fn check_3(content: *const u8, length: usize) -> u16 {
    peer_fast::check_3(slice::from_raw_parts(content, length))
}

pub unsafe extern "C" fn check_4(content: *const u8, length: usize) -> u16 {
    peer_fast::check_4(slice::from_raw_parts(content, length))
}

pub unsafe extern "C" fn check_6(content: *const u8, length: usize) -> u32 {
    peer_fast::check_6(slice::from_raw_parts(content, length))
}

/// A joined check.
unsafe fn joined(answer: Result<u32, Refusal>, value: *mut usize) -> u32 {
    answered(answer.map(|check| [check as usize]), value)
}

#[rustfmt::skip]
pub unsafe extern "C" fn join_3(
    first: u16, first_length: usize, second: u16, second_length: usize, value: *mut usize,
) -> u32 {
    let (first, second) = ((u32::from(first), first_length), (u32::from(second), second_length));
    joined(peer_fast::join_3(first, second), value)
}

#[rustfmt::skip]
pub unsafe extern "C" fn join_4(
    first: u16, first_length: usize, second: u16, second_length: usize, value: *mut usize,
) -> u32 {
    let (first, second) = ((u32::from(first), first_length), (u32::from(second), second_length));
    joined(peer_fast::join_4(first, second), value)
}

#[rustfmt::skip]
pub unsafe extern "C" fn join_6(
    first: u32, first_length: usize, second: u32, second_length: usize, value: *mut usize,
) -> u32 {
    joined(peer_fast::join_6((first, first_length), (second, second_length)), value)
}

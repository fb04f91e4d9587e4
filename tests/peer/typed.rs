//! The typed calls of the bindings, held against the same expected answers.

use crate::corridor::{self, Arrival, BlockMethod, Code, EndSign, FrameMethod, Link, Parity};
use crate::corridor::{Refusal, Shape};
use crate::expected::Expected;
use crate::judge::{before, differ, Form, Settings};

/// The types of settings; none where a code is outside its list.
fn link(settings: Settings) -> Option<Link> {
    let method = match settings.method {
        1 => BlockMethod::Parity,
        2 => BlockMethod::Matrix,
        3 => BlockMethod::Cyclic,
        4 => BlockMethod::CyclicAlternative,
        7 => BlockMethod::Diagonal,
        _ => return None,
    };
    let parity = match settings.parity {
        0 => Parity::Even,
        1 => Parity::Odd,
        _ => return None,
    };
    let code = match settings.code {
        0 => Code::Koi7,
        1 => Code::Dkoi,
        _ => return None,
    };
    Some(Link {
        method,
        parity,
        code,
    })
}

fn shape(code: u8) -> Option<Shape> {
    use Shape::{ClearText, Header, HeaderClearText, HeaderText, Text};
    let shapes = [Header, Text, HeaderText, ClearText, HeaderClearText];
    shapes.into_iter().find(|shape| *shape as u8 == code)
}

fn end_sign(code: u8) -> Option<EndSign> {
    let signs = [EndSign::Etx, EndSign::Etb, EndSign::Us];
    signs.into_iter().find(|sign| *sign as u8 == code)
}

fn frame_method(code: u8) -> Option<FrameMethod> {
    let methods = [FrameMethod::Cyclic16, FrameMethod::Cyclic32];
    methods.into_iter().find(|method| *method as u8 == code)
}

/// Fails unless a typed call gave the expected values and output.
fn same(call: &str, expected: &Expected, got: Result<Vec<usize>, Refusal>, out: &[u8]) {
    let wanted = match expected.number {
        0 => Ok(expected.values.clone()),
        number => Err(Refusal {
            number,
            value: expected.values[0],
        }),
    };
    let mut whole = before(out.len());
    whole[..expected.out.len()].copy_from_slice(&expected.out);
    if got != wanted || out != whole {
        differ(
            call,
            "as the call by codes",
            &format!("{got:?}"),
            &format!("{wanted:?}"),
        );
    }
}

pub fn read_block(settings: Settings, line: &[u8], expected: &Expected, room: usize) {
    let Some(link) = link(settings) else {
        return;
    };
    let mut out = before(room);
    let got = corridor::read_block(link, line, &mut out).map(|block| {
        let form = [block.shape as usize, block.end_sign as usize];
        [
            &form[..],
            &[block.header_length, block.text_length, block.counted],
        ]
        .concat()
    });
    same("typed read_block", expected, got, &out);
}

pub fn write_block(form: Form, expected: &Expected, room: usize) {
    let (link, shape, sign) = (
        link(form.settings),
        shape(form.shape),
        end_sign(form.end_sign),
    );
    let (Some(link), Some(shape), Some(sign)) = (link, shape, sign) else {
        return;
    };
    let mut out = before(room);
    let Form { header, text, .. } = form;
    let got = corridor::write_block(link, (shape, sign), header, text, &mut out);
    same(
        "typed write_block",
        expected,
        got.map(|length| vec![length]),
        &out,
    );
}

pub fn read_frame(method: u8, bits: usize, lent: &[u8], expected: &Expected, room: usize) {
    let Some(method) = frame_method(method) else {
        return;
    };
    let mut out = before(room);
    let got = corridor::read_frame(method, bits, lent, &mut out);
    same(
        "typed read_frame",
        expected,
        got.map(|bits| vec![bits]),
        &out,
    );
}

/// Of so many bits of a content.
pub fn write_frame(
    method: u8,
    (claimed, content): (usize, &[u8]),
    expected: &Expected,
    room: usize,
) {
    let Some(method) = frame_method(method) else {
        return;
    };
    let mut out = before(room);
    let got = corridor::write_frame(method, claimed, content, &mut out);
    same(
        "typed write_frame",
        expected,
        got.map(|bits| vec![bits]),
        &out,
    );
}

pub fn receive((n, w, c): (u8, u8, u8), received: u8, (number, answer): (u32, [u8; 2])) {
    let arrival = match answer[0] {
        1 => Arrival::New,
        2 => Arrival::Repeat,
        _ => Arrival::Lost,
    };
    let wanted = match number {
        0 => Ok((arrival, answer[1])),
        _ => Err(Refusal { number, value: 0 }),
    };
    let got = corridor::receive(n, w, c, received);
    if got != wanted {
        let (library, peer) = (format!("{got:?}"), format!("{wanted:?}"));
        differ("typed receive", "as the call by codes", &library, &peer);
    }
}

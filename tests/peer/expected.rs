//! The peer's answers in the terms of the C interface.

use crate::judge::{Form, Settings};
use crate::peer::block::{self, Parts};
use crate::peer::signs::{Link, CODES, ENDS, METHODS, SHAPES};
use crate::peer::{bits, frame, number, Refusal};

/// What a call has to answer and what the output has to start with.
#[derive(Clone, Debug)]
pub struct Expected {
    pub number: u32,
    pub values: Vec<usize>,
    pub out: Vec<u8>,
    /// The number of the refusal where the output is too short.
    too_short: u32,
}

impl Expected {
    fn success(values: Vec<usize>, out: Vec<u8>, too_short: u32) -> Expected {
        Expected {
            number: 0,
            values,
            out,
            too_short,
        }
    }

    /// A refusal carries its value first, then zeros.
    fn refusal(refusal: Refusal, values: usize) -> Expected {
        let mut carried = vec![0; values];
        carried[0] = refusal.value;
        Expected {
            number: refusal.number,
            values: carried,
            out: Vec::new(),
            too_short: 0,
        }
    }

    /// A code outside its list.
    fn outside(values: usize) -> Expected {
        Expected::refusal(Refusal::plain(1), values)
    }

    /// The last question: does an output of `room` bytes hold the result?
    pub fn within(self, room: usize) -> Expected {
        if self.number == 0 && self.out.len() > room {
            let needed = Refusal::with(self.too_short, self.out.len());
            return Expected::refusal(needed, self.values.len());
        }
        self
    }
}

fn link(settings: Settings) -> Option<Link> {
    let (method, odd) = (settings.method, settings.parity == 1);
    let code = *CODES.get(usize::from(settings.code))?;
    let known = METHODS.contains(&method) && settings.parity <= 1;
    known.then_some(Link { method, odd, code })
}

pub fn read_block(settings: Settings, line: &[u8]) -> Expected {
    let Some(link) = link(settings) else {
        return Expected::outside(5);
    };
    match block::take(link, line) {
        Err(refusal) => Expected::refusal(refusal, 5),
        Ok(walked) => {
            let (header, text) = (walked.header.len(), walked.text.len());
            let form = [walked.shape.number(), usize::from(walked.end_sign)];
            let values = [&form[..], &[header, text, walked.counted.len()]].concat();
            Expected::success(values, [walked.header, walked.text].concat(), 19)
        }
    }
}

pub fn write_block(form: Form) -> Expected {
    let shape = usize::from(form.shape)
        .checked_sub(1)
        .and_then(|place| SHAPES.get(place));
    let (Some(link), Some(shape), true) =
        (link(form.settings), shape, ENDS.contains(&form.end_sign))
    else {
        return Expected::outside(1);
    };
    let (header, text) = (form.header.to_vec(), form.text.to_vec());
    let parts = Parts {
        link,
        shape: *shape,
        end_sign: form.end_sign,
        header,
        text,
    };
    match block::write(&parts) {
        Err(refusal) => Expected::refusal(refusal, 1),
        Ok(line) => Expected::success(vec![line.len()], line, 6),
    }
}

pub fn read_frame(method: u8, bits: usize, lent: &[u8]) -> Expected {
    if !(5..=6).contains(&method) {
        return Expected::outside(1);
    }
    match frame::take(method, bits, lent) {
        Err(refusal) => Expected::refusal(refusal, 1),
        Ok(content) => Expected::success(vec![content.len()], bits::to_bytes(&content), 38),
    }
}

pub fn write_frame(method: u8, claimed: usize, content: &[u8]) -> Expected {
    if !(5..=6).contains(&method) {
        return Expected::outside(1);
    }
    match frame::write(method, claimed, content) {
        Err(refusal) => Expected::refusal(refusal, 1),
        Ok(line) => Expected::success(vec![line.len()], bits::to_bytes(&line), 23),
    }
}

/// Number and answer; nothing is written, and nothing allocated, since this
/// call is tried more often than any other.
pub fn receive(n: u8, w: u8, c: u8, received: u8) -> (u32, [u8; 2]) {
    match number::receive(n, w, c, received) {
        Ok((arrival, awaited)) => (0, [arrival as u8, awaited]),
        Err(refusal) => (refusal.number, [0, c]),
    }
}

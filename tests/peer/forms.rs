//! What the forms of the calls can get wrong. They take 8 bytes of a content
//! at once and fold longer ones, 16 bytes of a line, 256 bytes of a part with
//! fill signs, and a byte of a frame behind the bits before it: lengths and
//! places around each of those borders are tried without a gap.

pub mod blocks;
pub mod checks;
pub mod fill;
pub mod frames;

use crate::lines;
use crate::peer::block::Parts;
use crate::peer::signs::{Link, Shape, Text, ENDS, SHAPES};
use crate::random::Random;

/// What header and text hold.
#[derive(Clone, Copy, PartialEq, Eq, Debug)]
enum Data {
    /// Characters above every sign: 16 of them pass the first, cheap test.
    Above,
    /// Characters beside the signs too: 16 of them need the exact test.
    Any,
}

const DATA: [Data; 2] = [Data::Above, Data::Any];

/// Every link, with each shape that it carries.
fn kinds() -> Vec<(Link, Shape)> {
    let carried = |link: Link| {
        let shapes = if link.seven_bits() { 3 } else { 5 };
        SHAPES.into_iter().take(shapes).map(move |s| (link, s))
    };
    lines::LINKS.into_iter().flat_map(carried).collect()
}

/// Parts of the told lengths; a part that the shape lacks stays empty.
fn parts(
    random: &mut Random,
    (link, shape): (Link, Shape),
    data: Data,
    (header, text): (usize, usize),
) -> Parts {
    let mut part = |there: bool, clear: bool, length: usize| -> Vec<u8> {
        let length = if there { length } else { 0 };
        (0..length)
            .map(|_| byte(random, link, data, clear))
            .collect()
    };
    let header = part(shape.header, false, header);
    let text = part(shape.text != Text::Absent, shape.text == Text::Clear, text);
    let end_sign = ENDS[(header.len() + text.len()) % ENDS.len()];
    Parts {
        link,
        shape,
        end_sign,
        header,
        text,
    }
}

fn byte(random: &mut Random, link: Link, data: Data, clear: bool) -> u8 {
    let above = 1 + link.code.values().into_iter().fold(0, u8::max);
    let end = if link.seven_bits() { 0x80 } else { 0x100 };
    match data {
        Data::Above => above + random.below(end - usize::from(above)) as u8,
        Data::Any if clear => lines::clear_byte(random, link),
        Data::Any => lines::character(random, link),
    }
}

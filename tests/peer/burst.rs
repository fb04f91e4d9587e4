//! Every burst at every place of short blocks and frames, and shorter or drawn
//! ones in longer blocks and frames: none is accepted with the same framing.

use crate::counts::Counts;
use crate::part_bytes::{numbered, BITS};
use crate::peer::bits::{flip, of_bytes};
use crate::peer::signs::Link;
use crate::random::Random;
use crate::specimen::Specimen;

/// Patterns that are drawn at random.
const DRAWN: u64 = 400_000;

/// Contents that end inside a byte are the first bits of these.
const CONTENTS: [u16; 3] = [0x0000, 0xFFFF, 0x1E5A];

/// The text or content of the longer blocks and frames: seven sixteens, and
/// every check folds some words of it.
const LONGER: usize = 112;

const MATRIX: [(&str, Link); 2] = [
    ("matrix, even", Link::koi7(2, false)),
    ("matrix, odd", Link::koi7(2, true)),
];

const CYCLIC: [(&str, Link); 4] = [
    ("method 3", Link::koi7(3, false)),
    ("method 4", Link::koi7(4, false)),
    ("method 3, DKOI", Link::dkoi(3)),
    ("method 4, DKOI", Link::dkoi(4)),
];

pub fn run() {
    println!("bursts in short blocks and frames");
    Counts::print_head();
    let plain = [0x01, 0x37, 0x16, 0x02, 0x52, 0x31, 0x03];
    let clear = [0x10, 0x02, 0x41, 0x10, 0x10, 0x42, 0x10, 0x17];
    for (name, link) in MATRIX {
        every(name, &Specimen::block(link, &plain), 9);
    }
    for (name, link) in CYCLIC {
        let plain = Specimen::block(link, &plain);
        every(&format!("{name}, header and text"), &plain, 16);
        let clear = Specimen::block(link, &clear);
        every(&format!("{name}, clear text"), &clear, 16);
    }
    every("method 5", &Specimen::frame(5, &[0x41, 0x7E]), 16);
    every("method 6", &Specimen::frame(6, &[0x41, 0x7E]), 16);
    drawn("method 6", &Specimen::frame(6, &[0x41, 0x7E, 0x00]), 17, 32);
    for (bits, number) in BITS
        .into_iter()
        .flat_map(|bits| CONTENTS.map(|n| (bits, n)))
    {
        let name = |method| format!("method {method}, the first {bits} of {number:04X}");
        every(&name(5), &numbered(5, bits, number), 16);
        let specimen = numbered(6, bits, number);
        every(&name(6), &specimen, 16);
        drawn(&name(6), &specimen, 17, 32);
    }
    longer();
}

/// Bursts in longer blocks and frames: every one of at most 8 bits, under the
/// matrix 9, and drawn ones of up to the width.
fn longer() {
    println!("bursts in blocks of {LONGER} text bytes and frames of {LONGER} content bytes");
    Counts::print_head();
    let bytes = [0x41, 0x54, 0x20, 0x7F, 0x29, 0x33];
    let text: Vec<u8> = bytes.into_iter().cycle().take(LONGER).collect();
    let plain = [&[0x02], &text[..], &[0x03]].concat();
    let clear = [&[0x10, 0x02], &text[..], &[0x10, 0x03]].concat();
    for (name, link) in MATRIX {
        every(name, &Specimen::block(link, &plain), 9);
    }
    let up_to = |name: &str, specimen: &Specimen, width| {
        every(name, specimen, 8);
        drawn(name, specimen, 9, width);
    };
    for (name, link) in CYCLIC {
        let plain = Specimen::block(link, &plain);
        up_to(&format!("{name}, plain text"), &plain, 16);
        let clear = Specimen::block(link, &clear);
        up_to(&format!("{name}, clear text"), &clear, 16);
    }
    for (bits, name) in [(0, ""), (1, " and a bit"), (7, " and 7 bits")] {
        let content = &of_bytes(&[&text[..], &[0x5A]].concat())[..8 * LONGER + bits];
        let method = |method| Specimen::frame_of_bits(method, content);
        up_to(&format!("method 5{name}"), &method(5), 16);
        up_to(&format!("method 6{name}"), &method(6), 32);
    }
}

/// Every burst of at most `width` bits at every place. A pattern is odd: its
/// low bit stands for the first bit of the burst, so no burst comes twice.
fn every(name: &str, specimen: &Specimen, width: usize) {
    let mut counts = Counts::default();
    let bits = specimen.checked.len();
    for start in 0..bits {
        let room = width.min(bits - start);
        for pattern in (1..1_u64 << room).step_by(2) {
            try_burst(specimen, start, pattern, &mut counts);
        }
    }
    counts.print(&format!("{name}, every pattern up to {width}"));
    assert_eq!(counts.same_framing, 0, "{specimen:?}");
}

/// Bursts of `least` to `width` bits, drawn at random.
fn drawn(name: &str, specimen: &Specimen, least: usize, width: usize) {
    let mut counts = Counts::default();
    let mut random = Random::of_seed(1989);
    for _ in 0..DRAWN {
        let length = least + random.below(width - least + 1);
        let start = random.below(specimen.checked.len() - length + 1);
        let inner = random.next() & ((1 << length) - 1);
        try_burst(specimen, start, inner | 1 | 1 << (length - 1), &mut counts);
    }
    counts.print(&format!("{name}, drawn patterns of {least} to {width}"));
    assert_eq!(counts.same_framing, 0, "{specimen:?}");
}

fn try_burst(specimen: &Specimen, start: usize, pattern: u64, counts: &mut Counts) {
    let mut line = specimen.line.clone();
    let mut out = [0; LONGER + 1];
    for offset in (0..64).filter(|offset| pattern >> offset & 1 == 1) {
        flip(&mut line, specimen.checked[start + offset]);
    }
    let accepted = specimen.reader.answer(&line, &mut out) == 0;
    counts.note(accepted, accepted && specimen.same_framing(&line));
}

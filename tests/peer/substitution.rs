//! Damage that turns one sign into another: each byte of each line is
//! replaced by every other value.

use crate::counts::Counts;
use crate::lines::LINKS;
use crate::part_bytes::{numbered, BITS};
use crate::peer::bits::of_bytes;
use crate::peer::signs::{Code, Link, DLE, ETX, SOH, STX};
use crate::property::may_differ;
use crate::specimen::{Reader, Specimen};

/// Characters of blocks that every method carries, then of clear blocks.
const PLAIN: [&[u8]; 7] = [
    &[0x01, 0x48, 0x45, 0x03],
    &[0x02, 0x54, 0x45, 0x58, 0x54, 0x17],
    &[0x01, 0x37, 0x42, 0x02, 0x52, 0x20, 0x31, 0x32, 0x1F],
    &[0x01, 0x16, 0x37, 0x16, 0x02, 0x16, 0x52, 0x16, 0x16, 0x03],
    &[0x02, 0x17],
    &[0x16, 0x16, 0x02, 0x54, 0x03],
    &[0x16, 0x01, 0x48, 0x02, 0x54, 0x17],
];
const CLEAR: [&[u8]; 4] = [
    &[
        0x10, 0x02, 0x41, 0x03, 0x10, 0x10, 0x16, 0x10, 0x16, 0xFF, 0x10, 0x03,
    ],
    &[
        0x01, 0x37, 0x16, 0x42, 0x10, 0x02, 0x01, 0x02, 0x10, 0x10, 0x10, 0x17,
    ],
    &[0x10, 0x02, 0x10, 0x1F],
    &[0x16, 0x10, 0x02, 0x41, 0x10, 0x03],
];
const CONTENTS: [&[u8]; 3] = [
    &[0x00],
    &[0xFF, 0x7E, 0x41],
    &[0x1F, 0xF8, 0x00, 0x3F, 0xFC],
];

/// Lengths of longer texts and contents: around one sixteen and two of the
/// walk, and where the checks start to fold (48, 64, 80) and behind.
const LONGER: [usize; 10] = [15, 16, 17, 31, 32, 33, 48, 64, 80, 100];

/// Characters above every sign, then some beside the signs, then any bytes.
const ABOVE: [u8; 5] = [0x41, 0x20, 0x7F, 0x52, 0x33];
const BESIDE: [u8; 5] = [0x00, 0x41, 0x1E, 0x11, 0x7F];
const ANY: [u8; 5] = [0xFF, 0x03, 0x41, 0x16, 0x90];

/// The lines and frames that are damaged.
pub fn specimens() -> Vec<Specimen> {
    let mut specimens = Vec::new();
    for link in LINKS {
        specimens.extend(PLAIN.map(|characters| Specimen::block(link, characters)));
        specimens.extend(LONGER.map(|length| longer(link, length)));
        if !link.seven_bits() {
            specimens.extend(CLEAR.map(|characters| Specimen::block(link, characters)));
            specimens.extend(LONGER.map(|length| longer_clear(link, length)));
        }
    }
    for method in [5, 6] {
        specimens.extend(CONTENTS.map(|content| Specimen::frame(method, content)));
        specimens.extend(LONGER.map(|length| Specimen::frame(method, &repeated(&ANY, length))));
        specimens.extend(BITS.map(|bits| numbered(method, bits, 0x1E5A)));
        specimens.extend(LONGER.map(|length| longer_in_part(method, length)));
    }
    specimens
}

fn repeated(bytes: &[u8], length: usize) -> Vec<u8> {
    bytes.iter().copied().cycle().take(length).collect()
}

/// A block with a text of that length; where the length is even, a header as
/// long stands before it, with characters beside the signs.
fn longer(link: Link, length: usize) -> Specimen {
    let text = [&[STX], &repeated(&ABOVE, length)[..], &[ETX]].concat();
    let mut line = Vec::new();
    if length % 2 == 0 {
        line = [&[SOH], &repeated(&BESIDE, length)[..]].concat();
    }
    line.extend(text);
    Specimen::block(link, &line)
}

/// A block with a clear text of that length, two DLE in its middle.
fn longer_clear(link: Link, length: usize) -> Specimen {
    let text = repeated(&ANY, length);
    let (first, second) = text.split_at(length / 2);
    let dle = [DLE, DLE];
    Specimen::block(
        link,
        &[&[DLE, STX], first, &dle, second, &[DLE, ETX]].concat(),
    )
}

/// A frame of so many bytes without one to seven bits of the last.
fn longer_in_part(method: u8, length: usize) -> Specimen {
    let content = of_bytes(&repeated(&ANY, length));
    Specimen::frame_of_bits(method, &content[..8 * length - 1 - length % 7])
}

pub fn run() {
    let specimens = specimens();
    println!(
        "one byte replaced by every other value, {} lines",
        specimens.len()
    );
    Counts::print_head();
    let koi7 = (1..=7).map(|method| (method, false));
    for (method, dkoi) in koi7.chain([(3, true), (4, true)]) {
        let mut counts = Counts::default();
        let of_kind = |one: &&Specimen| kind(one) == (method, dkoi);
        for specimen in specimens.iter().filter(of_kind) {
            counts.add(substitute(specimen));
        }
        assert!(counts.tried > 0 && counts.tried > counts.same_framing);
        let code = if dkoi { ", DKOI" } else { "" };
        counts.print(&format!("method {method}{code}"));
    }
}

/// The method of a specimen, and whether it is read under DKOI.
fn kind(specimen: &Specimen) -> (u8, bool) {
    let reader = specimen.reader;
    let dkoi = matches!(reader, Reader::Block(link) if link.code == Code::Dkoi);
    (reader.method(), dkoi)
}

/// Every substitution of one line: the library answers as the peer does, and
/// what it accepts with the same framing keeps the third property.
fn substitute(specimen: &Specimen) -> Counts {
    let mut counts = Counts::default();
    let mut line = specimen.line.clone();
    let mut out = vec![0; line.len()];
    for place in 0..line.len() {
        for change in 1..=255 {
            line[place] = specimen.line[place] ^ change;
            let answer = specimen.reader.answer(&line, &mut out);
            assert_eq!(
                answer,
                specimen.reader.peer_answer(&line),
                "{specimen:?} {line:02X?}"
            );
            let accepted = answer == 0;
            let same = accepted && specimen.same_framing(&line) && unequal(specimen, &line);
            counts.note(accepted, same);
        }
        line[place] = specimen.line[place];
    }
    counts
}

/// Whether an accepted line of the same framing is unequal in a told bit; it
/// then keeps the third property.
fn unequal(specimen: &Specimen, line: &[u8]) -> bool {
    let differing = specimen
        .differing(line)
        .expect("one framing: checked bits alone differ");
    let method = specimen.reader.method();
    assert!(may_differ(method, &differing), "{specimen:?} {line:02X?}");
    !differing.is_empty()
}

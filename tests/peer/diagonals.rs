//! Flipped bits in blocks of method 7: every two and every three of short
//! blocks, and every four that stand in two rows of two columns.

use crate::counts::Counts;
use crate::peer::bits::flip;
use crate::peer::signs::Link;
use crate::property::may_differ;
use crate::specimen::Specimen;

/// Two and three flipped bits: none is accepted with the same framing.
const SHORT: [&[u8]; 4] = [
    &[0x02, 0x03],
    &[0x01, 0x48, 0x17],
    &[0x02, 0x54, 0x68, 0x69, 0x03],
    &[0x16, 0x01, 0x37, 0x16, 0x02, 0x52, 0x31, 0x33, 0x1F],
];

/// 14 characters and an end sign, which are 15 counted bytes: with the row
/// check 16 columns.
const COLUMNS: usize = 16;
const TEXT: &[u8; 14] = b"Room 12 moved!";

pub fn run() {
    println!("method 7, flipped bits");
    Counts::print_head();
    for odd in [false, true] {
        let link = Link::koi7(7, odd);
        let name = if odd { "odd" } else { "even" };
        let mut few = Counts::default();
        for characters in SHORT {
            few.add(two_and_three(&Specimen::block(link, characters)));
        }
        assert_eq!(few.same_framing, 0, "{name}");
        few.print(&format!("{name}, two and three bits of short blocks"));
        let text = [&[0x02], &TEXT[..], &[0x03]].concat();
        rectangles(&Specimen::block(link, &text))
            .print(&format!("{name}, rectangles of four bits"));
    }
}

/// Flips these checked bits and reads: where the framing stays, the line is
/// taken exactly where the bits may differ.
fn try_flips(specimen: &Specimen, numbers: &[usize], counts: &mut Counts) {
    let mut line = specimen.line.clone();
    let mut out = vec![0; line.len()];
    for number in numbers {
        flip(&mut line, specimen.checked[*number]);
    }
    let answer = specimen.reader.answer(&line, &mut out);
    assert_eq!(answer, specimen.reader.peer_answer(&line), "{line:02X?}");
    let accepted = answer == 0;
    let same = specimen.same_framing(&line);
    let may = may_differ(7, numbers);
    assert!(!same || accepted == may, "{numbers:?}");
    counts.note(accepted, accepted && same);
}

fn two_and_three(specimen: &Specimen) -> Counts {
    let mut counts = Counts::default();
    let bits = specimen.checked.len();
    for first in 0..bits {
        for second in first + 1..bits {
            try_flips(specimen, &[first, second], &mut counts);
            for third in second + 1..bits {
                try_flips(specimen, &[first, second, third], &mut counts);
            }
        }
    }
    counts
}

/// Two rows, also the one of the parity bits, of two columns: taken exactly
/// where the columns are a multiple of 7 apart.
fn rectangles(specimen: &Specimen) -> Counts {
    assert_eq!(specimen.checked.len(), 8 * (COLUMNS + 1));
    let mut counts = Counts::default();
    let pairs = |n: usize| (0..n).flat_map(move |a| (a + 1..n).map(move |b| (a, b)));
    for (first, second) in pairs(COLUMNS) {
        for (low, high) in pairs(8) {
            let numbers = [first, second].map(|column| [8 * column + low, 8 * column + high]);
            try_flips(specimen, numbers.as_flattened(), &mut counts);
        }
    }
    assert!(counts.same_framing > 0);
    counts
}

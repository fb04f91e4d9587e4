//! Frames whose content ends inside a byte: every single bit and every two of
//! them flipped in every frame of 1, 7, 9 and 13 content bits, and every two
//! frames of up to 12 content bits beside each other.

use crate::corridor::codes;
use crate::counts::Counts;
use crate::peer::bits::{flip, of_bytes};
use crate::peer::frame;
use crate::property::may_differ;
use crate::specimen::Specimen;
use std::collections::HashMap;

/// Bits of the contents that are damaged.
pub const BITS: [usize; 4] = [1, 7, 9, 13];

/// Contents are put beside each other up to so many bits.
const LONGEST: usize = 12;

pub fn run() {
    println!("one and two flipped bits in frames of 1, 7, 9 and 13 content bits");
    Counts::print_head();
    for (method, bits) in [5, 6].into_iter().flat_map(|m| BITS.map(|bits| (m, bits))) {
        let (mut one, mut two) = (Counts::default(), Counts::default());
        for number in 0..1_u16 << bits {
            let specimen = numbered(method, bits, number);
            let checked = specimen.checked.len();
            for first in 0..checked {
                one.add(flipped(&specimen, &[first]));
                for second in first + 1..checked {
                    two.add(flipped(&specimen, &[first, second]));
                }
            }
        }
        one.print(&format!("method {method}, {bits} of content, one flipped"));
        two.print(&format!("method {method}, {bits} of content, two flipped"));
        assert_eq!(one.same_framing + two.same_framing, 0);
    }
    println!("every two frames of one framing and 1 to {LONGEST} content bits");
    for method in [5, 6] {
        println!("method {method}: {} pairs", beside(method));
    }
}

/// The frame of so many bits of a number.
pub fn numbered(method: u8, bits: usize, number: u16) -> Specimen {
    Specimen::frame_of_bits(method, &of_bytes(&number.to_le_bytes())[..bits])
}

/// The library's reader takes no frame with these checked bits flipped, unless
/// its framing is another.
fn flipped(specimen: &Specimen, numbers: &[usize]) -> Counts {
    let mut line = specimen.line.clone();
    for number in numbers {
        flip(&mut line, specimen.checked[*number]);
    }
    let accepted = specimen.reader.answer(&line, &mut [0; 4]) == 0;
    let mut counts = Counts::default();
    counts.note(accepted, accepted && specimen.same_framing(&line));
    counts
}

/// Every two frames that the library writes, of one length and framing, keep
/// the third property. Gives how many there were.
fn beside(method: u8) -> u64 {
    let mut pairs = 0;
    for bits in 1..=LONGEST {
        let mut framings: HashMap<_, Vec<u64>> = HashMap::new();
        for number in 0..1_u16 << bits {
            let (mut line, mut told) = ([0; 16], 0);
            let lent = number.to_le_bytes();
            let wrote = codes::write_frame(method, bits, &lent, &mut line, &mut told);
            let read = codes::read_frame(method, told, &line, &mut [0; 2], &mut 0);
            assert_eq!((wrote, read), (0, 0), "{bits} bits of {number:X}");
            let body = frame::frame(method, told, &line).expect("it was written");
            let checked = body.checked.iter().rev();
            let checked = checked.fold(0, |sum, bit| sum << 1 | u64::from(*bit));
            let alike = framings.entry((told, body.inserted)).or_default();
            for other in &*alike {
                let differing = |place: &usize| (checked ^ other) >> place & 1 == 1;
                let numbers: Vec<usize> = (0..64).filter(differing).collect();
                assert!(may_differ(method, &numbers), "{checked:X} {other:X}");
                pairs += 1;
            }
            alike.push(checked);
        }
    }
    pairs
}

//! Every pair of checked bits of a full content, by linearity: flipping a bit
//! changes the sum of the check received and the check computed, the syndrome,
//! by an amount that does not depend on the other bits. Two flipped bits pass
//! exactly where their syndromes are equal.

use crate::corridor;
use crate::counts::Counts;
use crate::peer::bits::flip;
use crate::property::PERIOD;
use crate::random::Random;

/// The bytes of a full content.
const FULL: usize = 4_096;

/// All pairs under each 16-bit check.
pub fn run() {
    println!("every pair of flipped bits of a full content, by linearity");
    Counts::print_head();
    for (method, check) in [
        (3, corridor::check_3 as fn(&[u8]) -> u16),
        (4, corridor::check_4),
        (5, corridor::check_5),
    ] {
        let syndromes = syndromes(check);
        let counts = pairs(&syndromes);
        let bits = syndromes.len();
        counts.print(&format!("method {method}, {bits} checked bits"));
        assert_eq!(counts.same_framing, (bits - PERIOD) as u64);
    }
}

/// The syndrome of each checked bit: those of the content, then those of the
/// check, whose bit 0 is sent first.
fn syndromes(check: fn(&[u8]) -> u16) -> Vec<u16> {
    let mut random = Random::of_seed(28_082);
    let mut content: Vec<u8> = (0..FULL).map(|_| random.below(256) as u8).collect();
    let sound = check(&content);
    let mut found = Vec::with_capacity(8 * FULL + 16);
    for place in 0..8 * FULL {
        flip(&mut content, place);
        found.push(check(&content) ^ sound);
        flip(&mut content, place);
    }
    found.extend((0..16).map(|bit| 1 << bit));
    found
}

/// All pairs: those with equal syndromes pass, and must be the period apart.
fn pairs(syndromes: &[u16]) -> Counts {
    let mut numbers: Vec<usize> = (0..syndromes.len()).collect();
    numbers.sort_by_key(|number| (syndromes[*number], *number));
    let mut counts = Counts {
        tried: (syndromes.len() * (syndromes.len() - 1) / 2) as u64,
        ..Counts::default()
    };
    for group in numbers.chunk_by(|a, b| syndromes[*a] == syndromes[*b]) {
        for (behind, first) in group.iter().enumerate() {
            for second in &group[behind + 1..] {
                assert_eq!(second - first, PERIOD, "bits {first} and {second} pass");
                counts.same_framing += 1;
            }
        }
    }
    counts.refused = counts.tried - counts.same_framing;
    counts
}

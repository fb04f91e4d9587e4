//! Damage to fixed blocks of the full length: one, two and three flipped bits
//! and every burst within the check's width. Of degree 8 only the two bits
//! 127 apart, the first and the last, are taken; of the others none.

use crate::corridor::codes;
use crate::peer::bits::flip;
use crate::peer::fixed::{Code, CODES};
use crate::random::Random;

/// Bursts drawn for degree 24, which has too many to try all.
const DRAWN: usize = 1_000_000;

/// Contents of which the blocks are damaged.
const CONTENTS: usize = 3;

/// A full block, written by the library.
struct Full {
    degree: u8,
    block: Vec<u8>,
    out: Vec<u8>,
    tried: u64,
}

impl Full {
    fn of(code: &Code, random: &mut Random) -> Full {
        let (degree, longest) = (code.degree() as u8, code.longest / 8);
        let content = random.bytes(longest - code.degree() / 8);
        let (mut block, mut value) = (vec![0; longest], 0);
        let number = codes::write_fixed(degree, &content, &mut block, &mut value);
        assert_eq!((number, value), (0, longest));
        Full {
            degree,
            block,
            out: vec![0; longest],
            tried: 0,
        }
    }

    fn bits(&self) -> usize {
        8 * self.block.len()
    }

    /// Whether the block is taken as it stands: 0, or 18.
    fn taken(&mut self) -> bool {
        let mut value = 0;
        let number = codes::read_fixed(self.degree, &self.block, &mut self.out, &mut value);
        assert!(number == 0 || number == 18, "{number}");
        self.tried += 1;
        number == 0
    }

    /// Whether it is taken with these bits changed, which are then put back.
    fn taken_with(&mut self, places: &[usize]) -> bool {
        places
            .iter()
            .for_each(|place| flip(&mut self.block, *place));
        let taken = self.taken();
        places
            .iter()
            .for_each(|place| flip(&mut self.block, *place));
        taken
    }

    /// Every single bit; every pair, taken exactly where `passes` says.
    fn pairs(&mut self, passes: fn(usize) -> bool) {
        for i in 0..self.bits() {
            assert!(!self.taken_with(&[i]), "bit {i}");
            for j in i + 1..self.bits() {
                assert_eq!(self.taken_with(&[i, j]), passes(j - i), "bits {i} {j}");
            }
        }
    }

    fn threes(&mut self) {
        for i in 0..self.bits() {
            for j in i + 1..self.bits() {
                for k in j + 1..self.bits() {
                    assert!(!self.taken_with(&[i, j, k]), "bits {i} {j} {k}");
                }
            }
        }
    }

    /// A burst from a place on; its pattern's low bit is its first.
    fn burst(&mut self, start: usize, pattern: u32) {
        let room = self.bits() - start;
        let places: Vec<usize> = (0..room.min(32))
            .filter(|bit| pattern >> bit & 1 == 1)
            .map(|bit| start + bit)
            .collect();
        assert!(!self.taken_with(&places), "burst {pattern:X} from {start}");
    }

    /// Every burst within the check's width, none twice: its first bit is set.
    fn bursts(&mut self) {
        for start in 0..self.bits() {
            let width = usize::from(self.degree).min(self.bits() - start);
            for pattern in (1..1_u32 << width).step_by(2) {
                self.burst(start, pattern);
            }
        }
    }

    fn drawn_bursts(&mut self, random: &mut Random) {
        for _ in 0..DRAWN {
            let start = random.below(self.bits());
            let pattern = random.next() as u32 & ((1 << self.degree) - 1) | 1;
            self.burst(start, pattern);
        }
    }
}

pub fn run() {
    println!("fixed blocks of the full length");
    let mut random = Random::of_seed(17_422);
    for code in &CODES {
        for _ in 0..CONTENTS {
            let mut full = Full::of(code, &mut random);
            assert!(full.taken());
            let last = full.bits() - 1;
            match full.degree {
                8 => {
                    full.pairs(|apart| apart == 127);
                    assert!(full.taken_with(&[0, last]));
                    full.threes();
                    full.bursts();
                }
                16 => {
                    full.pairs(|_| false);
                    full.threes();
                    full.bursts();
                }
                _ => {
                    full.pairs(|_| false);
                    full.drawn_bursts(&mut random);
                }
            }
            println!("degree {}: {} damaged blocks read", full.degree, full.tried);
        }
    }
}

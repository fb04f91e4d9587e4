//! Fixed blocks of GOST 17422-82, part 2, with the polynomials and limits of
//! document 02, card 11.

use super::division::Polynomial;
use super::{ask, bits, Refusal};

/// A polynomial's powers, the highest first, and the bits that a block with
/// its check has at most.
pub struct Code {
    pub generator: &'static [usize],
    pub longest: usize,
}

pub const CODES: [Code; 3] = [
    Code {
        generator: &[8, 2, 1, 0],
        longest: 128,
    },
    Code {
        generator: &[16, 15, 13, 11, 5, 3, 1, 0],
        longest: 128,
    },
    Code {
        generator: &[24, 22, 12, 10, 9, 2, 1, 0],
        longest: 2_048,
    },
];

/// The code of a degree in the list.
pub fn of_degree(degree: u8) -> Option<&'static Code> {
    CODES
        .iter()
        .find(|code| code.degree() == usize::from(degree))
}

impl Code {
    /// K, the bits of the check.
    pub fn degree(&self) -> usize {
        self.generator[0]
    }

    /// Par. 2.4: the inverted remainder of the content times x^K.
    fn check(&self, content: &[bool]) -> Vec<bool> {
        let k = self.degree();
        let remainder = Polynomial::of_sent(content)
            .times_x_to(k)
            .remainder(self.generator);
        remainder.plus(&Polynomial::ones(k)).sent()
    }

    /// The block of a content, for an output of so many bytes.
    pub fn write(&self, content: &[u8], room: usize) -> Result<Vec<u8>, Refusal> {
        let mut block = bits::of_bytes(content);
        ask(!block.is_empty(), Refusal::plain(64))?;
        let length = block.len() + self.degree();
        ask(length <= self.longest, Refusal::plain(65))?;
        ask(8 * room >= length, Refusal::with(6, length / 8))?;
        let check = self.check(&block);
        block.extend(check);
        Ok(bits::to_bytes(&block))
    }

    /// The content of a block, for an output of so many bytes.
    pub fn read(&self, block: &[u8], room: usize) -> Result<Vec<u8>, Refusal> {
        let block = bits::of_bytes(block);
        ask(block.len() > self.degree(), Refusal::plain(64))?;
        ask(block.len() <= self.longest, Refusal::plain(65))?;
        let (content, check) = block.split_at(block.len() - self.degree());
        ask(self.check(content) == check, Refusal::plain(18))?;
        let bytes = bits::to_bytes(content);
        ask(room >= bytes.len(), Refusal::with(19, bytes.len()))?;
        Ok(bytes)
    }
}

//! An independent implementation of the corridor line, written from the
//! rules alone: GOST 28082-89, the project's scope (document 01) and its
//! changes (document 02).
//!
//! It shares no code and no method with the library it is compared to. Checks
//! are divisions of polynomials as the appendices print them, a block is read
//! by a grammar with one function per field, and a frame is a vector of bits.

pub mod bits;
pub mod block;
pub mod diagonals;
pub mod division;
pub mod fixed;
pub mod frame;
pub mod grammar;
pub mod interleave;
pub mod join;
pub mod number;
pub mod receiver;
pub mod replay;
pub mod sender;
pub mod signs;

/// A question answered with "no": its number and the place or needed length
/// it carries, 0 where it carries none.
#[derive(Clone, Copy, PartialEq, Eq, Debug)]
pub struct Refusal {
    pub number: u32,
    pub value: usize,
}

impl Refusal {
    /// A refusal without place or length.
    pub fn plain(number: u32) -> Refusal {
        Refusal { number, value: 0 }
    }

    /// A refusal at a place, or with the number of bytes needed.
    pub fn with(number: u32, value: usize) -> Refusal {
        Refusal { number, value }
    }
}

/// Puts one question: "no" gives the refusal.
pub fn ask(answer: bool, refusal: Refusal) -> Result<(), Refusal> {
    if answer {
        Ok(())
    } else {
        Err(refusal)
    }
}

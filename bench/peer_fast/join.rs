//! Joined checks: x to the eight times 1, 2, 4 and so on stand in a table, and
//! those of the second part's length are multiplied.

use crate::peer::{ask, Refusal};

/// A polynomial of a degree below the generator's, bit 0 its highest power.
const fn times_x(generator: u32, a: u32) -> u32 {
    a >> 1 ^ if a & 1 == 1 { generator } else { 0 }
}

const fn times(generator: u32, one: u32, a: u32, mut b: u32) -> u32 {
    let (mut sum, mut power) = (0, one);
    while power != 0 {
        if a & power != 0 {
            sum ^= b;
        }
        b = times_x(generator, b);
        power >>= 1;
    }
    sum
}

/// A generator, x^0 and the powers of x by which whole bytes move a check up.
struct Powers {
    generator: u32,
    one: u32,
    moved: [u32; 17],
}

const fn powers(generator: u32, one: u32) -> Powers {
    let mut moved = [0; 17];
    let (mut power, mut bit) = (one, 0);
    while bit < 8 {
        power = times_x(generator, power);
        bit += 1;
    }
    let mut place = 0;
    while place < 17 {
        moved[place] = power;
        power = times(generator, one, power, power);
        place += 1;
    }
    Powers {
        generator,
        one,
        moved,
    }
}

static POWERS_3: Powers = powers(0x8408, 0x8000);
static POWERS_4: Powers = powers(0xA001, 0x8000);
static POWERS_6: Powers = powers(0xEDB8_8320, 0x8000_0000);

impl Powers {
    fn join(
        &self,
        limit: usize,
        first: (u32, usize),
        second: (u32, usize),
    ) -> Result<u32, Refusal> {
        let together = first.1.checked_add(second.1);
        ask(
            together.is_some_and(|bytes| bytes <= limit),
            Refusal::plain(63),
        )?;
        let (mut moved, mut length) = (first.0, second.1);
        for power in self.moved {
            if length & 1 == 1 {
                moved = times(self.generator, self.one, power, moved);
            }
            length >>= 1;
        }
        Ok(moved ^ second.0)
    }
}

/// Methods 3 and 5.
pub fn join_3(first: (u32, usize), second: (u32, usize)) -> Result<u32, Refusal> {
    POWERS_3.join(4_096, first, second)
}

pub fn join_4(first: (u32, usize), second: (u32, usize)) -> Result<u32, Refusal> {
    POWERS_4.join(4_096, first, second)
}

pub fn join_6(first: (u32, usize), second: (u32, usize)) -> Result<u32, Refusal> {
    POWERS_6.join(65_536, first, second)
}

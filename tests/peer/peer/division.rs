//! Cyclic checks as GOST 28082-89 prints them: whole polynomials modulo 2 are
//! built, multiplied by powers of x, added and divided.

use super::bits;

/// A polynomial modulo 2; the coefficient of x^i stands at index i.
#[derive(Clone, PartialEq, Eq, Debug)]
pub struct Polynomial(Vec<bool>);

impl Polynomial {
    /// The polynomial whose highest power is sent first.
    pub fn of_sent(sent: &[bool]) -> Polynomial {
        Polynomial(sent.iter().rev().copied().collect())
    }

    /// L(x): `terms` ones, from x^(terms - 1) down to 1.
    pub fn ones(terms: usize) -> Polynomial {
        Polynomial(vec![true; terms])
    }

    /// The product with x^power.
    pub fn times_x_to(&self, power: usize) -> Polynomial {
        let zeros = vec![false; power];
        Polynomial([&zeros[..], &self.0].concat())
    }

    /// The sum modulo 2.
    pub fn plus(mut self, other: &Polynomial) -> Polynomial {
        if self.0.len() < other.0.len() {
            self.0.resize(other.0.len(), false);
        }
        for (mine, theirs) in self.0.iter_mut().zip(&other.0) {
            *mine ^= *theirs;
        }
        self
    }

    /// The remainder of the division by the generator, with just as many
    /// coefficients as the generator's degree.
    pub fn remainder(mut self, generator: &[usize]) -> Polynomial {
        let degree = generator[0];
        for power in (degree..self.0.len()).rev() {
            if self.0[power] {
                let divided = &mut self.0[power - degree..=power];
                for term in generator {
                    divided[*term] ^= true;
                }
            }
        }
        self.0.resize(degree, false);
        self
    }

    /// The coefficients in the order sent, the highest power first.
    pub fn sent(&self) -> Vec<bool> {
        self.0.iter().rev().copied().collect()
    }
}

/// One way to form a check: the powers of the generator, highest first, and
/// whether L(x) is added to the content and the remainder is inverted.
pub struct Rule {
    pub generator: &'static [usize],
    pub ones: bool,
}

/// Appendix 1: methods 3 and 5.
pub const APPENDIX_1: Rule = Rule {
    generator: &[16, 12, 5, 0],
    ones: true,
};

/// Appendix 2 with the polynomial of par. 2.2.4: method 6.
pub const APPENDIX_2: Rule = Rule {
    generator: &[32, 26, 23, 22, 16, 12, 11, 10, 8, 7, 5, 4, 2, 1, 0],
    ones: true,
};

/// Appendix 3: method 4.
pub const APPENDIX_3: Rule = Rule {
    generator: &[16, 15, 2, 0],
    ones: false,
};

impl Rule {
    /// The number of bits of the check.
    pub fn width(&self) -> usize {
        self.generator[0]
    }

    /// The sender's check of the content, in the order sent: formulas (4) and
    /// (6), (10) and (12), or (16) and (17).
    pub fn check(&self, content: &[bool]) -> Vec<bool> {
        let remainder = self.divided(content);
        if self.ones {
            remainder.plus(&Polynomial::ones(self.width())).sent()
        } else {
            remainder.sent()
        }
    }

    /// The remainder of first·x^bits plus second, all in the order sent.
    pub fn joined(&self, first: &[bool], second: &[bool], bits: usize) -> Vec<bool> {
        let moved = Polynomial::of_sent(first).times_x_to(bits);
        let sum = moved.plus(&Polynomial::of_sent(second));
        sum.remainder(self.generator).sent()
    }

    /// The receiver's judgement of content and check as received: formulas
    /// (8), (14) or (19) give the one remainder of a sound line. It is worked
    /// out from x^width·L(x), since the constant printed in appendix 2 is not
    /// what its formula gives.
    pub fn accepts(&self, received: &[bool]) -> bool {
        self.divided(received) == self.sound()
    }

    /// The remainder of x^width·C(x), with x^k·L(x) added where ones are.
    fn divided(&self, content: &[bool]) -> Polynomial {
        let dividend = Polynomial::of_sent(content).times_x_to(self.width());
        let dividend = if self.ones {
            dividend.plus(&Polynomial::ones(self.width()).times_x_to(content.len()))
        } else {
            dividend
        };
        dividend.remainder(self.generator)
    }

    /// The receiver's remainder of every line without errors.
    fn sound(&self) -> Polynomial {
        let terms = if self.ones { self.width() } else { 0 };
        Polynomial::ones(terms)
            .times_x_to(self.width())
            .remainder(self.generator)
    }

    /// The check of whole bytes as a number, its first bit sent in bit 0.
    pub fn number(&self, content: &[u8]) -> u32 {
        number_of(&self.check(&bits::of_bytes(content)))
    }
}

/// The number whose bits these are, the first in bit 0.
pub fn number_of(check: &[bool]) -> u32 {
    let weigh = |(power, bit): (usize, &bool)| u32::from(*bit) << power;
    check.iter().enumerate().map(weigh).sum()
}

//! The signs and their values by code, the link's settings and the shapes of
//! a block.

/// A sign is named by its value in KOI-7, as the calls name the end signs.
pub const SOH: u8 = 0x01;
pub const STX: u8 = 0x02;
pub const ETX: u8 = 0x03;
pub const DLE: u8 = 0x10;
pub const SYN: u8 = 0x16;
pub const ETB: u8 = 0x17;
pub const US: u8 = 0x1F;

/// The seven signs.
pub const SIGNS: [u8; 7] = [SOH, STX, ETX, DLE, SYN, ETB, US];

/// The three signs that end a block.
pub const ENDS: [u8; 3] = [ETX, ETB, US];

/// The code of the signs (document 02, card 7).
#[derive(Clone, Copy, PartialEq, Eq, Debug)]
pub enum Code {
    Koi7,
    Dkoi,
}

pub const CODES: [Code; 2] = [Code::Koi7, Code::Dkoi];

impl Code {
    /// The values of the seven signs, in the order of `SIGNS`. They are what
    /// the code reserves.
    pub const fn values(self) -> [u8; 7] {
        match self {
            Code::Koi7 => [0x01, 0x02, 0x03, 0x10, 0x16, 0x17, 0x1F],
            Code::Dkoi => [0x01, 0x02, 0x03, 0x10, 0x32, 0x26, 0x1F],
        }
    }

    /// The value of a sign.
    pub fn value(self, sign: u8) -> u8 {
        let place = SIGNS.iter().position(|one| *one == sign);
        self.values()[place.expect("one of the seven signs")]
    }

    /// The sign that a character is, if it is one.
    pub fn sign(self, character: u8) -> Option<u8> {
        let values = self.values();
        let place = values.iter().position(|value| *value == character)?;
        Some(SIGNS[place])
    }
}

/// The methods of blocks.
pub const METHODS: [u8; 5] = [1, 2, 3, 4, 7];

/// What a link sets for all its blocks: method 1 to 4 or 7, the parity of
/// methods 1, 2 and 7, and the code.
#[derive(Clone, Copy, PartialEq, Eq, Debug)]
pub struct Link {
    pub method: u8,
    pub odd: bool,
    pub code: Code,
}

impl Link {
    pub const fn koi7(method: u8, odd: bool) -> Link {
        let code = Code::Koi7;
        Link { method, odd, code }
    }

    /// Under DKOI, where no byte has a parity.
    pub const fn dkoi(method: u8) -> Link {
        let (odd, code) = (false, Code::Dkoi);
        Link { method, odd, code }
    }

    /// Whether the method carries the code: 1, 2 and 7 carry KOI-7 alone.
    pub fn carries_code(self) -> bool {
        self.code == Code::Koi7 || !self.seven_bits()
    }

    /// Methods 1, 2 and 7 carry seven-bit characters under a parity bit.
    pub fn seven_bits(self) -> bool {
        [1, 2, 7].contains(&self.method)
    }

    /// Bytes of the check behind the end sign.
    pub fn check_bytes(self) -> usize {
        match self.method {
            1 => 0,
            2 => 1,
            _ => 2,
        }
    }

    /// The byte on the line for a character: with its parity in methods 1, 2, 7.
    pub fn sent(self, character: u8) -> u8 {
        let parity = character.count_ones() % 2 == u32::from(!self.odd);
        if self.seven_bits() {
            character | u8::from(parity) << 7
        } else {
            character
        }
    }

    /// The character of a byte of the line, its parity bit cleared.
    pub fn character(self, byte: u8) -> u8 {
        if self.seven_bits() {
            byte & 0x7F
        } else {
            byte
        }
    }

    /// Whether the ones of a byte are even or odd in number as the link wants.
    pub fn parity_right(self, byte: u8) -> bool {
        !self.seven_bits() || (byte.count_ones() % 2 == 1) == self.odd
    }
}

/// The text field of a block.
#[derive(Clone, Copy, PartialEq, Eq, Debug)]
pub enum Text {
    Absent,
    Plain,
    Clear,
}

/// The shape of a block: the fields it has.
#[derive(Clone, Copy, PartialEq, Eq, Debug)]
pub struct Shape {
    pub header: bool,
    pub text: Text,
}

/// The five shapes in the order of their numbers.
pub const SHAPES: [Shape; 5] = [
    Shape {
        header: true,
        text: Text::Absent,
    },
    Shape {
        header: false,
        text: Text::Plain,
    },
    Shape {
        header: true,
        text: Text::Plain,
    },
    Shape {
        header: false,
        text: Text::Clear,
    },
    Shape {
        header: true,
        text: Text::Clear,
    },
];

impl Shape {
    /// The signs before the header or, without one, before the text, and those
    /// between the two.
    pub fn starts(self) -> (&'static [u8], &'static [u8]) {
        match (self.header, self.text) {
            (true, Text::Absent) => (&[SOH], &[]),
            (true, Text::Plain) => (&[SOH], &[STX]),
            (true, Text::Clear) => (&[SOH], &[DLE, STX]),
            (false, Text::Clear) => (&[DLE, STX], &[]),
            (false, _) => (&[STX], &[]),
        }
    }

    /// The shape's number, 1 to 5.
    pub fn number(self) -> usize {
        let place = SHAPES.iter().position(|shape| *shape == self);
        1 + place.expect("a block has a header, a text or both")
    }
}

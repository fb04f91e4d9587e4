//! Checks that bytes enter one by one, the cyclic ones through a table.

const fn table(polynomial: u32) -> [u32; 256] {
    let mut table = [0; 256];
    let mut index = 0;
    while index < 256 {
        let mut entry = index as u32;
        let mut bit = 0;
        while bit < 8 {
            entry = entry >> 1 ^ if entry & 1 == 1 { polynomial } else { 0 };
            bit += 1;
        }
        table[index] = entry;
        index += 1;
    }
    table
}

static TABLE_1: [u32; 256] = table(0x8408);
static TABLE_2: [u32; 256] = table(0xEDB8_8320);
static TABLE_3: [u32; 256] = table(0xA001);
static TABLE_FIXED_8: [u32; 256] = table(0xE0);
static TABLE_FIXED_16: [u32; 256] = table(0xD415);
static TABLE_FIXED_24: [u32; 256] = table(0xE0_6802);

/// What counted bytes enter on the way through a line.
pub trait Check: Copy {
    /// Whether bytes are seven-bit characters under a parity bit.
    const SEVEN: bool;

    fn enter(&mut self, byte: u8);

    fn enter_all(&mut self, bytes: &[u8]) {
        for byte in bytes {
            self.enter(*byte);
        }
    }
}

/// Method 7: the sums of the rows, and the register of the diagonals, which
/// turns up by one row behind each byte.
#[derive(Clone, Copy)]
pub struct Sums {
    pub rows: u8,
    pub diagonals: u8,
}

impl Check for Sums {
    const SEVEN: bool = true;

    fn enter(&mut self, byte: u8) {
        self.rows ^= byte;
        let sum = (self.diagonals ^ byte) & 0x7F;
        self.diagonals = (sum << 1 | sum >> 6) & 0x7F;
    }
}

impl Sums {
    pub const NONE: Sums = Sums {
        rows: 0,
        diagonals: 0,
    };

    /// The characters of the row check and of the diagonals, which take the
    /// row check in last.
    pub fn characters(mut self) -> [u8; 2] {
        let rows = self.rows & 0x7F;
        self.enter(rows);
        [rows, self.diagonals]
    }
}

/// Methods 1 and 2: the sum modulo 2, bit by bit.
#[derive(Clone, Copy)]
pub struct Sum(pub u8);

impl Check for Sum {
    const SEVEN: bool = true;

    fn enter(&mut self, byte: u8) {
        self.0 ^= byte;
    }
}

/// A register, and the ones that are added at the end.
#[derive(Clone, Copy)]
pub struct Register {
    table: &'static [u32; 256],
    pub value: u32,
    ones: u32,
}

impl Check for Register {
    const SEVEN: bool = false;

    fn enter(&mut self, byte: u8) {
        let index = (self.value ^ u32::from(byte)) & 0xFF;
        self.value = self.table[index as usize] ^ self.value >> 8;
    }
}

impl Register {
    /// It starts as the ones that are added at the end.
    const fn of(table: &'static [u32; 256], ones: u32) -> Register {
        let value = ones;
        Register { table, value, ones }
    }

    /// It starts empty.
    const fn empty(table: &'static [u32; 256], ones: u32) -> Register {
        Register {
            table,
            value: 0,
            ones,
        }
    }

    /// The lowest so many bits of a byte, one by one.
    pub fn enter_low(&mut self, byte: u8, count: usize) {
        for power in 0..count {
            let differs = (self.value ^ u32::from(byte >> power)) & 1;
            let entry = self.table[0x80 * differs as usize];
            self.value = entry ^ self.value >> 1;
        }
    }

    /// The check of what has entered, its first bit sent in bit 0.
    pub fn check(self) -> u32 {
        self.value ^ self.ones
    }
}

/// Appendices 1 to 3, before the first byte.
pub const APPENDIX_1: Register = Register::of(&TABLE_1, 0xFFFF);
pub const APPENDIX_2: Register = Register::of(&TABLE_2, 0xFFFF_FFFF);
pub const APPENDIX_3: Register = Register::of(&TABLE_3, 0);

/// Fixed blocks, by degree.
pub const FIXED_8: Register = Register::empty(&TABLE_FIXED_8, 0xFF);
pub const FIXED_16: Register = Register::empty(&TABLE_FIXED_16, 0xFFFF);
pub const FIXED_24: Register = Register::empty(&TABLE_FIXED_24, 0xFF_FFFF);

fn whole(mut register: Register, content: &[u8]) -> u32 {
    register.enter_all(content);
    register.check()
}

pub fn check_3(content: &[u8]) -> u16 {
    whole(APPENDIX_1, content) as u16
}

pub fn check_4(content: &[u8]) -> u16 {
    whole(APPENDIX_3, content) as u16
}

pub fn check_6(content: &[u8]) -> u32 {
    whole(APPENDIX_2, content)
}

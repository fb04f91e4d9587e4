//! Characters with their parity bit, by a table.

const fn with_parity(odd: bool) -> [u8; 128] {
    let mut table = [0; 128];
    let mut character: u8 = 0;
    while character < 128 {
        let set = (character.count_ones() % 2 == 1) != odd;
        table[character as usize] = character | (set as u8) << 7;
        character += 1;
    }
    table
}

static EVEN: [u8; 128] = with_parity(false);
static ODD: [u8; 128] = with_parity(true);

/// The bytes of the 128 characters as the link sends them.
pub fn sent(odd: bool) -> &'static [u8; 128] {
    if odd {
        &ODD
    } else {
        &EVEN
    }
}

/// The byte that the link sends for the character of `byte`.
pub fn sent_byte(table: &[u8; 128], byte: u8) -> u8 {
    table[usize::from(byte & 0x7F)]
}

//! The diagonal character of method 7, by sums over rows and columns.

/// The bit in a row, 1 (the low bit) to 7, of a column.
fn bit(column: u8, row: usize) -> u8 {
    column >> (row - 1) & 1
}

/// The seven rows of the character that follows the row check: columns 1 to n
/// are the counted bytes, column n + 1 is the row check. Diagonal s sums the
/// bits whose row less column plus 1 equals s modulo 7, and stands in row
/// ((s + n) modulo 7) + 1.
pub fn character(counted: &[u8], row_check: u8) -> u8 {
    let n = counted.len();
    let columns = || (1..).zip(counted.iter().chain([&row_check]));
    let mut character = 0;
    for s in 1..=7_i64 {
        let mut sum = 0;
        for (column, byte) in columns() {
            for row in 1..=7 {
                if (row as i64 - column + 1 - s) % 7 == 0 {
                    sum ^= bit(*byte, row);
                }
            }
        }
        let row = (s as usize + n) % 7 + 1;
        character |= sum << (row - 1);
    }
    character
}

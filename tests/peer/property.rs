//! The owner's third property and document 02's card 5: how two accepted lines
//! of one framing differ.

/// Two checked bits so far apart pass a 16-bit check.
pub const PERIOD: usize = 32_767;

/// Whether two unequal accepted lines of one method, length and framing may
/// differ in just these checked bits, given by number in rising order.
pub fn may_differ(method: u8, numbers: &[usize]) -> bool {
    let (Some(first), Some(last)) = (numbers.first(), numbers.last()) else {
        return true;
    };
    let length = last - first + 1;
    match method {
        1 => numbers.len() >= 2,
        2 => numbers.len() >= 4 && length > 9,
        7 => match numbers {
            [a, b, c, d] => a / 8 == b / 8 && c / 8 == d / 8 && (c / 8 - a / 8) % 7 == 0,
            _ => numbers.len() >= 6,
        },
        6 => numbers.len() >= 3 && length > 32,
        _ => {
            let pair = numbers.len() != 2 || last - first == PERIOD;
            numbers.len() % 2 == 0 && length > 16 && pair
        }
    }
}

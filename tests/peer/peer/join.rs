//! The check of two parts joined: whole polynomials, moved up, added and
//! divided.

use super::division::{number_of, Rule, APPENDIX_1, APPENDIX_2, APPENDIX_3};
use super::{ask, Refusal};

/// A check as a number, and the length of its part in bytes.
#[derive(Clone, Copy, Debug)]
pub struct Part {
    pub check: u32,
    pub length: usize,
}

/// The rule of a method 3 to 6, and the most bytes of its content.
pub fn rule(method: u8) -> (&'static Rule, u128) {
    match method {
        3 | 5 => (&APPENDIX_1, 4_096),
        4 => (&APPENDIX_3, 4_096),
        6 => (&APPENDIX_2, 65_536),
        _ => unreachable!("method {method} has no check of this kind"),
    }
}

/// Question 63, then the remainder of the first check times x to the second
/// part's bits, plus the second check.
pub fn join(method: u8, first: Part, second: Part) -> Result<u32, Refusal> {
    let (rule, limit) = rule(method);
    let together = first.length as u128 + second.length as u128;
    ask(together <= limit, Refusal::plain(63))?;
    let sent = |part: Part| -> Vec<bool> {
        let bit = |power| part.check >> power & 1 == 1;
        (0..rule.width()).map(bit).collect()
    };
    let check = rule.joined(&sent(first), &sent(second), 8 * second.length);
    Ok(number_of(&check))
}

//! Fixed blocks, the check through a table.

use super::check::{Check, Register, FIXED_16, FIXED_24, FIXED_8};
use crate::peer::{ask, Refusal};

/// The register before the first byte, the bytes of the check and those of a
/// block at most.
fn code(degree: u8) -> Result<(Register, usize, usize), Refusal> {
    match degree {
        8 => Ok((FIXED_8, 1, 16)),
        16 => Ok((FIXED_16, 2, 16)),
        24 => Ok((FIXED_24, 3, 256)),
        _ => Err(Refusal::plain(1)),
    }
}

fn check(mut register: Register, content: &[u8]) -> [u8; 4] {
    register.enter_all(content);
    register.check().to_le_bytes()
}

pub fn write(degree: u8, content: &[u8], out: &mut [u8]) -> Result<usize, Refusal> {
    let (register, k, longest) = code(degree)?;
    ask(!content.is_empty(), Refusal::plain(64))?;
    let needed = content.len() + k;
    ask(needed <= longest, Refusal::plain(65))?;
    ask(needed <= out.len(), Refusal::with(6, needed))?;
    let (to_content, to_check) = out[..needed].split_at_mut(content.len());
    to_content.copy_from_slice(content);
    to_check.copy_from_slice(&check(register, content)[..k]);
    Ok(needed)
}

pub fn read(degree: u8, block: &[u8], out: &mut [u8]) -> Result<usize, Refusal> {
    let (register, k, longest) = code(degree)?;
    ask(block.len() > k, Refusal::plain(64))?;
    ask(block.len() <= longest, Refusal::plain(65))?;
    let (content, received) = block.split_at(block.len() - k);
    ask(
        received == &check(register, content)[..k],
        Refusal::plain(18),
    )?;
    ask(content.len() <= out.len(), Refusal::with(19, content.len()))?;
    out[..content.len()].copy_from_slice(content);
    Ok(content.len())
}

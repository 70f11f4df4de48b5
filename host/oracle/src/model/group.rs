//! The question whether a register group exists, and where it lies in the file.

use super::execute::{LMULS, VLENS};
use super::refusal::{is_multiple, smallest};

pub fn group_refusal(vlen: u32, file_len: usize, lmul: u32, reg: u32) -> u32 {
    smallest(&[
        (1, !VLENS.contains(&vlen) || file_len as u128 != 32 * vlen as u128 / 8),
        (3, !LMULS.contains(&lmul)),
        (6, reg > 31 || !is_multiple(reg, lmul)),
    ])
}

/// The number with the group's first byte and its length; 0 and 0 on a refusal.
pub fn group(vlen: u32, file_len: usize, lmul: u32, reg: u32) -> (u32, usize, usize) {
    let (register, vlen_bytes) = (reg as usize, vlen as usize / 8);
    match group_refusal(vlen, file_len, lmul, reg) {
        0 => (0, register * vlen_bytes, lmul as usize * vlen_bytes),
        refused => (refused, 0, 0),
    }
}

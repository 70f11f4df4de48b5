//! Inputs that several groups share.

use crate::model::field::{single, Block, ONE, ZERO};
use crate::report::Bytes;
use crate::rng::Rng;

pub const ALL_ONES: Block = [0xFF; 16];

/// A block: mostly random, often one of the special ones.
pub fn block(rng: &mut Rng) -> Block {
    match rng.below(12) {
        0 => ZERO,
        1 => ONE,
        2 => single(1),
        3 => ALL_ONES,
        4..=5 => single(rng.below_u32(128)),
        6 => sparse(rng),
        _ => rng.block(),
    }
}

/// A block of a few coefficients.
fn sparse(rng: &mut Rng) -> Block {
    let mut block = ZERO;
    for _ in 0..1 + rng.below(4) {
        block[rng.below(16)] ^= 1 << rng.below(8);
    }
    block
}

/// These bytes with one bit changed: bit k mod 8 of byte k div 8.
pub fn with_bit(bytes: &[u8], k: usize) -> Vec<u8> {
    let mut changed = bytes.to_vec();
    changed[k / 8] ^= 1 << (k % 8);
    changed
}

/// A length that is not 16.
pub fn odd_length(rng: &mut Rng) -> usize {
    match rng.below(8) {
        0..=1 => 0,
        2..=3 => 15,
        4..=5 => 17,
        6 => rng.pick(&[1, 4, 8, 12, 24, 32, 48, 64]),
        _ => 17 + rng.below(63),
    }
}

/// The block, or in so many of a thousand cases bytes of another length.
pub fn perhaps_odd(rng: &mut Rng, block: Block, per_thousand: usize) -> Bytes {
    if !rng.often(per_thousand) {
        return Bytes(block.to_vec());
    }
    let len = odd_length(rng);
    Bytes(rng.bytes(len))
}

/// What an out buffer holds before a call: anything, 16 bytes or in so many of a thousand cases another length.
pub fn out_before(rng: &mut Rng, per_thousand: usize) -> Bytes {
    let block = rng.block();
    perhaps_odd(rng, block, per_thousand)
}

/// What an out buffer holds after a call that returns this block: one that is not 16 bytes long is not written.
pub fn out_after(before: &Bytes, block: Block) -> Bytes {
    if before.0.len() == 16 {
        Bytes(block.to_vec())
    } else {
        before.clone()
    }
}

/// A message part's length, 0 to 4,096, mostly small or near a block boundary.
pub fn part_length(rng: &mut Rng) -> usize {
    match rng.below(12) {
        0..=1 => 0,
        2..=4 => rng.below(49),
        5..=7 => (16 * (1 + rng.below(8)) + rng.below(3)) - 1,
        8..=9 => rng.below(300),
        10 => rng.below(1200),
        _ => {
            let any = rng.below(4097);
            rng.pick(&[4096, 4095, 4081, 4080, any, any])
        }
    }
}

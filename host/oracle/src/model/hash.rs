//! GHASH of a whole message, over the list of all its padded blocks.

use super::field::{sixteen, step, Block, ZERO};
use super::refusal::{smallest, Returned};

/// The most bytes that A or C may have.
pub const LIMIT: usize = 1_048_576;

/// A part cut into blocks, the last one padded with zeros. An empty part has none.
pub fn padded(part: &[u8]) -> Vec<Block> {
    let block = |chunk: &[u8]| std::array::from_fn(|i| chunk.get(i).copied().unwrap_or(0));
    part.chunks(16).map(block).collect()
}

/// The bit lengths of A and C as two 64-bit big-endian numbers.
pub fn length_block(a_len: u64, c_len: u64) -> Block {
    (((8 * a_len as u128) << 64) | (8 * c_len as u128)).to_be_bytes()
}

pub fn absorb(y: Block, blocks: &[Block], h: &Block) -> Block {
    blocks.iter().fold(y, |y, x| step(&y, x, h))
}

pub fn ghash(h: &Block, a: &[u8], c: &[u8]) -> Block {
    let blocks = [padded(a), padded(c), vec![length_block(a.len() as u64, c.len() as u64)]].concat();
    absorb(ZERO, &blocks, h)
}

/// The call for a whole A and C.
pub fn ghash_call(key: &[u8], a: &[u8], c: &[u8], out_len: usize) -> Returned {
    let answer = smallest(&[(9, key.len() != 16 || out_len != 16), (11, a.len() > LIMIT || c.len() > LIMIT)]);
    Returned::new(answer, || ghash(&sixteen(key), a, c))
}

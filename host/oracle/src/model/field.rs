//! The GHASH field on blocks of 16 bytes.

use super::poly::Poly;
use super::refusal::{smallest, Returned};

pub type Block = [u8; 16];

pub const ZERO: Block = [0; 16];
pub const ONE: Block = [0x80, 0, 0, 0, 0, 0, 0, 0, 0, 0, 0, 0, 0, 0, 0, 0];

/// x^128 + x^7 + x^2 + x + 1, a value of 129 bits.
pub const MODULUS: Poly = Poly { high: 1, low: 0x87 };

/// A block as a polynomial: coefficient k becomes bit k.
pub fn to_bits(block: &Block) -> u128 {
    u128::from_le_bytes(block.map(u8::reverse_bits))
}

pub fn from_bits(bits: u128) -> Block {
    bits.to_le_bytes().map(u8::reverse_bits)
}

/// The block whose only coefficient is k.
pub fn single(k: u32) -> Block {
    let mut block = ZERO;
    block[k as usize / 8] = 1 << (7 - k % 8);
    block
}

pub fn xor(a: &Block, b: &Block) -> Block {
    std::array::from_fn(|i| a[i] ^ b[i])
}

pub fn times(u: &Block, h: &Block) -> Block {
    from_bits(Poly::product(to_bits(u), to_bits(h)).remainder(MODULUS).low)
}

/// One step of the hash: (Y xor X)·H.
pub fn step(y: &Block, x: &Block, h: &Block) -> Block {
    times(&xor(y, x), h)
}

/// h^(2^128 - 2), the inverse of every h but zero, by square and multiply.
pub fn inverse(h: &Block) -> Block {
    let exponent = u128::MAX - 1;
    let mut power = ONE;
    for k in (0..128).rev() {
        power = times(&power, &power);
        if exponent >> k & 1 == 1 {
            power = times(&power, h);
        }
    }
    power
}

/// The highest place with a nonzero coefficient, by document 01's words on places.
pub fn degree(block: &Block) -> Option<u32> {
    (0..128).rev().find(|&k| block[k as usize / 8] >> (7 - k % 8) & 1 == 1)
}

/// The call for one product.
pub fn product_call(key: &[u8], block: &[u8], out_len: usize) -> Returned {
    let answer = smallest(&[(9, key.len() != 16 || block.len() != 16 || out_len != 16)]);
    Returned::new(answer, || times(&sixteen(block), &sixteen(key)))
}

/// The call for the degree: the answer and the number that goes with it.
pub fn degree_call(block: &[u8]) -> (u32, u32) {
    let place = Block::try_from(block).ok().and_then(|b| degree(&b));
    let zero = block.len() == 16 && block.iter().all(|&b| b == 0);
    let answer = smallest(&[(9, block.len() != 16), (12, zero)]);
    (answer, place.unwrap_or(0))
}

/// A slice whose length is known to be 16.
pub fn sixteen(bytes: &[u8]) -> Block {
    bytes.try_into().expect("16 bytes")
}

//! The step back, by solving Y -> (Y xor X)·H = Y1 as a linear system. A zero H needs no case of its own.

use super::field::{from_bits, single, sixteen, step, to_bits, Block, ZERO};
use super::linear::{solve, Solutions};
use super::refusal::{smallest, Returned};

pub fn earlier(h: &Block, x: &Block, later: &Block) -> Solutions {
    let at_zero = to_bits(&step(&ZERO, x, h));
    let columns = std::array::from_fn(|k| to_bits(&step(&single(k as u32), x, h)) ^ at_zero);
    solve(&columns, to_bits(later) ^ at_zero)
}

/// The call for the step back.
pub fn step_back_call(key: &[u8], block: &[u8], later: &[u8], out_len: usize) -> Returned {
    let lengths = [key.len(), block.len(), later.len(), out_len];
    if lengths.iter().any(|&len| len != 16) {
        return Returned { answer: 9, block: ZERO };
    }
    let solutions = earlier(&sixteen(key), &sixteen(block), &sixteen(later));
    let answer = smallest(&[(12, solutions == Solutions::None), (13, solutions == Solutions::Many)]);
    Returned::new(answer, || match solutions {
        Solutions::One(y) => from_bits(y),
        _ => ZERO,
    })
}

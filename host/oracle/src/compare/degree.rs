//! rvghash_degree: each single coefficient, each place as the highest one, random blocks, zero and wrong lengths.

use super::inputs::{block, perhaps_odd};
use crate::ffi::rvghash_degree;
use crate::lent::{strays, Lent};
use crate::model::field::{degree_call, from_bits, single};
use crate::report::{Bytes, Group, Run, Seen};
use crate::rng::Rng;

struct Memory {
    block: Lent,
    degree: Lent,
}

impl Memory {
    fn call(&mut self, rng: &mut Rng, bytes: &Bytes) -> Seen<u32> {
        let block = self.block.lend(rng, &bytes.0);
        let before = rng.u32().to_ne_bytes();
        let degree = self.degree.lend_aligned(rng, &before, 4);
        // SAFETY: both pointers go with memory of the right length that nothing else uses.
        let answer = unsafe { rvghash_degree(block, bytes.0.len(), degree.cast()) };
        let left = u32::from_ne_bytes(self.degree.content().try_into().expect("4 bytes"));
        Seen { answer, left, stray: strays(&[&self.block, &self.degree]) }
    }
}

fn compare(group: &mut Group, memory: &mut Memory, rng: &mut Rng, bytes: Bytes) {
    let (answer, degree) = degree_call(&bytes.0);
    group.compare(&bytes, Seen::expected(answer, degree), || memory.call(rng, &bytes));
}

pub fn run(run: &Run) {
    let mut group = Group::new(run, "rvghash_degree");
    let mut memory = Memory { block: Lent::read("block", 80), degree: Lent::write("degree", 4) };
    let mut rng = group.rng(0);
    for k in 0..128 {
        compare(&mut group, &mut memory, &mut rng, Bytes(single(k).to_vec()));
    }
    for index in 1..=20_000 * run.factor {
        let mut rng = group.rng(index);
        let bits = u128::from_le_bytes(rng.block()) >> rng.below(128);
        let any = if rng.often(300) { block(&mut rng) } else { from_bits(bits) };
        let bytes = perhaps_odd(&mut rng, any, 50);
        compare(&mut group, &mut memory, &mut rng, bytes);
    }
    group.end(&[0, 9, 12]);
}

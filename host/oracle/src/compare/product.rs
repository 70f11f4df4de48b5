//! The two products: all pairs of single coefficients, and random and special values with right and wrong lengths.

use super::inputs::{block, out_after, out_before, perhaps_odd};
use crate::ffi::{Path, PATHS};
use crate::lent::{strays, Lent};
use crate::model::field::{product_call, single};
use crate::report::{Bytes, Group, Run, Seen};
use crate::rng::Rng;

#[derive(Debug)]
pub struct Case {
    pub path: Path,
    pub key: Bytes,
    pub block: Bytes,
    pub out: Bytes,
    /// Whether the block is lent from the key's memory; both are only read.
    pub one_memory: bool,
}

pub struct Memory {
    key: Lent,
    block: Lent,
    out: Lent,
}

impl Memory {
    pub fn new() -> Memory {
        Memory { key: Lent::read("key", 80), block: Lent::read("block", 80), out: Lent::write("out", 80) }
    }

    pub fn call(&mut self, rng: &mut Rng, c: &Case) -> Seen<Bytes> {
        let key = self.key.lend(rng, &c.key.0);
        let block = if c.one_memory { key } else { self.block.lend(rng, &c.block.0) };
        let out = self.out.lend(rng, &c.out.0);
        // SAFETY: each pointer goes with memory of the told length; only `out` may be written, and it stands alone.
        let answer = unsafe { c.path.product()(key, c.key.0.len(), block, c.block.0.len(), out, c.out.0.len()) };
        let stray = strays(&[&self.key, &self.block, &self.out]);
        Seen { answer, left: Bytes(self.out.content().to_vec()), stray }
    }
}

fn compare(group: &mut Group, memory: &mut Memory, rng: &mut Rng, c: &Case) {
    let model = product_call(&c.key.0, &c.block.0, c.out.0.len());
    let left = out_after(&c.out, model.block);
    group.compare(c, Seen::expected(model.answer, left), || memory.call(rng, c));
}

pub fn run(run: &Run) {
    let mut memory = Memory::new();
    single_coefficients(run, &mut memory);
    random(run, &mut memory);
}

fn single_coefficients(run: &Run, memory: &mut Memory) {
    let mut group = Group::new(run, "products plain and fast, all pairs of single coefficients");
    let mut rng = group.rng(0);
    for pair in 0..128 * 128 {
        let (key, block) = (Bytes(single(pair / 128).to_vec()), Bytes(single(pair % 128).to_vec()));
        for path in PATHS {
            let case =
                Case { path, key: key.clone(), block: block.clone(), out: out_before(&mut rng, 0), one_memory: false };
            compare(&mut group, memory, &mut rng, &case);
        }
    }
    group.end(&[0]);
}

fn random(run: &Run, memory: &mut Memory) {
    let mut group = Group::new(run, "products plain and fast, random");
    for index in 0..40_000 * run.factor {
        let mut rng = group.rng(index);
        let bad = rng.pick(&[0, 0, 0, 100]);
        let [key, block] = [0; 2].map(|_| block(&mut rng));
        let [key, block] = [key, block].map(|b| perhaps_odd(&mut rng, b, bad));
        let out = out_before(&mut rng, bad);
        let one_memory = rng.often(30);
        let block = if one_memory { key.clone() } else { block };
        for path in PATHS {
            let case = Case { path, key: key.clone(), block: block.clone(), out: out.clone(), one_memory };
            compare(&mut group, memory, &mut rng, &case);
        }
    }
    group.end(&[0, 9]);
}

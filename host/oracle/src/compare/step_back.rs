//! The step back, and each hash that it finds led forward again by both products.

use super::inputs::{block, out_after, out_before, perhaps_odd};
use super::product;
use crate::ffi::{rvghash_step_back, PATHS};
use crate::lent::{strays, Lent};
use crate::model::field::{inverse, single, sixteen, step, xor, ONE, ZERO};
use crate::model::refusal::Returned;
use crate::model::step_back::step_back_call;
use crate::report::{Bytes, Group, Run, Seen};
use crate::rng::Rng;

#[derive(Debug)]
pub struct Case {
    pub key: Bytes,
    pub block: Bytes,
    pub later: Bytes,
    pub out: Bytes,
}

struct Memory {
    key: Lent,
    block: Lent,
    later: Lent,
    out: Lent,
}

impl Memory {
    fn new() -> Memory {
        let [key, block, later] = ["key", "block", "later"].map(|name| Lent::read(name, 80));
        Memory { key, block, later, out: Lent::write("out", 80) }
    }

    fn call(&mut self, rng: &mut Rng, c: &Case) -> Seen<Bytes> {
        let key = self.key.lend(rng, &c.key.0);
        let block = self.block.lend(rng, &c.block.0);
        let later = self.later.lend(rng, &c.later.0);
        let out = self.out.lend(rng, &c.out.0);
        let [key_len, block_len, later_len, out_len] = [&c.key, &c.block, &c.later, &c.out].map(|bytes| bytes.0.len());
        // SAFETY: each pointer goes with memory of the told length that nothing else uses.
        let answer = unsafe { rvghash_step_back(key, key_len, block, block_len, later, later_len, out, out_len) };
        let stray = strays(&[&self.key, &self.block, &self.later, &self.out]);
        Seen { answer, left: Bytes(self.out.content().to_vec()), stray }
    }
}

pub fn run(run: &Run) {
    random(run);
    inverses(run);
}

fn random(run: &Run) {
    let mut back = Group::new(run, "rvghash_step_back, random");
    let mut forward = Group::new(run, "products plain and fast, the found hashes led forward");
    let (mut memory, mut product_memory) = (Memory::new(), product::Memory::new());
    for index in 0..24_000 * run.factor {
        let mut rng = back.rng(index);
        let case = any_case(&mut rng);
        let model = step_back_call(&case.key.0, &case.block.0, &case.later.0, case.out.0.len());
        let left = out_after(&case.out, model.block);
        back.compare(&case, Seen::expected(model.answer, left), || memory.call(&mut rng, &case));
        lead_forward(&mut forward, &mut product_memory, &mut rng, &case, &model);
    }
    back.end(&[0, 9, 12, 13]);
    forward.end(&[0]);
}

/// The later hash is any, or one that is known to be reached: from a Y that is any, or X itself.
pub fn any_case(rng: &mut Rng) -> Case {
    let (h, x, y) = (block(rng), block(rng), block(rng));
    let later = match rng.below(6) {
        0 => ZERO,
        1 => step(&x, &x, &h),
        2..=3 => step(&y, &x, &h),
        _ => block(rng),
    };
    let bad = rng.pick(&[0, 0, 0, 0, 100]);
    let [key, block, later] = [h, x, later].map(|b| perhaps_odd(rng, b, bad));
    Case { key, block, later, out: out_before(rng, bad) }
}

/// (Y xor X)·H must be the later hash by either of the library's products.
fn lead_forward(group: &mut Group, memory: &mut product::Memory, rng: &mut Rng, c: &Case, found: &Returned) {
    if found.answer != 0 {
        return;
    }
    let sum = xor(&found.block, &sixteen(&c.block.0));
    for path in PATHS {
        let out = out_before(rng, 0);
        let case = product::Case { path, key: c.key.clone(), block: Bytes(sum.to_vec()), out, one_memory: false };
        group.compare(&case, Seen::expected(0, c.later.clone()), || memory.call(rng, &case));
    }
}

/// With X zero and Y1 one, the step back gives the key's inverse; the model takes it as a power.
fn inverses(run: &Run) {
    let mut group = Group::new(run, "rvghash_step_back, inverses of single coefficients");
    let mut memory = Memory::new();
    let mut rng = group.rng(0);
    for k in 0..128 {
        let key = single(k);
        let [key_bytes, block, later] = [key, ZERO, ONE].map(|b| Bytes(b.to_vec()));
        let case = Case { key: key_bytes, block, later, out: out_before(&mut rng, 0) };
        let left = Bytes(inverse(&key).to_vec());
        group.compare(&case, Seen::expected(0, left), || memory.call(&mut rng, &case));
    }
    group.end(&[0]);
}

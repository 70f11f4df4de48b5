//! rvghash_group_refusal and rvghash_group, on a grid of allowed and other values and on random ones.

use super::execute_inputs::{BAD_LMULS, BAD_VLENS};
use crate::ffi::{rvghash_group, rvghash_group_refusal};
use crate::lent::{strays, Lent};
use crate::model::execute::{LMULS, VLENS};
use crate::model::group::{group, group_refusal};
use crate::report::{Group, Run, Seen};
use crate::rng::Rng;
use std::mem::size_of;

#[derive(Debug)]
struct Case {
    vlen: u32,
    file_len: usize,
    lmul: u32,
    reg: u32,
}

struct Memory {
    start: Lent,
    length: Lent,
}

impl Memory {
    fn new() -> Memory {
        let number = |name| Lent::write(name, size_of::<usize>());
        Memory { start: number("start"), length: number("length") }
    }

    fn call(&mut self, rng: &mut Rng, c: &Case) -> Seen<(usize, usize)> {
        let start = lend_number(&mut self.start, rng);
        let length = lend_number(&mut self.length, rng);
        // SAFETY: each pointer goes with memory for one number that nothing else uses.
        let answer = unsafe { rvghash_group(c.vlen, c.file_len, c.lmul, c.reg, start, length) };
        let left = (number_in(&self.start), number_in(&self.length));
        Seen { answer, left, stray: strays(&[&self.start, &self.length]) }
    }
}

pub fn lend_number(lent: &mut Lent, rng: &mut Rng) -> *mut usize {
    let before = rng.u64() as usize;
    lent.lend_aligned(rng, &before.to_ne_bytes(), size_of::<usize>()).cast()
}

pub fn number_in(lent: &Lent) -> usize {
    usize::from_ne_bytes(lent.content().try_into().expect("the bytes of a number"))
}

fn compare(out: &mut Group, memory: &mut Memory, rng: &mut Rng, c: &Case) {
    let model = group_refusal(c.vlen, c.file_len, c.lmul, c.reg);
    // SAFETY: no pointer is passed.
    let library = || unsafe { rvghash_group_refusal(c.vlen, c.file_len, c.lmul, c.reg) };
    out.compare(c, Seen::expected(model, ()), || Seen::expected(library(), ()));
    let (answer, start, length) = group(c.vlen, c.file_len, c.lmul, c.reg);
    out.compare(c, Seen::expected(answer, (start, length)), || memory.call(rng, c));
}

pub fn run(run: &Run) {
    grid(run);
    random(run);
}

fn grid(run: &Run) {
    let mut out = Group::new(run, "rvghash_group and its refusal, grid");
    let mut memory = Memory::new();
    let mut rng = out.rng(0);
    let registers = || (0..=40).chain([63, 64, 127, 128, 255, 256, 1 << 16, 1 << 31, u32::MAX - 7, u32::MAX]);
    for vlen in VLENS.into_iter().chain(BAD_VLENS) {
        let right = 4 * vlen as usize;
        for file_len in [right, right + 1, right.saturating_sub(1), 0, 512, 2048, right + (1 << 32), usize::MAX] {
            for lmul in LMULS.into_iter().chain(BAD_LMULS) {
                for reg in registers() {
                    compare(&mut out, &mut memory, &mut rng, &Case { vlen, file_len, lmul, reg });
                }
            }
        }
    }
    out.end(&[0, 1, 3, 6]);
}

fn random(run: &Run) {
    let mut out = Group::new(run, "rvghash_group and its refusal, random");
    let mut memory = Memory::new();
    for index in 0..50_000 * run.factor {
        let mut rng = out.rng(index);
        let vlen = if rng.often(100) { rng.u32() } else { rng.pick(&VLENS) };
        let file_len = if rng.often(100) { rng.u64() as usize } else { 4 * vlen as usize };
        let lmul = if rng.often(100) { rng.u32() } else { rng.pick(&LMULS) };
        let reg = if rng.often(100) { rng.u32() } else { rng.below_u32(48) };
        compare(&mut out, &mut memory, &mut rng, &Case { vlen, file_len, lmul, reg });
    }
    out.end(&[0, 1, 3, 6]);
}

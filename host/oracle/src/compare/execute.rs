//! rvghash_execute: at the limits of each setting, on all words that differ outside vd and vs2, on GHASH words with
//! every vd and vs2, on all pairs of 8-bit elements and all pairs of single bits of 64-bit ones, and on random input.

use super::execute_inputs::{any, on_any_file, single_bits, vlmax, words_and_settings, Case, MOST_FILE};
use crate::ffi::{rvghash_execute, rvghash_execute_policies};
use crate::lent::{strays, Lent};
use crate::model::execute::{execute, Policies, LMULS, VLENS};
use crate::model::word::{Row, TABLE};
use crate::report::{Bytes, Group, Hex, Run, Seen};
use crate::rng::Rng;

pub fn run(run: &Run) {
    let mut memory = Memory::new();
    at_limits(run, &mut memory);
    all_words(run, &mut memory);
    all_vd_and_vs2(run, &mut memory);
    all_bytes(run, &mut memory);
    all_bits(run, &mut memory);
    random(run, &mut memory);
}

#[derive(PartialEq, Debug)]
struct Left {
    vstart: u32,
    file: Bytes,
}

pub struct Memory {
    vstart: Lent,
    file: Lent,
}

impl Memory {
    pub fn new() -> Memory {
        Memory { vstart: Lent::write("vstart", 4), file: Lent::write("file", MOST_FILE) }
    }

    fn call(&mut self, rng: &mut Rng, c: &Case) -> Seen<Left> {
        let vstart = self.vstart.lend_aligned(rng, &c.vstart.to_ne_bytes(), 4).cast();
        let file = self.file.lend(rng, &c.file.0);
        let Case { vlen, sew, lmul, vl, .. } = *c;
        let (word, scalar, file_len) = (c.word.0 as u32, c.scalar.0, c.file.0.len());
        // SAFETY: both pointers go with memory of the told length that nothing else uses.
        let answer = unsafe {
            match c.policies {
                None => rvghash_execute(word, vlen, sew, lmul, vl, vstart, scalar, file, file_len),
                Some(Policies { tail_agnostic: ta, mask_agnostic: ma }) => {
                    rvghash_execute_policies(word, vlen, sew, lmul, ta, ma, vl, vstart, scalar, file, file_len)
                }
            }
        };
        let vstart = u32::from_ne_bytes(self.vstart.content().try_into().expect("4 bytes"));
        let left = Left { vstart, file: Bytes(self.file.content().to_vec()) };
        Seen { answer, left, stray: strays(&[&self.vstart, &self.file]) }
    }
}

pub fn compare(group: &mut Group, memory: &mut Memory, rng: &mut Rng, c: &Case) {
    let outcome = execute(&c.request());
    let left = Left { vstart: outcome.vstart, file: Bytes(outcome.file) };
    group.compare(c, Seen::expected(outcome.answer, left), || memory.call(rng, c));
}

fn random(run: &Run, memory: &mut Memory) {
    let mut group = Group::new(run, "rvghash_execute, random");
    for index in 0..240_000 * run.factor {
        let mut rng = group.rng(index);
        let case = any(&mut rng);
        compare(&mut group, memory, &mut rng, &case);
    }
    group.end(&[0, 1, 2, 3, 4, 5, 6, 7, 8]);
}

/// Each word under each setting, with vl and vstart at their limits and with register 31.
fn at_limits(run: &Run, memory: &mut Memory) {
    let mut group = Group::new(run, "rvghash_execute, at the limits");
    let mut rng = group.rng(0);
    for (row, setting) in words_and_settings() {
        limits_of_setting(&mut group, memory, &mut rng, row, setting);
    }
    group.end(&[0, 3, 4, 5, 6, 7, 8]);
}

fn limits_of_setting(g: &mut Group, m: &mut Memory, rng: &mut Rng, row: &Row, setting: [u32; 3]) {
    let [vlen, sew, lmul] = setting;
    let most = vlmax(vlen, sew, lmul);
    for vl in [0, 1, 4, 5, most.saturating_sub(4), most - 1, most, most + 1, most + 4] {
        for vstart in [0, 1, 4, vl] {
            for which_is_31 in 0..4 {
                let mut registers = [0; 3].map(|_| lmul * rng.below_u32(32 / lmul));
                if let Some(register) = registers.get_mut(which_is_31) {
                    *register = 31;
                }
                let [vd, vs2, vs1] = registers;
                let word = row.encode(rng.below_u32(2), vs2, vs1, vd);
                let case = on_any_file(rng, word, setting, vl, vstart);
                compare(g, m, rng, &case);
            }
        }
    }
}

/// Each funct6, vm, funct3 and opcode; each vs1 under the two opcodes that count, and 10001 and another one elsewhere.
fn all_words(run: &Run, memory: &mut Memory) {
    let mut group = Group::new(run, "rvghash_execute, all words but for vd and vs2");
    for index in 0..128 * 8 * 128 {
        let mut rng = group.rng(index);
        let (funct6_vm, funct3, opcode) = (index >> 10, index >> 7 & 7, index & 127);
        let all = opcode == 0b1010111 || opcode == 0b1110111;
        let vs1_fields = if all { (0..32).collect() } else { vec![0b10001, rng.below_u32(32) as u64] };
        let [vd, vs2] = [0; 2].map(|_| 1 + rng.below_u32(31) as u64);
        let file = Bytes(rng.bytes(512));
        for vs1 in vs1_fields {
            let word = Hex(funct6_vm << 25 | vs2 << 20 | vs1 << 15 | funct3 << 12 | vd << 7 | opcode);
            let (scalar, file) = (Hex(rng.u64()), file.clone());
            let case = Case { word, vlen: 128, sew: 32, lmul: 1, policies: None, vl: 4, vstart: 0, scalar, file };
            compare(&mut group, memory, &mut rng, &case);
        }
    }
    group.end(&[0, 2, 8]);
}

/// Each GHASH word with every vd and vs2, under each VLEN and LMUL: keys before, in and after vd's group among them.
fn all_vd_and_vs2(run: &Run, memory: &mut Memory) {
    let mut group = Group::new(run, "rvghash_execute, GHASH words with every vd and vs2");
    let mut rng = group.rng(0);
    for row in TABLE.iter().filter(|row| row.kind.is_ghash()) {
        for vlen in VLENS {
            for lmul in LMULS {
                all_vd_and_vs2_of_setting(&mut group, memory, &mut rng, row, [vlen, lmul]);
            }
        }
    }
    group.end(&[0, 6, 7]);
}

fn all_vd_and_vs2_of_setting(g: &mut Group, m: &mut Memory, rng: &mut Rng, row: &Row, [vlen, lmul]: [u32; 2]) {
    for vd_vs2 in 0..32 * 32 {
        let vs1 = lmul * rng.below_u32(32 / lmul);
        let word = row.encode(1, vd_vs2 % 32, vs1, vd_vs2 / 32);
        let vstart = rng.pick(&[0, 4]);
        let case = on_any_file(rng, word, [vlen, 32, lmul], vlmax(vlen, 32, lmul), vstart);
        compare(g, m, rng, &case);
    }
}

/// The product of each byte with each byte, low and high, by .vv and by .vx: vs2 counts up, vs1 and the scalar stand.
fn all_bytes(run: &Run, memory: &mut Memory) {
    let mut group = Group::new(run, "rvghash_execute, all pairs of 8-bit elements");
    let mut rng = group.rng(0);
    for row in TABLE.iter().filter(|row| !row.kind.is_ghash()) {
        for byte in 0..=255u8 {
            let mut file = rng.bytes(2048);
            file[512..1024].iter_mut().enumerate().for_each(|(i, b)| *b = i as u8);
            file[1024..1536].fill(byte);
            let word = Hex(row.encode(1, 8, 16, 24) as u64);
            let (scalar, file) = (Hex(rng.u64() << 8 | byte as u64), Bytes(file));
            let case = Case { word, vlen: 512, sew: 8, lmul: 8, policies: None, vl: 512, vstart: 0, scalar, file };
            compare(&mut group, memory, &mut rng, &case);
        }
    }
    group.end(&[0]);
}

/// The product of each single bit with each single bit at SEW 64, low and high, by .vv and by .vx.
fn all_bits(run: &Run, memory: &mut Memory) {
    let mut group = Group::new(run, "rvghash_execute, all pairs of single bits of 64-bit elements");
    let mut rng = group.rng(0);
    for case in single_bits(&mut rng) {
        compare(&mut group, memory, &mut rng, &case);
    }
    group.end(&[0]);
}

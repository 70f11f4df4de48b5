//! rvghash_execute_policies: each word under each setting with every vl, eight elements under every mask, and random
//! input.

use super::execute::{compare, Memory};
use super::execute_inputs::{any_with_policies, on_any_file, past_the_mask, vlmax, words_and_settings, Case};
use crate::model::execute::POLICIES;
use crate::model::word::TABLE;
use crate::report::{Group, Run};
use crate::rng::Rng;

pub fn run(run: &Run) {
    let mut memory = Memory::new();
    every_vl(run, &mut memory);
    every_mask(run, &mut memory);
    random(run, &mut memory);
}

fn under_each_policy(group: &mut Group, memory: &mut Memory, rng: &mut Rng, mut case: Case) {
    for policies in POLICIES {
        case.policies = Some(policies);
        compare(group, memory, rng, &case);
    }
}

/// Each word under each setting, masked where it may be and unmasked, with vl up to VLMAX and one more, and with vstart
/// 0, before vl, at it and past it.
fn every_vl(run: &Run, memory: &mut Memory) {
    let mut group = Group::new(run, "rvghash_execute_policies, every vl");
    let mut rng = group.rng(0);
    for (row, setting) in words_and_settings() {
        let [vlen, sew, lmul] = setting;
        let step = if row.kind.is_ghash() { 4 } else { 1 };
        for (vl, vm) in (0..=vlmax(vlen, sew, lmul) + 1).flat_map(|vl| [(vl, 0), (vl, 1)]) {
            let before = step * rng.below_u32((vl / step).max(1));
            let past = if rng.often(750) { vl + step * (1 + rng.below_u32(4)) } else { rng.u32() / step * step };
            for vstart in [0, before, vl.saturating_sub(step), vl, past] {
                let word = past_the_mask(&mut rng, row, vm, lmul);
                let case = on_any_file(&mut rng, word, setting, vl, vstart);
                under_each_policy(&mut group, memory, &mut rng, case);
            }
        }
    }
    group.end(&[0, 3, 4, 5, 7]);
}

/// Carry-less words of eight elements with every mask, vl and vstart.
fn every_mask(run: &Run, memory: &mut Memory) {
    const SETTING: [u32; 3] = [128, 16, 1];
    let mut group = Group::new(run, "rvghash_execute_policies, every mask of eight elements");
    let mut rng = group.rng(0);
    for mask in 0..=255 {
        for vl in 0..=8 {
            for vstart in 0..=9 {
                let row = &TABLE[rng.below(4)];
                let word = past_the_mask(&mut rng, row, 0, 1);
                let mut case = on_any_file(&mut rng, word, SETTING, vl, vstart);
                case.file.0[0] = mask;
                under_each_policy(&mut group, memory, &mut rng, case);
            }
        }
    }
    group.end(&[0]);
}

fn random(run: &Run, memory: &mut Memory) {
    let mut group = Group::new(run, "rvghash_execute_policies, random");
    for index in 0..120_000 * run.factor {
        let mut rng = group.rng(index);
        let case = any_with_policies(&mut rng);
        compare(&mut group, memory, &mut rng, &case);
    }
    group.end(&[0, 1, 2, 3, 4, 5, 6, 7, 8]);
}

//! Inputs for the executor. Each parameter may go wrong on its own, so that several refusals often apply at once.
//! A rate named `bad` is the number of wrong values in a thousand.

use super::inputs;
use crate::model::execute::{Policies, Request, LMULS, POLICIES, SEWS, UNDISTURBED, VLENS};
use crate::model::word::{Kind, Row, TABLE};
use crate::report::{Bytes, Hex};
use crate::rng::Rng;

#[derive(Debug)]
pub struct Case {
    pub word: Hex,
    pub vlen: u32,
    pub sew: u32,
    pub lmul: u32,
    /// Those that rvghash_execute_policies takes; none where rvghash_execute is called.
    pub policies: Option<Policies>,
    pub vl: u32,
    pub vstart: u32,
    pub scalar: Hex,
    pub file: Bytes,
}

impl Case {
    /// The case as the model takes it.
    pub fn request(&self) -> Request<'_> {
        Request {
            word: self.word.0 as u32,
            vlen: self.vlen,
            sew: self.sew,
            lmul: self.lmul,
            policies: self.policies.unwrap_or(UNDISTURBED),
            vl: self.vl,
            vstart: self.vstart,
            scalar: self.scalar.0,
            file: &self.file.0,
        }
    }
}

/// The longest file that `file` makes.
pub const MOST_FILE: usize = 2 * 8192;

/// 4·VLEN modulo 2^32 is an allowed file length in the three before the last.
#[rustfmt::skip]
pub const BAD_VLENS: [u32; 19] = [
    0, 1, 8, 32, 64, 127, 129, 192, 255, 257, 384, 511, 513, 1024, 2048, 0x4000_0080, 0x8000_0100, 0xC000_0200, u32::MAX,
];
const BAD_SEWS: [u32; 14] = [0, 1, 2, 4, 7, 9, 24, 31, 33, 48, 65, 128, 256, u32::MAX];
pub const BAD_LMULS: [u32; 10] = [0, 3, 5, 6, 7, 9, 16, 32, 0x0200_0001, u32::MAX];

/// Any case.
pub fn any(rng: &mut Rng) -> Case {
    let bad = rng.pick(&[0, 0, 0, 20, 60, 300]);
    let vlen = setting(rng, &VLENS, &BAD_VLENS, bad);
    let file = file(rng, vlen, bad);
    Case { file, ..call(rng, vlen, bad) }
}

/// Any case with policies.
pub fn any_with_policies(rng: &mut Rng) -> Case {
    Case { policies: Some(rng.pick(&POLICIES)), ..any(rng) }
}

/// Any call under this VLEN, with no file yet.
pub fn call(rng: &mut Rng, vlen: u32, bad: usize) -> Case {
    let row = &TABLE[rng.below(8)];
    let lmul = setting(rng, &LMULS, &BAD_LMULS, bad);
    let any_sew = setting(rng, &SEWS, &BAD_SEWS, bad);
    let sew = if row.kind.is_ghash() && !rng.often(bad) { 32 } else { any_sew };
    let step = if row.kind.is_ghash() { 4 } else { 1 };
    let vl = vl(rng, vlmax(vlen, sew, lmul), step, sew, bad);
    let vstart = vstart(rng, vl, step, bad);
    let [vd, vs2, vs1] = registers(rng, row.kind, lmul, bad);
    let word = row.encode(rng.below_u32(2), vs2, vs1, vd);
    Case {
        word: Hex(damaged(rng, word, bad) as u64),
        vlen,
        sew,
        lmul,
        policies: None,
        vl,
        vstart,
        scalar: Hex(scalar(rng)),
        file: Bytes(vec![]),
    }
}

/// Each word under each VLEN, SEW and LMUL.
pub fn words_and_settings() -> Vec<(&'static Row, [u32; 3])> {
    let mut all = Vec::new();
    for row in &TABLE {
        for vlen in VLENS {
            for sew in SEWS {
                all.extend(LMULS.map(|lmul| (row, [vlen, sew, lmul])));
            }
        }
    }
    all
}

/// This word with any scalar and on any file.
pub fn on_any_file(rng: &mut Rng, word: u32, [vlen, sew, lmul]: [u32; 3], vl: u32, vstart: u32) -> Case {
    let (scalar, file) = (Hex(scalar(rng)), content(rng, 32 * vlen as usize / 8, vlen));
    Case { word: Hex(word as u64), vlen, sew, lmul, policies: None, vl, vstart, scalar, file }
}

/// A word whose groups lie past register 0, so that it may have a mask.
pub fn past_the_mask(rng: &mut Rng, row: &Row, vm: u32, lmul: u32) -> u32 {
    let [vd, vs2, vs1] = [0; 3].map(|_| lmul * (1 + rng.below_u32(32 / lmul - 1)));
    row.encode(vm, vs2, vs1, vd)
}

/// Each word at the SEW at which a core with Zvbc and Zvkg may have it, under each VLEN, LMUL and policies, masked and
/// unmasked where it may be either: vl below VLMAX where there is room, and at it, from element 0 and from any on.
pub fn under_policies(rng: &mut Rng) -> Vec<Case> {
    let mut cases = Vec::new();
    for (row, setting) in words_and_settings() {
        let ([vlen, sew, lmul], is_ghash) = (setting, row.kind.is_ghash());
        if sew != if is_ghash { 32 } else { 64 } {
            continue;
        }
        let (step, most) = (if is_ghash { 4 } else { 1 }, vlmax(vlen, sew, lmul));
        let vms = row.vm.map_or(vec![0, 1], |vm| vec![vm]);
        for (policies, vm) in POLICIES.into_iter().flat_map(|policies| vms.iter().map(move |&vm| (policies, vm))) {
            let below = step * (1 + rng.below_u32((most / step - 1).max(1)));
            for vl in [below, most] {
                for vstart in [0, step * rng.below_u32(vl / step + 1)] {
                    let word = past_the_mask(rng, row, vm, lmul);
                    let case = on_any_file(rng, word, setting, vl, vstart);
                    cases.push(Case { policies: Some(policies), ..case });
                }
            }
        }
    }
    cases
}

/// A VLEN and a file of which one at least is not allowed.
pub fn not_allowed(rng: &mut Rng) -> (u32, Bytes) {
    let (bad_vlen, bad_file) = rng.pick(&[(1000, 0), (1000, 300), (0, 1000)]);
    let vlen = setting(rng, &VLENS, &BAD_VLENS, bad_vlen);
    (vlen, file(rng, vlen, bad_file))
}

/// The 64-bit product of a single bit with each single bit: for each carry-less word and each bit of the multiplier one
/// word, whose element i of vs2 is bit i alone.
pub fn single_bits(rng: &mut Rng) -> Vec<Case> {
    let mut cases = Vec::new();
    for row in TABLE.iter().filter(|row| !row.kind.is_ghash()) {
        for bit in 0..64 {
            let mut file = rng.bytes(2048);
            for i in 0..64 {
                file[512 + 8 * i..][..8].copy_from_slice(&(1u64 << i).to_le_bytes());
                file[1024 + 8 * i..][..8].copy_from_slice(&(1u64 << bit).to_le_bytes());
            }
            let word = Hex(row.encode(1, 8, 16, 24) as u64);
            let (scalar, file) = (Hex(1 << bit), Bytes(file));
            cases.push(Case { word, vlen: 512, sew: 64, lmul: 8, policies: None, vl: 64, vstart: 0, scalar, file });
        }
    }
    cases
}

/// .vs words with the key in the first and the last register of vd's group, which are refused, and in those before and
/// after it, which are done.
pub fn keys_at_group(rng: &mut Rng) -> Vec<Case> {
    const VD: u32 = 8;
    let mut cases = Vec::new();
    for row in TABLE.iter().filter(|row| row.kind.is_vs()) {
        for vlen in VLENS {
            for lmul in LMULS {
                let mut keys = vec![VD - 1, VD, VD + lmul - 1, VD + lmul];
                keys.dedup(); // at LMUL 1 the first register is the last
                for vs2 in keys {
                    let word = Hex(row.encode(1, vs2, 24, VD) as u64);
                    let (vl, scalar) = (vlmax(vlen, 32, lmul), Hex(rng.u64()));
                    let file = Bytes(rng.bytes(32 * vlen as usize / 8));
                    cases.push(Case { word, vlen, sew: 32, lmul, policies: None, vl, vstart: 0, scalar, file });
                }
            }
        }
    }
    cases
}

/// One of the allowed values, or another one.
fn setting(rng: &mut Rng, allowed: &[u32], others: &[u32], bad: usize) -> u32 {
    match (rng.often(bad), rng.below(4)) {
        (false, _) => rng.pick(allowed),
        (true, 0) => rng.u32(),
        (true, _) => rng.pick(others),
    }
}

/// VLMAX where the settings are allowed, else a number as good as any.
pub fn vlmax(vlen: u32, sew: u32, lmul: u32) -> u32 {
    if VLENS.contains(&vlen) && SEWS.contains(&sew) && LMULS.contains(&lmul) {
        lmul * vlen / sew
    } else {
        16
    }
}

fn vl(rng: &mut Rng, vlmax: u32, step: u32, sew: u32, bad: usize) -> u32 {
    if !rng.often(bad) {
        return match rng.below(8) {
            0 => step.min(vlmax),
            1..=2 => vlmax,
            3 => vlmax.saturating_sub(step),
            _ => step * rng.below_u32(vlmax / step + 1),
        };
    }
    match rng.below(8) {
        0..=1 => vlmax + 1,
        2 => vlmax + step,
        3 => rng.pick(&[1, 2, 3, 5]),
        4 => rng.below_u32(vlmax + 1),
        // vl·SEW is just past 2^32.
        5 => ((1u64 << 32) / sew.max(2) as u64) as u32 + rng.below_u32(8),
        6 => rng.pick(&[u32::MAX, u32::MAX - 3, 1 << 31]),
        _ => rng.u32(),
    }
}

fn vstart(rng: &mut Rng, vl: u32, step: u32, bad: usize) -> u32 {
    let right = match rng.below(12) {
        0..=4 => 0,
        5..=8 => rng.below((vl / step) as usize + 1) as u32 * step,
        9 => vl,
        10 => vl.saturating_add(step * (1 + rng.below_u32(4))),
        _ => rng.u32() / step * step,
    };
    match (rng.often(bad), rng.below(3)) {
        (false, _) => right,
        (true, 0) => rng.u32(),
        (true, 1) => u32::MAX - rng.below_u32(8),
        (true, _) => right.saturating_add(1 + rng.below_u32(3)),
    }
}

/// vd, vs2 and vs1, with every kind of overlap.
fn registers(rng: &mut Rng, kind: Kind, lmul: u32, bad: usize) -> [u32; 3] {
    let lmul = if LMULS.contains(&lmul) { lmul } else { 1 };
    let [mut vd, mut vs2, mut vs1] = [0; 3].map(|_| register(rng, lmul, bad));
    if kind.is_vs() {
        vs2 = rng.below_u32(32);
    }
    if kind.is_vx() {
        vs1 = rng.below_u32(32);
    }
    match rng.below(20) {
        0..=1 => vs1 = vd,
        2 => vs2 = vd,
        3 => vs1 = vs2,
        4 => (vs2, vs1) = (vd, vd),
        5 if kind.is_vs() => vs2 = (vd + rng.below_u32(lmul)) % 32,
        6..=7 if kind.is_vs() => vs2 = (vd + rng.pick(&[31, lmul])) % 32, // just before vd's group, or just after it
        8 => vs1 = 0,
        9 => vs2 = 0,
        10 => vd = 0,
        _ => {}
    }
    [vd, vs2, vs1]
}

/// A multiple of LMUL, or any register, 31 above all.
fn register(rng: &mut Rng, lmul: u32, bad: usize) -> u32 {
    match (rng.often(bad), rng.below(3)) {
        (false, _) => lmul * rng.below_u32(32 / lmul),
        (true, 0) => 31,
        (true, _) => rng.below_u32(32),
    }
}

/// The word, or one with a few bits flipped, or any 32 bits.
fn damaged(rng: &mut Rng, word: u32, bad: usize) -> u32 {
    match (rng.often(bad), rng.below(4)) {
        (false, _) => word,
        (true, 0) => rng.u32(),
        (true, _) => (0..1 + rng.below(3)).fold(word, |w, _| w ^ 1 << rng.below(32)),
    }
}

pub fn scalar(rng: &mut Rng) -> u64 {
    match rng.below(8) {
        0 => rng.pick(&[0, 1, u64::MAX, 1 << 63]),
        1 => 1 << rng.below(64),
        2 => rng.u64() << rng.pick(&[8, 16, 32]),
        _ => rng.u64(),
    }
}

/// A file, mostly of the right length for VLEN.
fn file(rng: &mut Rng, vlen: u32, bad: usize) -> Bytes {
    let right = if vlen <= 2048 { 32 * vlen as usize / 8 } else { rng.pick(&[512, 1024, 2048]) };
    let len = match (rng.often(bad), rng.below(6)) {
        (false, _) => right,
        (true, 0) => 0,
        (true, 1) => right / 2,
        (true, 2) => right * 2,
        (true, 3) => right + 1,
        (true, _) => right.saturating_sub(1),
    };
    content(rng, len, vlen)
}

/// So many bytes of file content: random, plain or special blocks, with a mask of any kind in register 0.
pub fn content(rng: &mut Rng, len: usize, vlen: u32) -> Bytes {
    let mut bytes = rng.bytes(len);
    match rng.below(10) {
        0 => bytes.fill(0),
        1 => bytes.fill(0xFF),
        2..=3 => bytes.chunks_mut(16).for_each(|chunk| chunk.copy_from_slice(&inputs::block(rng)[..chunk.len()])),
        _ => {}
    }
    let mask = &mut bytes[..len.min(vlen as usize / 8)];
    match rng.below(10) {
        0 => mask.fill(0),
        1 => mask.fill(0xFF),
        2 => mask.iter_mut().for_each(|byte| *byte = 1 << rng.below(8)),
        3..=5 => rng.fill(mask),
        _ => {}
    }
    Bytes(bytes)
}

//! The executor: all sources are read from the file at entry. What is written is a copy of it, in which vd's group is
//! walked once: each part of it stays, gets its result, or becomes ones.

use super::field::{sixteen, step, Block, ZERO};
use super::poly::Poly;
use super::refusal::{is_multiple, smallest};
use super::word::{decode, Word};

pub const VLENS: [u32; 3] = [128, 256, 512];
pub const SEWS: [u32; 4] = [8, 16, 32, 64];
pub const LMULS: [u32; 4] = [1, 2, 4, 8];

/// vta and vma of vtype: what is not active is filled with ones bits, or is left undisturbed.
#[derive(Clone, Copy, PartialEq, Eq, Debug)]
pub struct Policies {
    pub tail_agnostic: bool,
    pub mask_agnostic: bool,
}

/// Both off, the tail's alone, the mask's alone, both.
pub const POLICIES: [Policies; 4] = [
    Policies { tail_agnostic: false, mask_agnostic: false },
    Policies { tail_agnostic: true, mask_agnostic: false },
    Policies { tail_agnostic: false, mask_agnostic: true },
    Policies { tail_agnostic: true, mask_agnostic: true },
];

pub const UNDISTURBED: Policies = POLICIES[0];

pub struct Request<'a> {
    pub word: u32,
    pub vlen: u32,
    pub sew: u32,
    pub lmul: u32,
    pub policies: Policies,
    pub vl: u32,
    pub vstart: u32,
    pub scalar: u64,
    pub file: &'a [u8],
}

pub struct Outcome {
    pub answer: u32,
    pub vstart: u32,
    pub file: Vec<u8>,
}

pub fn execute(r: &Request) -> Outcome {
    let word = decode(r.word);
    match (refusal(r, word), word) {
        (0, Some(word)) => Outcome { answer: 0, vstart: 0, file: r.written(&word) },
        (answer, _) => Outcome { answer, vstart: r.vstart, file: r.file.to_vec() },
    }
}

fn refusal(r: &Request, word: Option<Word>) -> u32 {
    let is = |holds: &dyn Fn(&Word) -> bool| word.as_ref().map_or(false, holds);
    let over_vlmax = r.vl as u64 * r.sew as u64 > r.lmul as u64 * r.vlen as u64;
    // Ask 4: vd <= vs2 < vd + LMUL, where LMUL may be any 32 bits.
    let key_in_vd_group = |w: &Word| (w.vd as u64..w.vd as u64 + r.lmul as u64).contains(&(w.vs2 as u64));
    smallest(&[
        (1, !VLENS.contains(&r.vlen) || r.file.len() as u128 != 32 * r.vlen as u128 / 8),
        (2, word.is_none()),
        (3, !SEWS.contains(&r.sew) || !LMULS.contains(&r.lmul) || over_vlmax),
        (4, is(&|w| w.kind.is_ghash() && r.sew != 32)),
        (5, is(&|w| w.kind.is_ghash() && !(is_multiple(r.vl, 4) && is_multiple(r.vstart, 4)))),
        (6, is(&|w| w.groups().iter().any(|&g| !is_multiple(g, r.lmul)))),
        (7, is(&|w| w.kind.is_vs() && key_in_vd_group(w))),
        (8, is(&|w| !w.vm && w.beside_mask().contains(&0))),
    ])
}

/// What a word does with an element of vd's group.
enum Rule {
    Stays,
    Result,
    Ones,
}

impl Request<'_> {
    /// The first byte of a register.
    fn register(&self, r: u32) -> usize {
        (r * self.vlen / 8) as usize
    }

    fn element(&self, r: u32, i: u32) -> u64 {
        let place = self.register(r) + (i * self.sew / 8) as usize;
        let bytes = &self.file[place..place + self.sew as usize / 8];
        bytes.iter().rev().fold(0, |value, &byte| value << 8 | byte as u64)
    }

    fn mask_bit(&self, i: u32) -> bool {
        self.file[i as usize / 8] >> (i % 8) & 1 == 1
    }

    /// Document 01's Execution and document 02's Ask 5, for element i.
    fn rule(&self, word: &Word, i: u32) -> Rule {
        let filled_if = |agnostic: bool| if agnostic { Rule::Ones } else { Rule::Stays };
        if self.vstart >= self.vl || i < self.vstart {
            Rule::Stays
        } else if i >= self.vl {
            filled_if(self.policies.tail_agnostic)
        } else if !word.vm && !self.mask_bit(i) {
            filled_if(self.policies.mask_agnostic)
        } else {
            Rule::Result
        }
    }

    /// The file after a word. A GHASH word's parts are groups of four elements, which have one rule: vstart and vl are
    /// multiples of 4, and there is no mask.
    fn written(&self, word: &Word) -> Vec<u8> {
        let elements = if word.kind.is_ghash() { 4 } else { 1 };
        let size = (elements * self.sew / 8) as usize;
        let mut file = self.file.to_vec();
        let vd_group = &mut file[self.register(word.vd)..self.register(word.vd + self.lmul)];
        for (i, part) in (0..).zip(vd_group.chunks_mut(size)) {
            match self.rule(word, elements * i) {
                Rule::Stays => {}
                Rule::Ones => part.fill(0xFF),
                Rule::Result if word.kind.is_ghash() => part.copy_from_slice(&self.hashed(word, i)),
                Rule::Result => part.copy_from_slice(&self.multiplied(word, i).to_le_bytes()[..size]),
            }
        }
        file
    }

    fn modulo_sew(&self, value: u128) -> u64 {
        (value & ((1 << self.sew) - 1)) as u64
    }

    fn multiplier(&self, word: &Word, i: u32) -> u64 {
        match (word.kind.is_vx(), word.vs1) {
            (true, 0) => 0,
            (true, _) => self.modulo_sew(self.scalar as u128),
            (false, vs1) => self.element(vs1, i),
        }
    }

    /// The result of a carry-less word for element i.
    fn multiplied(&self, word: &Word, i: u32) -> u64 {
        let product = Poly::product(self.element(word.vs2, i) as u128, self.multiplier(word, i) as u128).low;
        self.modulo_sew(if word.kind.is_high() { product >> self.sew } else { product })
    }

    fn group(&self, r: u32, i: u32) -> Block {
        let place = self.register(r) + 16 * i as usize;
        sixteen(&self.file[place..place + 16])
    }

    /// The result of a GHASH word for group i. For vgmul, X is the zero block.
    fn hashed(&self, word: &Word, i: u32) -> Block {
        let y = self.group(word.vd, i);
        let x = if word.kind.reads_vs1() { self.group(word.vs1, i) } else { ZERO };
        let h = self.group(word.vs2, if word.kind.is_vs() { 0 } else { i });
        step(&y, &x, &h)
    }
}

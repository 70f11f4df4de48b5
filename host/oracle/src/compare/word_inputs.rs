//! Inputs for the calls on words: fields, words and buffers, right and wrong ones. A rate named `bad` is the number of
//! wrong values in a thousand.

use crate::model::text::{listing, MNEMONICS};
use crate::model::word::{decode, TABLE};
use crate::model::writer::Fields;
use crate::report::Text;
use crate::rng::Rng;

/// Cut to fewer bits, several of these are right ones.
#[rustfmt::skip]
pub const BAD_REGISTERS: [u32; 12] = [
    32, 33, 32 + 17, 63, 64, 127, 128, 255, 256 + 17, 0x1_0011, 0x8000_0011, u32::MAX,
];
pub const BAD_VMS: [u32; 9] = [2, 3, 4, 255, 256, 257, 0x1_0001, 0x8000_0001, u32::MAX];
pub const BAD_KINDS: [u32; 10] = [8, 9, 15, 16, 255, 256, 260, 0x1_0004, 0x8000_0000, u32::MAX];

/// Fields that a word of this kind may have.
pub fn fields_of(rng: &mut Rng, kind: usize) -> Fields {
    let row = &TABLE[kind];
    let [vs2, vs1, vd] = [0; 3].map(|_| if rng.often(100) { rng.pick(&[0, 9, 10, 31]) } else { rng.below_u32(32) });
    let vm = row.vm.unwrap_or(rng.below_u32(2));
    Fields { kind: kind as u32, vm, vs2, vs1: row.vs1.unwrap_or(vs1), vd }
}

/// Fields of a word, or such in which some are wrong.
pub fn any_fields(rng: &mut Rng) -> Fields {
    let bad = rng.pick(&[0, 50, 200]);
    let kind = rng.below(8);
    let right = fields_of(rng, kind);
    Fields {
        kind: perhaps_bad(rng, right.kind, 8, &BAD_KINDS, bad),
        vm: perhaps_bad(rng, right.vm, 2, &BAD_VMS, bad),
        vs2: perhaps_bad(rng, right.vs2, 32, &BAD_REGISTERS, bad),
        vs1: perhaps_bad(rng, right.vs1, 32, &BAD_REGISTERS, bad),
        vd: perhaps_bad(rng, right.vd, 32, &BAD_REGISTERS, bad),
    }
}

/// The value, or another one: under `under`, which is wrong for some kinds alone, of the list, or any.
fn perhaps_bad(rng: &mut Rng, value: u32, under: u32, others: &[u32], bad: usize) -> u32 {
    match (rng.often(bad), rng.below(4)) {
        (false, _) => value,
        (true, 0) => rng.below_u32(under),
        (true, 1) => rng.u32(),
        (true, _) => rng.pick(others),
    }
}

/// The word of these fields, whether the kind's row allows them or not.
pub fn word_with(f: &Fields) -> u32 {
    TABLE[f.kind as usize].with(f.vm, f.vs2, f.vs1, f.vd)
}

/// The text of that word; where there is no such word, the fields spelled out as those of a vclmul.vv.
pub fn text_with(f: &Fields) -> String {
    let (mnemonic, _) = MNEMONICS[f.kind as usize];
    let mask = if f.vm == 1 { "" } else { ", v0.t" };
    let as_vv = || format!("{mnemonic} v{}, v{}, v{}{mask}", f.vd, f.vs2, f.vs1);
    decode(word_with(f)).map_or_else(as_vv, |word| listing(&word))
}

/// A word of the eight kinds, one with a bit or two changed, or any 32 bits.
pub fn any_word(rng: &mut Rng) -> u32 {
    let kind = rng.below(8);
    let word = word_with(&fields_of(rng, kind));
    match rng.below(8) {
        0 => rng.u32(),
        1 => word ^ 1 << rng.below(32),
        2 => word ^ 1 << rng.below(32) ^ 1 << rng.below(32),
        _ => word,
    }
}

/// A buffer for a text, of any content: long enough, or in so many of a thousand cases perhaps not.
pub fn any_buffer(rng: &mut Rng, bad: usize) -> Text {
    let len = match (rng.often(bad), rng.below(4)) {
        (true, 0) => rng.pick(&[0, 1, 30, 31]),
        (true, _) => rng.below(41),
        (false, 0) => 32,
        (false, _) => 32 + rng.below(33),
    };
    Text(rng.bytes(len))
}

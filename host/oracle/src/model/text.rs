//! The texts of words, as document 02's Ask 1 has them: the listing as a format, and a reader that takes a text apart at
//! its separators.

use super::refusal::smallest;
use super::word::{decode, Kind, Kind::*, Word};
use super::writer::{encode, Fields};

/// The least bytes of a buffer for a text.
pub const LEAST_BUFFER: usize = 32;

/// The mnemonics of sources 000 and 002, and vgmul.vv of the ratified specification.
pub const MNEMONICS: [(&str, Kind); 8] = [
    ("vclmul.vv", VclmulVv),
    ("vclmul.vx", VclmulVx),
    ("vclmulh.vv", VclmulhVv),
    ("vclmulh.vx", VclmulhVx),
    ("vghsh.vv", VghshVv),
    ("vghsh.vs", VghshVs),
    ("vgmul.vv", VgmulVv),
    ("vgmul.vs", VgmulVs),
];

/// The vs1 field that is a part of a vgmul word's encoding, and not of its text.
const VGMUL_VS1: u32 = 0b10001;

pub fn listing(w: &Word) -> String {
    let (mnemonic, _) = MNEMONICS.into_iter().find(|(_, kind)| *kind == w.kind).expect("a mnemonic for each kind");
    let (vd, vs2, vs1) = (w.vd, w.vs2, w.vs1);
    let mask = if w.vm { "" } else { ", v0.t" };
    match w.kind {
        VclmulVx | VclmulhVx => format!("{mnemonic} v{vd}, v{vs2}, x{vs1}{mask}"),
        VgmulVv | VgmulVs => format!("{mnemonic} v{vd}, v{vs2}{mask}"),
        _ => format!("{mnemonic} v{vd}, v{vs2}, v{vs1}{mask}"),
    }
}

/// The kind and fields that a text names. Whether there is such a word is for the writer to say.
fn read(text: &[u8]) -> Option<Fields> {
    let (mnemonic, rest) = std::str::from_utf8(text).ok()?.split_once(' ')?;
    let (_, kind) = MNEMONICS.into_iter().find(|(name, _)| *name == mnemonic)?;
    let mut operands: Vec<&str> = rest.split(", ").collect();
    let masked = operands.last() == Some(&"v0.t");
    if masked {
        operands.pop();
    }
    let third = if kind.is_vx() { 'x' } else { 'v' };
    let (vd, vs2, vs1) = match (kind, &operands[..]) {
        (VgmulVv | VgmulVs, [vd, vs2]) => (vd, vs2, VGMUL_VS1),
        (VgmulVv | VgmulVs, _) => return None,
        (_, [vd, vs2, vs1]) => (vd, vs2, register(third, vs1)?),
        _ => return None,
    };
    Some(Fields { kind: kind as u32, vm: !masked as u32, vs2: register('v', vs2)?, vs1, vd: register('v', vd)? })
}

/// The number of the register with this name, which must be the number's own spelling.
fn register(letter: char, name: &str) -> Option<u32> {
    let number: u32 = name.strip_prefix(letter)?.parse().ok()?;
    (format!("{letter}{number}") == name).then_some(number)
}

/// The call for a word's text: the answer and the text, empty on a refusal.
pub fn disassemble_call(word: u32, text_len: usize) -> (u32, String) {
    let known = decode(word);
    match (smallest(&[(2, known.is_none()), (22, text_len < LEAST_BUFFER)]), known) {
        (0, Some(word)) => (0, listing(&word)),
        (refused, _) => (refused, String::new()),
    }
}

/// The call for a text's word: the answer and the word, 0 on a refusal.
pub fn assemble_call(text: &[u8]) -> (u32, u32) {
    read(text).and_then(|fields| encode(&fields)).map_or((2, 0), |word| (0, word))
}

//! rvghash_assemble on bytes that are no text of a word: listings damaged at each place and in each way, and strings at
//! random.

use super::word_inputs::{fields_of, text_with};
use super::words::Memory;
use crate::model::text::MNEMONICS;
use crate::report::{Group, Run};
use crate::rng::Rng;
use std::ops::Range;

/// The bytes of which texts consist.
const ALPHABET: &[u8] = b" ,.0123456789cghlmstuvx";

/// The longest bytes that are read.
const MOST: usize = 4096;

pub fn run(run: &Run) {
    bytes_changed(run);
    damaged(run);
    random(run);
}

/// The listing of any word of this kind.
fn any_listing(rng: &mut Rng, kind: usize) -> String {
    text_with(&fields_of(rng, kind))
}

/// The text with these bytes in place of that part.
fn with(text: &str, part: Range<usize>, bytes: &[u8]) -> Vec<u8> {
    [&text.as_bytes()[..part.start], bytes, &text.as_bytes()[part.end..]].concat()
}

/// Each byte of a listing as each of the 256 values.
fn bytes_changed(run: &Run) {
    let mut group = Group::new(run, "rvghash_assemble, each byte of a listing changed to each other");
    let mut memory = Memory::new(96);
    for index in 0..200 * run.factor {
        let mut rng = group.rng(index);
        let text = any_listing(&mut rng, index as usize % 8);
        for place in 0..text.len() {
            for byte in 0..=255 {
                memory.assemble(&mut group, &mut rng, &with(&text, place..place + 1, &[byte]));
            }
        }
    }
    group.end(&[0, 2]);
}

/// Listings damaged in all other ways.
fn damaged(run: &Run) {
    let mut group = Group::new(run, "rvghash_assemble, damaged listings");
    let mut memory = Memory::new(MOST);
    for index in 0..240 * run.factor {
        let mut rng = group.rng(index);
        let text = any_listing(&mut rng, index as usize % 8);
        let other = any_listing(&mut rng, index as usize / 8 % 8);
        for damaged in damages(&text, &other) {
            memory.assemble(&mut group, &mut rng, &damaged);
        }
    }
    group.end(&[0, 2]);
}

fn damages(text: &str, other: &str) -> Vec<Vec<u8>> {
    let mut all = cut_and_put(text);
    all.extend(respelled(text).into_iter().map(String::into_bytes));
    all.extend(lengthened(text, other).into_iter().map(String::into_bytes));
    all
}

/// Each byte dropped, doubled and exchanged with the next; one put in at each place; each front and each end alone.
fn cut_and_put(text: &str) -> Vec<Vec<u8>> {
    let mut all = vec![];
    for (place, &byte) in text.as_bytes().iter().enumerate() {
        all.push(with(text, place..place + 1, &[]));
        all.push(with(text, place..place, &[byte]));
        all.push(with(text, place..text.len(), &[]));
        all.push(with(text, 0..place, &[]));
    }
    for (place, pair) in text.as_bytes().windows(2).enumerate() {
        all.push(with(text, place..place + 2, &[pair[1], pair[0]]));
    }
    for place in 0..=text.len() {
        all.extend(ALPHABET.iter().chain(b"\0\t\n\r+-V").map(|&byte| with(text, place..place, &[byte])));
    }
    all
}

#[rustfmt::skip]
const NO_MNEMONICS: [&str; 9] = [
    "vclmul", "vclmul.vi", "vclmul.vs", "vclmulh.vs", "vclmulhh.vv", "vghsh.vx", "vghsh", "vgmul.vx", "vgmul.",
];

/// The text with other separators, mnemonics and operands, and with its operands in another order or number.
fn respelled(text: &str) -> Vec<String> {
    let (mnemonic, rest) = text.split_once(' ').expect("a space after the mnemonic");
    let operands: Vec<&str> = rest.split(", ").collect();
    let spelled = |separator: &str, operands: &[&str]| format!("{mnemonic} {}", operands.join(separator));
    let mut all = vec![text.to_uppercase(), mnemonic.to_string(), spelled("", &[])];
    all.extend(["", "  ", "\t", ", ", "\0"].map(|separator| format!("{mnemonic}{separator}{rest}")));
    all.extend([",", " ,", ",  ", " , ", "; ", " ", ",\t", ", , "].map(|separator| spelled(separator, &operands)));
    let mnemonics = MNEMONICS.into_iter().map(|(name, _)| name).chain(NO_MNEMONICS);
    all.extend(mnemonics.map(|other| format!("{other} {rest}")));
    for (place, operand) in operands.iter().enumerate() {
        let (before, after) = (&operands[..place], &operands[place + 1..]);
        let with = |new: &[&str]| spelled(", ", &[before, new, after].concat());
        all.extend([with(&[]), with(&[operand, operand]), with(&[operand, "v17"])]);
        all.extend(operands.iter().map(|other| with(&[other])));
        all.extend(other_operands(operand).iter().map(|other| with(&[other])));
    }
    all
}

#[rustfmt::skip]
const OPERANDS: [&str; 14] = [
    "", "v", "x", "v0.t", "v1.t", "v0", "x0", "v31", "v32", "v99", "v100", "zero", "a0", "v\u{664}",
];
const LETTERS: [&str; 13] = ["v", "x", "f", "V", "", "v ", "v0", "v00", "v+", "v-", "v0x", "vv", "xv"];

/// Operands that are none, or others than this one.
fn other_operands(operand: &str) -> Vec<String> {
    let (letter, digits) = operand.split_at(1);
    let mut all = OPERANDS.map(String::from).to_vec();
    all.extend(LETTERS.map(|other| format!("{other}{digits}")));
    all.extend([" ", ".", ".t", ".0", "\0"].map(|end| format!("{operand}{end}")));
    let number: u128 = digits.parse().unwrap_or(0);
    // The same number once cut to so many bits.
    all.extend([5, 8, 16, 32, 64].map(|bits| format!("{letter}{}", number + (1u128 << bits))));
    all
}

#[rustfmt::skip]
const ENDS: [&str; 18] = [
    "", " ", "\n", "\r\n", "\0", "\t", ",", ", ", ";", " #", ", v0.t", ",v0.t", " v0.t", ", v0.t, v0.t", ", v0.t ", ", v1.t",
    ", v0", ", v0.T",
];

/// The text with something behind it: an ending byte, a mask, another text, or many bytes.
fn lengthened(text: &str, other: &str) -> Vec<String> {
    let mut all: Vec<String> = ENDS.iter().map(|end| format!("{text}{end}")).collect();
    all.extend(["", " ", ", ", "\n", "\0", "; "].map(|between| format!("{text}{between}{other}")));
    for len in [31, 32, 33, 64, 256, MOST] {
        all.extend([" ", "\0", "0"].map(|byte| format!("{text}{}", byte.repeat(len - text.len()))));
    }
    all
}

fn random(run: &Run) {
    let mut group = Group::new(run, "rvghash_assemble, random");
    let mut memory = Memory::new(96);
    for index in 0..100_000 * run.factor {
        let mut rng = group.rng(index);
        let text = any_bytes(&mut rng);
        memory.assemble(&mut group, &mut rng, &text);
    }
    group.end(&[0, 2]);
}

/// Bytes of any kind, bytes of the texts' alphabet, or parts of texts.
fn any_bytes(rng: &mut Rng) -> Vec<u8> {
    let len = rng.below(41);
    match rng.below(4) {
        0 => rng.bytes(len),
        1 => (0..len).map(|_| rng.pick(ALPHABET)).collect(),
        _ => any_parts(rng).into_bytes(),
    }
}

/// A mnemonic and operands, mostly as many and of such letters as a text has.
fn any_parts(rng: &mut Rng) -> String {
    let (mnemonic, kind) = rng.pick(&MNEMONICS);
    let right = if kind.is_vx() || kind.reads_vs1() { 3 } else { 2 };
    let count = if rng.often(100) { rng.below(6) } else { right };
    let mut operands: Vec<String> = (0..count).map(|place| any_operand(rng, kind.is_vx() && place == 2)).collect();
    if rng.often(300) {
        operands.push("v0.t".to_string());
    }
    format!("{mnemonic} {}", operands.join(", "))
}

fn any_operand(rng: &mut Rng, is_x: bool) -> String {
    let letter = if is_x != rng.often(50) { 'x' } else { 'v' };
    let zero = if rng.often(50) { "0" } else { "" };
    format!("{letter}{zero}{}", rng.below(33))
}

/// A listing, a damaged one, or other bytes.
pub fn any_text(rng: &mut Rng) -> Vec<u8> {
    let [text, other] = [0; 2].map(|_| {
        let kind = rng.below(8);
        any_listing(rng, kind)
    });
    match rng.below(8) {
        0 => any_bytes(rng),
        1 => {
            let (place, byte) = (rng.below(text.len()), rng.u64() as u8);
            with(&text, place..place + 1, &[byte])
        }
        2..=3 => {
            let mut all = damages(&text, &other);
            all.swap_remove(rng.below(all.len()))
        }
        _ => text.into_bytes(),
    }
}

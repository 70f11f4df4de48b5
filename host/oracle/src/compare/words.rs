//! The words written, decoded and listed: every word of the eight kinds, fields that no word has, words near the eight,
//! and buffers of every length.

use super::group::{lend_number, number_in};
use super::word_inputs::{any_buffer, any_fields, fields_of, text_with, word_with, BAD_KINDS, BAD_REGISTERS, BAD_VMS};
use crate::ffi::{rvghash_assemble, rvghash_decode, rvghash_disassemble, rvghash_encode};
use crate::lent::{strays, Lent};
use crate::model::text::{assemble_call, disassemble_call};
use crate::model::writer::{decode_call, encode_call, Fields};
use crate::report::{Bytes, Group, Hex, Run, Seen, Text};
use crate::rng::Rng;
use std::mem::size_of;

pub fn run(run: &Run) {
    let mut memory = Memory::new(96);
    all_fields(run, &mut memory);
    bad_fields(run, &mut memory);
    other_words(run, &mut memory);
    near_words(run, &mut memory);
    buffers(run);
}

/// What decoding leaves: the five numbers, and the bytes that lie between them.
#[derive(PartialEq, Debug)]
struct Decoded {
    fields: Fields,
    between: Bytes,
}

/// Four numbers with 4 bytes after each, and a fifth one.
const DECODED_SIZE: usize = 36;

impl Decoded {
    fn in_memory(bytes: &[u8]) -> Decoded {
        let number = |i: usize| u32::from_ne_bytes(bytes[8 * i..8 * i + 4].try_into().expect("4 bytes"));
        let fields = Fields::new([0, 1, 2, 3, 4].map(number));
        let between = bytes.chunks(8).flat_map(|chunk| &chunk[4..]).copied().collect();
        Decoded { fields, between: Bytes(between) }
    }
}

/// What a listing leaves.
#[derive(PartialEq, Debug)]
struct Listed {
    length: usize,
    buffer: Text,
}

/// Memory for the four calls on words, each of which is made and compared with the model by a method.
pub struct Memory {
    word: Lent,
    decoded: Lent,
    buffer: Lent,
    length: Lent,
    text: Lent,
}

impl Memory {
    /// For texts and buffers of up to `most` bytes.
    pub fn new(most: usize) -> Memory {
        Memory {
            word: Lent::write("word", 4),
            decoded: Lent::write("kind, vm, vs2, vs1 and vd", DECODED_SIZE),
            buffer: Lent::write("text", most),
            length: Lent::write("length", size_of::<usize>()),
            text: Lent::read("text", most),
        }
    }

    fn encode(&mut self, group: &mut Group, rng: &mut Rng, f: &Fields) {
        let (answer, word) = encode_call(f);
        group.compare(&("rvghash_encode", f), Seen::expected(answer, Hex(word as u64)), || {
            let word = lend_u32(&mut self.word, rng);
            // SAFETY: the pointer goes with memory for one number that nothing else uses.
            let answer = unsafe { rvghash_encode(f.kind, f.vm, f.vs2, f.vs1, f.vd, word) };
            Seen { answer, left: Hex(u32_in(&self.word) as u64), stray: strays(&[&self.word]) }
        });
    }

    fn decode(&mut self, group: &mut Group, rng: &mut Rng, word: u32) {
        let before = rng.bytes(DECODED_SIZE);
        let (answer, fields) = decode_call(word);
        let left = Decoded { fields, ..Decoded::in_memory(&before) };
        group.compare(&("rvghash_decode", Hex(word as u64)), Seen::expected(answer, left), || {
            let start: *mut u32 = self.decoded.lend_aligned(rng, &before, 4).cast();
            let [kind, vm, vs2, vs1, vd] = [0, 2, 4, 6, 8].map(|place| start.wrapping_add(place));
            // SAFETY: each pointer goes with memory for one number that nothing else uses.
            let answer = unsafe { rvghash_decode(word, kind, vm, vs2, vs1, vd) };
            Seen { answer, left: Decoded::in_memory(self.decoded.content()), stray: strays(&[&self.decoded]) }
        });
    }

    fn disassemble(&mut self, group: &mut Group, rng: &mut Rng, word: u32, before: &Text) {
        let (answer, text) = disassemble_call(word, before.0.len());
        let mut buffer = before.clone();
        buffer.0[..text.len()].copy_from_slice(text.as_bytes());
        let left = Listed { length: text.len(), buffer };
        group.compare(&("rvghash_disassemble", Hex(word as u64), before), Seen::expected(answer, left), || {
            let buffer = self.buffer.lend(rng, &before.0);
            let length = lend_number(&mut self.length, rng);
            // SAFETY: each pointer goes with memory of the right length that nothing else uses.
            let answer = unsafe { rvghash_disassemble(word, buffer, before.0.len(), length) };
            let left = Listed { length: number_in(&self.length), buffer: Text(self.buffer.content().to_vec()) };
            Seen { answer, left, stray: strays(&[&self.buffer, &self.length]) }
        });
    }

    pub fn assemble(&mut self, group: &mut Group, rng: &mut Rng, text: &[u8]) {
        let (answer, word) = assemble_call(text);
        group.compare(&("rvghash_assemble", Text(text.to_vec())), Seen::expected(answer, Hex(word as u64)), || {
            let pointer = self.text.lend(rng, text);
            let word = lend_u32(&mut self.word, rng);
            // SAFETY: each pointer goes with memory of the right length that nothing else uses.
            let answer = unsafe { rvghash_assemble(pointer, text.len(), word) };
            Seen { answer, left: Hex(u32_in(&self.word) as u64), stray: strays(&[&self.text, &self.word]) }
        });
    }
}

fn lend_u32(lent: &mut Lent, rng: &mut Rng) -> *mut u32 {
    let before = rng.u32();
    lent.lend_aligned(rng, &before.to_ne_bytes(), 4).cast()
}

fn u32_in(lent: &Lent) -> u32 {
    u32::from_ne_bytes(lent.content().try_into().expect("4 bytes"))
}

/// Each kind with each vm, vs2, vs1 and vd. These are all words that there are, and the fields that a kind does not have.
fn all_fields(run: &Run, memory: &mut Memory) {
    let mut group = Group::new(run, "words written, decoded, listed and read, all fields of all kinds");
    for index in 0..8 << 16 {
        let mut rng = group.rng(index);
        let bits = |low: u32, size: u32| (index >> low) as u32 & ((1 << size) - 1);
        let f = Fields { kind: bits(16, 3), vm: bits(15, 1), vs2: bits(10, 5), vs1: bits(5, 5), vd: bits(0, 5) };
        let word = word_with(&f);
        let buffer = any_buffer(&mut rng, 10);
        memory.encode(&mut group, &mut rng, &f);
        memory.decode(&mut group, &mut rng, word);
        memory.disassemble(&mut group, &mut rng, word, &buffer);
        memory.assemble(&mut group, &mut rng, text_with(&f).as_bytes());
    }
    group.end(&[0, 2, 22]);
}

/// Each wrong value at each place, the others right, and then any at any.
fn bad_fields(run: &Run, memory: &mut Memory) {
    let mut group = Group::new(run, "rvghash_encode, fields that no word has");
    let mut rng = group.rng(0);
    let bad: [&[u32]; 5] = [&BAD_KINDS, &BAD_VMS, &BAD_REGISTERS, &BAD_REGISTERS, &BAD_REGISTERS];
    for kind in 0..8 {
        for (place, values) in bad.into_iter().enumerate() {
            for &value in values {
                let mut numbers = fields_of(&mut rng, kind).numbers();
                numbers[place] = value;
                memory.encode(&mut group, &mut rng, &Fields::new(numbers));
            }
        }
    }
    for index in 1..=50_000 * run.factor {
        let mut rng = group.rng(index);
        let fields = any_fields(&mut rng);
        memory.encode(&mut group, &mut rng, &fields);
    }
    group.end(&[0, 2]);
}

fn decode_and_list(group: &mut Group, memory: &mut Memory, rng: &mut Rng, word: u32) {
    memory.decode(group, rng, word);
    let buffer = any_buffer(rng, 100);
    memory.disassemble(group, rng, word, &buffer);
}

/// Each funct6, vm, funct3 and opcode, with vs1 10001 and with another one.
fn other_words(run: &Run, memory: &mut Memory) {
    let mut group = Group::new(run, "words decoded and listed, all funct6, vm, funct3 and opcodes");
    for index in 0..128 * 8 * 128 {
        let mut rng = group.rng(index);
        let (funct6_vm, funct3, opcode) = (index as u32 >> 10, index as u32 >> 7 & 7, index as u32 & 127);
        for vs1 in [0b10001, rng.below_u32(32)] {
            let [vs2, vd] = [0; 2].map(|_| rng.below_u32(32));
            let word = funct6_vm << 25 | vs2 << 20 | vs1 << 15 | funct3 << 12 | vd << 7 | opcode;
            decode_and_list(&mut group, memory, &mut rng, word);
        }
    }
    group.end(&[0, 2]);
}

/// Words of each kind with one and with two of their bits changed, each way, and any 32 bits.
fn near_words(run: &Run, memory: &mut Memory) {
    let mut group = Group::new(run, "words decoded and listed, a bit or two changed, and random");
    for index in 0..64 * run.factor {
        let mut rng = group.rng(index);
        let word = word_with(&fields_of(&mut rng, index as usize % 8));
        for first in 0..32 {
            for second in first..32 {
                let changed = word ^ (1 << first | 1 << second);
                decode_and_list(&mut group, memory, &mut rng, changed);
            }
        }
        for _ in 0..1000 {
            let any = rng.u32();
            decode_and_list(&mut group, memory, &mut rng, any);
        }
    }
    group.end(&[0, 2, 22]);
}

/// A word of each kind, and one that is none, with a buffer of every length up to 40 and with longer ones.
fn buffers(run: &Run) {
    const MOST: usize = 8192;
    let mut group = Group::new(run, "rvghash_disassemble, buffers of every length");
    let mut memory = Memory::new(MOST);
    for index in 0..200 * run.factor {
        let mut rng = group.rng(index);
        let word = word_with(&fields_of(&mut rng, index as usize % 8));
        for len in (0..=40).chain([63, 64, 65, 255, 256, 257, 288, 4096, MOST]) {
            let buffer = Text(rng.bytes(len));
            memory.disassemble(&mut group, &mut rng, word, &buffer);
            memory.disassemble(&mut group, &mut rng, word ^ 0x40, &buffer);
        }
    }
    group.end(&[0, 2, 22]);
}

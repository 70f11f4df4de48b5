//! The writer: 32 binary digits from the kind's pattern. Decoding for a caller, who gets a kind's number, is here too.

use super::word::decode;
use std::fmt::Write;

/// A kind's number and the fields of a word, as a caller gives them: any numbers.
#[derive(Clone, Copy, PartialEq, Eq, Debug)]
pub struct Fields {
    pub kind: u32,
    pub vm: u32,
    pub vs2: u32,
    /// vs1 or rs1.
    pub vs1: u32,
    pub vd: u32,
}

impl Fields {
    pub fn new([kind, vm, vs2, vs1, vd]: [u32; 5]) -> Fields {
        Fields { kind, vm, vs2, vs1, vd }
    }

    /// The five numbers in the order of the calls' parameters.
    pub fn numbers(&self) -> [u32; 5] {
        [self.kind, self.vm, self.vs2, self.vs1, self.vd]
    }
}

/// The encodings by the kinds' numbers: vm, vs2, vs1 and vd are the second, third, fourth and sixth part. A letter stands
/// for a bit that is left open.
const PATTERNS: [&str; 8] = [
    "001100 m ttttt sssss 010 ddddd 1010111",
    "001100 m ttttt sssss 110 ddddd 1010111",
    "001101 m ttttt sssss 010 ddddd 1010111",
    "001101 m ttttt sssss 110 ddddd 1010111",
    "101100 1 ttttt sssss 010 ddddd 1110111",
    "100011 1 ttttt sssss 010 ddddd 1110111",
    "101000 1 ttttt 10001 010 ddddd 1110111",
    "101001 1 ttttt 10001 010 ddddd 1110111",
];

/// The word of these fields, if the kind has one: each value's digits are as many as its part of the pattern has, and
/// are the same where that part is not left open.
pub fn encode(f: &Fields) -> Option<u32> {
    let pattern = PATTERNS.get(usize::try_from(f.kind).ok()?)?;
    let mut digits = String::with_capacity(64);
    let values = [None, Some(f.vm), Some(f.vs2), Some(f.vs1), None, Some(f.vd), None];
    for (part, value) in pattern.split(' ').zip(values) {
        let start = digits.len();
        match value {
            Some(value) => write!(digits, "{value:0width$b}", width = part.len()).expect("a string takes all"),
            None => digits.push_str(part),
        }
        let open = part.chars().all(char::is_alphabetic);
        if digits[start..].len() != part.len() || !open && digits[start..] != *part {
            return None;
        }
    }
    u32::from_str_radix(&digits, 2).ok()
}

/// The call for a word: the answer and the word, 0 on a refusal.
pub fn encode_call(f: &Fields) -> (u32, u32) {
    encode(f).map_or((2, 0), |word| (0, word))
}

/// The call for a word's kind and fields: the answer and these, all 0 on a refusal.
pub fn decode_call(word: u32) -> (u32, Fields) {
    let known = decode(word).map(|w| [w.kind as u32, w.vm as u32, w.vs2, w.vs1, w.vd]);
    known.map_or((2, Fields::new([0; 5])), |numbers| (0, Fields::new(numbers)))
}

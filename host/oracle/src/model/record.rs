//! The record of a trace, as document 02's Asks 3 and 5 have it: numbers in a row, each in a part of its own, low byte
//! first.

use super::execute::{Policies, POLICIES};
use super::refusal::smallest;

/// The bytes of the parts: word, SEW, LMUL, answer, the policies, vl, vstart, scalar.
const PARTS: [usize; 8] = [4, 1, 1, 1, 1, 4, 4, 8];

/// The bytes of a record.
pub const RECORD: usize = 24;

/// A call of the executor, VLEN and the file aside, and its answer: any numbers.
#[derive(Clone, Copy, PartialEq, Eq, Debug)]
pub struct Record {
    pub word: u32,
    pub sew: u32,
    pub lmul: u32,
    pub answer: u32,
    pub policies: Policies,
    pub vl: u32,
    pub vstart: u32,
    pub scalar: u64,
}

/// The policies' place in their list, where the tail's counts 1 and the mask's 2.
fn policies_number(policies: Policies) -> usize {
    POLICIES.into_iter().position(|listed| listed == policies).expect("one of the four")
}

impl Record {
    /// What the parts hold.
    fn numbers(&self) -> [u64; 8] {
        let [word, sew, lmul, answer] = [self.word, self.sew, self.lmul, self.answer].map(u64::from);
        let [vl, vstart] = [self.vl, self.vstart].map(u64::from);
        [word, sew, lmul, answer, policies_number(self.policies) as u64, vl, vstart, self.scalar]
    }

    /// The record, if each number fits its part.
    pub fn bytes(&self) -> Option<Vec<u8>> {
        let mut bytes = Vec::with_capacity(RECORD);
        for (number, size) in self.numbers().into_iter().zip(PARTS) {
            let digits = number.to_le_bytes();
            let (part, over) = digits.split_at(size);
            if over.iter().any(|&digit| digit != 0) {
                return None;
            }
            bytes.extend(part);
        }
        Some(bytes)
    }

    /// The call and answer of a whole record whose policies are 0 to 3.
    pub fn read(bytes: &[u8]) -> Option<Record> {
        if bytes.len() != RECORD {
            return None;
        }
        let mut rest = bytes;
        let [word, sew, lmul, answer, policies, vl, vstart, scalar] = PARTS.map(|size| {
            let (part, after) = rest.split_at(size);
            rest = after;
            part.iter().rev().fold(0, |number, &byte| number << 8 | byte as u64)
        });
        let [word, sew, lmul, answer, vl, vstart] = [word, sew, lmul, answer, vl, vstart].map(|number| number as u32);
        let policies = *POLICIES.get(policies as usize)?;
        Some(Record { word, sew, lmul, answer, policies, vl, vstart, scalar })
    }
}

/// The call for a record: the answer, and what a buffer that held `before` then holds.
pub fn put_record_call(record: &Record, before: &[u8]) -> (u32, Vec<u8>) {
    let bytes = record.bytes();
    match (smallest(&[(14, before.len() != RECORD || bytes.is_none())]), bytes) {
        (0, Some(bytes)) => (0, bytes),
        (refused, _) => (refused, before.to_vec()),
    }
}

//! The parked running hash, as document 02's Ask 6 has it: the fields in a row, counts low byte first, and zero bytes.

use super::field::sixteen;
use super::refusal::smallest;
use super::running::{State, FRESH};

/// The bytes of a record, and how many of them are the zero bytes at its end.
pub const PARKED: usize = 48;
pub const ZEROS: usize = 7;

/// The record of these fields, malformed or not. The struct's own spare bytes are no part of it.
pub fn record_of(state: &State) -> Vec<u8> {
    let counts = [state.a_count, state.c_count].map(u32::to_le_bytes).concat();
    [&state.y[..], &state.open, &counts, &[state.phase], &[0; ZEROS]].concat()
}

/// The fields of a record whose length and zero bytes are right, malformed or not.
fn read(record: &[u8]) -> Option<State> {
    if record.len() != PARKED || record.iter().rev().take(ZEROS).any(|&byte| byte != 0) {
        return None;
    }
    let count = |at: usize| record[at..at + 4].iter().rev().fold(0, |count, &byte| count << 8 | byte as u32);
    let (y, open) = (sixteen(&record[..16]), sixteen(&record[16..32]));
    Some(State { y, open, a_count: count(32), c_count: count(36), phase: record[40], spare: [0; 7] })
}

/// The call that parks: the answer, and what a buffer that held `before` then holds.
pub fn park_call(state: &State, before: &[u8]) -> (u32, Vec<u8>) {
    let answer = smallest(&[(10, state.malformed()), (15, before.len() != PARKED)]);
    (answer, if answer == 0 { record_of(state) } else { before.to_vec() })
}

/// The call that reads back: the answer, and the running hash then, whatever it was before.
pub fn unpark_call(record: &[u8]) -> (u32, State) {
    match read(record).filter(|state| !state.malformed()) {
        Some(state) => (0, state),
        None => (15, FRESH),
    }
}

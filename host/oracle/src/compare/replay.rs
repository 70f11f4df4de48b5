//! rvghash_replay: random traces, whole and with something wrong, also where VLEN or the file is not allowed; each byte
//! as an answer and as the policies, each place of a trace, each length, and a count past 16 bits.

use super::execute_inputs::{not_allowed, MOST_FILE};
use super::group::{lend_number, number_in};
use super::trace_inputs::{allowed, any_recording, any_refused_recording, other_answer, with_policy_byte};
use super::trace_inputs::{wrong_policies, Recording, Replay, MOST_TRACE};
use crate::ffi::rvghash_replay;
use crate::lent::{strays, Lent};
use crate::model::record::RECORD;
use crate::model::replay::{replay_call, DIFFERS};
use crate::report::{Bytes, Group, Run, Seen};
use crate::rng::Rng;
use std::mem::size_of;

pub fn run(run: &Run) {
    let mut memory = Memory::new(MOST_TRACE);
    random(run, &mut memory);
    refused(run, &mut memory);
    answer_bytes(run, &mut memory);
    places(run, &mut memory);
    lengths(run, &mut memory);
    many_records(run);
}

#[derive(PartialEq, Debug)]
struct Left {
    index: usize,
    file: Bytes,
}

struct Memory {
    file: Lent,
    trace: Lent,
    index: Lent,
}

impl Memory {
    /// For traces of up to `most` bytes.
    fn new(most: usize) -> Memory {
        Memory {
            file: Lent::write("file", MOST_FILE),
            trace: Lent::read("trace", most),
            index: Lent::write("index", size_of::<usize>()),
        }
    }

    fn call(&mut self, rng: &mut Rng, r: &Replay) -> Seen<Left> {
        let file = self.file.lend(rng, &r.file.0);
        let trace = self.trace.lend(rng, &r.trace.0);
        let index = lend_number(&mut self.index, rng);
        // SAFETY: each pointer goes with memory of the told length that nothing else uses.
        let answer = unsafe { rvghash_replay(r.vlen, file, r.file.0.len(), trace, r.trace.0.len(), index) };
        let left = Left { index: number_in(&self.index), file: Bytes(self.file.content().to_vec()) };
        Seen { answer, left, stray: strays(&[&self.file, &self.trace, &self.index]) }
    }

    fn compare(&mut self, group: &mut Group, rng: &mut Rng, r: &Replay) {
        let model = replay_call(r.vlen, &r.file.0, &r.trace.0);
        let left = Left { index: model.index, file: Bytes(model.file) };
        group.compare(r, Seen::expected(model.answer, left), || self.call(rng, r));
    }
}

fn random(run: &Run, memory: &mut Memory) {
    let mut group = Group::new(run, "rvghash_replay, random");
    let (mut records, mut changes) = (0, 0);
    for index in 0..20_000 * run.factor {
        let mut rng = group.rng(index);
        let recording = any_recording(&mut rng);
        records += recording.changes.len();
        changes += recording.changes.iter().filter(|&&changes| changes).count();
        for replay in recording.replays(&mut rng) {
            memory.compare(&mut group, &mut rng, &replay);
        }
    }
    assert!(3 * changes > records, "only {changes} of {records} calls change the file, so the traces say little");
    group.end(&[0, 14, DIFFERS]);
}

/// Each call answers 1, and a record may say so.
fn refused(run: &Run, memory: &mut Memory) {
    let mut group = Group::new(run, "rvghash_replay, a VLEN or a file that is not allowed");
    for index in 0..3_000 * run.factor {
        let mut rng = group.rng(index);
        let recording = any_refused_recording(&mut rng);
        for replay in recording.replays(&mut rng) {
            memory.compare(&mut group, &mut rng, &replay);
        }
    }
    group.end(&[0, 14, DIFFERS]);
}

/// Each byte as the answer of a call, between two others, for each answer that the call can have.
fn answer_bytes(run: &Run, memory: &mut Memory) {
    let mut group = Group::new(run, "rvghash_replay, each answer of the executor against each byte");
    for index in 0..4 * 9 * run.factor {
        let mut rng = group.rng(index);
        let recording = answering(&mut rng, index as u32 % 9);
        for answer in 0..=255 {
            memory.compare(&mut group, &mut rng, &recording.replay(recording.with_answer(1, answer)));
        }
    }
    group.end(&[0, DIFFERS]);
}

/// Three calls of which the second has this answer, and changes the file if it is done.
fn answering(rng: &mut Rng, answer: u32) -> Recording {
    loop {
        let at = if answer == 1 { not_allowed(rng) } else { allowed(rng) };
        let bad = rng.pick(&[0, 60, 300]);
        let recording = Recording::new(rng, at, 3, bad);
        if (recording.records[1].answer, recording.changes[1]) == (answer, answer == 0) {
            return recording;
        }
    }
}

/// A wrong answer, and a wrong policy byte, at each place of a trace; then each policy byte in the first, a middle and
/// the last record.
fn places(run: &Run, memory: &mut Memory) {
    const COUNT: usize = 60;
    let mut group = Group::new(run, "rvghash_replay, each place of a trace and each policy byte");
    for index in 0..4 * run.factor {
        let mut rng = group.rng(index);
        let at = allowed(&mut rng);
        let recording = Recording::new(&mut rng, at, COUNT, 20);
        for place in 0..COUNT {
            let answer = other_answer(&mut rng, recording.records[place].answer);
            memory.compare(&mut group, &mut rng, &recording.replay(recording.with_answer(place, answer)));
            let trace = with_policy_byte(recording.trace(), place, wrong_policies(&mut rng));
            memory.compare(&mut group, &mut rng, &recording.replay(trace));
        }
        for byte in 0..=255 {
            for place in [0, 1 + rng.below(COUNT - 2), COUNT - 1] {
                let trace = with_policy_byte(recording.trace(), place, byte);
                memory.compare(&mut group, &mut rng, &recording.replay(trace));
            }
        }
    }
    group.end(&[0, 14, DIFFERS]);
}

/// The first bytes of a trace, of each number up to eight records, and of some up to the longest.
fn lengths(run: &Run, memory: &mut Memory) {
    let mut group = Group::new(run, "rvghash_replay, traces of every length");
    for index in 0..4 * run.factor {
        let mut rng = group.rng(index);
        let at = allowed(&mut rng);
        let recording = Recording::new(&mut rng, at, 1 + MOST_TRACE / RECORD, 0);
        for len in (0..=8 * RECORD).chain(MOST_TRACE - 2 * RECORD..=MOST_TRACE) {
            let trace = recording.trace()[..len].to_vec();
            memory.compare(&mut group, &mut rng, &recording.replay(trace));
        }
    }
    group.end(&[0, 14]);
}

/// More records than 16 bits count: a wrong answer, and a wrong policy byte, on both sides of 2^8 and of 2^16.
fn many_records(run: &Run) {
    let mut group = Group::new(run, "rvghash_replay, more than 65,536 records");
    let mut rng = group.rng(0);
    let at = allowed(&mut rng);
    let recording = Recording::new(&mut rng, at, 257, 0).spread();
    let count = recording.records.len();
    let mut memory = Memory::new(count * RECORD);
    memory.compare(&mut group, &mut rng, &recording.replay(recording.trace()));
    for place in [255, 256, 257, 65_535, 65_536, 65_537, count - 1] {
        let answer = other_answer(&mut rng, recording.records[place].answer);
        memory.compare(&mut group, &mut rng, &recording.replay(recording.with_answer(place, answer)));
        memory.compare(&mut group, &mut rng, &recording.replay(with_policy_byte(recording.trace(), place, 4)));
    }
    group.end(&[0, 14, DIFFERS]);
}

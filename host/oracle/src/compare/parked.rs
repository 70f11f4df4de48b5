//! A running hash parked and read back: between the pieces of messages, with fields on both sides of each limit, with
//! buffers and records of every length, with each bit changed, and at random.

use super::hash::cut;
use super::inputs::{block, part_length, with_bit};
use super::limit::to_the_limit;
use super::running::{any_state, from_memory, open_bytes, to_memory, well_formed, Memory as RunningMemory, Shown};
use super::running::{Step, Which};
use crate::ffi::{rvghash_park, rvghash_unpark, Running, RUNNING_SIZE};
use crate::lent::{strays, Lent};
use crate::model::field::{Block, ZERO};
use crate::model::hash::{ghash, LIMIT};
use crate::model::parked::{park_call, record_of, unpark_call, PARKED, ZEROS};
use crate::model::running::{transition, State, FRESH};
use crate::report::{Bytes, Group, Run, Seen};
use crate::rng::Rng;

/// The longest buffer and record.
const MOST: usize = 64;

/// Memory for both calls, each of which is made and compared with the model by a method.
struct Memory {
    /// What is parked, which is only read, and where to.
    parked: Lent,
    buffer: Lent,
    /// What is read into, and from where.
    running: Lent,
    record: Lent,
}

impl Memory {
    fn new() -> Memory {
        Memory {
            parked: Lent::read("running", RUNNING_SIZE),
            buffer: Lent::write("record", MOST),
            running: Lent::write("running", RUNNING_SIZE),
            record: Lent::read("record", MOST),
        }
    }

    fn call_park(&mut self, rng: &mut Rng, state: &State, before: &[u8]) -> Seen<Bytes> {
        let running = self.parked.lend_aligned(rng, &to_memory(state), 8).cast::<Running>();
        let buffer = self.buffer.lend(rng, before);
        // SAFETY: each pointer goes with memory of the told length that nothing else uses.
        let answer = unsafe { rvghash_park(running, buffer, before.len()) };
        let stray = strays(&[&self.parked, &self.buffer]);
        Seen { answer, left: Bytes(self.buffer.content().to_vec()), stray }
    }

    fn call_unpark(&mut self, rng: &mut Rng, before: &[u8], record: &[u8]) -> Seen<Shown> {
        let running = self.running.lend_aligned(rng, before, 8).cast::<Running>();
        let from = self.record.lend(rng, record);
        // SAFETY: each pointer goes with memory of the told length that nothing else uses.
        let answer = unsafe { rvghash_unpark(running, from, record.len()) };
        let stray = strays(&[&self.running, &self.record]);
        Seen { answer, left: Shown(from_memory(self.running.content())), stray }
    }

    /// Parks into a buffer of so many bytes, which hold anything. What it then holds is given.
    fn park(&mut self, group: &mut Group, rng: &mut Rng, state: &State, len: usize) -> Vec<u8> {
        let before = rng.bytes(len);
        let (answer, after) = park_call(state, &before);
        let inputs = ("rvghash_park", Shown(*state), Bytes(before.clone()));
        group.compare(&inputs, Seen::expected(answer, Bytes(after)), || self.call_park(rng, state, &before));
        self.buffer.content().to_vec()
    }

    /// Reads a record into a struct that holds anything. What it then holds is given; an accepted record must be what
    /// parking that writes.
    fn unpark(&mut self, group: &mut Group, rng: &mut Rng, record: &[u8]) -> State {
        let before = rng.bytes(RUNNING_SIZE);
        let (answer, after) = unpark_call(record);
        let inputs = ("rvghash_unpark", Bytes(before.clone()), Bytes(record.to_vec()));
        group.compare(&inputs, Seen::expected(answer, Shown(after)), || self.call_unpark(rng, &before, record));
        let read = from_memory(self.running.content());
        if answer == 0 {
            let (inputs, before) = (("parked again", Shown(read)), rng.bytes(PARKED));
            let again = Seen::expected(0, Bytes(record.to_vec()));
            group.compare(&inputs, again, || self.call_park(rng, &read, &before));
        }
        read
    }

    /// Parks these fields, whatever the spare bytes, and reads what was written.
    fn restarted(&mut self, group: &mut Group, rng: &mut Rng, state: &State) -> State {
        let state = State { spare: rng.bytes(7).try_into().expect("7 bytes"), ..*state };
        let record = self.park(group, rng, &state, PARKED);
        self.unpark(group, rng, &record)
    }
}

pub fn run(run: &Run) {
    let mut memory = Memory::new();
    between_pieces(run, &mut memory);
    between_long_pieces(run, &mut memory);
    at_limits(run, &mut memory);
    lengths(run, &mut memory);
    bits(run, &mut memory);
    random(run, &mut memory);
}

fn between_pieces(run: &Run, memory: &mut Memory) {
    let mut group = Group::new(run, "running hash, parked and read back between pieces");
    let mut calls = RunningMemory::new(4096);
    for index in 0..6_000 * run.factor {
        let mut rng = group.rng(index);
        let key = block(&mut rng);
        let [a, c] = [0; 2].map(|_| {
            let len = part_length(&mut rng);
            rng.bytes(len)
        });
        let steps = cut(&mut rng, &key, &a, &c);
        compare_restarts(&mut group, memory, &mut calls, &mut rng, &steps, ghash(&key, &a, &c));
    }
    group.end(&[0, 9, 10]);
}

fn between_long_pieces(run: &Run, memory: &mut Memory) {
    let mut group = Group::new(run, "running hash, parked and read back on both sides of the limit");
    let mut calls = RunningMemory::new(LIMIT + 1);
    for index in 0..run.factor {
        let mut rng = group.rng(index);
        let (key, a, c) = (rng.block(), rng.bytes(LIMIT + 1), rng.bytes(LIMIT + 1));
        let cuts = [0; 2].map(|_| rng.below(LIMIT));
        let steps = to_the_limit(&mut rng, &key, [&a, &c], cuts);
        let whole = ghash(&key, &a[..LIMIT], &c[..LIMIT]);
        compare_restarts(&mut group, memory, &mut calls, &mut rng, &steps, whole);
    }
    group.end(&[0, 11]);
}

/// The steps of a run, each on the running hash that the last restart read. Finishing gives the hash of the whole
/// message.
fn compare_restarts(
    group: &mut Group,
    memory: &mut Memory,
    calls: &mut RunningMemory,
    rng: &mut Rng,
    steps: &[Step],
    whole: Block,
) {
    let mut state = FRESH;
    for step in steps {
        for _ in 0..rng.below(3) {
            state = memory.restarted(group, rng, &state);
        }
        let (answer, mut after) = transition(&state, &step.key.0, step.call());
        if step.which == Which::Finish && answer == 0 {
            after.y = whole;
        }
        calls.compare(group, rng, &state, step, answer, &after);
        state = after;
    }
    memory.restarted(group, rng, &state);
}

const OVER: u32 = LIMIT as u32 + 1;

/// Counts on both sides of the limit. Cut to 16 or 24 bits some of the wrong ones are right.
#[rustfmt::skip]
const COUNTS: [u32; 16] = [
    0, 1, 15, 16, 17, 255, 256, OVER - 17, OVER - 2, OVER - 1, OVER, OVER + 15, 1 << 21, 1 << 24, 1 << 31, u32::MAX,
];
const PHASES: [u8; 7] = [0, 1, 2, 3, 4, 128, 255];

/// These numbers, with the open bytes that belong to the part; then with a bit changed in each of the sixteen.
fn with_open_bytes(rng: &mut Rng, phase: u8, a_count: u32, c_count: u32) -> Vec<State> {
    let (y, spare) = (rng.block(), rng.bytes(7).try_into().expect("7 bytes"));
    let mut state = State { y, open: ZERO, a_count, c_count, phase, spare };
    let used = open_bytes(&state);
    rng.fill(&mut state.open[..used]);
    let mut all = vec![state; 17];
    (0..16).for_each(|place| all[1 + place].open[place] ^= 1 << rng.below(8));
    all
}

/// Each phase with each two counts, as a struct and as a record.
fn at_limits(run: &Run, memory: &mut Memory) {
    let mut group = Group::new(run, "rvghash_park and rvghash_unpark, at the limits");
    let mut rng = group.rng(0);
    for (phase, a_count) in PHASES.into_iter().flat_map(|phase| COUNTS.map(|a_count| (phase, a_count))) {
        for state in COUNTS.map(|c_count| with_open_bytes(&mut rng, phase, a_count, c_count)).concat() {
            memory.park(&mut group, &mut rng, &state, PARKED);
            memory.unpark(&mut group, &mut rng, &record_of(&state));
        }
    }
    group.end(&[0, 10, 15]);
}

/// Buffers and records of every length: each phase with counts on both sides of each limit, and any fields.
fn lengths(run: &Run, memory: &mut Memory) {
    let mut group = Group::new(run, "rvghash_park and rvghash_unpark, every length");
    let mut rng = group.rng(0);
    let mut states: Vec<_> = (0..60 * run.factor).map(|_| any_state(&mut rng)).collect();
    for (phase, a_count) in [0, 1, 2, 3].into_iter().flat_map(|phase| [OVER - 1, OVER].map(|count| (phase, count))) {
        for c_count in [0, 1, OVER - 1, OVER] {
            let open = with_open_bytes(&mut rng, phase, a_count, c_count);
            states.extend([open[0], open[1], open[2], open[16]]);
        }
    }
    for state in states {
        (0..=MOST).for_each(|len| of_length(&mut group, memory, &mut rng, &state, len));
    }
    group.end(&[0, 10, 15]);
}

/// A buffer of this length, and a record that is cut, or has zeros or other bytes behind it.
fn of_length(group: &mut Group, memory: &mut Memory, rng: &mut Rng, state: &State, len: usize) {
    memory.park(group, rng, state, len);
    let (record, behind) = (record_of(state), len.saturating_sub(PARKED));
    for behind in [vec![0; behind], rng.bytes(behind)] {
        memory.unpark(group, rng, &[&record[..len.min(PARKED)], &behind].concat());
    }
}

/// Each bit of a well-formed struct and of its record changed, and a spare byte of the record as each of 256 values.
fn bits(run: &Run, memory: &mut Memory) {
    let mut group = Group::new(run, "rvghash_park and rvghash_unpark, each bit changed");
    for index in 0..240 * run.factor {
        let mut rng = group.rng(index);
        let state = well_formed(&mut rng, index as u8 % 3);
        let (bytes, record) = (to_memory(&state), record_of(&state));
        for bit in 0..8 * PARKED {
            memory.park(&mut group, &mut rng, &from_memory(&with_bit(&bytes, bit)), PARKED);
            memory.unpark(&mut group, &mut rng, &with_bit(&record, bit));
        }
        let mut changed = record;
        let spare = PARKED - 1 - index as usize % ZEROS;
        for byte in 0..=255 {
            changed[spare] = byte;
            memory.unpark(&mut group, &mut rng, &changed);
        }
    }
    group.end(&[0, 10, 15]);
}

fn random(run: &Run, memory: &mut Memory) {
    let mut group = Group::new(run, "rvghash_park and rvghash_unpark, random");
    for index in 0..40_000 * run.factor {
        let mut rng = group.rng(index);
        let (state, len) = any_parking(&mut rng);
        memory.park(&mut group, &mut rng, &state, len);
        let record = any_record(&mut rng);
        memory.unpark(&mut group, &mut rng, &record);
    }
    group.end(&[0, 10, 15]);
}

/// A length that is 48 or, in so many of a thousand cases, another one.
fn any_length(rng: &mut Rng, per_thousand: usize) -> usize {
    if !rng.often(per_thousand) {
        return PARKED;
    }
    let any = rng.below(MOST + 1);
    rng.pick(&[0, 16, PARKED - ZEROS, PARKED - 1, PARKED + 1, MOST, any, any])
}

/// What to park, and the buffer's length: mostly fields of a phase, damaged or not, sometimes a struct of any bytes.
pub fn any_parking(rng: &mut Rng) -> (State, usize) {
    let state = if rng.often(50) { from_memory(&rng.bytes(RUNNING_SIZE)) } else { any_state(rng) };
    (state, any_length(rng, 200))
}

/// A record to read: mostly of such fields, sometimes of any bytes; sometimes with a spare byte, or of another length.
pub fn any_record(rng: &mut Rng) -> Vec<u8> {
    let mut record = if rng.often(50) { rng.bytes(PARKED) } else { record_of(&any_state(rng)) };
    if rng.often(100) {
        record[PARKED - 1 - rng.below(ZEROS)] ^= 1 << rng.below(8);
    }
    let (len, behind) = (any_length(rng, 100), if rng.often(500) { rng.bytes(MOST) } else { vec![0; MOST] });
    record.extend(behind);
    record.truncate(len);
    record
}

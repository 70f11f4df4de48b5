//! The running hash with fields of any content: after a message, made up, or malformed.

use super::inputs::{block, out_after, out_before, perhaps_odd};
use crate::ffi::{rvghash_running_new, Path, PATHS, RUNNING_SIZE};
use crate::lent::{strays, Lent};
use crate::model::field::{sixteen, Block, ZERO};
use crate::model::hash::LIMIT;
use crate::model::running::{transition, Call, State, FRESH};
use crate::report::{Bytes, Group, Run, Seen};
use crate::rng::Rng;
use std::fmt::{self, Debug, Formatter};

/// Which of the calls on a running hash.
#[derive(Clone, Copy, PartialEq, Eq, Debug)]
pub enum Which {
    FeedA,
    FeedC,
    Finish,
}

/// One call on a running hash. `piece` is what a feed takes, `out` what a finish writes to.
#[derive(Clone, Debug)]
pub struct Step {
    pub which: Which,
    pub path: Path,
    pub key: Bytes,
    pub piece: Bytes,
    pub out: Bytes,
}

impl Step {
    fn new(rng: &mut Rng, which: Which, key: &Block, piece: &[u8], out: Bytes) -> Step {
        Step { which, path: rng.pick(&PATHS), key: Bytes(key.to_vec()), piece: Bytes(piece.to_vec()), out }
    }

    pub fn feed_a(rng: &mut Rng, key: &Block, piece: &[u8]) -> Step {
        Step::new(rng, Which::FeedA, key, piece, Bytes(vec![]))
    }

    pub fn feed_c(rng: &mut Rng, key: &Block, piece: &[u8]) -> Step {
        Step::new(rng, Which::FeedC, key, piece, Bytes(vec![]))
    }

    /// With an out buffer of a wrong length in so many of a thousand cases.
    pub fn finish(rng: &mut Rng, key: &Block, bad_out: usize) -> Step {
        let out = out_before(rng, bad_out);
        Step::new(rng, Which::Finish, key, &[], out)
    }

    /// The call as the model takes it.
    pub fn call(&self) -> Call<'_> {
        match self.which {
            Which::FeedA => Call::FeedA(&self.piece.0),
            Which::FeedC => Call::FeedC(&self.piece.0),
            Which::Finish => Call::Finish { out_len: self.out.0.len() },
        }
    }
}

/// The fields, shown in hexadecimal.
#[derive(PartialEq)]
pub struct Shown(pub State);

impl Debug for Shown {
    fn fmt(&self, f: &mut Formatter) -> fmt::Result {
        f.debug_struct("Running")
            .field("y", &Bytes(self.0.y.to_vec()))
            .field("open", &Bytes(self.0.open.to_vec()))
            .field("a_count", &self.0.a_count)
            .field("c_count", &self.0.c_count)
            .field("phase", &self.0.phase)
            .field("spare", &Bytes(self.0.spare.to_vec()))
            .finish()
    }
}

#[derive(PartialEq, Debug)]
pub struct Left {
    pub running: Shown,
    pub out: Bytes,
}

/// The struct's bytes.
pub fn to_memory(state: &State) -> Vec<u8> {
    let half = |range: std::ops::Range<usize>| u64::from_be_bytes(state.y[range].try_into().expect("8 bytes"));
    let mut bytes = [half(0..8).to_ne_bytes(), half(8..16).to_ne_bytes()].concat();
    bytes.extend(state.open);
    bytes.extend(state.a_count.to_ne_bytes());
    bytes.extend(state.c_count.to_ne_bytes());
    bytes.push(state.phase);
    bytes.extend(state.spare);
    assert_eq!(bytes.len(), RUNNING_SIZE);
    bytes
}

pub fn from_memory(bytes: &[u8]) -> State {
    let half = |at: usize| u64::from_ne_bytes(bytes[at..at + 8].try_into().expect("8 bytes"));
    let count = |at: usize| u32::from_ne_bytes(bytes[at..at + 4].try_into().expect("4 bytes"));
    State {
        y: ((half(0) as u128) << 64 | half(8) as u128).to_be_bytes(),
        open: sixteen(&bytes[16..32]),
        a_count: count(32),
        c_count: count(36),
        phase: bytes[40],
        spare: bytes[41..48].try_into().expect("7 bytes"),
    }
}

pub struct Memory {
    running: Lent,
    key: Lent,
    piece: Lent,
    out: Lent,
}

impl Memory {
    /// For pieces of up to `most` bytes.
    pub fn new(most: usize) -> Memory {
        Memory {
            running: Lent::write("running", RUNNING_SIZE),
            key: Lent::read("key", 80),
            piece: Lent::read("piece", most),
            out: Lent::write("out", 80),
        }
    }

    fn call(&mut self, rng: &mut Rng, state: &State, s: &Step) -> Seen<Left> {
        let memory = to_memory(state);
        let running = self.running.lend_aligned(rng, &memory, 8).cast();
        let key = self.key.lend(rng, &s.key.0);
        let piece = self.piece.lend(rng, &s.piece.0);
        let out = self.out.lend(rng, &s.out.0);
        let [key_len, piece_len, out_len] = [&s.key, &s.piece, &s.out].map(|bytes| bytes.0.len());
        // SAFETY: each pointer goes with memory of the told length that nothing else uses.
        let answer = unsafe {
            match s.which {
                Which::FeedA => s.path.feed_a()(running, key, key_len, piece, piece_len),
                Which::FeedC => s.path.feed_c()(running, key, key_len, piece, piece_len),
                Which::Finish => s.path.finish()(running, key, key_len, out, out_len),
            }
        };
        let left =
            Left { running: Shown(from_memory(self.running.content())), out: Bytes(self.out.content().to_vec()) };
        Seen { answer, left, stray: strays(&[&self.running, &self.key, &self.piece, &self.out]) }
    }

    /// Makes the call on these fields; it must give this answer and leave those fields.
    pub fn compare(&mut self, g: &mut Group, rng: &mut Rng, before: &State, s: &Step, answer: u32, after: &State) {
        let out = match (s.which, answer) {
            (Which::Finish, 0) => out_after(&s.out, after.y),
            (Which::Finish, _) => out_after(&s.out, ZERO),
            _ => s.out.clone(),
        };
        let left = Left { running: Shown(*after), out };
        let inputs = (Shown(*before), s);
        g.compare(&inputs, Seen::expected(answer, left), || self.call(rng, before, s));
    }
}

pub fn run(run: &Run) {
    let mut memory = Memory::new(512);
    fresh(run, &mut memory);
    let mut group = Group::new(run, "running hash, any fields");
    for index in 0..100_000 * run.factor {
        let mut rng = group.rng(index);
        let state = any_state(&mut rng);
        let step = any_step(&mut rng, &state);
        let (answer, after) = transition(&state, &step.key.0, step.call());
        memory.compare(&mut group, &mut rng, &state, &step, answer, &after);
    }
    group.end(&[0, 9, 10, 11]);
}

/// rvghash_running_new over memory of any content.
fn fresh(run: &Run, memory: &mut Memory) {
    let mut group = Group::new(run, "rvghash_running_new");
    for index in 0..1_000 * run.factor {
        let mut rng = group.rng(index);
        let before = any_state(&mut rng);
        group.compare(&Shown(before), Seen::expected(0, Shown(FRESH)), || {
            let bytes = to_memory(&before);
            let running = memory.running.lend_aligned(&mut rng, &bytes, 8);
            // SAFETY: the pointer goes with memory for one running hash.
            unsafe { rvghash_running_new(running.cast()) };
            let left = Shown(from_memory(memory.running.content()));
            Seen { answer: 0, left, stray: strays(&[&memory.running]) }
        });
    }
    group.end(&[0]);
}

/// Fields of a phase, well-formed, then perhaps damaged once or twice.
pub fn any_state(rng: &mut Rng) -> State {
    let phase = rng.pick(&[0, 0, 0, 1, 1, 1, 1, 2]);
    let mut state = well_formed(rng, phase);
    for _ in 0..rng.pick(&[0, 0, 0, 1, 1, 2]) {
        damage(rng, &mut state);
    }
    state
}

/// Well-formed fields of this phase, with any spare bytes.
pub fn well_formed(rng: &mut Rng, phase: u8) -> State {
    let a_count = count(rng);
    let c_count = if phase == 0 { 0 } else { count(rng) };
    let spare = rng.bytes(7).try_into().expect("7 bytes");
    let mut state = State { y: block(rng), open: ZERO, a_count, c_count, phase, spare };
    let used = open_bytes(&state);
    state.open[..used].copy_from_slice(&block(rng)[..used]);
    state
}

fn count(rng: &mut Rng) -> u32 {
    match rng.below(8) {
        0 => 0,
        1 => rng.below_u32(33),
        2 => 16 * rng.below_u32(5),
        3 => rng.below_u32(200),
        4 => LIMIT as u32,
        5..=6 => LIMIT as u32 - rng.below_u32(40),
        _ => rng.below_u32(LIMIT as u32 + 1),
    }
}

/// How many bytes of the open block belong to the current part.
pub fn open_bytes(state: &State) -> usize {
    match state.phase {
        0 => state.a_count as usize % 16,
        1 => state.c_count as usize % 16,
        _ => 0,
    }
}

/// One change that makes the fields malformed, or nearly.
fn damage(rng: &mut Rng, state: &mut State) {
    let over = LIMIT as u32 + 1;
    let far_over = rng.u32() | 1 << 21;
    let too_many = rng.pick(&[over, over, over + 15, 2 * over, u32::MAX, u32::MAX - 15, far_over]);
    let used = open_bytes(state);
    let bit = 1 << rng.below(8);
    match rng.below(9) {
        0 => state.phase = rng.pick(&[3, 3, 4, 128, 255]),
        1 => state.phase = rng.below(3) as u8,
        2 => state.a_count = too_many,
        3 => state.c_count = too_many,
        4 => state.c_count = rng.pick(&[1, 15, 16, 17, LIMIT as u32]),
        5 => state.open = block(rng),
        6 => state.open[15] ^= bit,
        7 => state.open[used] ^= bit,
        _ => state.open[used + rng.below(16 - used)] ^= bit,
    }
}

/// A call for these fields: mostly one that the phase takes, with a piece that often ends near the limit.
pub fn any_step(rng: &mut Rng, state: &State) -> Step {
    let key = block(rng);
    let for_phase = if state.phase == 0 { Which::FeedA } else { Which::FeedC };
    let which = rng.pick(&[for_phase, for_phase, Which::FeedA, Which::FeedC, Which::Finish]);
    let taken = if which == Which::FeedA { state.a_count } else { state.c_count };
    let len = piece_length(rng, LIMIT.saturating_sub(taken as usize));
    let piece = rng.bytes(len);
    let bad = rng.pick(&[0, 0, 0, 150]);
    let mut step = match which {
        Which::FeedA => Step::feed_a(rng, &key, &piece),
        Which::FeedC => Step::feed_c(rng, &key, &piece),
        Which::Finish => Step::finish(rng, &key, bad),
    };
    step.key = perhaps_odd(rng, key, bad);
    step
}

fn piece_length(rng: &mut Rng, room: usize) -> usize {
    match rng.below(8) {
        0 => 0,
        1..=2 if room < 400 => room,
        3..=4 if room < 400 => room + 1,
        5 => 16 * rng.below(5),
        6 => rng.below(300),
        _ => rng.below(40),
    }
}

//! The running hash, twice: as the bytes fed so far, from which its fields follow, and as a transition on the fields,
//! for fields that no message led to.

use super::field::{sixteen, step, Block, ZERO};
use super::hash::{absorb, ghash, length_block, padded, LIMIT};
use super::refusal::smallest;

/// The fields of the running hash.
#[derive(Clone, Copy, PartialEq, Eq, Debug)]
pub struct State {
    pub y: Block,
    pub open: Block,
    pub a_count: u32,
    pub c_count: u32,
    pub phase: u8,
    pub spare: [u8; 7],
}

pub const FRESH: State = State { y: ZERO, open: ZERO, a_count: 0, c_count: 0, phase: 0, spare: [0; 7] };

/// One call on a running hash, the key aside.
#[derive(Clone, Copy)]
pub enum Call<'a> {
    FeedA(&'a [u8]),
    FeedC(&'a [u8]),
    Finish { out_len: usize },
}

impl Call<'_> {
    fn allowed_in(&self, phase: u8) -> bool {
        match self {
            Call::FeedA(_) => phase == 0,
            Call::FeedC(_) | Call::Finish { .. } => phase == 0 || phase == 1,
        }
    }

    fn bad_out(&self) -> bool {
        matches!(self, Call::Finish { out_len } if *out_len != 16)
    }

    /// Whether A or C, so far of these counts, would pass the limit.
    fn passes_limit(&self, a_count: usize, c_count: usize) -> bool {
        match self {
            Call::FeedA(piece) => a_count + piece.len() > LIMIT,
            Call::FeedC(piece) => c_count + piece.len() > LIMIT,
            Call::Finish { .. } => false,
        }
    }
}

/// A running hash as all that was fed to it since it was fresh, under one key.
#[derive(Clone, Default)]
pub struct Fed {
    a: Vec<u8>,
    c: Vec<u8>,
    phase: u8,
}

impl Fed {
    /// Takes a call, or refuses it and stays as it is.
    pub fn apply(&mut self, key_len: usize, call: Call) -> u32 {
        let answer = smallest(&[
            (9, key_len != 16 || call.bad_out()),
            (10, !call.allowed_in(self.phase)),
            (11, call.passes_limit(self.a.len(), self.c.len())),
        ]);
        if answer == 0 {
            match call {
                Call::FeedA(piece) => self.a.extend(piece),
                Call::FeedC(piece) => {
                    self.c.extend(piece);
                    self.phase = 1;
                }
                Call::Finish { .. } => self.phase = 2,
            }
        }
        answer
    }

    /// The fields that must stand after those bytes.
    pub fn state(&self, h: &Block) -> State {
        let (y, open) = match self.phase {
            0 => part_way(ZERO, &self.a, h),
            1 => part_way(absorb(ZERO, &padded(&self.a), h), &self.c, h),
            _ => (ghash(h, &self.a, &self.c), ZERO),
        };
        let (a_count, c_count) = (self.a.len() as u32, self.c.len() as u32);
        State { y, open, a_count, c_count, phase: self.phase, spare: [0; 7] }
    }
}

/// Y after the whole blocks of a part, and the rest as the open block.
fn part_way(y: Block, part: &[u8], h: &Block) -> (Block, Block) {
    let (whole, rest) = part.split_at(part.len() / 16 * 16);
    (absorb(y, &padded(whole), h), padded(rest).first().copied().unwrap_or(ZERO))
}

impl State {
    /// Document 01, Running hash: "Malformed".
    pub fn malformed(&self) -> bool {
        let used = match self.phase {
            0 => self.a_count as usize % 16,
            1 => self.c_count as usize % 16,
            _ => 0,
        };
        self.phase > 2
            || self.a_count as usize > LIMIT
            || self.c_count as usize > LIMIT
            || self.phase == 0 && self.c_count != 0
            || self.open[used..].iter().any(|&b| b != 0)
    }

    /// Pads the current part: an open block that holds bytes of it is taken.
    fn close_part(&mut self, h: &Block) {
        let count = if self.phase == 0 { self.a_count } else { self.c_count };
        if count % 16 != 0 {
            self.y = step(&self.y, &self.open, h);
        }
        self.open = ZERO;
    }

    /// Takes the open bytes and then the piece, block by block.
    fn take(&mut self, piece: &[u8], h: &Block) {
        let count = if self.phase == 0 { &mut self.a_count } else { &mut self.c_count };
        let waiting = [&self.open[..*count as usize % 16], piece].concat();
        *count += piece.len() as u32;
        (self.y, self.open) = part_way(self.y, &waiting, h);
    }
}

/// A call on any fields: the answer and the fields after it. A finish's block is then Y.
pub fn transition(before: &State, key: &[u8], call: Call) -> (u32, State) {
    let answer = smallest(&[
        (9, key.len() != 16 || call.bad_out()),
        (10, before.malformed() || !call.allowed_in(before.phase)),
        (11, call.passes_limit(before.a_count as usize, before.c_count as usize)),
    ]);
    let mut state = *before;
    if answer != 0 {
        return (answer, state);
    }
    state.spare = [0; 7];
    let h = sixteen(key);
    match call {
        Call::FeedA(piece) => state.take(piece, &h),
        Call::FeedC(piece) => {
            if state.phase == 0 {
                state.close_part(&h);
                state.phase = 1;
            }
            state.take(piece, &h);
        }
        Call::Finish { .. } => {
            state.close_part(&h);
            state.y = step(&state.y, &length_block(state.a_count as u64, state.c_count as u64), &h);
            state.phase = 2;
        }
    }
    (0, state)
}

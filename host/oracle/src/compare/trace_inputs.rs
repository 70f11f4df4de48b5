//! Traces: calls in a row with the model's answers, and the same with wrong answers, torn, or with a wrong policy byte.
//! A rate named `bad` is the number of wrong values in a thousand.

use super::execute_inputs::{call, content, not_allowed};
use crate::model::execute::{execute, POLICIES, UNDISTURBED, VLENS};
use crate::model::record::{Record, RECORD};
use crate::report::Bytes;
use crate::rng::Rng;

/// The most records of a random trace.
const MOST_RECORDS: usize = 200;

/// The longest of these traces, which is torn.
pub const MOST_TRACE: usize = MOST_RECORDS * RECORD + RECORD - 1;

/// The place of a record's policy byte.
const POLICY_BYTE: usize = 7;

/// The places of vd and vs2 in a word.
const VD: u32 = 7;
const VS2: u32 = 20;

/// What one replay is lent.
#[derive(Debug)]
pub struct Replay {
    pub vlen: u32,
    pub file: Bytes,
    pub trace: Bytes,
}

/// A file and the records of calls on it, each call on what the one before it left.
pub struct Recording {
    pub vlen: u32,
    pub file: Bytes,
    pub records: Vec<Record>,
    /// For each record whether its call changes the file.
    pub changes: Vec<bool>,
}

impl Recording {
    pub fn new(rng: &mut Rng, (vlen, file): (u32, Bytes), count: usize, bad: usize) -> Recording {
        let mut now = file.0.clone();
        let mut recording = Recording { vlen, file, records: vec![], changes: vec![] };
        // Where no call writes registers 0 to 15, not all of the file becomes zero in the long run.
        let upper_half = if rng.often(750) { 16 << VD } else { 0 };
        // An old trace has no policies.
        let policies: &[_] = if rng.often(250) { &[UNDISTURBED] } else { &POLICIES };
        for _ in 0..count {
            let mut record = call_after(rng, vlen, recording.records.last(), bad);
            record.word |= upper_half;
            record.policies = rng.pick(policies);
            let ours = execute(&record.request(vlen, &now));
            recording.records.push(Record { answer: ours.answer, ..record });
            recording.changes.push(ours.file != now);
            now = ours.file;
        }
        recording
    }

    /// The same calls as every 256th record; the word 0, which is refused, makes up the others.
    pub fn spread(&self) -> Recording {
        const APART: usize = 256;
        const REFUSED: Record =
            Record { word: 0, sew: 8, lmul: 1, answer: 2, policies: UNDISTURBED, vl: 1, vstart: 0, scalar: 0 };
        let mut spread = Recording { vlen: self.vlen, file: self.file.clone(), records: vec![], changes: vec![] };
        for (record, changes) in self.records.iter().zip(&self.changes) {
            spread.records.push(*record);
            spread.changes.push(*changes);
            spread.records.extend([REFUSED; APART - 1]);
            spread.changes.extend([false; APART - 1]);
        }
        spread
    }

    /// A replay of this trace from the recording's file.
    pub fn replay(&self, trace: Vec<u8>) -> Replay {
        Replay { vlen: self.vlen, file: self.file.clone(), trace: Bytes(trace) }
    }

    /// The trace, which is done.
    pub fn trace(&self) -> Vec<u8> {
        bytes(&self.records)
    }

    /// The trace with this answer in one record.
    pub fn with_answer(&self, place: usize, answer: u32) -> Vec<u8> {
        let mut records = self.records.clone();
        records[place].answer = answer;
        bytes(&records)
    }

    /// The trace with wrong answers, if it has a place for the first: one, or later ones too.
    pub fn with_wrong_answers(&self, rng: &mut Rng) -> Vec<u8> {
        let mut records = self.records.clone();
        if let Some(first) = self.place(rng) {
            for (place, record) in records.iter_mut().enumerate().skip(first) {
                if place == first || rng.often(100) {
                    record.answer = other_answer(rng, record.answer);
                }
            }
        }
        bytes(&records)
    }

    /// A record's place: where the file changes, where the call is refused, the last, or any.
    fn place(&self, rng: &mut Rng) -> Option<usize> {
        let of = |wanted: &dyn Fn(usize) -> bool| (0..self.records.len()).filter(|&i| wanted(i)).collect::<Vec<_>>();
        let places = match rng.below(6) {
            0..=1 => of(&|i| self.changes[i]),
            2 => of(&|i| self.records[i].answer != 0),
            3 => of(&|i| i + 1 == self.records.len()),
            _ => of(&|_| true),
        };
        (!places.is_empty()).then(|| rng.pick(&places))
    }

    /// The trace as it is, with wrong answers, torn, and with a wrong policy byte; the last two have wrong answers at
    /// times.
    pub fn replays(&self, rng: &mut Rng) -> [Replay; 4] {
        let [one, other] = [0; 2].map(|_| if rng.often(300) { self.with_wrong_answers(rng) } else { self.trace() });
        let traces = [self.trace(), self.with_wrong_answers(rng), torn(rng, one), with_wrong_policies(rng, other)];
        traces.map(|trace| self.replay(trace))
    }
}

/// The bytes of records whose numbers fit.
fn bytes(records: &[Record]) -> Vec<u8> {
    records.iter().flat_map(|record| record.bytes().expect("numbers that fit")).collect()
}

/// A call that a record can hold, without policies. It often writes or reads what the last one wrote.
fn call_after(rng: &mut Rng, vlen: u32, last: Option<&Record>, bad: usize) -> Record {
    let c = call(rng, vlen, bad);
    let mut word = c.word.0 as u32;
    if let (Some(last), true) = (last, rng.often(300)) {
        let (written, place) = (last.word >> VD & 31, rng.pick(&[VD, VS2]));
        word = word & !(31 << place) | (written - written % c.lmul.max(1)) << place;
    }
    let [sew, lmul] = [c.sew, c.lmul].map(|setting| setting & 255);
    let vstart = if rng.often(500) { 0 } else { c.vstart };
    Record { word, sew, lmul, answer: 0, policies: UNDISTURBED, vl: c.vl, vstart, scalar: c.scalar.0 }
}

/// An answer byte that is not ours: done, one bit off, another number of the executor's, or any.
pub fn other_answer(rng: &mut Rng, ours: u32) -> u32 {
    match rng.below(4) {
        0 if ours != 0 => 0,
        1 => ours ^ 1 << rng.below(8),
        2 if ours < 9 => (ours + 1 + rng.below_u32(8)) % 9,
        _ => (ours + 1 + rng.below_u32(255)) % 256,
    }
}

/// The trace with 1 to 23 bytes less, or with so many more.
fn torn(rng: &mut Rng, mut trace: Vec<u8>) -> Vec<u8> {
    let rest = 1 + rng.below(RECORD - 1);
    if trace.is_empty() || rng.often(500) {
        trace.extend(if rng.often(300) { vec![0; rest] } else { rng.bytes(rest) });
    } else {
        trace.truncate(trace.len() - rest);
    }
    trace
}

/// The trace with this policy byte in one record.
pub fn with_policy_byte(mut trace: Vec<u8>, place: usize, byte: u8) -> Vec<u8> {
    trace[RECORD * place + POLICY_BYTE] = byte;
    trace
}

/// A policy byte that is refused.
pub fn wrong_policies(rng: &mut Rng) -> u8 {
    let any = 4 + rng.below(252) as u8;
    rng.pick(&[4, 5, 128, 255, any, any])
}

/// The trace with a wrong policy byte in its first, its last or any record, if it has one.
fn with_wrong_policies(rng: &mut Rng, trace: Vec<u8>) -> Vec<u8> {
    let count = trace.len() / RECORD;
    if count == 0 {
        return trace;
    }
    let any = rng.below(count);
    let place = rng.pick(&[0, count - 1, any]);
    with_policy_byte(trace, place, wrong_policies(rng))
}

/// A VLEN that is allowed, and a file for it.
pub fn allowed(rng: &mut Rng) -> (u32, Bytes) {
    let vlen = rng.pick(&VLENS);
    (vlen, content(rng, 32 * vlen as usize / 8, vlen))
}

/// Any recording under an allowed VLEN.
pub fn any_recording(rng: &mut Rng) -> Recording {
    let (count, bad) = (any_count(rng), rng.pick(&[0, 0, 20, 60]));
    let at = allowed(rng);
    Recording::new(rng, at, count, bad)
}

/// Any recording under a VLEN or with a file that is not allowed: each call is refused with 1.
pub fn any_refused_recording(rng: &mut Rng) -> Recording {
    let (count, bad) = (any_count(rng), rng.pick(&[0, 60]));
    let at = not_allowed(rng);
    Recording::new(rng, at, count, bad)
}

/// A number of records, mostly small.
fn any_count(rng: &mut Rng) -> usize {
    match rng.below(40) {
        0..=1 => 0,
        2..=7 => 1,
        8..=23 => 2 + rng.below(5),
        24..=37 => rng.below(25),
        38 => rng.below(MOST_RECORDS + 1),
        _ => MOST_RECORDS - rng.below(2),
    }
}

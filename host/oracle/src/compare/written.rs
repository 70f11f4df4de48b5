//! Cases in a file, for a library of another machine: what each call is lent, and what it must answer and leave.
//! host/tests/riscv_cases.h has the reader's side of the format.

use super::execute_inputs::{any, any_with_policies, keys_at_group, single_bits, under_policies, Case};
use super::hash::cut;
use super::inputs::{block, out_after, out_before, part_length, perhaps_odd};
use super::links::any_links;
use super::parked::{any_parking, any_record};
use super::record::any_put;
use super::running::{any_state, any_step, to_memory, Step, Which};
use super::step_back::any_case;
use super::texts::any_text;
use super::trace_inputs::{any_recording, any_refused_recording, Replay};
use super::word_inputs::{any_buffer, any_fields, any_word};
use crate::ffi::{Path, PATHS, RUNNING_SIZE};
use crate::model::execute::{execute, Policies};
use crate::model::field::{Block, ZERO};
use crate::model::hash::ghash_call;
use crate::model::links::check_links_call;
use crate::model::parked::{park_call, unpark_call, PARKED};
use crate::model::record::put_record_call;
use crate::model::replay::replay_call;
use crate::model::running::{transition, Fed, State, FRESH};
use crate::model::step_back::step_back_call;
use crate::model::text::{assemble_call, disassemble_call};
use crate::model::writer::{decode_call, encode_call};
use crate::report::{Bytes, Run};
use crate::rng::Rng;
use std::fs::File;
use std::io::{BufWriter, Result, Write};

/// The functions, by their number in the file.
#[derive(Clone, Copy)]
enum Function {
    Execute,
    Ghash(Path),
    StepBack,
    Running(Which, Path),
    Encode,
    Decode,
    Disassemble,
    Assemble,
    PutRecord,
    Replay,
    ExecutePolicies,
    Park,
    Unpark,
    CheckLinks,
}

impl Function {
    fn number(self) -> u32 {
        let plain = |path| (path == Path::Plain) as u32;
        match self {
            Function::Execute => 0,
            Function::StepBack => 1,
            Function::Ghash(path) => 2 + plain(path),
            Function::Running(Which::FeedA, path) => 4 + plain(path),
            Function::Running(Which::FeedC, path) => 6 + plain(path),
            Function::Running(Which::Finish, path) => 8 + plain(path),
            Function::Encode => 10,
            Function::Decode => 11,
            Function::Disassemble => 12,
            Function::Assemble => 13,
            Function::PutRecord => 14,
            Function::Replay => 15,
            Function::ExecutePolicies => 16,
            Function::Park => 17,
            Function::Unpark => 18,
            Function::CheckLinks => 19,
        }
    }
}

/// A buffer that a call is lent: its alignment, and what it holds before and after the call.
struct Lent<'a> {
    align: u32,
    before: &'a [u8],
    after: &'a [u8],
}

fn lent<'a>(align: u32, before: &'a [u8], after: &'a [u8]) -> Lent<'a> {
    Lent { align, before, after }
}

fn read(bytes: &Bytes) -> Lent<'_> {
    lent(1, &bytes.0, &bytes.0)
}

/// tail_agnostic and mask_agnostic as scalars.
fn numbers_of(policies: Policies) -> [u64; 2] {
    [policies.tail_agnostic, policies.mask_agnostic].map(u64::from)
}

struct Cases {
    out: BufWriter<File>,
}

impl Cases {
    fn numbers(&mut self, numbers: &[u32]) -> Result<()> {
        numbers.iter().try_for_each(|n| self.out.write_all(&n.to_le_bytes()))
    }

    fn call(&mut self, function: Function, answer: u32, scalars: &[u64], buffers: &[Lent]) -> Result<()> {
        self.numbers(&[function.number(), answer, scalars.len() as u32, buffers.len() as u32])?;
        scalars.iter().try_for_each(|n| self.out.write_all(&n.to_le_bytes()))?;
        buffers.iter().try_for_each(|b| self.buffer(b))
    }

    /// The content before, and the part of it that changes.
    fn buffer(&mut self, b: &Lent) -> Result<()> {
        let differs = |&i: &usize| b.before[i] != b.after[i];
        let start = (0..b.before.len()).find(differs).unwrap_or(0);
        let end = (0..b.before.len()).rev().find(differs).map_or(0, |last| last + 1);
        self.numbers(&[b.before.len(), b.align as usize, start, end - start].map(|n| n as u32))?;
        self.out.write_all(b.before)?;
        self.out.write_all(&b.after[start..end])
    }

    fn any_execution(&mut self, rng: &mut Rng) -> Result<()> {
        self.execution(&any(rng))
    }

    fn any_execution_with_policies(&mut self, rng: &mut Rng) -> Result<()> {
        self.execution(&any_with_policies(rng))
    }

    /// The scalars of both calls are the same: a call without policies has both off.
    fn execution(&mut self, c: &Case) -> Result<()> {
        let (request, function) = (c.request(), c.policies.map_or(Function::Execute, |_| Function::ExecutePolicies));
        let after = execute(&request);
        let [vlen, sew, lmul, vl] = [c.vlen, c.sew, c.lmul, c.vl].map(u64::from);
        let [tail_agnostic, mask_agnostic] = numbers_of(request.policies);
        let scalars = [c.word.0, vlen, sew, lmul, tail_agnostic, mask_agnostic, vl, c.scalar.0];
        let vstart = [c.vstart, after.vstart].map(u32::to_le_bytes);
        let buffers = [lent(4, &vstart[0], &vstart[1]), lent(1, &c.file.0, &after.file)];
        self.call(function, after.answer, &scalars, &buffers)
    }

    fn step_back(&mut self, rng: &mut Rng) -> Result<()> {
        let c = any_case(rng);
        let model = step_back_call(&c.key.0, &c.block.0, &c.later.0, c.out.0.len());
        let after = out_after(&c.out, model.block);
        let buffers = [read(&c.key), read(&c.block), read(&c.later), lent(1, &c.out.0, &after.0)];
        self.call(Function::StepBack, model.answer, &[], &buffers)
    }

    /// A message whole on both paths, and in pieces, the paths mixed.
    fn message(&mut self, rng: &mut Rng) -> Result<()> {
        let key = block(rng);
        let [a, c] = [0; 2].map(|_| {
            let len = part_length(rng);
            rng.bytes(len)
        });
        let steps = cut(rng, &key, &a, &c);
        self.pieces(rng, &key, &steps)?;
        let bad = rng.pick(&[0, 0, 0, 100]);
        let (key, out, a, c) = (perhaps_odd(rng, key, bad), out_before(rng, bad), Bytes(a), Bytes(c));
        let model = ghash_call(&key.0, &a.0, &c.0, out.0.len());
        let after = out_after(&out, model.block);
        for path in PATHS {
            let buffers = [read(&key), read(&a), read(&c), lent(1, &out.0, &after.0)];
            self.call(Function::Ghash(path), model.answer, &[], &buffers)?;
        }
        Ok(())
    }

    /// After each piece the running hash is parked, and read back.
    fn pieces(&mut self, rng: &mut Rng, key: &Block, steps: &[Step]) -> Result<()> {
        let (mut fed, mut before) = (Fed::default(), FRESH);
        for step in steps {
            let answer = fed.apply(step.key.0.len(), step.call());
            let after = fed.state(key);
            self.running(&before, step, answer, &after)?;
            let record = self.park(rng, &after, PARKED)?;
            self.unpark(rng, record)?;
            before = after;
        }
        Ok(())
    }

    fn any_running(&mut self, rng: &mut Rng) -> Result<()> {
        let before = any_state(rng);
        let step = any_step(rng, &before);
        let (answer, after) = transition(&before, &step.key.0, step.call());
        self.running(&before, &step, answer, &after)
    }

    fn running(&mut self, before: &State, s: &Step, answer: u32, after: &State) -> Result<()> {
        let finished = if answer == 0 { after.y } else { ZERO };
        let out = out_after(&s.out, finished);
        let (before, after) = (to_memory(before), to_memory(after));
        let running = lent(8, &before, &after);
        let function = Function::Running(s.which, s.path);
        match s.which {
            Which::Finish => self.call(function, answer, &[], &[running, read(&s.key), lent(1, &s.out.0, &out.0)]),
            _ => self.call(function, answer, &[], &[running, read(&s.key), read(&s.piece)]),
        }
    }

    fn any_parked(&mut self, rng: &mut Rng) -> Result<()> {
        let (state, len) = any_parking(rng);
        self.park(rng, &state, len)?;
        let record = any_record(rng);
        self.unpark(rng, record)
    }

    /// Parks into a buffer of so many bytes, and gives what it then holds.
    fn park(&mut self, rng: &mut Rng, state: &State, len: usize) -> Result<Vec<u8>> {
        let (running, before) = (Bytes(to_memory(state)), rng.bytes(len));
        let (answer, after) = park_call(state, &before);
        let running = Lent { align: 8, ..read(&running) };
        self.call(Function::Park, answer, &[], &[running, lent(1, &before, &after)])?;
        Ok(after)
    }

    fn unpark(&mut self, rng: &mut Rng, record: Vec<u8>) -> Result<()> {
        let (answer, after) = unpark_call(&record);
        let (before, after) = (rng.bytes(RUNNING_SIZE), to_memory(&after));
        self.call(Function::Unpark, answer, &[], &[lent(8, &before, &after), read(&Bytes(record))])
    }

    fn links(&mut self, rng: &mut Rng) -> Result<()> {
        let l = any_links(rng, 40);
        let (answer, after) = check_links_call(&l.key.0, &l.records.0, &l.before.0);
        self.call(Function::CheckLinks, answer, &[], &[read(&l.key), read(&l.records), lent(1, &l.before.0, &after)])
    }

    fn written_word(&mut self, rng: &mut Rng) -> Result<()> {
        let f = any_fields(rng);
        let (answer, word) = encode_call(&f);
        let word = [rng.u32(), word].map(u32::to_le_bytes);
        let scalars = f.numbers().map(u64::from);
        self.call(Function::Encode, answer, &scalars, &[lent(4, &word[0], &word[1])])
    }

    fn decoded_word(&mut self, rng: &mut Rng) -> Result<()> {
        let word = any_word(rng);
        let (answer, f) = decode_call(word);
        let numbers = f.numbers().map(|after| [rng.u32(), after].map(u32::to_le_bytes));
        let buffers: Vec<_> = numbers.iter().map(|[before, after]| lent(4, before, after)).collect();
        self.call(Function::Decode, answer, &[word as u64], &buffers)
    }

    fn listed_word(&mut self, rng: &mut Rng) -> Result<()> {
        let (word, before) = (any_word(rng), any_buffer(rng, 300).0);
        let (answer, text) = disassemble_call(word, before.len());
        let after = [text.as_bytes(), &before[text.len()..]].concat();
        let length = [rng.u64(), text.len() as u64].map(u64::to_le_bytes);
        let buffers = [lent(1, &before, &after), lent(8, &length[0], &length[1])];
        self.call(Function::Disassemble, answer, &[word as u64], &buffers)
    }

    fn read_text(&mut self, rng: &mut Rng) -> Result<()> {
        let text = Bytes(any_text(rng));
        let (answer, word) = assemble_call(&text.0);
        let word = [rng.u32(), word].map(u32::to_le_bytes);
        self.call(Function::Assemble, answer, &[], &[read(&text), lent(4, &word[0], &word[1])])
    }

    fn record(&mut self, rng: &mut Rng) -> Result<()> {
        let put = any_put(rng);
        let (answer, after) = put_record_call(&put.record, &put.before.0);
        let r = &put.record;
        let [word, sew, lmul, told, vl, vstart] = [r.word, r.sew, r.lmul, r.answer, r.vl, r.vstart].map(u64::from);
        let [tail_agnostic, mask_agnostic] = numbers_of(r.policies);
        let scalars = [word, sew, lmul, tail_agnostic, mask_agnostic, told, vl, vstart, r.scalar];
        self.call(Function::PutRecord, answer, &scalars, &[lent(1, &put.before.0, &after)])
    }

    /// A trace whole and with something wrong.
    fn recording(&mut self, rng: &mut Rng) -> Result<()> {
        let recording = if rng.often(150) { any_refused_recording(rng) } else { any_recording(rng) };
        recording.replays(rng).iter().try_for_each(|replay| self.replay(rng, replay))
    }

    fn replay(&mut self, rng: &mut Rng, r: &Replay) -> Result<()> {
        let after = replay_call(r.vlen, &r.file.0, &r.trace.0);
        let index = [rng.u64(), after.index as u64].map(u64::to_le_bytes);
        let buffers = [lent(1, &r.file.0, &after.file), read(&r.trace), lent(8, &index[0], &index[1])];
        self.call(Function::Replay, after.answer, &[r.vlen as u64], &buffers)
    }
}

/// Writes the cases of this seed.
pub fn write(run: &Run, path: &str) -> Result<()> {
    let mut cases = Cases { out: BufWriter::new(File::create(path)?) };
    cases.out.write_all(b"rvghash cases 2\n")?;
    let groups: [(&str, u64, fn(&mut Cases, &mut Rng) -> Result<()>); 13] = [
        ("executions", 24_000, Cases::any_execution),
        ("executions with policies", 12_000, Cases::any_execution_with_policies),
        ("step backs", 1_200, Cases::step_back),
        ("messages, whole and in pieces", 600, Cases::message),
        ("running hashes, any fields", 10_000, Cases::any_running),
        ("running hashes parked, and records read, any fields", 4_000, Cases::any_parked),
        ("links, up to 40 in a call", 2_500, Cases::links),
        ("words written", 4_000, Cases::written_word),
        ("words decoded", 4_000, Cases::decoded_word),
        ("words listed", 6_000, Cases::listed_word),
        ("texts read", 10_000, Cases::read_text),
        ("records", 3_000, Cases::record),
        ("traces, each replayed four times", 500, Cases::recording),
    ];
    for (name, count, one) in groups {
        for index in 0..count * run.factor {
            one(&mut cases, &mut Rng::for_call(run.seed, name, index))?;
        }
        println!("written: {name}: {}", count * run.factor);
    }
    let lists: [(&str, fn(&mut Rng) -> Vec<Case>); 3] = [
        ("executions, all pairs of single bits", single_bits),
        ("executions, keys at both ends of vd's group", keys_at_group),
        ("executions with policies, under each VLEN and LMUL", under_policies),
    ];
    for (name, list) in lists {
        let list = list(&mut Rng::for_call(run.seed, name, 0));
        list.iter().try_for_each(|case| cases.execution(case))?;
        println!("written: {name}: {}", list.len());
    }
    cases.out.flush()
}

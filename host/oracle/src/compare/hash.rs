//! The hash of whole messages on both paths, and of the same messages cut into pieces, the paths mixed.

use super::inputs::{block, out_after, out_before, part_length, perhaps_odd};
use super::running::{Memory as RunningMemory, Step};
use crate::ffi::{Path, PATHS};
use crate::lent::{strays, Lent};
use crate::model::field::Block;
use crate::model::hash::ghash_call;
use crate::model::running::{Fed, FRESH};
use crate::report::{Bytes, Group, Run, Seen};
use crate::rng::Rng;

#[derive(Debug)]
pub struct Whole {
    pub path: Path,
    pub key: Bytes,
    pub a: Bytes,
    pub c: Bytes,
    pub out: Bytes,
    /// Whether C is lent from A's memory; both are only read.
    pub one_memory: bool,
}

pub struct Memory {
    key: Lent,
    a: Lent,
    c: Lent,
    out: Lent,
}

impl Memory {
    /// For parts of up to `most` bytes.
    pub fn new(most: usize) -> Memory {
        Memory {
            key: Lent::read("key", 80),
            a: Lent::read("a", most),
            c: Lent::read("c", most),
            out: Lent::write("out", 80),
        }
    }

    fn call(&mut self, rng: &mut Rng, w: &Whole) -> Seen<Bytes> {
        let key = self.key.lend(rng, &w.key.0);
        let a = self.a.lend(rng, &w.a.0);
        let c = if w.one_memory { a } else { self.c.lend(rng, &w.c.0) };
        let out = self.out.lend(rng, &w.out.0);
        let [key_len, a_len, c_len, out_len] = [&w.key, &w.a, &w.c, &w.out].map(|bytes| bytes.0.len());
        // SAFETY: each pointer goes with memory of the told length; only `out` may be written, and it stands alone.
        let answer = unsafe { w.path.ghash()(key, key_len, a, a_len, c, c_len, out, out_len) };
        let stray = strays(&[&self.key, &self.a, &self.c, &self.out]);
        Seen { answer, left: Bytes(self.out.content().to_vec()), stray }
    }
}

/// One whole message on both paths.
pub fn compare_whole(group: &mut Group, memory: &mut Memory, rng: &mut Rng, mut w: Whole) {
    let model = ghash_call(&w.key.0, &w.a.0, &w.c.0, w.out.0.len());
    for path in PATHS {
        w.path = path;
        let left = out_after(&w.out, model.block);
        group.compare(&w, Seen::expected(model.answer, left), || memory.call(rng, &w));
    }
}

/// Feeds the steps to a fresh running hash. The fields after each must be those that follow from all bytes so far.
pub fn compare_steps(group: &mut Group, memory: &mut RunningMemory, rng: &mut Rng, key: &Block, steps: &[Step]) {
    let mut fed = Fed::default();
    let mut state = FRESH;
    for step in steps {
        let answer = fed.apply(step.key.0.len(), step.call());
        let after = fed.state(key);
        memory.compare(group, rng, &state, step, answer, &after);
        state = after;
    }
}

pub fn run(run: &Run) {
    let mut whole = Group::new(run, "ghash plain and fast, whole messages");
    let mut pieces = Group::new(run, "running hash, the same messages in pieces");
    let (mut memory, mut running_memory) = (Memory::new(4096), RunningMemory::new(4096));
    for index in 0..20_000 * run.factor {
        let mut rng = whole.rng(index);
        let key = block(&mut rng);
        let a_len = part_length(&mut rng);
        let a = rng.bytes(a_len);
        let one_memory = rng.often(30);
        let c_len = part_length(&mut rng);
        let c = if one_memory { a.clone() } else { rng.bytes(c_len) };
        let steps = cut(&mut rng, &key, &a, &c);
        compare_steps(&mut pieces, &mut running_memory, &mut rng, &key, &steps);
        let bad = rng.pick(&[0, 0, 0, 100]);
        let (key, out) = (perhaps_odd(&mut rng, key, bad), out_before(&mut rng, bad));
        let message = Whole { path: Path::Plain, key, a: Bytes(a), c: Bytes(c), out, one_memory };
        compare_whole(&mut whole, &mut memory, &mut rng, message);
    }
    whole.end(&[0, 9]);
    pieces.end(&[0, 9, 10]);
}

/// The steps of a run over A and C in random pieces, with calls in between that must be refused.
pub fn cut(rng: &mut Rng, key: &Block, a: &[u8], c: &[u8]) -> Vec<Step> {
    let mut steps = vec![];
    for piece in pieces(rng, a) {
        steps.push(Step::feed_a(rng, key, piece));
    }
    for piece in pieces(rng, c) {
        steps.push(Step::feed_c(rng, key, piece));
        if rng.often(40) {
            steps.push(Step::feed_a(rng, key, &a[..a.len().min(20)]));
        }
    }
    steps.push(Step::finish(rng, key, 0));
    if rng.often(100) {
        steps.extend([Step::feed_a(rng, key, &[]), Step::feed_c(rng, key, c), Step::finish(rng, key, 0)]);
    }
    if rng.often(200) {
        let (place, len) = (rng.below(steps.len() + 1), 17 + rng.below(8));
        let mut refused = Step::feed_c(rng, key, a);
        refused.key = Bytes(rng.bytes(len));
        steps.insert(place, refused);
    }
    if rng.often(100) {
        let place = rng.below(steps.len());
        steps.insert(place, Step::finish(rng, key, 1000));
    }
    steps
}

/// A part cut at random places, with empty pieces. An empty part may come as no piece at all.
fn pieces<'a>(rng: &mut Rng, part: &'a [u8]) -> Vec<&'a [u8]> {
    let mut rest = part;
    let mut pieces = vec![];
    while !rest.is_empty() && pieces.len() < 6 {
        let (piece, after) = rest.split_at(piece_length(rng, rest.len()));
        pieces.push(piece);
        rest = after;
    }
    if !rest.is_empty() || rng.often(300) {
        pieces.push(rest);
    }
    pieces
}

fn piece_length(rng: &mut Rng, rest: usize) -> usize {
    let len = match rng.below(6) {
        0 => 0,
        1 => 1 + rng.below(15),
        2 => 16 * (1 + rng.below(4)),
        3 => rest,
        _ => rng.below(rest + 1),
    };
    len.min(rest)
}

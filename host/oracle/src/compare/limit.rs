//! Both sides of the limit of 1,048,576 bytes, for whole messages and for running hashes.

use super::hash::{compare_steps, compare_whole, Memory, Whole};
use super::inputs::out_before;
use super::running::{Memory as RunningMemory, Step};
use crate::ffi::Path;
use crate::model::field::Block;
use crate::model::hash::LIMIT;
use crate::report::{Bytes, Group, Run};
use crate::rng::Rng;

pub fn run(run: &Run) {
    whole(run);
    running(run);
}

fn whole(run: &Run) {
    const LENGTHS: [(usize, usize); 9] = [
        (LIMIT, 0),
        (0, LIMIT),
        (LIMIT, LIMIT),
        (LIMIT - 1, LIMIT),
        (LIMIT + 1, 0),
        (0, LIMIT + 1),
        (LIMIT + 1, LIMIT),
        (LIMIT, LIMIT + 1),
        (LIMIT + 1, LIMIT + 1),
    ];
    let mut group = Group::new(run, "ghash plain and fast, both sides of the limit");
    let mut memory = Memory::new(LIMIT + 1);
    for index in 0..run.factor {
        let mut rng = group.rng(index);
        for (a_len, c_len) in LENGTHS {
            for key_len in [16, 15] {
                let message = Whole {
                    path: Path::Plain,
                    key: Bytes(rng.bytes(key_len)),
                    a: Bytes(rng.bytes(a_len)),
                    c: Bytes(rng.bytes(c_len)),
                    out: out_before(&mut rng, 0),
                    one_memory: false,
                };
                compare_whole(&mut group, &mut memory, &mut rng, message);
            }
        }
    }
    group.end(&[0, 9, 11]);
}

fn running(run: &Run) {
    let mut group = Group::new(run, "running hash, both sides of the limit");
    let mut memory = RunningMemory::new(LIMIT + 1);
    for index in 0..2 * run.factor {
        let mut rng = group.rng(index);
        let key = rng.block();
        let (a, c) = (rng.bytes(LIMIT + 1), rng.bytes(LIMIT + 1));
        let cuts = [0; 2].map(|_| if index == 0 { 0 } else { rng.below(LIMIT) });
        let steps = to_the_limit(&mut rng, &key, [&a, &c], cuts);
        compare_steps(&mut group, &mut memory, &mut rng, &key, &steps);
    }
    group.end(&[0, 11]);
}

type Feed = fn(&mut Rng, &Block, &[u8]) -> Step;

/// A and C to the limit, each cut in two at a place that is not 0, one byte more of each, nothing more of each, and the
/// end. The parts are given with that byte more.
pub fn to_the_limit(rng: &mut Rng, key: &Block, [a, c]: [&[u8]; 2], cuts: [usize; 2]) -> Vec<Step> {
    let mut steps = vec![Step::feed_a(rng, key, a), Step::feed_c(rng, key, c)];
    for (part, feed, at) in [(a, Step::feed_a as Feed, cuts[0]), (c, Step::feed_c as Feed, cuts[1])] {
        if at > 0 {
            steps.push(feed(rng, key, &part[..at]));
            steps.push(feed(rng, key, &part[at..]));
        }
        steps.push(feed(rng, key, &part[at..LIMIT]));
        steps.push(feed(rng, key, &part[LIMIT..]));
        steps.push(feed(rng, key, &[]));
    }
    steps.push(Step::finish(rng, key, 0));
    steps
}

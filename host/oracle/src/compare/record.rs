//! rvghash_put_record: at the limits of each number, with lent bytes of every length, and at random. The model reads
//! each record back.

use crate::ffi::rvghash_put_record;
use crate::lent::{strays, Lent};
use crate::model::execute::{Policies, POLICIES};
use crate::model::record::{put_record_call, Record, RECORD};
use crate::report::{Bytes, Group, Run, Seen};
use crate::rng::Rng;

/// Numbers on both sides of a byte's limit. Cut to a byte, all of them are right ones.
#[rustfmt::skip]
const NUMBERS: [u32; 14] = [
    0, 1, 8, 64, 127, 128, 254, 255, 256, 257, 256 + 32, 0x1_0008, 0x8000_0001, u32::MAX,
];
const BAD_LENGTHS: [usize; 12] = [0, 1, 8, 16, 20, 22, 23, 25, 26, 32, 48, 72];

/// The longest bytes that are lent.
const MOST: usize = 80;

#[derive(Debug)]
pub struct Put {
    pub record: Record,
    /// What the lent bytes hold.
    pub before: Bytes,
}

/// What a call leaves in the lent bytes, and the record that they then are, if the call was done.
#[derive(PartialEq, Debug)]
struct Left {
    bytes: Bytes,
    read: Option<Record>,
}

struct Memory {
    record: Lent,
}

impl Memory {
    fn call(&mut self, rng: &mut Rng, p: &Put) -> Seen<Left> {
        let (record, len) = (self.record.lend(rng, &p.before.0), p.before.0.len());
        let Record { word, sew, lmul, answer, policies, vl, vstart, scalar } = p.record;
        let Policies { tail_agnostic, mask_agnostic } = policies;
        // SAFETY: the pointer goes with memory of the told length that nothing else uses.
        let answer = unsafe {
            rvghash_put_record(word, sew, lmul, tail_agnostic, mask_agnostic, answer, vl, vstart, scalar, record, len)
        };
        let bytes = self.record.content();
        let read = if answer == 0 { Record::read(bytes) } else { None };
        let left = Left { bytes: Bytes(bytes.to_vec()), read };
        Seen { answer, left, stray: strays(&[&self.record]) }
    }

    fn compare(&mut self, group: &mut Group, rng: &mut Rng, p: &Put) {
        let (answer, bytes) = put_record_call(&p.record, &p.before.0);
        let left = Left { bytes: Bytes(bytes), read: (answer == 0).then_some(p.record) };
        group.compare(p, Seen::expected(answer, left), || self.call(rng, p));
    }
}

pub fn run(run: &Run) {
    let mut memory = Memory { record: Lent::write("record", MOST) };
    at_limits(run, &mut memory);
    random(run, &mut memory);
}

/// SEW, LMUL and the answer at each of the numbers under each policy, then lent bytes of each length.
fn at_limits(run: &Run, memory: &mut Memory) {
    let mut group = Group::new(run, "rvghash_put_record, at the limits");
    let mut rng = group.rng(0);
    for sew in NUMBERS {
        for lmul in NUMBERS {
            for (answer, policies) in NUMBERS.into_iter().flat_map(|n| POLICIES.map(|policies| (n, policies))) {
                let record = Record { sew, lmul, answer, policies, ..any_record(&mut rng) };
                let before = Bytes(rng.bytes(RECORD));
                memory.compare(&mut group, &mut rng, &Put { record, before });
            }
        }
    }
    for len in (0..=MOST).chain(0..=MOST) {
        let (record, before) = (any_record(&mut rng), Bytes(rng.bytes(len)));
        memory.compare(&mut group, &mut rng, &Put { record, before });
    }
    group.end(&[0, 14]);
}

fn random(run: &Run, memory: &mut Memory) {
    let mut group = Group::new(run, "rvghash_put_record, random");
    for index in 0..40_000 * run.factor {
        let mut rng = group.rng(index);
        let put = any_put(&mut rng);
        memory.compare(&mut group, &mut rng, &put);
    }
    group.end(&[0, 14]);
}

/// A record of numbers that fit.
fn any_record(rng: &mut Rng) -> Record {
    let [word, vl, vstart] = [0; 3].map(|_| if rng.often(100) { rng.pick(&NUMBERS) } else { rng.u32() });
    let [sew, lmul, answer] = [0; 3].map(|_| rng.below_u32(256));
    let scalar = if rng.often(100) { rng.pick(&[0, 1, 1 << 32, 1 << 63, u64::MAX]) } else { rng.u64() };
    Record { word, sew, lmul, answer, policies: rng.pick(&POLICIES), vl, vstart, scalar }
}

/// A record that fits, or one in which numbers or the length are wrong.
pub fn any_put(rng: &mut Rng) -> Put {
    let bad = rng.pick(&[0, 50, 200]);
    let mut record = any_record(rng);
    for number in [&mut record.sew, &mut record.lmul, &mut record.answer] {
        if rng.often(bad) {
            *number = if rng.often(300) { rng.u32() } else { rng.pick(&NUMBERS) };
        }
    }
    let len = if rng.often(bad) { rng.pick(&BAD_LENGTHS) } else { RECORD };
    Put { record, before: Bytes(rng.bytes(len)) }
}

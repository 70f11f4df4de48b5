//! rvghash_check_links: every number of records, each bit of a record and of the key changed, hashes that wrong ways
//! come to, buffers of every length, and random input.

use super::inputs::{block, perhaps_odd, with_bit};
use crate::ffi::rvghash_check_links;
use crate::lent::{strays, Lent};
use crate::model::field::{sixteen, xor, Block, ONE, ZERO};
use crate::model::hash::{absorb, ghash, length_block};
use crate::model::links::{check_links_call, right_link, LINK};
use crate::report::{Bytes, Group, Run, Seen};
use crate::rng::Rng;

/// The most records where each number of them is tried.
const MANY: usize = 300;

#[derive(Debug)]
pub struct Links {
    pub key: Bytes,
    pub records: Bytes,
    /// What the results' buffer holds.
    pub before: Bytes,
    /// Whether the key is lent from the records' memory, at their start; both are only read.
    pub one_memory: bool,
}

struct Memory {
    key: Lent,
    records: Lent,
    results: Lent,
}

impl Memory {
    /// For up to `most` records, or the bytes of one more.
    fn new(most: usize) -> Memory {
        Memory {
            key: Lent::read("key", 80),
            records: Lent::read("records", LINK * (most + 1)),
            results: Lent::write("results", most + LINK),
        }
    }

    fn call(&mut self, rng: &mut Rng, l: &Links) -> Seen<Bytes> {
        let records = self.records.lend(rng, &l.records.0);
        let key = if l.one_memory { records } else { self.key.lend(rng, &l.key.0) };
        let results = self.results.lend(rng, &l.before.0);
        let [key_len, records_len, results_len] = [&l.key, &l.records, &l.before].map(|bytes| bytes.0.len());
        // SAFETY: each pointer goes with memory of the told length; only `results` may be written, and it stands alone.
        let answer = unsafe { rvghash_check_links(key, key_len, records, records_len, results, results_len) };
        let stray = strays(&[&self.key, &self.records, &self.results]);
        Seen { answer, left: Bytes(self.results.content().to_vec()), stray }
    }

    fn compare(&mut self, group: &mut Group, rng: &mut Rng, l: &Links) {
        let (answer, after) = check_links_call(&l.key.0, &l.records.0, &l.before.0);
        group.compare(l, Seen::expected(answer, Bytes(after)), || self.call(rng, l));
    }

    /// Whole records, and a buffer for their results that holds anything.
    fn check(&mut self, group: &mut Group, rng: &mut Rng, key: &Block, records: Vec<u8>) {
        let before = Bytes(rng.bytes(records.len() / LINK));
        let links = Links { key: Bytes(key.to_vec()), records: Bytes(records), before, one_memory: false };
        self.compare(group, rng, &links);
    }
}

pub fn run(run: &Run) {
    let mut memory = Memory::new(MANY);
    counts(run, &mut memory);
    bits(run, &mut memory);
    other_ways(run);
    lengths(run);
    random(run, "rvghash_check_links, random", 40_000, 40, &[0, 9, 16]);
    random(run, "rvghash_check_links, thousands of records", 60, 5_000, &[0]);
}

fn any_claims(rng: &mut Rng, count: usize) -> Vec<Block> {
    (0..count).map(|_| block(rng)).collect()
}

/// A record for each claim block, with right hashes.
fn right_links(key: &Block, claims: &[Block]) -> Vec<u8> {
    claims.iter().flat_map(|claim| right_link(key, claim)).collect()
}

/// The same, but so many of a thousand records are damaged.
fn damaged_links(rng: &mut Rng, key: &Block, claims: &[Block], per_thousand: usize) -> Vec<u8> {
    let mut records = right_links(key, claims);
    for record in records.chunks_mut(LINK) {
        if rng.often(per_thousand) {
            damage(rng, record);
        }
    }
    records
}

/// Another hash, the hash in front of the claim block, or a bit changed.
fn damage(rng: &mut Rng, record: &mut [u8]) {
    match rng.below(4) {
        0 => record[16..].copy_from_slice(&block(rng)),
        1 => record.rotate_left(16),
        _ => record[rng.below(LINK)] ^= 1 << rng.below(8),
    }
}

/// Right hashes, half of them and all of them wrong, over results that hold 0, 1 or another number.
fn counts(run: &Run, memory: &mut Memory) {
    let mut group = Group::new(run, "rvghash_check_links, every number of records");
    for index in 0..(MANY as u64 + 1) * run.factor {
        let mut rng = group.rng(index);
        let (key, count) = (rng.block(), index as usize % (MANY + 1));
        let claims = any_claims(&mut rng, count);
        for wrong in [0, 500, 1000] {
            let records = damaged_links(&mut rng, &key, &claims, wrong);
            for byte in [0, 1, 0xA5] {
                let (key, records, before) = (Bytes(key.to_vec()), Bytes(records.clone()), Bytes(vec![byte; count]));
                memory.compare(&mut group, &mut rng, &Links { key, records, before, one_memory: false });
            }
        }
    }
    group.end(&[0]);
}

/// Each bit of a record changed: of each among a few, and of the first, a middle and the last one among many. Then each
/// bit of the key. Under the zero key the claim block's bits are of no account.
fn bits(run: &Run, memory: &mut Memory) {
    let mut group = Group::new(run, "rvghash_check_links, each bit changed");
    let mut rng = group.rng(0);
    for count in [1, 2, 3, 4, 5, 6, 7, 8, 33, MANY] {
        let places = if count <= 8 { (0..count).collect() } else { vec![0, count / 2, count - 1] };
        for key in [ZERO, rng.block()] {
            let claims = any_claims(&mut rng, count);
            let records = right_links(&key, &claims);
            for bit in places.iter().flat_map(|place| (0..8 * LINK).map(move |bit| 8 * LINK * place + bit)) {
                memory.check(&mut group, &mut rng, &key, with_bit(&records, bit));
            }
            for bit in 0..128 {
                memory.check(&mut group, &mut rng, &sixteen(&with_bit(&key, bit)), records.clone());
            }
        }
    }
    group.end(&[0]);
}

/// What wrong ways come to for claim block i; some of it is right at times, as under the zero key.
fn other_hashes(key: &Block, claims: &[Block], i: usize) -> [Block; 16] {
    let (claim, right) = (claims[i], ghash(key, &claims[i], &[]));
    let of = |blocks: &[Block]| absorb(ZERO, blocks, key);
    let mut reversed = right;
    reversed.reverse();
    [
        // The length block: left out, of bytes, of all claim blocks so far, low byte first, and not multiplied.
        of(&[claim]),
        of(&[claim, length_block(2, 0)]),
        of(&[claim, length_block(16 * (i as u64 + 1), 0)]),
        of(&[claim, ONE]),
        xor(&of(&[claim]), &length_block(16, 0)),
        // The claim block: as C, as both, and not multiplied.
        ghash(key, &[], &claim),
        ghash(key, &claim, &claim),
        of(&[xor(&claim, &length_block(16, 0))]),
        // Other claim blocks: the first one, the one before, and all so far.
        ghash(key, &claims[0], &[]),
        ghash(key, &claims[i.saturating_sub(1)], &[]),
        ghash(key, &claims[..=i].concat(), &[]),
        // Half of the hash, its bytes in another order, and the same change in all bytes.
        std::array::from_fn(|k| if k < 8 { right[k] } else { !right[k] }),
        std::array::from_fn(|k| if k < 8 { !right[k] } else { right[k] }),
        std::array::from_fn(|k| right[(k + 8) % 16]),
        reversed,
        right.map(|byte| byte ^ 0x80),
    ]
}

/// Each wrong way in each record alone, and in all of them.
fn other_ways(run: &Run) {
    let mut group = Group::new(run, "rvghash_check_links, hashes that wrong ways come to");
    let mut memory = Memory::new(5);
    for index in 0..240 * run.factor {
        let mut rng = group.rng(index);
        let key = block(&mut rng);
        let claims = any_claims(&mut rng, 1 + index as usize % 5);
        let others: Vec<_> = (0..claims.len()).map(|i| other_hashes(&key, &claims, i)).collect();
        for way in 0..others[0].len() {
            let right = right_links(&key, &claims);
            let mut all = right.clone();
            for (i, other) in others.iter().enumerate() {
                let (mut alone, hash) = (right.clone(), LINK * i + 16..LINK * (i + 1));
                alone[hash.clone()].copy_from_slice(&other[way]);
                all[hash].copy_from_slice(&other[way]);
                memory.check(&mut group, &mut rng, &key, alone);
            }
            memory.check(&mut group, &mut rng, &key, all);
        }
    }
    group.end(&[0]);
}

/// Keys, records and results of every length. A key of 16 bytes is the right one, and all records have right hashes.
fn lengths(run: &Run) {
    let mut group = Group::new(run, "rvghash_check_links, every length");
    let mut memory = Memory::new(12);
    let mut rng = group.rng(0);
    let (key, claims) = (rng.bytes(40), any_claims(&mut rng, 12));
    let records = right_links(&sixteen(&key[..16]), &claims);
    for key_len in 0..=40 {
        for records_len in 0..=330 {
            for results_len in 0..=12 {
                let [key, records] = [&key[..key_len], &records[..records_len]].map(|bytes| Bytes(bytes.to_vec()));
                let before = Bytes(rng.bytes(results_len));
                memory.compare(&mut group, &mut rng, &Links { key, records, before, one_memory: false });
            }
        }
    }
    group.end(&[0, 9, 16]);
}

fn random(run: &Run, name: &'static str, count: u64, most: usize, answers: &[u32]) {
    let mut group = Group::new(run, name);
    let mut memory = Memory::new(most);
    for index in 0..count * run.factor {
        let mut rng = group.rng(index);
        let links = any_links(&mut rng, most);
        memory.compare(&mut group, &mut rng, &links);
    }
    group.end(answers);
}

/// This length or, in so many of a thousand cases, another one, which is at most 32 more.
fn perhaps_other(rng: &mut Rng, len: usize, per_thousand: usize) -> usize {
    if !rng.often(per_thousand) {
        return len;
    }
    let (by, any) = (rng.pick(&[1, 1, 2, 8, 16, 31, 32]), rng.below(len + LINK + 1));
    rng.pick(&[len + by, len.saturating_sub(by), 0, any])
}

/// Up to `most` records under any key, with hashes right and wrong; sometimes with a length that is refused.
pub fn any_links(rng: &mut Rng, most: usize) -> Links {
    let (key, count) = (block(rng), rng.below(most + 1));
    let mut claims = any_claims(rng, count);
    let one_memory = count > 0 && rng.often(30);
    if one_memory {
        claims[0] = key;
    }
    let (wrong, bad) = (rng.pick(&[0, 100, 500, 1000]), if one_memory { 0 } else { rng.pick(&[0, 0, 0, 200]) });
    let mut records = damaged_links(rng, &key, &claims, wrong);
    let key = if one_memory { Bytes(records[..16].to_vec()) } else { perhaps_odd(rng, key, bad) };
    let [records_len, results_len] = [records.len(), count].map(|len| perhaps_other(rng, len, bad));
    records.extend(rng.bytes(LINK));
    records.truncate(records_len);
    Links { key, records: Bytes(records), before: Bytes(rng.bytes(results_len)), one_memory }
}

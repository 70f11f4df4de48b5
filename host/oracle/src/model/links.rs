//! Many links in one call, as document 02's Ask 7 has it: records of a claim block and the hash that is expected for
//! it.

use super::field::{sixteen, Block};
use super::hash::ghash;
use super::refusal::smallest;

/// The bytes of a record.
pub const LINK: usize = 32;

/// The record of this claim block whose hash is right: GHASH of the block as A, with C empty.
pub fn right_link(key: &Block, claim: &Block) -> Vec<u8> {
    [*claim, ghash(key, claim, &[])].concat()
}

/// The call: the answer, and what a buffer for the results that held `before` then holds.
pub fn check_links_call(key: &[u8], records: &[u8], before: &[u8]) -> (u32, Vec<u8>) {
    let count = records.len() / LINK;
    let answer = smallest(&[(9, key.len() != 16), (16, records.len() % LINK != 0 || before.len() != count)]);
    if answer != 0 {
        return (answer, before.to_vec());
    }
    let agrees = |record: &[u8]| right_link(&sixteen(key), &sixteen(&record[..16])) == record;
    (0, records.chunks(LINK).map(|record| agrees(record) as u8).collect())
}

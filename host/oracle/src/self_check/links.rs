//! Links, on records that were put together by hand from document 02's Ask 7, and by laws.

use super::{spelled, Check};
use crate::model::field::{single, Block, ONE, ZERO};
use crate::model::links::{check_links_call, right_link, LINK};
use crate::model::running::{transition, Call, FRESH};
use crate::rng::Rng;

pub fn checks(rng: &mut Rng) -> Vec<Check> {
    vec![
        ("known links under the one block", known(&ONE, &UNDER_ONE)),
        ("known links under x", known(&single(1), &UNDER_X)),
        ("known links under x^127", known(&single(127), &UNDER_X127)),
        ("known links under the zero block", known(&ZERO, &UNDER_ZERO)),
        ("known links in buffers of every length", known_lengths()),
        ("links against running hashes", links_follow_running(rng)),
        ("links with one bit changed", bits_tell(rng)),
    ]
}

/// A claim block and an expected hash, and the result.
type Known = (&'static str, u8);

/// The hash is the claim block xored with the length block, whose byte 7 is 80.
#[rustfmt::skip]
const UNDER_ONE: [Known; 16] = [
    ("00000000000000000000000000000000 00000000000000800000000000000000", 1),
    ("000102030405060708090a0b0c0d0e0f 000102030405068708090a0b0c0d0e0f", 1),
    // No length block, one as of C, one as of both; 16 in place of 128; low byte first; as of two claim blocks.
    ("000102030405060708090a0b0c0d0e0f 000102030405060708090a0b0c0d0e0f", 0),
    ("000102030405060708090a0b0c0d0e0f 000102030405060708090a0b0c0d0e8f", 0),
    ("000102030405060708090a0b0c0d0e0f 000102030405068708090a0b0c0d0e8f", 0),
    ("000102030405060708090a0b0c0d0e0f 000102030405061708090a0b0c0d0e0f", 0),
    ("000102030405060708090a0b0c0d0e0f 800102030405060708090a0b0c0d0e0f", 0),
    ("000102030405060708090a0b0c0d0e0f 000102030405070708090a0b0c0d0e0f", 0),
    ("ffffffffffffffffffffffffffffffff ffffffffffffff7fffffffffffffffff", 1),
    // One half alone, the halves exchanged, and the hash of the record before.
    ("000102030405060708090a0b0c0d0e0f 00010203040506870000000000000000", 0),
    ("000102030405060708090a0b0c0d0e0f 000000000000000008090a0b0c0d0e0f", 0),
    ("000102030405060708090a0b0c0d0e0f 08090a0b0c0d0e0f0001020304050687", 0),
    ("000102030405060708090a0b0c0d0e0f 000102030405068708090a0b0c0d0e0f", 1),
    ("00000000000000000000000000000001 000102030405068708090a0b0c0d0e0f", 0),
    ("00000000000000000000000000000001 00000000000000000000000000000001", 0),
    ("00000000000000800000000000000000 00000000000000000000000000000000", 1),
];

/// The claim block moves up by two places, and the length block by one: it is then 40 in byte 7.
#[rustfmt::skip]
const UNDER_X: [Known; 6] = [
    ("80000000000000000000000000000000 20000000000000400000000000000000", 1),
    // x^127 becomes x^129, which is x + x^2 + x^3 + x^8.
    ("00000000000000000000000000000001 70800000000000400000000000000000", 1),
    // The length block as it is, the claim block moved up once, the length block as of C, and the hash first.
    ("80000000000000000000000000000000 40000000000000800000000000000000", 0),
    ("80000000000000000000000000000000 40000000000000400000000000000000", 0),
    ("80000000000000000000000000000000 20000000000000000000000000000040", 0),
    ("20000000000000400000000000000000 80000000000000000000000000000000", 0),
];

/// The length block becomes x^183, which is x^55 + x^56 + x^57 + x^62.
#[rustfmt::skip]
const UNDER_X127: [Known; 2] = [
    ("00000000000000000000000000000000 00000000000001c20000000000000000", 1),
    ("00000000000000000000000000000000 00000000000000000000000000000000", 0),
];

/// Every hash is zero.
#[rustfmt::skip]
const UNDER_ZERO: [Known; 6] = [
    ("00000000000000000000000000000000 00000000000000000000000000000000", 1),
    ("000102030405060708090a0b0c0d0e0f 00000000000000000000000000000000", 1),
    ("000102030405060708090a0b0c0d0e0f 00000000000000000000000000000001", 0),
    ("000102030405060708090a0b0c0d0e0f 80000000000000000000000000000000", 0),
    ("00000000000000000000000000000000 00000000000000800000000000000000", 0),
    ("ffffffffffffffffffffffffffffffff 00000000000000000000000000000000", 1),
];

/// Every run of records out of these, none among them.
fn known(key: &Block, links: &[Known]) -> bool {
    let (records, results): (Vec<_>, Vec<_>) = links.iter().map(|&(text, result)| (spelled(text), result)).unzip();
    (0..=links.len()).all(|to| {
        (0..=to).all(|from| {
            let answered = check_links_call(key, &records[from..to].concat(), &vec![9; to - from]);
            answered == (0, results[from..to].to_vec())
        })
    })
}

/// Three right links and a byte under the one block, each length of the key, of the records and of the results. 9 comes
/// before 16.
fn known_lengths() -> bool {
    let (key, records) = ([ONE, ZERO].concat(), [&spelled(UNDER_ONE[0].0).repeat(3)[..], &[0]].concat());
    (0..=32).all(|key_len| {
        (0..=97).all(|records_len| {
            (0..=4).all(|results_len| {
                let expected = match (key_len, records_len, results_len) {
                    (16, 0, 0) | (16, 32, 1) | (16, 64, 2) | (16, 96, 3) => (0, vec![1; results_len]),
                    (16, _, _) => (16, vec![9; results_len]),
                    _ => (9, vec![9; results_len]),
                };
                check_links_call(&key[..key_len], &records[..records_len], &vec![9; results_len]) == expected
            })
        })
    })
}

/// The hash of a claim block that is fed as A and finished is the one that agrees.
fn links_follow_running(rng: &mut Rng) -> bool {
    (0..2_000).all(|_| {
        let (key, claim) = (rng.block(), rng.block());
        let (fed, state) = transition(&FRESH, &key, Call::FeedA(&claim));
        let (finished, state) = transition(&state, &key, Call::Finish { out_len: 16 });
        (fed, finished) == (0, 0) && check_links_call(&key, &[claim, state.y].concat(), &[9]) == (0, vec![1])
    })
}

/// A changed bit is told in its record alone; under the zero key one of the claim block is not told at all.
fn bits_tell(rng: &mut Rng) -> bool {
    (0..2_000).all(|index| {
        let key = if index % 4 == 0 { ZERO } else { rng.block() };
        let count = 1 + rng.below(4);
        let mut records: Vec<u8> = (0..count).flat_map(|_| right_link(&key, &rng.block())).collect();
        let (place, byte) = (rng.below(count), rng.below(LINK));
        records[LINK * place + byte] ^= 1 << rng.below(8);
        let mut results = vec![1; count];
        results[place] = (key == ZERO && byte < 16) as u8;
        check_links_call(&key, &records, &vec![9; count]) == (0, results)
    })
}

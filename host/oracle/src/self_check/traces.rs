//! Records and replay, on records that were put together by hand from document 02's Asks 3 and 5, and by laws.

use super::{spelled, Check};
use crate::model::execute::{Policies, POLICIES, UNDISTURBED};
use crate::model::record::{put_record_call, Record, RECORD};
use crate::model::replay::{replay_call, Replayed};
use crate::model::word::TABLE;
use crate::rng::Rng;

pub fn checks(rng: &mut Rng) -> Vec<Check> {
    vec![
        ("known records", known_records()),
        ("records written and read, any numbers", records_agree(rng)),
        ("known traces, whole", known_whole()),
        ("known traces with a wrong answer", known_wrong_answers()),
        ("known traces torn, or with a policy byte over 3", known_refused()),
        ("known traces with other policies", known_policies()),
        ("known traces under another VLEN", known_other_vlen()),
        ("a trace against its two parts", parts_agree(rng)),
    ]
}

/// vghsh.vv v4, v8, v12 done, then a record whose bytes count up, but for the policies.
#[rustfmt::skip]
const KNOWN_RECORDS: [(&str, Record); 2] = [
    ("772286b2 20 01 00 00 08000000 04000000 0000000000000000", Record {
        word: 0xB286_2277, sew: 32, lmul: 1, answer: 0, policies: UNDISTURBED, vl: 8, vstart: 4, scalar: 0,
    }),
    ("01020304 05 06 07 00 090a0b0c 0d0e0f10 1112131415161718", Record {
        word: 0x0403_0201, sew: 5, lmul: 6, answer: 7, policies: UNDISTURBED, vl: 0x0C0B_0A09, vstart: 0x100F_0E0D,
        scalar: 0x1817_1615_1413_1211,
    }),
];

/// The policies of a policy byte.
fn policies_of(byte: u8) -> Option<Policies> {
    let policies = |tail_agnostic, mask_agnostic| Some(Policies { tail_agnostic, mask_agnostic });
    match byte {
        0 => policies(false, false),
        1 => policies(true, false),
        2 => policies(false, true),
        3 => policies(true, true),
        _ => None,
    }
}

/// Each of them, in bytes of every length up to two records, and with each policy byte.
fn known_records() -> bool {
    KNOWN_RECORDS.iter().all(|(text, record)| {
        let bytes = spelled(text);
        let twice = [&bytes[..], &bytes].concat();
        let holds = |len: usize| {
            let (put, read) = (put_record_call(record, &vec![9; len]), Record::read(&twice[..len]));
            match len {
                RECORD => put == (0, bytes.clone()) && read == Some(*record),
                _ => put == (14, vec![9; len]) && read.is_none(),
            }
        };
        let holds_with = |byte: u8| {
            let (with_byte, policies) = ([&bytes[..7], &[byte], &bytes[8..]].concat(), policies_of(byte));
            let other = policies.map(|policies| Record { policies, ..*record });
            Record::read(&with_byte) == other && other.map_or(true, |r| r.bytes() == Some(with_byte))
        };
        (0..=2 * RECORD).all(holds) && (0..=255).all(holds_with)
    })
}

/// What is written is read again; a number over 255 is not written.
fn records_agree(rng: &mut Rng) -> bool {
    (0..20_000).all(|_| {
        let [sew, lmul, answer] = [0; 3].map(|_| rng.below_u32(256));
        let [word, vl, vstart] = [0; 3].map(|_| rng.u32());
        let policies = rng.pick(&POLICIES);
        let record = Record { word, sew, lmul, answer, policies, vl, vstart, scalar: rng.u64() };
        let over = 256 << rng.below(24);
        let too_large = [
            Record { sew: sew | over, ..record },
            Record { lmul: lmul | over, ..record },
            Record { answer: answer | over, ..record },
        ];
        record.bytes().and_then(|bytes| Record::read(&bytes)) == Some(record)
            && too_large.iter().all(|r| put_record_call(r, &[9; RECORD]) == (14, vec![9; RECORD]))
    })
}

/// Calls under VLEN 128 on a file of zeros but for a 3 at the start of v2 and of v3, with the register that each writes
/// and what it leaves at its start.
const KNOWN_TRACE: [(&str, usize, &[u8]); 8] = [
    // vclmul.vv v1, v2, v3 at SEW 8: K1.
    ("d7a02132 08 01 00 00 01000000 00000000 0000000000000000", 1, &[5]),
    // vclmul.vv v4, v1, v3: the last result by 3.
    ("57a21132 08 01 00 00 01000000 00000000 0000000000000000", 4, &[0x0F]),
    // The same at SEW 7, which is refused.
    ("57a21132 07 01 03 00 01000000 00000000 0000000000000000", 4, &[0x0F]),
    // vclmul.vx v1, v2, x3 at SEW 64: the scalar by 3.
    ("d7e02132 40 01 00 00 01000000 00000000 0102030405060708", 1, &[0x03, 0x06, 0x05, 0x0C, 0x0F, 0x0A, 0x09, 0x18]),
    // The first one again with vl 2 and vstart 1: the second element alone.
    ("d7a02132 08 01 00 00 02000000 01000000 0000000000000000", 1, &[0x03, 0x00]),
    // The last one with vl 15 and the tail policy: of the tail there is one byte.
    (
        "d7a02132 08 01 00 01 0f000000 01000000 0000000000000000",
        1,
        &[0x03, 0, 0, 0, 0, 0, 0, 0, 0, 0, 0, 0, 0, 0, 0, 0xFF],
    ),
    // The first one under v0.t with vl 3, vstart 1 and the mask policy: no mask bit is set.
    ("d7a02130 08 01 00 02 03000000 01000000 0000000000000000", 1, &[0x03, 0xFF, 0xFF, 0]),
    // vclmul.vv v4, v1, v3 at SEW 64 with vl 1 and both policies: 3 by FFFF03.
    (
        "57a21132 40 01 00 03 01000000 00000000 0000000000000000",
        4,
        &[0x05, 0x01, 0x00, 0x01, 0, 0, 0, 0, 0xFF, 0xFF, 0xFF, 0xFF, 0xFF, 0xFF, 0xFF, 0xFF],
    ),
];

/// The known trace, and the file before each of its calls and after the last.
fn known() -> (Vec<u8>, Vec<Vec<u8>>) {
    let mut file = vec![0; 512];
    (file[2 * 16], file[3 * 16]) = (3, 3);
    let mut files = vec![file.clone()];
    for (_, register, content) in KNOWN_TRACE {
        file[16 * register..][..content.len()].copy_from_slice(content);
        files.push(file.clone());
    }
    (KNOWN_TRACE.iter().flat_map(|(record, _, _)| spelled(record)).collect(), files)
}

/// Given where an answer differs.
const DIFFERS: u32 = 256;

fn replayed(answer: u32, index: usize, file: &[u8]) -> Replayed {
    Replayed { answer, index, file: file.to_vec() }
}

/// The trace's records so far, each number of them.
fn known_whole() -> bool {
    let (trace, files) = known();
    (0..=KNOWN_TRACE.len()).all(|count| {
        let front = &trace[..RECORD * count];
        replay_call(128, &files[0], front) == replayed(0, count, &files[count])
    })
}

/// Each other answer in each record, alone and with another one in the last record.
fn known_wrong_answers() -> bool {
    let (trace, files) = known();
    (0..KNOWN_TRACE.len()).all(|place| {
        (1..=255).all(|change| {
            let mut wrong = trace.clone();
            wrong[RECORD * place + 6] ^= change;
            let differs = replayed(DIFFERS, place, &files[place]);
            let alone = replay_call(128, &files[0], &wrong) == differs;
            wrong[RECORD * (KNOWN_TRACE.len() - 1) + 6] = 9;
            alone && replay_call(128, &files[0], &wrong) == differs
        })
    })
}

/// The known trace with this policy byte in one record.
fn with_policy_byte(place: usize, byte: u8) -> Vec<u8> {
    let (mut trace, _) = known();
    trace[RECORD * place + 7] = byte;
    trace
}

fn known_refused() -> bool {
    let (trace, files) = known();
    let refused = |trace: &[u8]| replay_call(128, &files[0], trace) == replayed(14, 0, &files[0]);
    (0..trace.len()).filter(|len| len % RECORD != 0).all(|len| refused(&trace[..len]))
        && (0..KNOWN_TRACE.len()).all(|place| (4..=255).all(|byte| refused(&with_policy_byte(place, byte))))
}

/// Each policy byte that is taken, in each record: no answer looks at it. The first record is unmasked: the tail policy
/// makes bytes 1 to 15 of v1 ones, and the mask policy does nothing.
fn known_policies() -> bool {
    let (_, files) = known();
    let done = |place: usize, byte: u8| replay_call(128, &files[0], &with_policy_byte(place, byte)).answer == 0;
    let first = |byte: u8| replay_call(128, &files[0], &with_policy_byte(0, byte)[..RECORD]);
    let mut filled = files[1].clone();
    filled[17..32].fill(0xFF);
    (0..KNOWN_TRACE.len()).all(|place| (0..=3).all(|byte| done(place, byte)))
        && [0, 2].into_iter().all(|byte| first(byte) == replayed(0, 1, &files[1]))
        && [1, 3].into_iter().all(|byte| first(byte) == replayed(0, 1, &filled))
}

/// A VLEN or a file that is not allowed, or not the file's: each call answers 1.
fn known_other_vlen() -> bool {
    let (trace, files) = known();
    let mut agreed = trace.clone();
    agreed.chunks_mut(RECORD).for_each(|record| record[6] = 1);
    [(256, 512), (0, 512), (128, 511), (128, 0)].into_iter().all(|(vlen, file_len)| {
        let file = &files[0][..file_len];
        replay_call(vlen, file, &trace) == replayed(DIFFERS, 0, file)
            && replay_call(vlen, file, &agreed) == replayed(0, KNOWN_TRACE.len(), file)
            && replay_call(vlen, file, &[]) == replayed(0, 0, file)
            && replay_call(vlen, file, &trace[1..]) == replayed(14, 0, file)
    })
}

/// Any trace that is cut in two: the second part goes on where the first one ends, if that is done.
fn parts_agree(rng: &mut Rng) -> bool {
    (0..2_000).all(|_| {
        let (file, count) = (rng.bytes(512), rng.below(8));
        let trace: Vec<u8> = (0..count).flat_map(|_| any_record(rng)).collect();
        let (front, back) = trace.split_at(RECORD * rng.below(count + 1));
        let first = replay_call(128, &file, front);
        let expected = if first.answer == 0 {
            let second = replay_call(128, &first.file, back);
            Replayed { index: first.index + second.index, ..second }
        } else {
            first
        };
        replay_call(128, &file, &trace) == expected
    })
}

/// A record of a word, mostly with the right answer.
fn any_record(rng: &mut Rng) -> Vec<u8> {
    let [vs2, vs1, vd] = [0; 3].map(|_| 1 + rng.below_u32(31));
    let word = TABLE[rng.below(8)].encode(1, vs2, vs1, vd);
    let (vstart, answer) = (rng.pick(&[0, 0, 4]), rng.pick(&[0, 0, 0, 0, 0, 0, 0, 7]));
    let policies = rng.pick(&POLICIES);
    let record = Record { word, sew: 32, lmul: 1, answer, policies, vl: 4, vstart, scalar: rng.u64() };
    record.bytes().expect("numbers that fit")
}

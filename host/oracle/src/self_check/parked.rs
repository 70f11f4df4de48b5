//! Parking and reading back, on records that were put together by hand from document 02's Ask 6 and from document 01's
//! words on malformed fields, and by laws.

use super::{spelled, Check};
use crate::model::field::ZERO;
use crate::model::hash::LIMIT;
use crate::model::parked::{park_call, unpark_call, PARKED};
use crate::model::running::{State, FRESH};
use crate::rng::Rng;

pub fn checks(rng: &mut Rng) -> Vec<Check> {
    vec![
        ("known parked records", KNOWN.iter().all(known)),
        ("known records on both sides of each limit", SIDES.iter().all(side)),
        ("known records with a spare byte that is not zero", KNOWN.iter().all(known_with_spare_bytes)),
        ("parked and read, any fields", parked_is_read(rng)),
        ("read and parked, any bytes", read_is_parked(rng)),
    ]
}

/// A record whose parts are spelled with a space between them, and its fields.
type Known = (&'static str, State);

/// Phase 0 with three open bytes of A, phase 1 with ten of C, phase 2 at the limit of A, and a fresh one.
#[rustfmt::skip]
const KNOWN: [Known; 4] = [
    ("000102030405060708090a0b0c0d0e0f 10111200000000000000000000000000 13000000 00000000 00 00000000000000", State {
        y: [0, 1, 2, 3, 4, 5, 6, 7, 8, 9, 10, 11, 12, 13, 14, 15],
        open: [16, 17, 18, 0, 0, 0, 0, 0, 0, 0, 0, 0, 0, 0, 0, 0],
        a_count: 0x13, c_count: 0, phase: 0, spare: [0; 7],
    }),
    ("f0e1d2c3b4a5968778695a4b3c2d1e0f a1a2a3a4a5a6a7a8a9aa000000000000 2d1e0f00 6a5b0c00 01 00000000000000", State {
        y: [0xF0, 0xE1, 0xD2, 0xC3, 0xB4, 0xA5, 0x96, 0x87, 0x78, 0x69, 0x5A, 0x4B, 0x3C, 0x2D, 0x1E, 0x0F],
        open: [0xA1, 0xA2, 0xA3, 0xA4, 0xA5, 0xA6, 0xA7, 0xA8, 0xA9, 0xAA, 0, 0, 0, 0, 0, 0],
        a_count: 0x000F_1E2D, c_count: 0x000C_5B6A, phase: 1, spare: [0; 7],
    }),
    ("80000000000000000000000000000001 00000000000000000000000000000000 00001000 ffff0f00 02 00000000000000", State {
        y: [0x80, 0, 0, 0, 0, 0, 0, 0, 0, 0, 0, 0, 0, 0, 0, 1],
        open: ZERO, a_count: 1_048_576, c_count: 1_048_575, phase: 2, spare: [0; 7],
    }),
    ("00000000000000000000000000000000 00000000000000000000000000000000 00000000 00000000 00 00000000000000", FRESH),
];

/// In bytes of every length up to two records, and with other spare bytes in the struct.
fn known((text, state): &Known) -> bool {
    let record = spelled(text);
    let twice = [&record[..], &record].concat();
    let with_spare = State { spare: [9; 7], ..*state };
    (0..=2 * PARKED).all(|len| {
        let (parked, read) = (park_call(&with_spare, &vec![9; len]), unpark_call(&twice[..len]));
        match len {
            48 => parked == (0, record.clone()) && read == (0, *state),
            _ => parked == (15, vec![9; len]) && read == (15, FRESH),
        }
    })
}

/// Each of the last seven bytes as each other value.
fn known_with_spare_bytes((text, _): &Known) -> bool {
    (41..48).all(|place| {
        (1..=255).all(|byte| {
            let mut record = spelled(text);
            record[place] = byte;
            unpark_call(&record) == (15, FRESH)
        })
    })
}

/// An open block, a count of A, a count of C and a phase, as they stand in a record, and whether they are malformed.
#[rustfmt::skip]
const SIDES: [(&str, bool); 34] = [
    // The phase.
    ("00000000000000000000000000000000 00000000 00000000 02", false),
    ("00000000000000000000000000000000 00000000 00000000 03", true),
    ("00000000000000000000000000000000 00000000 00000000 80", true),
    ("00000000000000000000000000000000 00000000 00000000 ff", true),
    // The count of A in each phase: 1,048,576 and one more, and one that is right once cut to 24 bits.
    ("00000000000000000000000000000000 00001000 00000000 00", false),
    ("00000000000000000000000000000000 01001000 00000000 00", true),
    ("00000000000000000000000000000000 00000001 00000000 00", true),
    ("00000000000000000000000000000000 00001000 00000000 01", false),
    ("00000000000000000000000000000000 01001000 00000000 01", true),
    ("00000000000000000000000000000000 00001000 00000000 02", false),
    ("00000000000000000000000000000000 01001000 00000000 02", true),
    // The count of C in phases 1 and 2.
    ("00000000000000000000000000000000 00000000 00001000 01", false),
    ("00000000000000000000000000000000 00000000 01001000 01", true),
    ("00000000000000000000000000000000 00000000 00000001 01", true),
    ("00000000000000000000000000000000 00000000 00001000 02", false),
    ("00000000000000000000000000000000 00000000 01001000 02", true),
    // A count of C in phase 0.
    ("00000000000000000000000000000000 00000000 01000000 00", true),
    ("00000000000000000000000000000000 00000000 10000000 00", true),
    ("00000000000000000000000000000000 05000000 00000000 00", false),
    // Open bytes of A: three belong to it, and none where its count is a multiple of 16.
    ("01010100000000000000000000000000 13000000 00000000 00", false),
    ("01010101000000000000000000000000 13000000 00000000 00", true),
    ("01010100000000000000000000000001 13000000 00000000 00", true),
    ("01000000000000000000000000000000 10000000 00000000 00", true),
    ("01010101010101010101010101010100 1f000000 00000000 00", false),
    ("01010101010101010101010101010101 1f000000 00000000 00", true),
    // Open bytes of C, whatever the count of A.
    ("00010100000000000000000000000000 0f000000 23000000 01", false),
    ("00010101000000000000000000000000 0f000000 23000000 01", true),
    ("01000000000000000000000000000000 0f000000 20000000 01", true),
    ("01000000000000000000000000000000 0f000000 00000000 01", true),
    ("01010101010101010101010101010100 00000000 ffff0f00 01", false),
    ("01010101010101010101010101010180 00000000 ffff0f00 01", true),
    // In phase 2 there is none, whatever the counts.
    ("00000000000000000000000000000000 0f000000 0f000000 02", false),
    ("01000000000000000000000000000000 0f000000 0f000000 02", true),
    ("00000000000000000000000000000001 0f000000 0f000000 02", true),
];

/// Under any Y: read or refused, and the same fields parked or refused. 10 comes before 15.
fn side(&(text, malformed): &(&str, bool)) -> bool {
    [0, 0x5A, 0xFF].into_iter().all(|byte| {
        let record = [&[byte; 16][..], &spelled(text), &[0; 7]].concat();
        let four = |at: usize| u32::from_le_bytes(record[at..at + 4].try_into().expect("4 bytes"));
        let open = record[16..32].try_into().expect("16 bytes");
        let (a_count, c_count) = (four(32), four(36));
        let state = State { y: [byte; 16], open, a_count, c_count, phase: record[40], spare: [0; 7] };
        let read = unpark_call(&record) == if malformed { (15, FRESH) } else { (0, state) };
        let parked = park_call(&state, &[9; 48]) == if malformed { (10, vec![9; 48]) } else { (0, record) };
        read && parked && park_call(&state, &[9; 47]) == (if malformed { 10 } else { 15 }, vec![9; 47])
    })
}

/// Well-formed fields by document 01's words: `open` bytes of the current part, then zeros.
fn any_fields(rng: &mut Rng) -> State {
    let phase = rng.below(3) as u8;
    let [a_count, c_count] = [0; 2].map(|_| rng.below_u32(LIMIT as u32 + 1));
    let c_count = if phase == 0 { 0 } else { c_count };
    let used = [a_count, c_count, 0][phase as usize] as usize % 16;
    let mut open = ZERO;
    rng.fill(&mut open[..used]);
    State { y: rng.block(), open, a_count, c_count, phase, spare: [0; 7] }
}

fn parked_is_read(rng: &mut Rng) -> bool {
    (0..20_000).all(|_| {
        let state = any_fields(rng);
        let (answer, record) = park_call(&state, &[9; PARKED]);
        answer == 0 && unpark_call(&record) == (0, state)
    })
}

/// Records of any fields, with a few bits changed: what is accepted is written again, and what is not has no fields.
fn read_is_parked(rng: &mut Rng) -> bool {
    let mut accepted = 0;
    let holds = (0..20_000).all(|_| {
        let (_, mut record) = park_call(&any_fields(rng), &[9; PARKED]);
        for _ in 0..rng.below(3) {
            record[rng.below(PARKED)] ^= 1 << rng.below(8);
        }
        let (answer, state) = unpark_call(&record);
        accepted += (answer == 0) as u32;
        match answer {
            0 => park_call(&state, &[9; PARKED]) == (0, record),
            _ => (answer, state) == (15, FRESH),
        }
    });
    holds && (5_000..19_000).contains(&accepted)
}

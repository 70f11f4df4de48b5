//! Lengths past 2^32, which are right, or another thing, once cut to 32 bits. The bytes exist, as zeros that can only be
//! read.

use super::group::{lend_number, number_in};
use super::inputs::out_after;
use super::running::{from_memory, to_memory, well_formed, Shown};
use crate::ffi::{rvghash_assemble, rvghash_check_links, rvghash_degree, rvghash_disassemble, rvghash_execute};
use crate::ffi::{rvghash_execute_policies, rvghash_park, rvghash_put_record, rvghash_replay, rvghash_step_back};
use crate::ffi::{rvghash_unpark, Running, PATHS, RUNNING_SIZE};
use crate::lent::{huge, huge_with_pages, strays, Lent};
use crate::model::field::{Block, ZERO};
use crate::model::hash::LIMIT;
use crate::model::links::LINK;
use crate::model::parked::{record_of, PARKED};
use crate::model::record::RECORD;
use crate::model::replay::DIFFERS;
use crate::model::running::{State, FRESH};
use crate::model::text::{assemble_call, disassemble_call};
use crate::report::{Bytes, Group, Hex, Run, Seen, Text};
use crate::rng::Rng;
use std::mem::size_of;
use std::slice;

const PAST: usize = 1 << 32;

/// So much of the memory whose first page can be written is looked at.
const FRONT: usize = 64;

pub fn run(run: &Run) {
    let mut group = Group::new(run, "lengths past 2^32");
    let with_pages = |places| huge_with_pages(PAST + FRONT, places);
    let (zeros, front, trace) = match (huge(PAST + 2 * LIMIT), with_pages(&[0]), with_pages(&[0, PAST])) {
        (Some(zeros), Some(front), Some(trace)) => (zeros, front, trace),
        _ => return println!("skipped: lengths past 2^32: the system gives no such address space"),
    };
    let mut rng = group.rng(0);
    execute_file(&mut group, &mut rng, zeros);
    blocks(&mut group, &mut rng, zeros);
    parts(&mut group, &mut rng, zeros);
    pieces(&mut group, &mut rng, zeros);
    parked(&mut group, &mut rng, front);
    links(&mut group, &mut rng, zeros, front);
    listings(&mut group, &mut rng, front);
    texts(&mut group, &mut rng, front);
    records(&mut group, &mut rng, front);
    torn_traces(&mut group, &mut rng, trace);
    whole_traces(&mut group, &mut rng, trace);
    replay_file(&mut group, &mut rng, zeros);
    group.end(&[0, 1, 2, 9, 11, 14, 15, 16, DIFFERS]);
}

/// A file length that is right once cut to 32 bits, without policies and with both.
fn execute_file(group: &mut Group, rng: &mut Rng, zeros: &[u8]) {
    const WORD: u32 = 0x3221_E0D7;
    let mut vstart = Lent::write("vstart", 4);
    for vlen in [128, 256, 512] {
        for (name, with_policies) in [("rvghash_execute", false), ("rvghash_execute_policies", true)] {
            let file_len = PAST + 4 * vlen as usize;
            group.compare(&(name, vlen, file_len), Seen::expected(1, Bytes(vec![8, 0, 0, 0])), || {
                let at = vstart.lend_aligned(rng, &[8, 0, 0, 0], 4).cast();
                let file = zeros.as_ptr() as *mut u8;
                // SAFETY: the file is readable; the call must refuse it, and a write would be a crash, which is told.
                let answer = unsafe {
                    if with_policies {
                        rvghash_execute_policies(WORD, vlen, 8, 1, true, true, 9, at, 3, file, file_len)
                    } else {
                        rvghash_execute(WORD, vlen, 8, 1, 9, at, 3, file, file_len)
                    }
                };
                Seen { answer, left: Bytes(vstart.content().to_vec()), stray: strays(&[&vstart]) }
            });
        }
    }
}

/// Compares a call that writes at most 16 bytes to `out`.
fn with_out(g: &mut Group, rng: &mut Rng, what: &str, refusal: u32, call: impl FnOnce(*mut u8) -> u32) {
    let mut out = Lent::write("out", 16);
    let before = Bytes(rng.block().to_vec());
    g.compare(&what, Seen::expected(refusal, out_after(&before, ZERO)), || {
        let answer = call(out.lend(rng, &before.0));
        Seen { answer, left: Bytes(out.content().to_vec()), stray: strays(&[&out]) }
    });
}

/// Keys and blocks of 2^32 + 16 bytes.
fn blocks(group: &mut Group, rng: &mut Rng, zeros: &[u8]) {
    let z = zeros.as_ptr();
    let long = PAST + 16;
    for path in PATHS {
        // SAFETY, here and below: all told bytes can be read, and `out` has 16.
        with_out(group, rng, "product, key", 9, |out| unsafe { path.product()(z, long, z, 16, out, 16) });
        with_out(group, rng, "product, block", 9, |out| unsafe { path.product()(z, 16, z, long, out, 16) });
        with_out(group, rng, "ghash, key", 9, |out| unsafe { path.ghash()(z, long, z, 1, z, 1, out, 16) });
    }
    for place in 0..3 {
        let [key_len, block_len, later_len] = std::array::from_fn(|i| if i == place { long } else { 16 });
        with_out(group, rng, "step back", 9, |out| unsafe {
            rvghash_step_back(z, key_len, z, block_len, z, later_len, out, 16)
        });
    }
    let mut degree = Lent::write("degree", 4);
    group.compare(&"degree", Seen::expected(9, Bytes(vec![0; 4])), || {
        let pointer = degree.lend_aligned(rng, &[7, 7, 7, 7], 4).cast();
        let answer = unsafe { rvghash_degree(z, long, pointer) };
        Seen { answer, left: Bytes(degree.content().to_vec()), stray: strays(&[&degree]) }
    });
}

/// An A or C of 2^32 bytes and a few.
fn parts(group: &mut Group, rng: &mut Rng, zeros: &[u8]) {
    let z = zeros.as_ptr();
    for path in PATHS {
        for long in [PAST, PAST + 1, PAST + LIMIT] {
            // SAFETY: all told bytes can be read, and `out` has 16.
            with_out(group, rng, "ghash, A", 11, |out| unsafe { path.ghash()(z, 16, z, long, z, 3, out, 16) });
            with_out(group, rng, "ghash, C", 11, |out| unsafe { path.ghash()(z, 16, z, 3, z, long, out, 16) });
        }
    }
}

/// A piece of 2^32 bytes and a few, also where the count and the length add up to a small number modulo 2^32.
fn pieces(group: &mut Group, rng: &mut Rng, zeros: &[u8]) {
    let mut memory = Lent::write("running", RUNNING_SIZE);
    let key: Block = ZERO;
    let spare = rng.bytes(7).try_into().expect("7 bytes");
    let used = State { y: rng.block(), a_count: 32, c_count: 48, phase: 1, spare, ..FRESH };
    for path in PATHS {
        for (state, feed) in [(FRESH, path.feed_a()), (FRESH, path.feed_c()), (used, path.feed_c())] {
            for long in [PAST - 48, PAST - 1, PAST, PAST + 3, PAST + LIMIT] {
                group.compare(&("feed", path, Shown(state), long), Seen::expected(11, Shown(state)), || {
                    let bytes = to_memory(&state);
                    let running = memory.lend_aligned(rng, &bytes, 8).cast();
                    // SAFETY: all told bytes can be read, and the running hash stands alone.
                    let answer = unsafe { feed(running, key.as_ptr(), 16, zeros.as_ptr(), long) };
                    Seen { answer, left: Shown(from_memory(memory.content())), stray: strays(&[&memory]) }
                });
            }
        }
    }
}

fn put(front: *mut u8, bytes: &[u8]) {
    assert!(bytes.len() <= FRONT);
    // SAFETY: so many bytes can be written, and nothing else uses them.
    unsafe { front.copy_from_nonoverlapping(bytes.as_ptr(), bytes.len()) };
}

fn content(front: *const u8) -> Vec<u8> {
    // SAFETY: so many bytes can be read; the library keeps no pointer after a call.
    unsafe { slice::from_raw_parts(front, FRONT) }.to_vec()
}

/// Buffers and records that are 48 bytes once cut to 32 bits, of each phase.
fn parked(group: &mut Group, rng: &mut Rng, front: *mut u8) {
    let (mut parked, mut running) = (Lent::read("running", RUNNING_SIZE), Lent::write("running", RUNNING_SIZE));
    for (phase, record_len) in [0, 1, 2].into_iter().flat_map(|phase| [PAST, PAST + PARKED].map(|len| (phase, len))) {
        let (state, before) = (well_formed(rng, phase), rng.bytes(FRONT));
        put(front, &before);
        group.compare(&("rvghash_park", Shown(state), record_len), Seen::expected(15, Bytes(before)), || {
            let pointer = parked.lend_aligned(rng, &to_memory(&state), 8).cast::<Running>();
            // SAFETY: so many bytes can be read; the call must refuse them.
            let answer = unsafe { rvghash_park(pointer, front, record_len) };
            Seen { answer, left: Bytes(content(front)), stray: strays(&[&parked]) }
        });
        put(front, &record_of(&state));
        group.compare(&("rvghash_unpark", Shown(state), record_len), Seen::expected(15, Shown(FRESH)), || {
            let pointer = running.lend_aligned(rng, &to_memory(&state), 8).cast::<Running>();
            // SAFETY: so many bytes can be read, and the running hash stands alone.
            let answer = unsafe { rvghash_unpark(pointer, front, record_len) };
            Seen { answer, left: Shown(from_memory(running.content())), stray: strays(&[&running]) }
        });
    }
}

/// Lengths that are right once cut to 32 bits, and a number of results whose product with 32 is. The records are zeros,
/// which agree under the zero key.
fn links(group: &mut Group, rng: &mut Rng, zeros: &[u8], front: *mut u8) {
    let z = zeros.as_ptr();
    for count in 0..=2 {
        for (key_len, records_len, results_len, refusal) in [
            (PAST + 16, LINK * count, count, 9),
            (PAST + 16, PAST + LINK * count, count, 9),
            (16, PAST + LINK * count, count, 16),
            (16, LINK * count, PAST + count, 16),
            (16, LINK * count, PAST / LINK + count, 16),
        ] {
            let before = rng.bytes(FRONT);
            put(front, &before);
            let inputs = ("rvghash_check_links", key_len, records_len, results_len);
            group.compare(&inputs, Seen::expected(refusal, Bytes(before)), || {
                // SAFETY: so many bytes can be read; the call must refuse them.
                let answer = unsafe { rvghash_check_links(z, key_len, z, records_len, front, results_len) };
                Seen::expected(answer, Bytes(content(front)))
            });
        }
    }
}

/// Buffers for a text that would be too short if their length were cut. A write behind the first page is a crash, which
/// is told.
fn listings(group: &mut Group, rng: &mut Rng, front: *mut u8) {
    let mut length = Lent::write("length", size_of::<usize>());
    for word in [0xB286_2277, 0x3221_E0D7, 0xB086_2277] {
        for text_len in [PAST, PAST + 31, PAST + 32] {
            let mut left = rng.bytes(FRONT);
            put(front, &left);
            let (answer, text) = disassemble_call(word, text_len);
            left[..text.len()].copy_from_slice(text.as_bytes());
            let model = Seen::expected(answer, (text.len(), Text(left)));
            group.compare(&("rvghash_disassemble", Hex(word as u64), text_len), model, || {
                let length_pointer = lend_number(&mut length, rng);
                // SAFETY: so many bytes can be read, and those that the call may write can be written.
                let answer = unsafe { rvghash_disassemble(word, front, text_len, length_pointer) };
                Seen { answer, left: (number_in(&length), Text(content(front))), stray: strays(&[&length]) }
            });
        }
    }
}

/// A listing that is followed by 2^32 bytes.
fn texts(group: &mut Group, rng: &mut Rng, front: *mut u8) {
    let mut word = Lent::write("word", 4);
    for text in ["vghsh.vv v4, v8, v12", "vclmul.vx v1, v2, x3"] {
        assert_eq!(assemble_call(text.as_bytes()).0, 0);
        put(front, text.as_bytes());
        let text_len = PAST + text.len();
        group.compare(&("rvghash_assemble", text, text_len), Seen::expected(2, Bytes(vec![0; 4])), || {
            let pointer = word.lend_aligned(rng, &[7, 7, 7, 7], 4).cast();
            // SAFETY: so many bytes can be read.
            let answer = unsafe { rvghash_assemble(front, text_len, pointer) };
            Seen { answer, left: Bytes(word.content().to_vec()), stray: strays(&[&word]) }
        });
    }
}

/// Lent bytes for a record that are 24 once cut to 32 bits.
fn records(group: &mut Group, rng: &mut Rng, front: *mut u8) {
    let before = rng.bytes(FRONT);
    put(front, &before);
    for record_len in [PAST, PAST + RECORD] {
        group.compare(&("rvghash_put_record", record_len), Seen::expected(14, Bytes(before.clone())), || {
            // SAFETY: so many bytes can be read; the call must refuse them.
            let answer = unsafe { rvghash_put_record(0x3221_E0D7, 8, 1, true, true, 0, 1, 0, 3, front, record_len) };
            Seen::expected(answer, Bytes(content(front)))
        });
    }
}

/// Compares a replay of the bytes from `trace` on, which must leave the file as it is and 0 as the index.
fn with_trace(group: &mut Group, rng: &mut Rng, trace: *const u8, trace_len: usize, answer: u32) {
    let (mut file, mut index) = (Lent::write("file", 512), Lent::write("index", size_of::<usize>()));
    let before = rng.bytes(512);
    let model = Seen::expected(answer, (0, Bytes(before.clone())));
    group.compare(&("rvghash_replay", trace_len), model, || {
        let file_pointer = file.lend(rng, &before);
        let index_pointer = lend_number(&mut index, rng);
        // SAFETY: so many bytes can be read, and the file and the index stand alone.
        let answer = unsafe { rvghash_replay(128, file_pointer, 512, trace, trace_len, index_pointer) };
        let left = (number_in(&index), Bytes(file.content().to_vec()));
        Seen { answer, left, stray: strays(&[&file, &index]) }
    });
}

/// vclmul.vx v1, v2, x3 at SEW 64, done: the first bytes of the traces here.
const DONE: [u8; RECORD] = [0xD7, 0xE0, 0x21, 0x32, 64, 1, 0, 0, 2, 0, 0, 0, 0, 0, 0, 0, 3, 0, 0, 0, 0, 0, 0, 0];

/// Traces that are whole once cut to 32 bits.
fn torn_traces(group: &mut Group, rng: &mut Rng, trace: *mut u8) {
    put(trace, &DONE);
    for trace_len in [PAST, PAST + RECORD, PAST + 2 * RECORD] {
        assert_ne!(trace_len % RECORD, 0);
        with_trace(group, rng, trace, trace_len, 14);
    }
}

/// A trace of 2^32 bytes and a few that differs at its first record, and then has a wrong policy byte in its last.
fn whole_traces(group: &mut Group, rng: &mut Rng, trace: *mut u8) {
    const LEN: usize = PAST + 8 + RECORD;
    assert_eq!(LEN % RECORD, 0);
    let mut differs = DONE;
    differs[6] = 1;
    put(trace, &differs);
    with_trace(group, rng, trace, LEN, DIFFERS);
    put(trace.wrapping_add(LEN - RECORD), &[0, 0, 0, 0, 0, 0, 0, 4]);
    with_trace(group, rng, trace, LEN, 14);
}

/// A file length that is right once cut to 32 bits: the call answers 1, and the record says so.
fn replay_file(group: &mut Group, rng: &mut Rng, zeros: &[u8]) {
    let (mut trace, mut index) = (Lent::read("trace", RECORD), Lent::write("index", size_of::<usize>()));
    let mut record = DONE;
    record[6] = 1;
    for vlen in [128, 256, 512] {
        let file_len = PAST + 4 * vlen as usize;
        group.compare(&("rvghash_replay", vlen, file_len), Seen::expected(0, 1), || {
            let trace_pointer = trace.lend(rng, &record);
            let index_pointer = lend_number(&mut index, rng);
            let file = zeros.as_ptr() as *mut u8;
            // SAFETY: the file is readable; no call may write it, and a write would be a crash, which is told.
            let answer = unsafe { rvghash_replay(vlen, file, file_len, trace_pointer, RECORD, index_pointer) };
            Seen { answer, left: number_in(&index), stray: strays(&[&trace, &index]) }
        });
    }
}

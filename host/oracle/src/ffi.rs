//! The C declarations of rvghash.h.

use std::mem::size_of;

#[repr(C)]
pub struct Running {
    pub y_high: u64,
    pub y_low: u64,
    pub open: [u8; 16],
    pub a_count: u32,
    pub c_count: u32,
    pub phase: u8,
    pub spare: [u8; 7],
}

pub const RUNNING_SIZE: usize = size_of::<Running>();
const _: () = assert!(RUNNING_SIZE == 48);

pub type Product = unsafe extern "C" fn(*const u8, usize, *const u8, usize, *mut u8, usize) -> u32;
pub type Ghash = unsafe extern "C" fn(*const u8, usize, *const u8, usize, *const u8, usize, *mut u8, usize) -> u32;
pub type Feed = unsafe extern "C" fn(*mut Running, *const u8, usize, *const u8, usize) -> u32;
pub type Finish = unsafe extern "C" fn(*mut Running, *const u8, usize, *mut u8, usize) -> u32;

#[rustfmt::skip]
extern "C" {
    pub fn rvghash_execute(
        word: u32, vlen: u32, sew: u32, lmul: u32, vl: u32, vstart: *mut u32, scalar: u64, file: *mut u8, file_len: usize,
    ) -> u32;
    pub fn rvghash_execute_policies(
        word: u32, vlen: u32, sew: u32, lmul: u32, tail_agnostic: bool, mask_agnostic: bool, vl: u32,
        vstart: *mut u32, scalar: u64, file: *mut u8, file_len: usize,
    ) -> u32;
    pub fn rvghash_group_refusal(vlen: u32, file_len: usize, lmul: u32, reg: u32) -> u32;
    pub fn rvghash_group(
        vlen: u32, file_len: usize, lmul: u32, reg: u32, start: *mut usize, length: *mut usize,
    ) -> u32;
    pub fn rvghash_encode(kind: u32, vm: u32, vs2: u32, vs1: u32, vd: u32, word: *mut u32) -> u32;
    pub fn rvghash_decode(
        word: u32, kind: *mut u32, vm: *mut u32, vs2: *mut u32, vs1: *mut u32, vd: *mut u32,
    ) -> u32;
    pub fn rvghash_disassemble(word: u32, text: *mut u8, text_len: usize, length: *mut usize) -> u32;
    pub fn rvghash_assemble(text: *const u8, text_len: usize, word: *mut u32) -> u32;
    pub fn rvghash_put_record(
        word: u32, sew: u32, lmul: u32, tail_agnostic: bool, mask_agnostic: bool, answer: u32, vl: u32, vstart: u32,
        scalar: u64, record: *mut u8, record_len: usize,
    ) -> u32;
    pub fn rvghash_replay(
        vlen: u32, file: *mut u8, file_len: usize, trace: *const u8, trace_len: usize, index: *mut usize,
    ) -> u32;
    fn rvghash_product_plain(
        key: *const u8, key_len: usize, block: *const u8, block_len: usize, out: *mut u8, out_len: usize,
    ) -> u32;
    fn rvghash_product_fast(
        key: *const u8, key_len: usize, block: *const u8, block_len: usize, out: *mut u8, out_len: usize,
    ) -> u32;
    fn rvghash_ghash_plain(
        key: *const u8, key_len: usize, a: *const u8, a_len: usize, c: *const u8, c_len: usize,
        out: *mut u8, out_len: usize,
    ) -> u32;
    fn rvghash_ghash_fast(
        key: *const u8, key_len: usize, a: *const u8, a_len: usize, c: *const u8, c_len: usize,
        out: *mut u8, out_len: usize,
    ) -> u32;
    pub fn rvghash_check_links(
        key: *const u8, key_len: usize, records: *const u8, records_len: usize, results: *mut u8, results_len: usize,
    ) -> u32;
    pub fn rvghash_step_back(
        key: *const u8, key_len: usize, block: *const u8, block_len: usize, later: *const u8, later_len: usize,
        out: *mut u8, out_len: usize,
    ) -> u32;
    pub fn rvghash_degree(block: *const u8, block_len: usize, degree: *mut u32) -> u32;
    pub fn rvghash_running_new(state: *mut Running);
    fn rvghash_feed_a(
        state: *mut Running, key: *const u8, key_len: usize, piece: *const u8, piece_len: usize,
    ) -> u32;
    fn rvghash_feed_c(
        state: *mut Running, key: *const u8, key_len: usize, piece: *const u8, piece_len: usize,
    ) -> u32;
    fn rvghash_feed_a_plain(
        state: *mut Running, key: *const u8, key_len: usize, piece: *const u8, piece_len: usize,
    ) -> u32;
    fn rvghash_feed_c_plain(
        state: *mut Running, key: *const u8, key_len: usize, piece: *const u8, piece_len: usize,
    ) -> u32;
    fn rvghash_finish(state: *mut Running, key: *const u8, key_len: usize, out: *mut u8, out_len: usize) -> u32;
    fn rvghash_finish_plain(state: *mut Running, key: *const u8, key_len: usize, out: *mut u8, out_len: usize) -> u32;
    pub fn rvghash_park(running: *const Running, record: *mut u8, record_len: usize) -> u32;
    pub fn rvghash_unpark(running: *mut Running, record: *const u8, record_len: usize) -> u32;
}

/// The library's two ways to a product.
#[derive(Clone, Copy, PartialEq, Eq, Debug)]
pub enum Path {
    Plain,
    Fast,
}

pub const PATHS: [Path; 2] = [Path::Plain, Path::Fast];

impl Path {
    pub fn product(self) -> Product {
        match self {
            Path::Plain => rvghash_product_plain,
            Path::Fast => rvghash_product_fast,
        }
    }

    pub fn ghash(self) -> Ghash {
        match self {
            Path::Plain => rvghash_ghash_plain,
            Path::Fast => rvghash_ghash_fast,
        }
    }

    pub fn feed_a(self) -> Feed {
        match self {
            Path::Plain => rvghash_feed_a_plain,
            Path::Fast => rvghash_feed_a,
        }
    }

    pub fn feed_c(self) -> Feed {
        match self {
            Path::Plain => rvghash_feed_c_plain,
            Path::Fast => rvghash_feed_c,
        }
    }

    pub fn finish(self) -> Finish {
        match self {
            Path::Plain => rvghash_finish_plain,
            Path::Fast => rvghash_finish,
        }
    }
}

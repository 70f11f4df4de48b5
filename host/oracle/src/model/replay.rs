//! Replay: the whole trace becomes a list of records, and each of them makes a new file, so that the one before it is
//! still there where the answers differ.

use super::execute::{execute, Request};
use super::record::{Record, RECORD};

/// Given where a record's answer is not ours.
pub const DIFFERS: u32 = 256;

#[derive(Clone, PartialEq, Eq, Debug)]
pub struct Replayed {
    pub answer: u32,
    pub index: usize,
    pub file: Vec<u8>,
}

impl Record {
    /// The call of this record on a file.
    pub fn request<'a>(&self, vlen: u32, file: &'a [u8]) -> Request<'a> {
        let Record { word, sew, lmul, policies, vl, vstart, scalar, .. } = *self;
        Request { word, vlen, sew, lmul, policies, vl, vstart, scalar, file }
    }
}

/// The call for a trace.
pub fn replay_call(vlen: u32, file: &[u8], trace: &[u8]) -> Replayed {
    match trace.chunks(RECORD).map(Record::read).collect::<Option<Vec<_>>>() {
        Some(records) => replay(vlen, file, &records),
        None => Replayed { answer: 14, index: 0, file: file.to_vec() },
    }
}

fn replay(vlen: u32, file: &[u8], records: &[Record]) -> Replayed {
    let mut before = file.to_vec();
    for (index, record) in records.iter().enumerate() {
        let ours = execute(&record.request(vlen, &before));
        if ours.answer != record.answer {
            return Replayed { answer: DIFFERS, index, file: before };
        }
        before = ours.file;
    }
    Replayed { answer: 0, index: records.len(), file: before }
}

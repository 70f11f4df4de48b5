//! Lent memory under watch: a buffer lies inside a mapping of its own, among random bytes, with an unreadable page at
//! either end of the mapping. After a call every byte that the call had no right to write is compared.

use crate::rng::Rng;
use std::ffi::c_void;
use std::ptr::null_mut;
use std::slice;

extern "C" {
    fn mmap(addr: *mut c_void, len: usize, prot: i32, flags: i32, fd: i32, offset: i64) -> *mut c_void;
    fn mprotect(addr: *mut c_void, len: usize, prot: i32) -> i32;
    fn madvise(addr: *mut c_void, len: usize, advice: i32) -> i32;
    fn sysconf(name: i32) -> i64;
}

const PROT_NONE: i32 = 0;
const PROT_READ: i32 = 1;
const PROT_WRITE: i32 = 2;
const MAP_PRIVATE: i32 = 0x02;
const MAP_ANONYMOUS: i32 = 0x20;
const MAP_NORESERVE: i32 = 0x4000;
const MADV_HUGEPAGE: i32 = 14;
const SC_PAGESIZE: i32 = 30;

/// So many bytes on either side of a buffer get new random content with each loan; the rest keeps older content.
const FRESH_GUARD: usize = 64;

/// What the library may do with a buffer.
#[derive(Clone, Copy, PartialEq, Eq)]
enum Access {
    Read,
    Write,
}

pub struct Lent {
    name: &'static str,
    access: Access,
    /// The readable part of the mapping, and what it held when the buffer was lent.
    start: *mut u8,
    shadow: Vec<u8>,
    at: usize,
    len: usize,
}

impl Lent {
    /// Memory for a buffer of up to `capacity` bytes that is only read.
    pub fn read(name: &'static str, capacity: usize) -> Lent {
        Lent::new(name, Access::Read, capacity)
    }

    /// Memory for a buffer that the library may write.
    pub fn write(name: &'static str, capacity: usize) -> Lent {
        Lent::new(name, Access::Write, capacity)
    }

    fn new(name: &'static str, access: Access, capacity: usize) -> Lent {
        let page = page_size();
        let size = (capacity + 2 * FRESH_GUARD + page - 1) / page * page;
        let whole = map(size + 2 * page, PROT_NONE, 0).expect("memory for a lent buffer");
        let start = whole.wrapping_add(page);
        // SAFETY: the pages lie inside the mapping made above.
        let done = unsafe { mprotect(start.cast(), size, PROT_READ | PROT_WRITE) };
        assert_eq!(done, 0, "mprotect");
        let shadow = Rng::for_call(0, name, 0).bytes(size);
        // SAFETY: so many bytes of the mapping can be written now.
        unsafe { start.copy_from_nonoverlapping(shadow.as_ptr(), size) };
        Lent { name, access, start, shadow, at: 0, len: 0 }
    }

    /// Lends these bytes from a place of any alignment.
    pub fn lend(&mut self, rng: &mut Rng, content: &[u8]) -> *mut u8 {
        self.lend_aligned(rng, content, 1)
    }

    /// Lends these bytes: against the page in front, against the page behind, or in between. A pointer that goes with
    /// length 0 may be anything, so it is.
    pub fn lend_aligned(&mut self, rng: &mut Rng, content: &[u8], align: usize) -> *mut u8 {
        // SAFETY: the mapping is as long as the shadow and nobody else holds it.
        let memory = unsafe { slice::from_raw_parts_mut(self.start, self.shadow.len()) };
        // What the last call wrote there by right is now a part of the surroundings.
        let earlier = self.at..self.at + self.len;
        self.shadow[earlier.clone()].copy_from_slice(&memory[earlier]);
        self.len = content.len();
        self.at = self.place(rng) / align * align;
        let end = self.at + self.len;
        let guards = self.at.saturating_sub(FRESH_GUARD)..(end + FRESH_GUARD).min(memory.len());
        rng.fill(&mut self.shadow[guards.start..self.at]);
        self.shadow[self.at..end].copy_from_slice(content);
        rng.fill(&mut self.shadow[end..guards.end]);
        memory[guards.clone()].copy_from_slice(&self.shadow[guards]);
        match (self.len, rng.below(4)) {
            (0, 0) => null_mut(),
            (0, 1) => 1 as *mut u8,
            (0, 2) => self.start.wrapping_sub(1),
            _ => self.start.wrapping_add(self.at),
        }
    }

    fn place(&self, rng: &mut Rng) -> usize {
        let last = self.shadow.len() - self.len;
        match rng.below(3) {
            0 => 0,
            1 => last,
            _ => rng.below(last + 1),
        }
    }

    fn memory(&self) -> &[u8] {
        // SAFETY: the mapping is as long as the shadow; the library keeps no pointer after a call.
        unsafe { slice::from_raw_parts(self.start, self.shadow.len()) }
    }

    /// What lies in the buffer now.
    pub fn content(&self) -> &[u8] {
        &self.memory()[self.at..self.at + self.len]
    }

    /// The first byte that was written without right, in words.
    fn stray(&self) -> Option<String> {
        let (memory, end) = (self.memory(), self.at + self.len);
        let clean = match self.access {
            Access::Read => memory == self.shadow,
            Access::Write => memory[..self.at] == self.shadow[..self.at] && memory[end..] == self.shadow[end..],
        };
        if clean {
            return None;
        }
        let own = |i: usize| self.access == Access::Write && (self.at..end).contains(&i);
        let i = (0..memory.len()).find(|&i| memory[i] != self.shadow[i] && !own(i))?;
        let place = i as i64 - self.at as i64;
        Some(format!(
            "byte {place} of {} ({} bytes): {:02x} became {:02x}",
            self.name, self.len, self.shadow[i], memory[i]
        ))
    }
}

/// Every stray write among these buffers.
pub fn strays(lent: &[&Lent]) -> Vec<String> {
    lent.iter().filter_map(|l| l.stray()).collect()
}

fn page_size() -> usize {
    // SAFETY: a plain question to the C library.
    unsafe { sysconf(SC_PAGESIZE) as usize }
}

fn map(len: usize, prot: i32, more_flags: i32) -> Option<*mut u8> {
    // SAFETY: a new private mapping touches nothing that exists.
    let start = unsafe { mmap(null_mut(), len, prot, MAP_PRIVATE | MAP_ANONYMOUS | more_flags, -1, 0) };
    (start as isize != -1).then_some(start.cast())
}

/// More than 2^32 zero bytes that can only be read, if the system gives so much address space.
pub fn huge(len: usize) -> Option<&'static [u8]> {
    let start = map(len, PROT_READ, MAP_NORESERVE)?;
    // SAFETY: the mapping is never taken back and never written.
    Some(unsafe { slice::from_raw_parts(start, len) })
}

/// The same, but the pages at these places can be written as well.
pub fn huge_with_pages(len: usize, places: &[usize]) -> Option<*mut u8> {
    let start = map(len, PROT_READ, MAP_NORESERVE)?;
    // SAFETY: a wish that changes no content. Where it is granted, reading all of it is fast.
    unsafe { madvise(start.cast(), len, MADV_HUGEPAGE) };
    let writable = |&place: &usize| {
        let page = start.wrapping_add(place);
        // SAFETY: the page lies inside the mapping made above.
        unsafe { mprotect(page.cast(), page_size(), PROT_READ | PROT_WRITE) == 0 }
    };
    places.iter().all(writable).then_some(start)
}

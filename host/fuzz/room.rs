//! Memory between pages that can't be touched: a byte read or written outside of it ends the process.

use std::ffi::c_void;

extern "C" {
    fn mmap(at: *mut c_void, length: usize, may: i32, flags: i32, file: i32, offset: i64) -> *mut c_void;
    fn mprotect(at: *mut c_void, length: usize, may: i32) -> i32;
}

const PAGE: usize = 4096;
/// The bytes of a room: more than any text or output.
const BYTES: usize = 18 * PAGE;
/// To read and write; memory of this process alone that is no file.
const READ_WRITE: i32 = 3;
const PRIVATE: i32 = 0x22;
/// Bytes beside what is lent, remembered to see whether they were changed.
const MARGIN: usize = 64;
const CANARY: u8 = b'7';

/// Bytes between two such pages, lent up to the second one, or from the first one on where their number is odd.
pub struct Room {
    start: *mut u8,
    own: std::cell::Cell<(usize, usize)>,
}

impl Room {
    pub fn new() -> Room {
        // SAFETY: new memory of the process, of whole pages.
        unsafe {
            let at = mmap(std::ptr::null_mut(), BYTES + 2 * PAGE, READ_WRITE, PRIVATE, -1, 0);
            assert!(at as isize != -1, "memory for a room");
            assert!(mprotect(at, PAGE, 0) == 0 && mprotect(at.add(PAGE + BYTES), PAGE, 0) == 0, "pages that can't be touched");
            Room { start: at.cast::<u8>().add(PAGE), own: Default::default() }
        }
    }

    /// The whole room.
    #[allow(clippy::mut_from_ref)]
    fn all(&self) -> &mut [u8] {
        // SAFETY: the room's own bytes; what is lent of them is only compared once the call has ended.
        unsafe { std::slice::from_raw_parts_mut(self.start, BYTES) }
    }

    /// As many bytes of it, with others beside them.
    #[allow(clippy::mut_from_ref)]
    fn place(&self, length: usize) -> &mut [u8] {
        let from = if length.is_multiple_of(2) { BYTES - length } else { 0 };
        self.own.set((from, length));
        self.all()[from.saturating_sub(MARGIN)..from].fill(CANARY);
        self.all()[from + length..(from + length + MARGIN).min(BYTES)].fill(CANARY);
        &mut self.all()[from..from + length]
    }

    /// These bytes in it.
    pub fn hold(&self, bytes: &[u8]) -> &[u8] {
        let place = self.place(bytes.len());
        place.copy_from_slice(bytes);
        place
    }

    /// An output in it, of bytes that the answers don't have.
    #[allow(clippy::mut_from_ref)]
    pub fn lend(&self, length: usize) -> &mut [u8] {
        let place = self.place(length);
        place.fill(!CANARY);
        place
    }

    /// The first bytes of what was lent.
    pub fn written(&self, length: usize) -> &[u8] {
        let (from, most) = self.own.get();
        &self.all()[from..from + length.min(most)]
    }

    /// What was lent begins with these bytes; the others of an output, and those beside it, are as they were.
    pub fn has(&self, bytes: &[u8]) -> bool {
        let (from, length) = self.own.get();
        let own = self.written(length);
        let beside = self.all()[from.saturating_sub(MARGIN)..from].iter().chain(self.all()[from + length..].iter().take(MARGIN));
        own.starts_with(bytes) && own[bytes.len()..].iter().all(|byte| *byte == !CANARY) && beside.into_iter().all(|byte| *byte == CANARY)
    }
}

/// A form's list between numbers that would do in its place.
pub struct List(Vec<u32>, Vec<u32>);

/// Numbers on each side.
const NUMBERS: usize = 16;

impl List {
    pub fn of(list: &[u32]) -> List {
        let around = [&[1; NUMBERS], list, &[1; NUMBERS]].concat();
        List(around.clone(), around)
    }

    pub fn own(&self) -> &[u32] {
        &self.0[NUMBERS..self.0.len() - NUMBERS]
    }

    pub fn is_unchanged(&self) -> bool {
        self.0 == self.1
    }
}

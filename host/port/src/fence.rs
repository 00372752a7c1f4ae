//! Memory with an unreadable page behind it: whoever reads or writes past the end of a slice that
//! ends there is stopped by the machine.

use std::ptr;

/// The size of a page on x86-64 Linux, for which the archive is, and the numbers of its system calls.
const PAGE: usize = 4_096;
const PROT_NONE: i32 = 0;
const PROT_READ_WRITE: i32 = 3;
const MAP_PRIVATE_ANONYMOUS: i32 = 0x22;

extern "C" {
    fn mmap(at: *mut u8, length: usize, prot: i32, flags: i32, fd: i32, offset: i64) -> *mut u8;
    fn mprotect(at: *mut u8, length: usize, prot: i32) -> i32;
    fn munmap(at: *mut u8, length: usize) -> i32;
}

/// What stands in it before.
pub const PATTERN: u8 = 0xa5;

/// Some pages of memory, and one behind them that can be neither read nor written.
#[derive(Debug)]
pub struct Fenced {
    first: *mut u8,
    bytes: usize,
}

impl Fenced {
    /// Room for at least so many bytes.
    pub fn new(least: usize) -> Self {
        let bytes = least.max(1).next_multiple_of(PAGE);
        let all = bytes + PAGE;
        // SAFETY: new memory is asked for, and none of this process is touched.
        let first =
            unsafe { mmap(ptr::null_mut(), all, PROT_READ_WRITE, MAP_PRIVATE_ANONYMOUS, -1, 0) };
        assert!(first as isize > 0, "there is memory");
        // SAFETY: the page is the last of those that were just mapped.
        let status = unsafe { mprotect(first.add(bytes), PAGE, PROT_NONE) };
        assert_eq!(status, 0, "a page can be closed");
        let mut fenced = Fenced { first, bytes };
        fenced.all().fill(PATTERN);
        fenced
    }

    /// All of it.
    fn all(&mut self) -> &mut [u8] {
        // SAFETY: so many bytes were mapped for reading and writing, they have values, and the borrow
        // is that of their owner.
        unsafe { std::slice::from_raw_parts_mut(self.first, self.bytes) }
    }

    /// The pattern everywhere again.
    pub fn refill(&mut self) -> &mut Self {
        self.all().fill(PATTERN);
        self
    }

    /// The last bytes, before the fence.
    pub fn bytes(&mut self, length: usize) -> &mut [u8] {
        let all = self.all();
        let start = all.len() - length;
        &mut all[start..]
    }

    /// The last words.
    pub fn words(&mut self, length: usize) -> &mut [u32] {
        let bytes = self.bytes(4 * length);
        // SAFETY: the end of a page is aligned for words, and so is what lies a number of words before
        // it; any four bytes are a word.
        unsafe { std::slice::from_raw_parts_mut(bytes.as_mut_ptr().cast(), length) }
    }

    /// Whether the pattern still stands everywhere before the last bytes.
    pub fn is_untouched_before(&mut self, length: usize) -> bool {
        let all = self.all();
        let end = all.len() - length;
        all[..end].iter().all(|byte| *byte == PATTERN)
    }
}

impl Drop for Fenced {
    fn drop(&mut self) {
        // SAFETY: this was mapped by `new`, and nobody borrows it any more.
        unsafe { munmap(self.first, self.bytes + PAGE) };
    }
}

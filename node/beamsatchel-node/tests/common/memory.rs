//! Memory from the system, whose pages can be closed to stores or to any use.
#![allow(unsafe_code)]

use std::ffi::{c_int, c_long, c_void};
use std::ops::Range;

extern "C" {
    fn getpagesize() -> c_int;
    fn mmap(
        at: *mut c_void,
        length: usize,
        access: c_int,
        flags: c_int,
        file: c_int,
        offset: c_long,
    ) -> *mut c_void;
    fn mprotect(at: *mut c_void, length: usize, access: c_int) -> c_int;
    fn munmap(at: *mut c_void, length: usize) -> c_int;
}

const PRIVATE_AND_ANONYMOUS: c_int = 0x22;
/// No memory is set aside for pages before they are used.
const NO_RESERVE: c_int = 0x4000;

/// What may be done to a page.
#[derive(Clone, Copy)]
pub enum Access {
    Nothing = 0,
    Read = 1,
    ReadAndWrite = 3,
}

/// How many bytes a page has.
pub fn page_size() -> usize {
    // SAFETY: this asks for a number only.
    unsafe { getpagesize() as usize }
}

/// Zeros, in pages of their own.
pub struct Memory {
    start: usize,
    length: usize,
}

impl Memory {
    pub fn new(length: usize, access: Access) -> Memory {
        let flags = PRIVATE_AND_ANONYMOUS | NO_RESERVE;
        // SAFETY: no memory that is in use is asked for.
        let start = unsafe { mmap(std::ptr::null_mut(), length, access as c_int, flags, -1, 0) };
        assert_ne!(start as isize, -1, "no memory");
        Memory {
            start: start as usize,
            length,
        }
    }

    /// Where it begins.
    pub fn start(&self) -> usize {
        self.start
    }

    pub fn bytes(&self) -> &[u8] {
        // SAFETY: the pages are mapped, and nobody who writes them borrows them.
        unsafe { std::slice::from_raw_parts(self.start as *const u8, self.length) }
    }

    pub fn bytes_mut(&mut self) -> &mut [u8] {
        // SAFETY: the pages are mapped, and borrowed by nobody else.
        unsafe { std::slice::from_raw_parts_mut(self.start as *mut u8, self.length) }
    }

    /// Sets what may be done to these bytes, which are whole pages.
    pub fn set_access(&self, bytes: Range<usize>, access: Access) {
        assert!(bytes.end <= self.length);
        let start = (self.start + bytes.start) as *mut c_void;
        // SAFETY: these pages are mapped here. What is done to them against their access ends the program.
        let failed = unsafe { mprotect(start, bytes.len(), access as c_int) };
        assert_eq!(failed, 0);
    }
}

impl Drop for Memory {
    fn drop(&mut self) {
        // SAFETY: nothing borrows the pages any longer.
        unsafe { munmap(self.start as *mut c_void, self.length) };
    }
}

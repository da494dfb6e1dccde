//! A buffer whose pages tell when they are used. While it is watched, all pages are closed but the few that were opened
//! last: a use of another one raises a signal, whose handler counts the visit and opens the page, at first for reading
//! alone, so that a store raises a second one. What comes back to a page that is still open is no new visit.

#![allow(unsafe_code)]

use crate::common::memory::{page_size, Access, Memory};
use std::ffi::{c_int, c_void};
use std::ops::Range;
use std::sync::atomic::{AtomicU32, AtomicUsize, Ordering::Relaxed};
use std::sync::OnceLock;

/// The most bytes of a container's buffer.
pub const LENGTH: usize = 16_777_216;
/// One instruction uses at most four pages: two strings, each across a page's end.
const OPEN: usize = 4;
/// The most pages that the buffer can have.
const PAGES: usize = LENGTH / 4096;

extern "C" {
    fn sigaction(signal: c_int, action: *const Action, before: *mut Action) -> c_int;
}

/// The signal that a use of a closed page raises.
const SEGV: c_int = 11;
/// The handler is told the place.
const WITH_PLACE: c_int = 4;

/// What a signal does.
#[repr(C)]
struct Action {
    handler: usize,
    blocked: [u64; 16],
    flags: c_int,
    restorer: usize,
}

/// What a handler is told.
#[repr(C)]
struct Told {
    numbers: [c_int; 4],
    place: usize,
}

/// The buffer, and how long its pages are.
static BUFFER: OnceLock<(Memory, usize)> = OnceLock::new();
/// The pages that are open, the one that was opened last at the front; `PAGES` where there is none.
static OPENED: [AtomicUsize; OPEN] = [const { AtomicUsize::new(PAGES) }; OPEN];
/// How often each page was opened, and how often for a store.
static VISITS: [AtomicU32; PAGES] = [const { AtomicU32::new(0) }; PAGES];
static STORES: [AtomicU32; PAGES] = [const { AtomicU32::new(0) }; PAGES];

/// Sets what may be done to so many pages.
fn set_access(page: usize, count: usize, access: Access) {
    let (memory, length) = BUFFER.get().expect("it is watched");
    memory.set_access(page * length..(page + count) * length, access);
}

/// The page of a place in the buffer.
fn page_of(place: usize) -> Option<usize> {
    let (memory, length) = BUFFER.get()?;
    let inside = place.checked_sub(memory.start())?;
    (inside < LENGTH).then_some(inside / length)
}

/// Opens the page of a place that was used while it was closed, or closed to stores.
extern "C" fn open(_: c_int, told: *const Told, _: *const c_void) {
    // SAFETY: the system says by this where the use was.
    let place = unsafe { (*told).place };
    let Some(page) = page_of(place) else {
        // The use was wrong, and ends the program.
        std::process::abort();
    };
    if OPENED.iter().any(|opened| opened.load(Relaxed) == page) {
        STORES[page].fetch_add(1, Relaxed);
        set_access(page, 1, Access::ReadAndWrite);
        return;
    }
    VISITS[page].fetch_add(1, Relaxed);
    let mut entering = page;
    for opened in &OPENED {
        entering = opened.swap(entering, Relaxed);
    }
    if entering < PAGES {
        set_access(entering, 1, Access::Nothing);
    }
    set_access(page, 1, Access::Read);
}

/// The visits to one page.
#[derive(Clone, Copy, Debug, PartialEq, Eq)]
pub struct Visits {
    pub all: u32,
    /// Those among them that stored.
    pub storing: u32,
}

/// The one buffer of the program.
pub struct Pages {
    page: usize,
}

impl Pages {
    pub fn new() -> Pages {
        let page = page_size();
        assert!(
            LENGTH / page <= PAGES,
            "pages of {page} bytes are too short"
        );
        let memory = Memory::new(LENGTH, Access::ReadAndWrite);
        assert!(BUFFER.set((memory, page)).is_ok(), "there is one buffer");
        let action = Action {
            handler: open as *const () as usize,
            blocked: [0; 16],
            flags: WITH_PLACE,
            restorer: 0,
        };
        // SAFETY: the action is laid out as the system asks, and its handler allocates nothing and takes no lock.
        let failed = unsafe { sigaction(SEGV, &action, std::ptr::null_mut()) };
        assert_eq!(failed, 0);
        Pages { page }
    }

    pub fn bytes(&mut self) -> &mut [u8] {
        let (memory, _) = BUFFER.get().expect("it is made");
        // SAFETY: the buffer is mapped and never unmapped, and this is the only way to it.
        unsafe { std::slice::from_raw_parts_mut(memory.start() as *mut u8, LENGTH) }
    }

    pub fn count(&self) -> usize {
        LENGTH / self.page
    }

    /// The pages that lie wholly in a range of the bytes.
    pub fn inside(&self, bytes: Range<usize>) -> Range<usize> {
        let first = bytes.start.div_ceil(self.page);
        first..(bytes.end / self.page).max(first)
    }

    /// The visits to each page while the buffer is used.
    pub fn watch<R>(&mut self, used: impl FnOnce(&mut [u8]) -> R) -> (R, Vec<Visits>) {
        let count = self.count();
        for page in 0..count {
            VISITS[page].store(0, Relaxed);
            STORES[page].store(0, Relaxed);
        }
        OPENED
            .iter()
            .for_each(|opened| opened.store(PAGES, Relaxed));
        set_access(0, count, Access::Nothing);
        let given = used(self.bytes());
        set_access(0, count, Access::ReadAndWrite);
        let visits = (0..count).map(|page| Visits {
            all: VISITS[page].load(Relaxed),
            storing: STORES[page].load(Relaxed),
        });
        (given, visits.collect())
    }
}

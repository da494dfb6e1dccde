//! What a test-and-write does not name it does not even store to: the pages without its bytes are
//! read-only here while the library works, and a store to one would end the test with a signal.
#![cfg(target_os = "linux")]

mod common;

use beamsatchel_node::ffi;
use common::memory::{page_size, Access, Memory};
use common::raw::{add, append, write, write_at, ENABLER, NODE};

/// A container of many pages, whose data one request can fill.
const LENGTH: usize = 65_536;
/// Where a container's data begins.
const DATA: usize = 468;

/// A container in pages of its own, one more than it fills.
struct Pages {
    memory: Memory,
    page: usize,
    /// How many bytes stand before the container.
    before: usize,
}

impl Pages {
    /// A container in whose first pages a place of it begins a page.
    fn with_page_at(place: usize) -> Pages {
        let page = page_size();
        let mut slot = Pages {
            memory: Memory::new(LENGTH + page, Access::ReadAndWrite),
            page,
            before: (page - place) % page,
        };
        assert!(slot.count() > 3, "pages of {page} bytes are too long");
        assert_eq!(ffi::create(slot.bytes(), &NODE, &ENABLER).number, 0);
        slot
    }

    /// A container with six leases, two of them behind the data. The data ends where a page begins,
    /// so many pages before the buffer's end.
    fn with_data_up_to(before_the_end: usize) -> Pages {
        let mut slot = Pages::with_page_at(0);
        let size = (slot.count() - before_the_end) * slot.page - DATA;
        slot.done(&write_at(0, &vec![b'A'; size], None));
        for lease in 1..=6 {
            slot.done(&add(lease));
        }
        assert_eq!(slot.size(), size);
        slot
    }

    fn count(&self) -> usize {
        LENGTH / self.page
    }

    fn bytes(&mut self) -> &mut [u8] {
        &mut self.memory.bytes_mut()[self.before..][..LENGTH]
    }

    fn size(&mut self) -> usize {
        u64::from_be_bytes(self.bytes()[84..92].try_into().expect("eight bytes")) as usize
    }

    fn done(&mut self, request: &[u8]) {
        let answer = ffi::apply(self.bytes(), request, &mut []);
        assert_eq!(answer.number, 0);
    }

    /// Applies requests in turn while all pages but these are read-only.
    fn done_on(&mut self, pages: &[usize], requests: &[Vec<u8>]) {
        self.protect(pages, Access::Read);
        for request in requests {
            self.done(request);
        }
        self.protect(pages, Access::ReadAndWrite);
    }

    /// Sets the access of all pages but these.
    fn protect(&mut self, pages: &[usize], access: Access) {
        for page in (0..=self.count()).filter(|page| !pages.contains(page)) {
            let start = page * self.page;
            self.memory.set_access(start..start + self.page, access);
        }
    }
}

#[test]
fn at_the_end_of_long_data_only_the_first_and_the_last_page_are_stored_to() {
    let mut slot = Pages::with_data_up_to(1);
    let (size, last) = (slot.size(), slot.count() - 1);
    slot.done_on(
        &[0, last],
        &[
            write_at(size, &[b'B'; 64], None),
            write_at(size + 32, &[b'C'; 64], None),
            write_at(size + 200, b"D", None),
            write_at(size + 16, &[b'E'; 500], Some(size + 20)),
            write_at(0, b"", Some(size)),
        ],
    );
}

/// From the end is as from the start: into the slack that a cut leaves, past it, and over the last bytes.
#[test]
fn an_append_stores_to_the_same_pages_as_a_write_at_the_end() {
    let mut slot = Pages::with_data_up_to(1);
    let (size, last) = (slot.size(), slot.count() - 1);
    slot.done_on(
        &[0, last],
        &[
            append(&[b'B'; 64]),
            append(&[b'C'; 64]),
            write_at(0, b"", Some(size)),
            append(&[b'D'; 100]),
            append(&[b'E'; 100]),
            write(&[(-1, b"F"), (-1, b"G")], None),
        ],
    );
    assert_eq!(slot.size(), size + 202);
    slot.done_on(&[last], &[write(&[(-203, &[b'H'; 202])], None)]);
    slot.done_on(&[], &[append(b"")]);
}

#[test]
fn a_write_inside_the_data_stores_to_its_own_bytes_alone() {
    let mut slot = Pages::with_data_up_to(2);
    let (size, last_of_data) = (slot.size(), slot.count() - 3);
    slot.done_on(&[0], &[write_at(0, b"F", None)]);
    slot.done_on(
        &[last_of_data],
        &[
            write_at(size - 64, &[b'G'; 64], None),
            write_at(size - 1, b"HI", Some(size)),
        ],
    );
}

#[test]
fn growth_does_not_store_behind_the_higher_used_end() {
    let mut slot = Pages::with_data_up_to(2);
    let (size, behind) = (slot.size(), slot.count() - 2);
    slot.done_on(
        &[0, behind],
        &[
            write_at(size, &[b'J'; 64], None),
            write_at(size + 300, b"K", None),
        ],
    );
}

/// Count and leases behind the data stand in the page after what is cut.
#[test]
fn a_cut_stores_to_the_size_field_and_to_what_it_frees() {
    let mut slot = Pages::with_data_up_to(2);
    let (size, behind) = (slot.size(), slot.count() - 2);
    slot.done_on(
        &[0, behind - 1],
        &[
            write_at(0, b"", Some(size - 10)),
            write_at(size - 30, &[b'L'; 100], Some(size - 20)),
        ],
    );
    let before: Vec<usize> = (0..behind).collect();
    slot.done_on(&before, &[write_at(0, b"", Some(0))]);
}

/// The slack goes from the first page up to the last one, in which count and leases stand.
#[test]
fn growth_inside_the_slack_stores_to_the_size_field_and_to_its_own_bytes() {
    let mut slot = Pages::with_data_up_to(1);
    let (size, last_of_slack) = (slot.size(), slot.count() - 2);
    slot.done(&write_at(0, b"", Some(100)));
    slot.done_on(
        &[0],
        &[write_at(100, &[b'M'; 64], None), write_at(200, b"N", None)],
    );
    // A gap of whole pages is zero as it is. The last write ends where the slack does.
    slot.done_on(
        &[0, last_of_slack],
        &[
            write_at(size - 500, &[b'O'; 64], None),
            write_at(size - 1, b"P", None),
        ],
    );
    assert_eq!(slot.size(), size);
}

#[test]
fn beside_slack_a_write_inside_the_data_stores_to_its_own_bytes_alone() {
    let mut slot = Pages::with_data_up_to(1);
    let (size, last_of_data) = (slot.size(), slot.count() - 2);
    slot.done(&write_at(0, b"", Some(size - 10)));
    slot.done_on(
        &[last_of_data],
        &[
            write_at(size - 64, &[b'Q'; 54], None),
            // A size that there is only on the way reaches past the slack.
            write_at(size - 64, &[b'R'; 100], Some(size - 10)),
        ],
    );
    slot.done_on(
        &[],
        &[write_at(0, b"", Some(size)), write_at(size, b"", None)],
    );
}

/// The offset field begins a page, in which no byte is named where the count stays.
#[test]
fn where_the_count_stays_the_offset_field_is_not_stored_to() {
    let mut slot = Pages::with_page_at(92);
    let size = 3 * slot.page;
    slot.done(&write_at(0, &vec![b'S'; size], None));
    let last_of_data = 4;
    slot.done_on(
        &[0, last_of_data],
        &[
            write_at(0, b"", Some(size - 10)),
            write_at(size - 10, &[b'T'; 5], None),
            write_at(size - 7, &[b'U'; 7], None),
            write_at(size - 20, &[b'V'; 9], Some(size - 12)),
        ],
    );
}

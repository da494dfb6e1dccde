//! The requests, what they ask for in which container, and how often each page may be visited for them.

use crate::common::raw::{
    add, append, cancel, reads, test_and_write, write, write_at, ENABLER, NODE,
};
use crate::pages::{Pages, Visits, LENGTH};
use beamsatchel_node::ffi;
use std::ops::Range;

/// Where a container's data begins.
const DATA: usize = 468;
/// Count and two extra leases.
const BEHIND: usize = 4 + 2 * 92;
/// The most data beside two extra leases.
const MOST: usize = LENGTH - DATA - BEHIND;
/// Where the zeros begin behind five bytes of data and two extra leases.
const BEHIND_LITTLE: usize = DATA + 5 + BEHIND;
/// Visits that belong to neither pass: to the fields, and where a pass begins or ends inside a page.
const BESIDES: u32 = 40;

/// What lies in the container before a request: six leases, two of them behind the data.
#[derive(Clone, Copy)]
enum Holding {
    /// No container.
    Nothing,
    /// Five bytes of data.
    Little,
    /// The same, and a last byte that is not zero.
    Spoiled,
    /// As much data as fits.
    Much,
    /// Slack in the place of it.
    Slack,
}

/// So many visits to each page that lies wholly in these bytes.
struct Part {
    bytes: Range<usize>,
    visits: Visits,
}

fn part(bytes: Range<usize>, all: u32, storing: u32) -> Part {
    Part {
        bytes,
        visits: Visits { all, storing },
    }
}

/// The zeros behind little data.
fn tail() -> Vec<Part> {
    vec![part(BEHIND_LITTLE..LENGTH, 1, 0)]
}

/// All that much data takes, or slack in its place.
fn data(all: u32, storing: u32) -> Vec<Part> {
    vec![part(DATA..DATA + MOST, all, storing)]
}

/// A call, what it finds, its outcome, and how often it visits which pages.
struct Row {
    name: &'static str,
    holding: Holding,
    call: Box<dyn Fn(&mut [u8]) -> u32>,
    number: u32,
    parts: Vec<Part>,
}

/// A request that is done, with reply space for all there could be.
fn done(name: &'static str, holding: Holding, request: Vec<u8>, parts: Vec<Part>) -> Row {
    let call = move |bytes: &mut [u8]| ffi::apply(bytes, &request, &mut vec![0; LENGTH]).number;
    Row {
        name,
        holding,
        call: Box::new(call),
        number: 0,
        parts,
    }
}

fn rows() -> Vec<Row> {
    use Holding::{Little, Much, Nothing, Slack, Spoiled};
    let far = || write_at(MOST - 1, b"Z", None);
    let half = DATA + MOST / 2;
    let mut other_enabler = far();
    other_enabler[8] ^= 1;
    vec![
        Row {
            call: Box::new(|bytes| ffi::create(bytes, &NODE, &ENABLER).number),
            ..done(
                "create",
                Nothing,
                Vec::new(),
                vec![part(DATA..LENGTH, 1, 1)],
            )
        },
        done("renew a lease, with little data", Little, renew(), tail()),
        done("add a lease, with little data", Little, add(7), tail()),
        done(
            "cancel a lease, with little data",
            Little,
            cancel(6),
            tail(),
        ),
        done(
            "read a little, with little data",
            Little,
            reads(&[(0, 5)]),
            tail(),
        ),
        done(
            "write a little, with little data",
            Little,
            write_at(0, b"A", None),
            tail(),
        ),
        done(
            "append a little, with little data",
            Little,
            append(&[b'A'; 64]),
            tail(),
        ),
        done(
            "a far write, which moves the extra leases to the end",
            Little,
            far(),
            vec![part(BEHIND_LITTLE..DATA + MOST, 2, 1)],
        ),
        done(
            "a far write, and an append up to the end",
            Little,
            write(&[(MOST as i32 - 2, b"Y"), (-1, b"Z")], None),
            vec![part(BEHIND_LITTLE..DATA + MOST, 2, 1)],
        ),
        done(
            "a far write inside the slack",
            Slack,
            far(),
            vec![part(DATA..DATA + MOST - 1, 1, 0)],
        ),
        done(
            "append a little, inside the slack",
            Slack,
            append(&[b'A'; 64]),
            data(1, 0),
        ),
        done("renew a lease, behind slack", Slack, renew(), data(1, 0)),
        done("renew a lease, behind much data", Much, renew(), data(0, 0)),
        done(
            "write 64 bytes at the end of much data",
            Much,
            write_at(MOST - 64, &[b'B'; 64], None),
            vec![part(DATA..DATA + MOST - 64, 0, 0)],
        ),
        done(
            "write the last 64 bytes of much data, from the end",
            Much,
            write(&[(-65, &[b'B'; 64])], None),
            vec![part(DATA..DATA + MOST - 64, 0, 0)],
        ),
        done(
            "cut all of much data",
            Much,
            write_at(0, b"", Some(0)),
            data(1, 1),
        ),
        done(
            "cut half of much data, with a write of 60,000 bytes before",
            Much,
            write_at(MOST / 2 - 60_000, &[b'C'; 60_000], Some(MOST / 2)),
            vec![
                part(DATA..half - 60_000, 0, 0),
                part(half - 60_000..half, 1, 1),
                part(half..DATA + MOST, 1, 1),
            ],
        ),
        done(
            "read all of much data",
            Much,
            reads(&[(0, MOST as u32)]),
            data(1, 0),
        ),
        done(
            "read the last 64 bytes of much data, from the end",
            Much,
            reads(&[(-65, 64)]),
            vec![part(DATA..DATA + MOST - 64, 0, 0)],
        ),
        done(
            "test all of much data, against a specimen of 60,000 bytes",
            Much,
            test(MOST, &[b'D'; 60_000]),
            vec![
                part(DATA..DATA + 60_000, 2, 0),
                part(DATA + 60_000..DATA + MOST, 1, 0),
            ],
        ),
        Row {
            call: Box::new(|bytes| ffi::check_container(bytes).number),
            // The data is no share, which its first byte tells.
            number: 22,
            ..done("check the share in much data", Much, Vec::new(), data(0, 0))
        },
        Row {
            number: 5,
            ..done(
                "a far write with a wrong enabler",
                Little,
                other_enabler,
                tail(),
            )
        },
        Row {
            number: 11,
            ..done(
                "a far write a byte too far",
                Little,
                write_at(MOST, b"Z", None),
                tail(),
            )
        },
        Row {
            number: 11,
            ..done(
                "append a byte too many to much data",
                Much,
                append(b"Z"),
                data(0, 0),
            )
        },
        Row {
            number: 4,
            ..done(
                "a read a byte before the start of much data",
                Much,
                reads(&[(-2 - MOST as i32, u32::MAX)]),
                data(0, 0),
            )
        },
        Row {
            number: 8,
            ..done(
                "a false test of all of much data, against 60,000 bytes",
                Much,
                test(MOST, &[b'E'; 60_000]),
                // It differs at the first byte.
                data(1, 0),
            )
        },
        Row {
            number: 7,
            ..done(
                "a read of more than the reply space holds",
                Much,
                reads(&[(0, MOST as u32); 2]),
                data(0, 0),
            )
        },
        Row {
            number: 2,
            ..done(
                "a far write, where the last byte is not zero",
                Spoiled,
                far(),
                tail(),
            )
        },
    ]
}

pub fn run() {
    let mut pages = Pages::new();
    println!("pages of a container of 16 MiB, {} in all", pages.count());
    println!("{:<58} {:>7} {:>7} {:>7}", "", "visited", "again", "stored");
    for row in rows() {
        fill(pages.bytes(), row.holding);
        let (number, visits) = pages.watch(|bytes| (row.call)(bytes));
        assert_eq!(number, row.number, "{}", row.name);
        check(&pages, &row, &visits);
    }
}

/// Each page inside the parts was visited as often as it says, and others seldom.
fn check(pages: &Pages, row: &Row, visits: &[Visits]) {
    let name = row.name;
    let mut besides = vec![true; visits.len()];
    for part in &row.parts {
        for page in pages.inside(part.bytes.clone()) {
            assert_eq!(visits[page], part.visits, "{name}: page {page}");
            besides[page] = false;
        }
    }
    let others = visits.iter().zip(besides).filter(|(_, besides)| *besides);
    let others: u32 = others.map(|(visits, _)| visits.all).sum();
    assert!(others <= BESIDES, "{name}: {others} visits besides");
    let count = |is: &dyn Fn(&Visits) -> bool| visits.iter().filter(|visits| is(visits)).count();
    println!(
        "{name:<58} {:>7} {:>7} {:>7}",
        count(&|visits| visits.all > 0),
        count(&|visits| visits.all > 1),
        count(&|visits| visits.storing > 0)
    );
}

/// Makes the bytes a container that holds this.
fn fill(bytes: &mut [u8], holding: Holding) {
    bytes.fill(0);
    if let Holding::Nothing = holding {
        // So that what create clears is not clear before.
        bytes.fill(0x55);
        return;
    }
    assert_eq!(ffi::create(bytes, &NODE, &ENABLER).number, 0);
    let apply = |bytes: &mut [u8], request: &[u8]| {
        assert_eq!(ffi::apply(bytes, request, &mut []).number, 0);
    };
    apply(bytes, &write_at(0, b"12345", None));
    for lease in 1..=6 {
        apply(bytes, &add(lease));
    }
    match holding {
        Holding::Nothing | Holding::Little => {}
        Holding::Spoiled => bytes[LENGTH - 1] = 1,
        Holding::Much => {
            apply(bytes, &write_at(MOST - 1, b"Z", None));
            bytes[DATA..DATA + MOST].fill(b'D');
        }
        Holding::Slack => {
            apply(bytes, &write_at(MOST - 1, b"Z", None));
            apply(bytes, &write_at(0, b"", Some(0)));
        }
    }
}

/// A kind 1 request with one test, by gt, of so many bytes from 0.
fn test(length: usize, specimen: &[u8]) -> Vec<u8> {
    test_and_write(&[(0, length as u32, 6, specimen)], &[], None)
}

/// The last lease, with a later expiry.
fn renew() -> Vec<u8> {
    [&[3][..], &[6; 32], &[0, 0, 0, 9]].concat()
}

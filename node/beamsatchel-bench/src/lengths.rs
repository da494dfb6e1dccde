//! What a request costs in longer and longer containers: against plain Rust, and against plain passes over the same
//! memory, which tell how fast that is.

use crate::contest::{contest_each, Side};
use crate::work::{Apply, Slot};
use beamsatchel_model::fast;
use beamsatchel_node::ffi;
use std::cell::RefCell;
use std::hint::black_box;

const LENGTHS: [(&str, usize); 4] = [
    ("256 KiB", 1 << 18),
    ("1 MiB", 1 << 20),
    ("4 MiB", 1 << 22),
    ("16 MiB", 1 << 24),
];

/// The plain passes that a request cannot do without.
#[derive(Clone, Copy)]
enum Passes {
    /// Over the zeros behind the used end.
    Read,
    /// Over the same, and zeros into them.
    ReadAndFill,
    /// Zeros into all data.
    Fill,
    /// All data into the reply space.
    Copy,
}

impl Passes {
    fn make(self, bytes: &mut [u8], reply: &mut [u8]) {
        if let Passes::Read | Passes::ReadAndFill = self {
            black_box(read(bytes));
        }
        match self {
            Passes::Read => {}
            Passes::ReadAndFill | Passes::Fill => bytes.fill(0),
            Passes::Copy => reply[..bytes.len()].copy_from_slice(bytes),
        }
    }

    /// How many bytes they read or fill or copy, of so many.
    fn bytes(self, count: usize) -> usize {
        match self {
            Passes::ReadAndFill => 2 * count,
            _ => count,
        }
    }
}

/// A pass that reads: in blocks so long that nothing but the loads counts, and without an exit.
fn read(bytes: &[u8]) -> u8 {
    let or = |seen: u8, bytes: &[u8]| bytes.iter().fold(seen, |seen, byte| seen | byte);
    let blocks = bytes.chunks_exact(512);
    let rest = or(0, blocks.remainder());
    blocks.fold(rest, |seen, block| seen | or(0, block))
}

/// A request on a slot of some length.
pub struct Row {
    pub name: String,
    pub request: Vec<u8>,
    slot: Slot,
    passes: Passes,
}

impl Row {
    /// The container as it was made.
    pub fn container(&self) -> Vec<u8> {
        self.slot.container()
    }
}

/// Each request on each length.
pub fn rows() -> impl Iterator<Item = Row> {
    LENGTHS.into_iter().flat_map(|(length_name, length)| {
        of_length(length).map(|row| Row {
            name: format!("{}, {length_name}", row.name),
            ..row
        })
    })
}

fn of_length(length: usize) -> [Row; 4] {
    let little = || Slot::new(length, 1000);
    let much = || Slot::full(length);
    [
        Row {
            name: "renew a lease: zeros behind little data".to_string(),
            slot: little(),
            request: little().renewals().swap_remove(0),
            passes: Passes::Read,
        },
        Row {
            name: "a far write moves the extra leases".to_string(),
            slot: little(),
            request: little().far_write(),
            passes: Passes::ReadAndFill,
        },
        Row {
            name: "cut all data".to_string(),
            slot: much(),
            request: much().cut_all(),
            passes: Passes::Fill,
        },
        Row {
            name: "read all data".to_string(),
            slot: much(),
            request: much().read_all(),
            passes: Passes::Copy,
        },
    ]
}

/// Prints a row for each request and length.
pub fn against_rust_and_memory() {
    println!("\none call on a container as it was made, medians in microseconds;");
    println!(
        "GB read, filled or copied in a second by the library; how many times as long as plain passes"
    );
    println!(
        "{:<50} {:>8} {:>10} {:>6} {:>8} {:>8} {:>8}",
        "", "library", "plain Rust", "ratio", "passes", "GB/s", "over"
    );
    rows().for_each(|row| print(&row));
}

fn print(row: &Row) {
    let made = row.container();
    let part = match row.passes {
        Passes::Read | Passes::ReadAndFill => row.slot.used()..made.len(),
        Passes::Fill | Passes::Copy => row.slot.data(),
    };
    let passed = row.passes.bytes(part.len());
    // One buffer for all, so that it lies in the same caches for all.
    let (buffer, reply) = (
        RefCell::new(made.clone()),
        RefCell::new(vec![0; made.len()]),
    );
    let apply = |apply: &Apply| {
        let (buffer, reply) = (&mut buffer.borrow_mut(), &mut reply.borrow_mut());
        assert_eq!(black_box(apply)(buffer, black_box(&row.request), reply), 0);
    };
    let library = || apply(&|c, q, r| ffi::apply(c, q, r).number);
    let rust = || apply(&|c, q, r| fast::apply(c, q, r).number);
    let mut sides: [Side; 3] = [
        Box::new(library),
        Box::new(rust),
        Box::new(|| {
            let (buffer, reply) = (&mut buffer.borrow_mut(), &mut reply.borrow_mut());
            row.passes.make(&mut buffer[part.clone()], reply);
        }),
    ];
    let times = contest_each(&mut sides, |_| buffer.borrow_mut().copy_from_slice(&made));
    drop(sides);
    assert_same(&buffer, &made, library, rust);
    let [by_library, by_rust, by_passes] = [0, 1, 2].map(|side| times[side].median());
    println!(
        "{:<50} {:>8.1} {:>10.1} {:>6.2} {:>8.1} {:>8.1} {:>8.2}",
        row.name,
        by_library / 1000.0,
        by_rust / 1000.0,
        times[0].over(&times[1]),
        by_passes / 1000.0,
        passed as f64 / by_library,
        times[0].over(&times[2])
    );
}

/// Both leave the same container.
fn assert_same(buffer: &RefCell<Vec<u8>>, made: &[u8], library: impl Fn(), rust: impl Fn()) {
    let after = |call: &dyn Fn()| {
        buffer.borrow_mut().copy_from_slice(made);
        call();
        buffer.borrow().clone()
    };
    assert!(after(&library) == after(&rust), "the containers differ");
}

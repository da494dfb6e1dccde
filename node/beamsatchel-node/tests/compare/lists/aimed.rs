//! Test-and-writes for a container with a list, most of them aimed at the rows: at their ends, beside them, inside and
//! across.

use crate::requests;
use crate::rng::Rng;
use beamsatchel_model::{grow, resolve, Container, Request, TestAndWrite, Write};
use std::ops::Range;

/// The write enabler of containers that are made for one request.
pub const ENABLER: [u8; 32] = [0xEE; 32];

/// The bytes of a test-and-write with these writes, by offset, and this cut.
pub fn write_bytes(writes: &[(i32, &[u8])], cut: Option<u32>) -> Vec<u8> {
    let writes = writes.iter().map(|(offset, data)| Write {
        offset: *offset,
        data: data.to_vec(),
    });
    requests::encode(&Request::TestAndWrite(TestAndWrite {
        enabler: ENABLER,
        tests: Vec::new(),
        writes: writes.collect(),
        cut,
    }))
}

/// Any request, most of them aimed at the rows.
pub fn any(rng: &mut Rng, container: &Container, rows: &[Range<u64>]) -> Request {
    match rng.below(100) {
        0..60 => Request::TestAndWrite(test_and_write(rng, container, rows)),
        _ => requests::any(rng, container),
    }
}

/// A read or a test-and-write.
pub fn any_data_request(rng: &mut Rng, container: &Container, rows: &[Range<u64>]) -> Request {
    match rng.below(100) {
        0..60 => Request::TestAndWrite(test_and_write(rng, container, rows)),
        _ => requests::any_data_request(rng, container),
    }
}

/// A test-and-write that is seldom refused.
fn test_and_write(rng: &mut Rng, container: &Container, rows: &[Range<u64>]) -> TestAndWrite {
    let mut size = container.data.len() as u64;
    let count = match rng.below(100) {
        0..15 => 0,
        15..70 => 1,
        70..95 => rng.within(2..=5),
        _ => 16,
    };
    let mut writes = Vec::new();
    for _ in 0..count {
        let write = write(rng, rows, size);
        if let Some(start) = resolve(write.offset, size) {
            size = grow(size, &(start..start + write.data.len() as u64));
        }
        writes.push(write);
    }
    let far = size > container.length as u64;
    let percent = if far { 90 } else { 30 };
    TestAndWrite {
        enabler: container.enabler,
        tests: Vec::new(),
        cut: rng
            .chance(percent)
            .then(|| edge(rng, rows, container.data.len() as u64) as u32),
        writes,
    }
}

/// A write in data of this size, from one edge to another or for some bytes.
fn write(rng: &mut Rng, rows: &[Range<u64>], size: u64) -> Write {
    let start = match rng.below(100) {
        0..3 => i32::MAX as u64 - rng.below(2) as u64,
        3..70 => edge(rng, rows, size),
        70..85 => size,
        _ => size + rng.within(1..=9) as u64,
    };
    let end = edge(rng, rows, size);
    let count = match rng.below(10) {
        0 => 0,
        1..5 if start < end => (end - start).min(500) as usize,
        _ => rng.within(1..=6),
    };
    let from_end = start <= size && rng.chance(25);
    let offset = match from_end {
        true => start as i64 - size as i64 - 1,
        false => start as i64,
    };
    Write {
        offset: offset as i32,
        data: match rng.chance(20) {
            true => vec![0; count],
            false => rng.letters(count),
        },
    }
}

/// The start or the end of a row, or of the data, or beside it.
fn edge(rng: &mut Rng, rows: &[Range<u64>], size: u64) -> u64 {
    let of = match rows.is_empty() || rng.chance(25) {
        true => rng.pick(&[0, size]),
        false => {
            let row = &rows[rng.below(rows.len())];
            rng.pick(&[row.start, row.end, (row.start + row.end) / 2])
        }
    };
    (of + rng.pick(&[0, 0, 1, 1, 2])).saturating_sub(1)
}

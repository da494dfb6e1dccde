//! Offsets, lengths, counts of entries, and the request's own length.

use super::{fresh, holding, run_case, test, write};
use crate::checker::Checker;
use crate::containers::{MAX_DATA, MAX_LENGTH};
use crate::requests;
use crate::rng::Rng;
use beamsatchel_model::{Read, Request, Test, TestAndWrite, Write, LONGEST_REQUEST};

pub fn run(rng: &mut Rng, checker: &mut Checker) {
    long_requests(checker);
    offsets_and_lengths(rng, checker);
    entry_counts(checker);
    wrapping_sums(checker);
}

/// Requests of 65,535, 65,536 and 65,537 bytes with every sum right.
fn long_requests(checker: &mut Checker) {
    for length in [LONGEST_REQUEST - 1, LONGEST_REQUEST, LONGEST_REQUEST + 1] {
        let expected = if length <= LONGEST_REQUEST { 0 } else { 3 };
        // by new data, cut to what fits
        let by_data = TestAndWrite {
            cut: Some(MAX_DATA as u32),
            ..write(0, vec![b'A'; length - 48])
        };
        // by a specimen
        let by_specimen = TestAndWrite {
            tests: vec![Test {
                opcode: 2,
                ..test(0, u32::MAX, vec![b'A'; length - 52]).tests[0].clone()
            }],
            ..test(0, 0, Vec::new())
        };
        for request in [by_data, by_specimen] {
            let request = requests::encode(&Request::TestAndWrite(request));
            assert_eq!(request.len(), length);
            for buffer in [472, MAX_LENGTH] {
                let number = run_case(checker, &fresh(buffer).to_bytes(), request.clone(), 4);
                if buffer == MAX_LENGTH {
                    assert_eq!(number, expected);
                }
            }
        }
        for kind in 0..=6 {
            let mut request = vec![0; length];
            request[0] = kind;
            run_case(checker, &fresh(472).to_bytes(), request, 4);
        }
    }
}

/// Every offset and length at an edge, for reads, tests and writes.
fn offsets_and_lengths(rng: &mut Rng, checker: &mut Checker) {
    for size in [0, 1, 5, 300] {
        let container = holding(800, rng.letters(size)).to_bytes();
        let size = size as i32;
        let offsets = (-2..=2)
            .chain(size - 1..=size + 1)
            .chain(-size - 3..=-size)
            .chain(327..=329) // the end of the room
            .chain(MAX_DATA as i32 - 1..=MAX_DATA as i32 + 1)
            .chain(16_776_743..=16_776_745) // the end of the longest data
            .chain([i32::MIN, i32::MIN + 1, i32::MAX - 1, i32::MAX]);
        let size = size as u32;
        for offset in offsets {
            let lengths = (0..=6)
                .chain(size..=size + 1)
                .chain(328..=329)
                .chain([65_535, 65_536, u32::MAX - 1, u32::MAX])
                .chain(0x7FFF_FFFF..=0x8000_0001);
            for length in lengths {
                let read = requests::encode(&Request::Read(vec![Read { offset, length }]));
                run_case(checker, &container, read, 400);
                let test = Request::TestAndWrite(test(offset, length, vec![b'A']));
                run_case(checker, &container, requests::encode(&test), 400);
                if length <= 329 {
                    let data = rng.letters(length as usize);
                    for cut in [None, Some(0), Some(3), Some(328), Some(329), Some(u32::MAX)] {
                        let write = TestAndWrite {
                            cut,
                            ..write(offset, data.clone())
                        };
                        let write = requests::encode(&Request::TestAndWrite(write));
                        run_case(checker, &container, write, 0);
                    }
                }
            }
        }
    }
}

/// T, V and R of 0 to 255, with tables of that many entries.
fn entry_counts(checker: &mut Checker) {
    let container = holding(600, b"AB".to_vec()).to_bytes();
    for count in 0..=255 {
        let expected = if count <= 16 { 0 } else { 3 };
        let good = write(0, b"A".to_vec());
        let tests = TestAndWrite {
            tests: vec![test(0, 1, Vec::new()).tests[0].clone(); count],
            ..good.clone()
        };
        let writes = TestAndWrite {
            writes: vec![good.writes[0].clone(); count],
            ..good
        };
        let reads = vec![
            Read {
                offset: 1,
                length: 1
            };
            count
        ];
        for request in [
            Request::TestAndWrite(tests),
            Request::TestAndWrite(writes),
            Request::Read(reads),
        ] {
            let number = run_case(checker, &container, requests::encode(&request), 5 * 255);
            assert_eq!(number, expected);
        }
    }
}

/// Lengths whose sum is right modulo 2^32 (or 2^16) only.
fn wrapping_sums(checker: &mut Checker) {
    let container = fresh(600).to_bytes();
    let mut request = requests::encode(&Request::TestAndWrite(TestAndWrite {
        writes: vec![
            Write {
                offset: 0,
                data: b"ABC".to_vec(),
            };
            2
        ],
        ..write(0, Vec::new())
    }));
    assert_eq!(run_case(checker, &container, request.clone(), 0), 0);
    for (first, second) in [
        (0x8000_0003_u32, 0x8000_0003_u32),
        (u32::MAX, 7),
        (7, u32::MAX),
        (0x0001_0006, 0),
    ] {
        request[44..48].copy_from_slice(&first.to_be_bytes());
        request[52..56].copy_from_slice(&second.to_be_bytes());
        assert_eq!(run_case(checker, &container, request.clone(), 0), 3);
    }
}

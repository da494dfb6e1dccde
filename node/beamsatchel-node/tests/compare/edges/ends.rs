//! Offsets from the end, on each size that an entry can meet.

use super::{fresh, holding, run_case, test, write, ENABLER};
use crate::case::Case;
use crate::checker::Checker;
use crate::requests;
use crate::rng::Rng;
use beamsatchel_model::{Container, Read, Request, TestAndWrite, Write};

pub fn run(rng: &mut Rng, checker: &mut Checker) {
    looking(rng, checker);
    behind_a_write(rng, checker);
    behind_a_far_write(checker);
    on_the_largest_size(checker);
    appends_in_a_row(rng, checker);
}

/// Offsets that name the last bytes, the first ones and places before them, in data of this size, and the lowest two.
fn offsets(size: usize) -> impl Iterator<Item = i32> {
    let first = -1 - size as i64;
    let near = (first - 3..=first + 2).chain(-4..=-1);
    let fitting = near.filter_map(|offset| i32::try_from(offset).ok());
    let from_end = fitting.filter(|offset| *offset < 0);
    from_end.chain([i32::MIN, i32::MIN + 1])
}

/// The outcome for an offset from the end of so much data, where there is no other reason to refuse.
fn outcome(offset: i32, size: usize) -> u32 {
    let position = size as i64 + 1 + i64::from(offset);
    match position < 0 {
        true => 4,
        false => 0,
    }
}

/// Reads, and tests beside a write that makes the data grow: both meet the data as it is before.
fn looking(rng: &mut Rng, checker: &mut Checker) {
    for size in [0, 1, 2, 5, 300] {
        let container = holding(800, rng.letters(size)).to_bytes();
        for offset in offsets(size) {
            let number = outcome(offset, size);
            for length in [0, 1, size as u32, u32::MAX] {
                let read = Request::Read(vec![Read { offset, length }]);
                let tested = TestAndWrite {
                    writes: write(-1, b"ten bytes.".to_vec()).writes,
                    ..test(offset, length, Vec::new())
                };
                for request in [read, Request::TestAndWrite(tested)] {
                    let request = requests::encode(&request);
                    assert_eq!(run_case(checker, &container, request, 400), number);
                }
            }
        }
    }
}

/// Writes behind one that is empty, stays inside, appends, or leaves a gap, with cuts and without.
fn behind_a_write(rng: &mut Rng, checker: &mut Checker) {
    for size in [0, 1, 2, 5, 300] {
        let container = holding(800, rng.letters(size)).to_bytes();
        let end = size as i32;
        // The size that each of them gives.
        for (first, given) in [
            ((end + 9, &b""[..]), size),
            ((-1, b""), size),
            ((0, b"A"), size.max(1)),
            ((-1, b"AB"), size + 2),
            ((end, b"A"), size + 1),
            ((end + 2, b"ABC"), size + 5),
        ] {
            for offset in offsets(given) {
                let number = outcome(offset, given);
                for data in [&b""[..], b"Y", b"XYZ"] {
                    let cuts = [0, given / 2, given + 2].map(|cut| Some(cut as u32));
                    for cut in cuts.into_iter().chain([None]) {
                        let request = writes(&[first, (offset, data)], cut);
                        assert_eq!(run_case(checker, &container, request, 0), number);
                    }
                }
            }
        }
    }
}

/// Writes behind one that reaches to 2^31 or beside it, or would if it were not empty.
fn behind_a_far_write(checker: &mut Checker) {
    for (back, count) in (0..5).flat_map(|back| (0..4).map(move |count| (back, count))) {
        let first = (i32::MAX - back, &b"ABC"[..count]);
        let given = match count {
            0 => 0,
            _ => first.0 as usize + count,
        };
        for offset in offsets(given) {
            for data in [&b""[..], b"Y", b"YZ"] {
                for (length, cut) in [(482, 10), (481, 10), (473, 1), (472, 1), (472, 0)] {
                    let size = cut.min(given + data.len());
                    let number = match outcome(offset, given) {
                        0 if 472 + size > length => 11,
                        number => number,
                    };
                    let container = fresh(length).to_bytes();
                    let request = writes(&[first, (offset, data)], Some(cut as u32));
                    assert_eq!(run_case(checker, &container, request, 0), number);
                }
            }
        }
    }
}

/// The largest size that a second write can meet: the lowest offset names the last byte that is kept.
fn on_the_largest_size(checker: &mut Checker) {
    let long = vec![b'A'; 65_479];
    let request = writes(&[(i32::MAX, &long), (i32::MIN, b"B")], Some(65_480));
    assert_eq!(request.len(), 65_536);
    let data = [&[0; 65_479][..], b"B"].concat();
    assert_eq!(done(checker, &fresh(70_000), request), data);
    // Where the second one is empty, that has a byte more.
    let longer = vec![b'A'; 65_480];
    let request = writes(&[(i32::MAX, &longer), (-1, b"")], Some(7));
    assert_eq!(done(checker, &fresh(70_000), request), [0; 7]);
}

/// Sixteen in one request stand one behind the other.
fn appends_in_a_row(rng: &mut Rng, checker: &mut Checker) {
    for size in [0, 5] {
        let container = holding(800, rng.letters(size));
        let bodies: Vec<Vec<u8>> = (0..16).map(|count| rng.letters(count % 4)).collect();
        let appends: Vec<(i32, &[u8])> = bodies.iter().map(|body| (-1, &body[..])).collect();
        let data = done(checker, &container, writes(&appends, None));
        assert_eq!(data, [&container.data[..], &bodies.concat()].concat());
    }
}

/// A test-and-write with these writes.
fn writes(writes: &[(i32, &[u8])], cut: Option<u32>) -> Vec<u8> {
    let writes = writes.iter().map(|(offset, data)| Write {
        offset: *offset,
        data: data.to_vec(),
    });
    requests::encode(&Request::TestAndWrite(TestAndWrite {
        enabler: ENABLER,
        tests: Vec::new(),
        writes: writes.collect(),
        cut,
    }))
}

/// The data after a request that is done.
fn done(checker: &mut Checker, container: &Container, request: Vec<u8>) -> Vec<u8> {
    let mut case = Case {
        container: container.to_bytes(),
        request,
        reply: Vec::new(),
    };
    assert_eq!(checker.apply(&mut case).number, 0);
    let after = Container::from_bytes(&case.container).expect("well formed");
    after.data
}

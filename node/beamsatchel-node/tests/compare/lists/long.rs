//! Lists beside containers that are longer than a request can be, up to the longest. Each case costs many passes, so
//! there are few.

use super::aimed::{write_bytes, ENABLER};
use super::case::ListedCase;
use super::rows::{decode, encode};
use super::told::Told;
use crate::case::Case;
use crate::checker::Checker;
use crate::histories::{create, test_and_write};
use crate::rng::Rng;
use beamsatchel_model::{Container, LIST_LENGTH, LONGEST_REQUEST};

/// The most bytes of a container's buffer.
const LONGEST: usize = 16_777_216;
/// The most data in it.
const MOST: usize = LONGEST - 472;

pub fn run(rng: &mut Rng, checker: &mut Checker) {
    history(rng, checker);
    for length in [LONGEST_REQUEST + 1000, rng.within(1 << 17..=1 << 19)] {
        far_rows(rng, checker, length, &[0, 1, 2, 3, 4, 5]);
    }
    // Of the longest only the ends.
    far_rows(rng, checker, LONGEST, &[0, 1, 3]);
}

/// From a fresh container of the longest on: a row of nearly all of it, filled, cut and grown again.
fn history(rng: &mut Rng, checker: &mut Checker) {
    let last = MOST as i32 - 1;
    let mut told = Told::of_fresh(LONGEST);
    let mut container = create(LONGEST, rng, checker);
    let mut list = vec![0; LIST_LENGTH];
    for (writes, cut, rows) in [
        (&[(last, &b"Z"[..])][..], None, &[(0, last)][..]),
        (
            &[(-2, b"YZ"), (10_000_000, &[b'A'; 60_000])],
            Some(MOST as u32),
            &[(0, 10_000_000), (10_060_000, last)],
        ),
        (&[], Some(9_000_000), &[(0, 9_000_000)]),
        (&[(9_500_000, b"Z")], None, &[(0, 9_500_000)]),
        (
            &[(0, b"A"), (11_000_000, b"Z")],
            None,
            &[(1, 9_500_000), (9_500_001, 11_000_000)],
        ),
        (
            &[(9_000_000, b"B"), (i32::MAX, b"Z")],
            Some(13_000_000),
            &[
                (1, 9_000_000),
                (9_000_001, 9_500_000),
                (9_500_001, 11_000_000),
                (11_000_001, 13_000_000),
            ],
        ),
    ] {
        let mut case = ListedCase {
            case: Case {
                container,
                request: write_bytes(writes, cut),
                reply: Vec::new(),
            },
            list,
        };
        assert_eq!(checker.apply_listed(&mut case).number, 0);
        told.accept(&test_and_write(&case.case.request));
        assert_eq!(case.list, told.list(), "the list in a history");
        let expected = rows.iter().map(|(start, end)| *start as u64..*end as u64);
        assert_eq!(decode(&case.list), expected.collect::<Vec<_>>());
        (container, list) = (case.case.container, case.list);
    }
}

/// Rows up to the end of long data, and what is asked there: a row a byte too long, a byte that is not zero, a split of
/// the last of 256, a fill.
fn far_rows(rng: &mut Rng, checker: &mut Checker, length: usize, turns: &[usize]) {
    let size = length - 472 - 92 - 100;
    let container = Container {
        length,
        node: [7; 20],
        enabler: ENABLER,
        data: vec![0; size],
        slack: 9,
        places: vec![None; 4],
    };
    let step = (size / 256) as u64;
    let mut rows: Vec<_> = (0..256)
        .map(|row| row * step..row * step + step / 2)
        .collect();
    rows[255].end = size as u64;
    let split = write_bytes(&[(size as i32 - 2, b"S")], None);
    let fill = write_bytes(&[(-2, b"F"), (-1, b"G")], None);
    for &turn in turns {
        let (mut rows, mut container) = (rows.clone(), container.clone());
        let request = if turn == 1 { &split } else { &fill };
        let number = match turn {
            0 => 0,
            1 => 13,
            2 => {
                rows[255].end += 1;
                16
            }
            3 => {
                container.data[size - 1] = rng.not_zero();
                16
            }
            4 => {
                let first = rows[255].start as usize;
                container.data[first] = rng.not_zero();
                16
            }
            _ => {
                rows[255] = size as u64..size as u64 + 1;
                16
            }
        };
        let mut case = ListedCase {
            case: Case {
                container: container.to_bytes(),
                request: request.clone(),
                reply: Vec::new(),
            },
            list: encode(&rows),
        };
        assert_eq!(checker.apply_listed(&mut case).number, number);
    }
}

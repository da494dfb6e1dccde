//! The buffer's length, the size and the count of extras.

use super::{fresh, run_case, ENABLER};
use crate::checker::Checker;
use crate::containers::{self, Sizes, MAX_DATA, MAX_LENGTH};
use crate::requests;
use crate::rng::Rng;

pub fn run(rng: &mut Rng, checker: &mut Checker) {
    buffer_lengths(rng, checker);
    size_fields(checker);
    extra_counts(rng, checker);
}

/// 472 and those beside it, and some about the longest request's, for create and each kind.
fn buffer_lengths(rng: &mut Rng, checker: &mut Checker) {
    for length in [
        0, 1, 32, 84, 100, 468, 471, 472, 473, 563, 564, 565, 65_535, 65_536, 65_537, 70_000,
    ] {
        checker.create(&mut vec![0; length], &[7; 20], &ENABLER);
        checker.create(&mut vec![0xFF; length], &[7; 20], &ENABLER);
        let mut bytes = fresh(length.max(472)).to_bytes();
        bytes.truncate(length);
        for _ in 0..40 {
            let container = fresh(length.max(472));
            let request = requests::any(rng, &container);
            run_case(checker, &bytes, requests::encode(&request), 600);
        }
        run_case(checker, &bytes, Vec::new(), 0);
        checker.share_in_container(&bytes);
    }
}

/// Size fields near each power of two and where 468+s or 472+s wrap, with the offset field that
/// agrees as a 64-bit sum.
fn size_fields(checker: &mut Checker) {
    let near = |edge: u64| (0..=4).map(move |step| edge.wrapping_add(step).wrapping_sub(2));
    let powers = [
        2,
        128,
        528,
        MAX_DATA as u64,
        MAX_LENGTH as u64,
        // of the longest container
        16_776_744,
        16_777_216,
        1 << 31,
        1 << 32,
        1 << 63,
    ];
    let wraps = [0, 468, 472, 564].map(u64::wrapping_neg);
    for length in [472, 600, 1000, MAX_LENGTH] {
        for size in powers.into_iter().chain(wraps).flat_map(near) {
            for shift in [0, 1, u64::MAX] {
                let mut bytes = fresh(length).to_bytes();
                let offset = size.wrapping_add(468).wrapping_add(shift);
                bytes[84..92].copy_from_slice(&size.to_be_bytes());
                bytes[92..100].copy_from_slice(&offset.to_be_bytes());
                run_case(checker, &bytes, vec![5, 0, 0, 0], 0);
                checker.share_in_container(&bytes);
            }
        }
    }
}

/// 60 and 61 extras and counts up to 2^32-1, with the room for them and one byte less.
fn extra_counts(rng: &mut Rng, checker: &mut Checker) {
    for extras in [0, 1, 2, 59, 60, 61, 62, 255, 256, 65_536, 1 << 31, u32::MAX] {
        for room in [0, 1, 92 * 62, 92 * 62 - 1] {
            for (there, slack) in [(0, 0), (1, 0), (60, 0), (0, 7), (1, 7), (60, 7)] {
                let sizes = Sizes {
                    data: 5,
                    slack,
                    extras: there,
                    room,
                };
                let mut bytes = containers::with(rng, sizes, 0).to_bytes();
                bytes[473 + slack..477 + slack].copy_from_slice(&extras.to_be_bytes());
                run_case(checker, &bytes, vec![5, 0, 0, 0], 0);
            }
        }
        // Records for all of them, where they exceed 60 by a few only.
        if (61..=62).contains(&extras) {
            let sizes = Sizes {
                data: 5,
                slack: 0,
                extras: extras as usize,
                room: 0,
            };
            let container = containers::with(rng, sizes, 0);
            let number = run_case(checker, &container.to_bytes(), vec![5, 0, 0, 0], 0);
            assert_eq!(number, 2);
        }
    }
}

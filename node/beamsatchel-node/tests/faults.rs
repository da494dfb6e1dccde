//! Which clause a refused container breaks, and at which byte.

#![deny(unreachable_patterns)]

mod common;

use beamsatchel_model as model;
use beamsatchel_node::{ffi, Clause, Fault};
use common::{cut, fresh, slot, with_data};

fn find(bytes: &[u8]) -> Option<(Clause, usize)> {
    let fault = Fault::find(bytes)?;
    Some((fault.clause, fault.byte))
}

/// The container of most tests: 10 bytes of data, the count at 478, extras at 482, 574 and 666, used up to 758.
fn good() -> Vec<u8> {
    slot(800, b"ten bytes.")
}

/// Bytes with other ones at a place.
fn with(mut bytes: Vec<u8>, at: usize, other: &[u8]) -> Vec<u8> {
    bytes[at..at + other.len()].copy_from_slice(other);
    bytes
}

/// A container with any offset field.
fn with_offset(bytes: Vec<u8>, offset: u64) -> Vec<u8> {
    with(bytes, 92, &offset.to_be_bytes())
}

/// A container with any size field, and the offset field that agrees as a 64-bit sum.
fn with_size(bytes: Vec<u8>, size: u64) -> Vec<u8> {
    let bytes = with(bytes, 84, &size.to_be_bytes());
    with_offset(bytes, size.wrapping_add(468))
}

#[test]
fn a_container_has_no_fault() {
    for bytes in [
        fresh(472),
        fresh(65_537),
        fresh(16_777_216),
        good(),
        with_data(482, &[1; 10]),
        cut(good(), 4),
        cut(good(), 0),
    ] {
        assert_eq!(find(&bytes), None);
    }
}

#[test]
fn the_length() {
    for (length, byte) in [
        (0, 0),
        (1, 1),
        (471, 471),
        (16_777_217, 16_777_216),
        (17_000_000, 16_777_216),
    ] {
        let mut bytes = fresh(length.clamp(472, 16_777_216));
        bytes.resize(length, 0);
        assert_eq!(find(&bytes), Some((Clause::BufferLength, byte)));
    }
}

#[test]
fn the_magic() {
    for at in 0..32 {
        // The first of several.
        let mut bytes = good();
        bytes[at..32].iter_mut().for_each(|byte| *byte ^= 0x80);
        assert_eq!(find(&bytes), Some((Clause::Magic, at)));
    }
}

#[test]
fn the_offset_field() {
    let wrong = Some((Clause::CountOffset, 92));
    for offset in [0, 467, 468, 477] {
        assert_eq!(find(&with_offset(good(), offset)), wrong);
    }
    assert_eq!(find(&with_offset(good(), 478)), None);
    // A size that is larger, by one and by more.
    for at in 84..92 {
        let mut bytes = good();
        bytes[at] ^= 1;
        assert_eq!(find(&bytes), wrong, "at byte {at}");
    }
    // 468 plus size is 2^64, and 0 in the field; or more, and in the field as much more than 0.
    assert_eq!(find(&with_size(good(), u64::MAX - 467)), wrong);
    assert_eq!(find(&with_size(good(), u64::MAX)), wrong);
    // The field is above that by itself.
    for size in [u64::MAX - 467, u64::MAX - 400, u64::MAX] {
        let bytes = with(good(), 84, &size.to_be_bytes());
        assert_eq!(find(&bytes), wrong);
        assert_eq!(find(&with_offset(bytes, u64::MAX)), wrong);
    }
}

#[test]
fn a_count_that_does_not_fit() {
    let wrong = Some((Clause::UsedLength, 92));
    // Of a buffer of 500 bytes 28 are left for data and slack.
    for size in [0, 1, 27, 28] {
        let bytes = with(fresh(500), 91, &[size]);
        assert_eq!(find(&with_offset(bytes.clone(), 496)), None);
        assert_eq!(find(&with_offset(bytes.clone(), 497)), wrong);
        assert_eq!(find(&with_offset(bytes.clone(), 1 << 32 | 496)), wrong);
        // Count and extras would wrap.
        for below in [1, 2, 3, 4, 5, 92, 96, 97, 100] {
            let bytes = with_offset(bytes.clone(), 0_u64.wrapping_sub(below));
            assert_eq!(find(&bytes), wrong);
        }
    }
    assert_eq!(find(&with_size(fresh(500), 29)), wrong);
    assert_eq!(find(&with_size(fresh(500), u64::MAX - 468)), wrong);
    assert_eq!(find(&with_offset(fresh(472), 469)), wrong);
}

#[test]
fn slack_that_is_not_zero() {
    // 4 bytes of data, and 6 that were.
    for at in 472..478 {
        let bytes = with(cut(good(), 4), at, &[1]);
        assert_eq!(find(&bytes), Some((Clause::Slack, at)));
        // The first of several.
        let bytes = with(cut(good(), 4), at, &[0xFF; 6][at - 472..]);
        assert_eq!(find(&bytes), Some((Clause::Slack, at)));
    }
    // Data may be anything up to its end.
    assert_eq!(find(&with(cut(good(), 4), 471, &[1])), None);
    // The size alone was lowered.
    let bytes = with(good(), 91, &[9]);
    assert_eq!(find(&bytes), Some((Clause::Slack, 477)));
    let bytes = with(good(), 91, &[0]);
    assert_eq!(find(&bytes), Some((Clause::Slack, 468)));
    // The offset alone was raised, with the old count below the new one.
    let bytes = with(fresh(500), 471, &[1]);
    let bytes = with_offset(bytes, 472);
    assert_eq!(find(&bytes), Some((Clause::Slack, 471)));
}

#[test]
fn extras_that_do_not_fit() {
    let above = Some((Clause::ExtraCount, 478));
    assert_eq!(find(&with(good(), 478, &[0, 0, 0, 61])), above);
    assert_eq!(find(&with(good(), 478, &[1, 0, 0, 0])), above);
    let wrong = Some((Clause::UsedLength, 478));
    assert_eq!(find(&with(good(), 478, &[0, 0, 0, 60])), wrong);
    assert_eq!(find(&with(good(), 478, &[0, 0, 0, 4])), wrong);
    // Three extras fit to the byte, and not with a byte less; with slack too.
    for bytes in [good(), cut(good(), 4)] {
        assert_eq!(find(&bytes[..758]), None);
        assert_eq!(find(&bytes[..757]), wrong);
    }
}

#[test]
fn an_empty_place_with_bytes() {
    // The four places but the third, and the first two of three extras, are empty.
    for place in [100, 192, 376, 482, 574] {
        for inside in 4..92 {
            let bytes = with(good(), place + inside, &[1]);
            let wrong = Some((Clause::EmptyPlace, place + inside));
            assert_eq!(find(&bytes), wrong);
        }
        // With an owner it is a lease.
        for inside in 0..4 {
            assert_eq!(find(&with(good(), place + inside, &[1])), None);
        }
    }
    // The last extra too, before it is found to be the last.
    let bytes = with(good(), 666, &[0; 4]);
    assert_eq!(find(&bytes), Some((Clause::EmptyPlace, 670)));
}

#[test]
fn the_last_extra_without_owner() {
    let bytes = with(good(), 666, &[0; 92]);
    assert_eq!(find(&bytes), Some((Clause::LastExtra, 666)));
    let bytes = with(fresh(564), 471, &[1]);
    assert_eq!(find(&bytes), Some((Clause::LastExtra, 472)));
}

#[test]
fn bytes_after_the_used_end() {
    for at in [758, 759, 799] {
        let bytes = with(good(), at, &[1]);
        assert_eq!(find(&bytes), Some((Clause::AfterUsedEnd, at)));
    }
    // The first of several.
    let bytes = with(good(), 770, &[1; 30]);
    assert_eq!(find(&bytes), Some((Clause::AfterUsedEnd, 770)));
}

/// With all faults from one on, the first clause is named.
#[test]
fn the_first_clause_counts() {
    let mut bytes = good();
    for (at, other, fault) in [
        (799, &[1][..], (Clause::AfterUsedEnd, 799)),
        (666, &[0; 92], (Clause::LastExtra, 666)),
        (200, &[1], (Clause::EmptyPlace, 200)),
        (91, &[8], (Clause::Slack, 476)),
        (478, &[0, 0, 0, 4], (Clause::UsedLength, 478)),
        (478, &[0, 0, 0, 61], (Clause::ExtraCount, 478)),
        (92, &(797_u64).to_be_bytes(), (Clause::UsedLength, 92)),
        (84, &(330_u64).to_be_bytes(), (Clause::CountOffset, 92)),
        (0, &[0], (Clause::Magic, 0)),
    ] {
        bytes = with(bytes, at, other);
        assert_eq!(find(&bytes), Some(fault));
    }
    assert_eq!(find(&bytes[..471]), Some((Clause::BufferLength, 471)));
}

/// What is at an edge but allowed is not taken for the fault, where a later clause fails.
#[test]
fn edges_before_the_fault() {
    let last = with(fresh(16_777_216), 16_777_215, &[1]);
    assert_eq!(find(&last), Some((Clause::AfterUsedEnd, 16_777_215)));
    let shortest = with(fresh(472), 467, &[1]);
    assert_eq!(find(&shortest), Some((Clause::EmptyPlace, 467)));
    // Data, and slack, up to the last byte but the count.
    let filled = with(with_data(482, &[1; 10]), 467, &[1]);
    assert_eq!(find(&filled), Some((Clause::EmptyPlace, 467)));
    let slack = with(with_offset(fresh(482), 478), 467, &[1]);
    assert_eq!(find(&slack), Some((Clause::EmptyPlace, 467)));
    // Extras begin behind the count, wherever it stands, and end where the zeros begin.
    let behind_slack = with(cut(good(), 4), 758, &[1]);
    assert_eq!(find(&behind_slack), Some((Clause::AfterUsedEnd, 758)));
    let behind_slack = with(cut(good(), 4), 666, &[0; 92]);
    assert_eq!(find(&behind_slack), Some((Clause::LastExtra, 666)));
    // 60 extras up to the last byte, each with an owner of one byte, but for the last one.
    for byte in 0..4 {
        let mut most = with(fresh(472 + 60 * 92), 468, &[0, 0, 0, 60]);
        for place in 0..59 {
            most[472 + 92 * place + byte] = 1;
            most[472 + 92 * place + 91] = 1;
        }
        assert_eq!(find(&most), Some((Clause::LastExtra, 472 + 59 * 92)));
    }
}

/// There is a fault exactly where the library refuses, and the model too.
#[test]
fn the_library_decides() {
    for good in [good(), cut(good(), 4)] {
        for at in 0..good.len() {
            for other in [0, 1, good[at] ^ 0x80, 0xFF] {
                let bytes = with(good.clone(), at, &[other]);
                let refused = matches!(ffi::check_container(&bytes).number, 1 | 2);
                assert_eq!(find(&bytes).is_some(), refused, "{other} at byte {at}");
                assert_eq!(model::Container::from_bytes(&bytes).is_none(), refused);
            }
        }
    }
}

#[test]
fn faults_in_words() {
    let words = [
        (
            Clause::BufferLength,
            "the buffer is not 472 to 16,777,216 bytes long",
        ),
        (Clause::Magic, "the magic is not a container's"),
        (
            Clause::CountOffset,
            "the offset of the extra-lease count is below 468 plus the data size at byte 84",
        ),
        (
            Clause::UsedLength,
            "the extra-lease count or an extra lease is outside the buffer",
        ),
        (Clause::ExtraCount, "the extra-lease count is above 60"),
        (
            Clause::Slack,
            "a byte between data and extra-lease count is not zero",
        ),
        (
            Clause::EmptyPlace,
            "a lease place with owner 0 is not all zeros",
        ),
        (Clause::LastExtra, "the last extra lease has no owner"),
        (
            Clause::AfterUsedEnd,
            "a byte after the used end is not zero",
        ),
    ];
    for (clause, text) in words {
        assert_eq!(clause.to_string(), text);
        // More clauses may come: the last arm would be unreachable if that were not announced.
        match clause {
            Clause::BufferLength
            | Clause::Magic
            | Clause::CountOffset
            | Clause::UsedLength
            | Clause::ExtraCount
            | Clause::Slack
            | Clause::EmptyPlace
            | Clause::LastExtra
            | Clause::AfterUsedEnd => {}
            _ => unreachable!(),
        }
    }
    let fault = Fault::find(&with(good(), 799, &[1])).unwrap();
    assert_eq!(
        fault.to_string(),
        "at byte 799: a byte after the used end is not zero"
    );
}

//! Which clause a refused list breaks, and at which byte.

#![deny(unreachable_patterns)]

mod common;

use beamsatchel_node::{ffi, ListClause, ListFault};
use common::{cut, fresh, with_data};

/// 30 bytes of data: zeros, but for bytes 8 to 9 and the last; behind them 6 bytes of slack.
fn container() -> Vec<u8> {
    let mut data = [0; 36];
    (data[8], data[9], data[29], data[30]) = (1, 1, 1, 1);
    cut(with_data(600, &data), 30)
}

fn list(rows: &[(u32, u32)]) -> Vec<u8> {
    let mut list = (rows.len() as u32).to_be_bytes().to_vec();
    for (start, length) in rows {
        list.extend(start.to_be_bytes());
        list.extend(length.to_be_bytes());
    }
    list.resize(2_052, 0);
    list
}

fn find(list: &[u8]) -> Option<(ListClause, usize, Option<usize>)> {
    let fault = ListFault::find(&container(), list)?;
    Some((fault.clause, fault.byte, fault.position))
}

/// What is wrong at a byte of the list.
fn wrong(clause: ListClause, byte: usize) -> Option<(ListClause, usize, Option<usize>)> {
    Some((clause, byte, None))
}

#[test]
fn a_good_list_has_no_fault() {
    for rows in [
        &[][..],
        &[(0, 8)],
        &[(0, 1), (2, 6), (10, 19)],
        &[(28, 1)],
        &[(7, 1), (10, 1)],
    ] {
        assert_eq!(find(&list(rows)), None, "{rows:?}");
    }
    assert_eq!(ListFault::find(&fresh(472), &[0; 2_052]), None);
    let comb: Vec<_> = (0..256).map(|row| (2 * row, 1)).collect();
    assert_eq!(
        ListFault::find(&with_data(1_000, &[0; 511]), &list(&comb)),
        None
    );
}

/// A container that is refused has a fault of its own, and the list is not looked at.
#[test]
fn the_container_comes_first() {
    for container in [&[][..], &[0; 472], &container()[..471]] {
        assert_eq!(ListFault::find(container, &[1; 2_052]), None);
    }
}

#[test]
fn the_length() {
    for (length, byte) in [
        (0, 0),
        (1, 1),
        (2_051, 2_051),
        (2_053, 2_052),
        (65_536, 2_052),
    ] {
        let mut list = list(&[(0, 3)]);
        list.resize(length, 0);
        assert_eq!(find(&list), wrong(ListClause::Length, byte));
    }
}

#[test]
fn the_number_of_rows() {
    for count in [257, 1 << 16, 1 << 24, u32::MAX] {
        let mut list = list(&[(0, 3)]);
        list[..4].copy_from_slice(&count.to_be_bytes());
        assert_eq!(find(&list), wrong(ListClause::RowCount, 0));
    }
    // One more than there are has length 0, and one less leaves bytes behind.
    let mut more = list(&[(0, 3)]);
    more[3] = 2;
    assert_eq!(find(&more), wrong(ListClause::EmptyStretch, 16));
    more[3] = 0;
    assert_eq!(find(&more), wrong(ListClause::AfterRows, 11));
    // 256 are not too many, whatever else is wrong.
    let mut most = list(&[(0, 3)]);
    most[..4].copy_from_slice(&256_u32.to_be_bytes());
    assert_eq!(find(&most), wrong(ListClause::EmptyStretch, 16));
}

#[test]
fn rows_out_of_order() {
    assert_eq!(find(&list(&[(0, 0)])), wrong(ListClause::EmptyStretch, 8));
    for start in [0, 1, 2, 3, 4] {
        let rows = list(&[(1, 3), (start, 1)]);
        assert_eq!(find(&rows), wrong(ListClause::Order, 12), "{start}");
    }
    assert_eq!(find(&list(&[(1, 3), (5, 1)])), None);
    assert_eq!(
        find(&list(&[(10, 1), (0, 1)])),
        wrong(ListClause::Order, 12)
    );
    assert_eq!(
        find(&list(&[(0, 1), (10, 1), (11, 1)])),
        wrong(ListClause::Order, 20)
    );
}

/// The data ends at 30; what stands behind it is slack, and no data.
#[test]
fn rows_outside_the_data() {
    for (start, length, byte) in [
        (28, 3, 8),
        (20, 11, 8),
        (0, u32::MAX, 8),
        (30, 1, 4),
        (31, 1, 4),
        (u32::MAX, 1, 4),
        (u32::MAX, u32::MAX, 4),
    ] {
        let rows = list(&[(start, length)]);
        assert_eq!(
            find(&rows),
            wrong(ListClause::OutsideData, byte),
            "{start} {length}"
        );
    }
    let fault = ListFault::find(&fresh(472), &list(&[(0, 1)])).unwrap();
    assert_eq!((fault.clause, fault.byte), (ListClause::OutsideData, 4));
}

#[test]
fn bytes_behind_the_rows() {
    for at in [12, 13, 2_051] {
        let mut list = list(&[(0, 3)]);
        list[at] = 1;
        assert_eq!(find(&list), wrong(ListClause::AfterRows, at));
        // The first of several.
        list[at..].fill(7);
        assert_eq!(find(&list), wrong(ListClause::AfterRows, at));
    }
}

#[test]
fn bytes_that_are_not_zero() {
    for (rows, byte, position) in [
        (&[(0, 9)][..], 4, 8),
        (&[(8, 1)], 4, 8),
        (&[(9, 1)], 4, 9),
        (&[(0, 30)], 4, 8),
        (&[(0, 2), (9, 3)], 12, 9),
        (&[(0, 2), (10, 20)], 12, 29),
        // the first of several
        (&[(9, 1), (29, 1)], 4, 9),
    ] {
        let found = Some((ListClause::NotZero, byte, Some(position)));
        assert_eq!(find(&list(rows)), found, "{rows:?}");
    }
}

/// With all faults from one on, the first clause is named.
#[test]
fn the_first_clause_counts() {
    let mut bad = list(&[(0, 9), (20, 1)]);
    assert_eq!(find(&bad), Some((ListClause::NotZero, 4, Some(8))));
    for (at, other, fault) in [
        (2_000, 1, (ListClause::AfterRows, 2_000)),
        (19, 11, (ListClause::OutsideData, 16)),
        (15, 30, (ListClause::OutsideData, 12)),
        (15, 9, (ListClause::Order, 12)),
        (19, 0, (ListClause::EmptyStretch, 16)),
        (11, 0, (ListClause::EmptyStretch, 8)),
        (0, 1, (ListClause::RowCount, 0)),
    ] {
        bad[at] = other;
        assert_eq!(find(&bad), wrong(fault.0, fault.1));
    }
    assert_eq!(find(&bad[..2_000]), wrong(ListClause::Length, 2_000));
}

/// There is a fault exactly where the library refuses for the list.
#[test]
fn the_library_decides() {
    let container = container();
    for rows in [&[][..], &[(0, 8)], &[(1, 3), (5, 2), (10, 19)]] {
        let good = list(rows);
        for at in (0..40).chain([2_050, 2_051]) {
            for other in [0, 1, 2, 3, 9, 29, 30, 0x80, 0xFF] {
                let mut list = good.clone();
                list[at] = other;
                let refused =
                    ffi::read_listed(&container, &list, &[5, 0, 0, 0], &mut []).number == 16;
                assert_eq!(find(&list).is_some(), refused, "{other} at byte {at}");
            }
        }
    }
}

#[test]
fn faults_in_words() {
    for (clause, text) in [
        (ListClause::Length, "the list is not 2,052 bytes long"),
        (ListClause::RowCount, "the number of rows is above 256"),
        (ListClause::EmptyStretch, "a row's length is 0"),
        (
            ListClause::Order,
            "a row does not begin above the end of the row before it",
        ),
        (
            ListClause::OutsideData,
            "a row reaches behind the end of the data",
        ),
        (
            ListClause::AfterRows,
            "a byte after the last row is not zero",
        ),
        (
            ListClause::NotZero,
            "a row names a byte of the data that is not zero",
        ),
    ] {
        assert_eq!(clause.to_string(), text);
        // More clauses may come: the last arm would be unreachable if that were not announced.
        match clause {
            ListClause::Length
            | ListClause::RowCount
            | ListClause::EmptyStretch
            | ListClause::Order
            | ListClause::OutsideData
            | ListClause::AfterRows
            | ListClause::NotZero => {}
            _ => unreachable!(),
        }
    }
    let told = |list: &[u8]| ListFault::find(&container(), list).unwrap().to_string();
    assert_eq!(
        told(&[]),
        "at byte 0 of the list: the list is not 2,052 bytes long"
    );
    assert_eq!(
        told(&list(&[(0, 2), (3, 7)])),
        "at byte 12 of the list: a row names a byte of the data that is not zero, at position 8"
    );
}

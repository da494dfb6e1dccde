//! Lists at and one past each edge of their form, and every small update.

use super::aimed::{write_bytes, ENABLER};
use super::case::ListedCase;
use super::made;
use super::rows::{decode, encode, of_fields};
use crate::case::Case;
use crate::checker::Checker;
use crate::requests;
use crate::rng::Rng;
use beamsatchel_model::{Container, Request, Test, TestAndWrite, Write, LIST_LENGTH};
use std::ops::{Range, RangeInclusive};

pub fn run(rng: &mut Rng, checker: &mut Checker) {
    lengths(checker);
    counts(rng, checker);
    rows(checker);
    ends(checker);
    bytes_not_zero(checker);
    bytes_behind(checker);
    every_write(checker);
    every_two_writes(checker);
    full(checker);
}

/// A container with this data, and room for some bytes.
fn holding(data: Vec<u8>, slack: usize) -> Container {
    Container {
        length: 472 + data.len() + slack + 100,
        node: [7; 20],
        enabler: ENABLER,
        data,
        slack,
        places: vec![None; 4],
    }
}

/// A request that is done, one that is refused for an offset, and none.
fn any_requests() -> [Vec<u8>; 3] {
    [
        write_bytes(&[(-1, b"A")], None),
        write_bytes(&[(i32::MIN, b"A")], None),
        Vec::new(),
    ]
}

fn listed(container: &Container, list: &[u8], request: &[u8]) -> ListedCase {
    ListedCase {
        case: Case {
            container: container.to_bytes(),
            request: request.to_vec(),
            reply: vec![0xA5; 9],
        },
        list: list.to_vec(),
    }
}

/// Whether a list is taken: every request gets 16 beside it, or none does.
fn is_good(checker: &mut Checker, container: &Container, list: &[u8]) -> bool {
    let taken = any_requests().map(|request| {
        let answer = checker.apply_listed(&mut listed(container, list, &request));
        answer.number != 16
    });
    let lent = checker.read_listed(&mut listed(container, list, &[5, 0, 0, 0]));
    assert_eq!(taken, [lent.number == 0; 3]);
    lent.number == 0
}

/// Lists of zeros and with a row, of every length about 2,052.
fn lengths(checker: &mut Checker) {
    let container = holding(vec![0; 10], 0);
    for list in [of_fields(&[]), of_fields(&[(2, 3)])] {
        for length in [0, 1, 3, 4, 12, 2_051, 2_052, 2_053, 4_104, 65_537] {
            let mut list = list.clone();
            list.resize(length, 0);
            assert_eq!(is_good(checker, &container, &list), length == LIST_LENGTH);
        }
    }
}

/// Counts beside the number of rows that follow, 256 at most.
fn counts(rng: &mut Rng, checker: &mut Checker) {
    let container = made::comb(rng, 0);
    let counts = [
        0,
        1,
        2,
        3,
        4,
        255,
        256,
        257,
        258,
        512,
        1 << 16,
        1 << 24,
        1 << 31,
        u32::MAX,
    ];
    for rows in [0, 1, 3, 255, 256] {
        for count in counts {
            let mut list = encode(&made::teeth(rows));
            list[..4].copy_from_slice(&count.to_be_bytes());
            let good = is_good(checker, &container, &list);
            assert_eq!(good, count == rows as u32, "{count} for {rows}");
        }
    }
}

/// Rows in order and out of it, apart, touching and overlapping, empty, and those whose end wraps.
fn rows(checker: &mut Checker) {
    let container = holding(vec![0; 40], 0);
    for (fields, good) in [
        (&[(0, 40)][..], true),
        (&[(39, 1)], true),
        (&[(2, 3), (6, 1)], true),
        (&[(2, 3), (5, 1)], false),
        (&[(2, 3), (4, 1)], false),
        (&[(2, 3), (4, 9)], false),
        (&[(2, 3), (2, 3)], false),
        (&[(2, 3), (2, 1)], false),
        (&[(2, 3), (1, 1)], false),
        (&[(2, 3), (0, 1)], false),
        (&[(2, 3), (0, 2)], false),
        (&[(2, 3), (0, 9)], false),
        (&[(0, 1), (2, 1), (4, 1)], true),
        (&[(0, 1), (4, 1), (2, 1)], false),
        (&[(0, 1), (2, 1), (3, 1)], false),
        (&[(2, 1), (4, 1), (0, 1)], false),
        (&[(0, 0)], false),
        (&[(7, 0)], false),
        (&[(40, 0)], false),
        (&[(0, 0), (2, 1)], false),
        (&[(0, 1), (2, 0), (4, 1)], false),
        (&[(0, 1), (2, 1), (4, 0)], false),
        (&[(0, 1), (1, 0), (2, 1)], false),
        (&[(0, 1), (2, 1), (0, 0)], false),
        (&[(5, u32::MAX)], false),
        (&[(5, u32::MAX - 4)], false),
        (&[(5, u32::MAX - 5)], false),
        (&[(0, u32::MAX)], false),
        (&[(1, u32::MAX)], false),
        (&[(u32::MAX, 1)], false),
        (&[(u32::MAX, 2)], false),
        (&[(u32::MAX, 9)], false),
        (&[(1 << 31, 1 << 31)], false),
        (&[(0, 1), (3, u32::MAX), (5, 1)], false),
        (&[(0, 1), (u32::MAX, 4), (5, 1)], false),
    ] {
        let list = of_fields(fields);
        assert_eq!(is_good(checker, &container, &list), good, "{fields:?}");
    }
}

/// Rows that end beside the data's end, with slack behind it and without.
fn ends(checker: &mut Checker) {
    for size in [0_u32, 1, 2, 7, 300] {
        for slack in [0, 1, 2, 9] {
            let container = holding(vec![0; size as usize], slack);
            for end in size.max(2) - 1..=size + 10 {
                for start in [0, size / 2, size.saturating_sub(1), size, size + 1] {
                    if start < end {
                        let good =
                            is_good(checker, &container, &of_fields(&[(start, end - start)]));
                        assert_eq!(good, end <= size, "{start} to {end} of {size}");
                    }
                }
            }
        }
    }
}

/// A byte that is not zero in a row or beside it.
fn bytes_not_zero(checker: &mut Checker) {
    for length in [1, 2, 3, 6] {
        for at in 3..=length + 6 {
            for byte in [1, 0x80, 0xFF] {
                let mut data = vec![0; length + 10];
                data[at] = byte;
                let container = holding(data, 0);
                let list = of_fields(&[(0, 1), (5, length as u32)]);
                let listed = (5..5 + length).contains(&at);
                assert_eq!(is_good(checker, &container, &list), !listed);
            }
        }
    }
}

/// Each byte behind the last row.
fn bytes_behind(checker: &mut Checker) {
    let container = holding(vec![0; 10], 0);
    for fields in [&[][..], &[(1, 2), (4, 6)]] {
        let list = of_fields(fields);
        for at in 4 + 8 * fields.len()..LIST_LENGTH {
            let mut list = list.clone();
            list[at] = 1 << (at % 8);
            let answer = checker.apply_listed(&mut listed(&container, &list, &[]));
            assert_eq!(answer.number, 16, "byte {at}");
        }
    }
}

/// Every set of bytes of a few zeros, with every short write, and every cut.
fn every_write(checker: &mut Checker) {
    for size in 0..=4 {
        for list in every_list(size) {
            for write in every_place(size + 2, 0..=3) {
                for cut in every_cut(size + 3) {
                    update(checker, size, &list, &[write], cut);
                }
            }
        }
    }
}

/// The same of a few less, with every two short writes.
fn every_two_writes(checker: &mut Checker) {
    let size = 3;
    for list in every_list(size) {
        for first in every_place(size + 2, 1..=2) {
            for second in every_place(size + 4, 1..=2) {
                for cut in every_cut(size + 4) {
                    update(checker, size, &list, &[first, second], cut);
                }
            }
        }
    }
}

fn every_list(size: usize) -> impl Iterator<Item = Vec<u8>> {
    (0..1_u32 << size).map(move |named| {
        let mut rows: Vec<Range<u64>> = Vec::new();
        for position in (0..size as u64).filter(|position| named >> position & 1 == 1) {
            match rows.last_mut() {
                Some(last) if last.end == position => last.end += 1,
                _ => rows.push(position..position + 1),
            }
        }
        encode(&rows)
    })
}

/// Starts and lengths.
fn every_place(
    most: usize,
    lengths: RangeInclusive<usize>,
) -> impl Iterator<Item = (usize, usize)> {
    (0..=most).flat_map(move |start| lengths.clone().map(move |length| (start, length)))
}

fn every_cut(most: usize) -> impl Iterator<Item = Option<u32>> {
    (0..=most as u32).map(Some).chain([None])
}

/// Writes letters over data of zeros.
fn update(
    checker: &mut Checker,
    size: usize,
    list: &[u8],
    places: &[(usize, usize)],
    cut: Option<u32>,
) {
    let writes: Vec<(i32, &[u8])> = places
        .iter()
        .map(|(start, length)| (*start as i32, &b"ABC"[..*length]))
        .collect();
    let container = holding(vec![0; size], size % 3);
    let mut case = listed(&container, list, &write_bytes(&writes, cut));
    assert_eq!(checker.apply_listed(&mut case).number, 0);
}

/// Lists that are full or nearly so, and requests that add a row, take one, or do both.
fn full(checker: &mut Checker) {
    // A zero and a letter in turn, and at the end a letter, or three zeros.
    let mut comb: Vec<u8> = [0, b'A'].repeat(256);
    let ending_in_letter = comb.clone();
    comb.splice(510.., [0; 3]);
    let ending_in_zeros = comb;
    let gaps: Vec<(i32, &[u8])> = (0..16).map(|gap| (513 + 2 * gap, &b"G"[..])).collect();
    let rest_of_gaps = &gaps[1..];
    let one: (i32, &[u8]) = (0, b"F");
    // The rows before, what is asked, and the rows after; `None` where it is refused.
    for (rows, writes, cut, after) in [
        (256, &[][..], None, Some(256)),
        (256, &[(-1, &b"A"[..])], None, Some(256)),
        (256, &gaps[..1], None, None),
        (255, &gaps[..1], None, Some(256)),
        (255, &gaps[..2], None, None),
        (254, &gaps[..2], None, Some(256)),
        (240, &gaps, None, Some(256)),
        (241, &gaps, None, None),
        (242, &[&[one][..], rest_of_gaps].concat(), None, Some(256)),
        (243, &[&[one][..], rest_of_gaps].concat(), None, None),
        (256, &[one, gaps[0]], None, Some(256)),
        (256, &[gaps[0], one], None, Some(256)),
        (256, &[gaps[0], gaps[1], one], None, None),
        (256, &[one, gaps[0], gaps[1]], None, None),
        (256, &gaps[..1], Some(512), Some(256)),
        (256, &gaps[..1], Some(513), None),
        (256, &gaps, Some(512), Some(256)),
        (256, &gaps, Some(511), Some(256)),
        (256, &gaps, Some(510), Some(255)),
        (256, &gaps, Some(0), Some(0)),
        (256, &gaps, Some(514), None),
        (256, &[gaps[0], (512, b"G")], None, Some(256)),
        (255, &[(i32::MAX, b"G")], Some(513), Some(256)),
        (256, &[(i32::MAX, b"G")], Some(512), Some(256)),
        (256, &[(i32::MAX, b"G")], Some(513), None),
        (
            256,
            &[(i32::MAX - 1, b"G"), (i32::MIN, b"F")],
            Some(513),
            Some(256),
        ),
    ] {
        let container = holding(ending_in_letter.clone(), 0);
        let list = encode(&made::teeth(rows));
        demand(checker, &container, &list, write_bytes(writes, cut), after);
    }
    // The last row ends with the data, so that a gap goes on with it; or it is split.
    let mut last = made::teeth(256);
    last[255] = 510..513;
    for (writes, after) in [
        (&[(514, &b"G"[..])][..], Some(256)),
        (&[(511, b"G")], None),
        (&[(510, b"G")], Some(256)),
        (&[(512, b"G")], Some(256)),
        (&[(510, b"GGG")], Some(255)),
        (&[(511, b"G"), (0, b"F")], Some(256)),
        (&[(511, b"G"), (512, b"G")], Some(256)),
        (&[(-3, b"G")], None),
        (&[(-3, b"GG")], Some(256)),
        (&[(514, b"G"), (513, b"G")], Some(256)),
        (&[(515, b"G"), (513, b"G")], None),
    ] {
        let container = holding(ending_in_zeros.clone(), 0);
        demand(
            checker,
            &container,
            &encode(&last),
            write_bytes(writes, None),
            after,
        );
    }
    // All tests hold, and there is space for the reply.
    let test = Test {
        offset: 0,
        length: 2,
        opcode: 3,
        specimen: b"\0A".to_vec(),
    };
    let tested = TestAndWrite {
        enabler: ENABLER,
        tests: vec![test],
        writes: vec![Write {
            offset: 513,
            data: b"G".to_vec(),
        }],
        cut: None,
    };
    let container = holding(ending_in_letter, 0);
    let request = requests::encode(&Request::TestAndWrite(tested));
    demand(
        checker,
        &container,
        &encode(&made::teeth(256)),
        request,
        None,
    );
}

/// So many rows are left, or the request is refused with 13.
fn demand(
    checker: &mut Checker,
    container: &Container,
    list: &[u8],
    request: Vec<u8>,
    rows: Option<usize>,
) {
    let mut case = listed(container, list, &request);
    let number = checker.apply_listed(&mut case).number;
    let after = (number == 0).then(|| decode(&case.list).len());
    assert!(matches!(number, 0 | 13));
    assert_eq!(after, rows, "{}", super::checker::show_listed(&case));
}

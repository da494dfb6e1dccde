//! The never-written list at its edges, with the bytes that docs/RULES.md gives.

mod common;

use beamsatchel_model as model;
use beamsatchel_node::ffi;
use common::raw::{add, append, cancel, reads, test_and_write, write, Write, ENABLER, NODE};

/// The bytes of a list.
const LENGTH: usize = 2_052;

/// The reply space of P58 to P63.
const SPACE: [u8; 8] = [0xA5; 8];

/// Start and length.
type Row = (u32, u32);

/// The bytes of a list with these rows, good or not.
fn list(rows: &[Row]) -> Vec<u8> {
    let mut list = (rows.len() as u32).to_be_bytes().to_vec();
    for (start, length) in rows {
        list.extend(start.to_be_bytes());
        list.extend(length.to_be_bytes());
    }
    list.resize(LENGTH, 0);
    list
}

/// A container and its list.
#[derive(Clone, Debug, PartialEq, Eq)]
struct Slot {
    container: Vec<u8>,
    list: Vec<u8>,
}

impl Slot {
    fn fresh(length: usize) -> Slot {
        let mut container = vec![0x55; length];
        assert_eq!(ffi::create(&mut container, &NODE, &ENABLER).number, 0);
        Slot {
            container,
            list: vec![0; LENGTH],
        }
    }

    /// A container of so many bytes with this data and so many bytes of slack, beside a list that is handed in.
    fn spare(length: usize, data: &[u8], slack: usize, list: Vec<u8>) -> Slot {
        let mut slot = Slot::fresh(length);
        slot.done(&append(&[data, &vec![b'Z'; slack]].concat()));
        slot.done(&write(&[], Some(data.len() as u32)));
        assert_eq!(slot.data(), data);
        let count = (468 + data.len() + slack) as u64;
        assert_eq!(slot.container[92..100], count.to_be_bytes());
        Slot { list, ..slot }
    }

    /// Data that somebody wrote, all of it, and a list that is handed in.
    fn holding(data: &[u8], rows: &[Row]) -> Slot {
        let mut slot = Slot::fresh(472 + data.len() + 100);
        slot.done(&append(data));
        slot.list = list(rows);
        slot
    }

    /// Applies a request by the library and by the model, which must agree. Gives number and count.
    fn apply(&mut self, request: &[u8], reply: &mut [u8]) -> (u32, u64) {
        let (mut by_model, mut reply_by_model) = (self.clone(), reply.to_vec());
        let answer = ffi::apply_listed(&mut self.container, &mut self.list, request, reply);
        let modelled = model::apply_listed(
            &mut by_model.container,
            &mut by_model.list,
            request,
            &mut reply_by_model,
        );
        assert_eq!(
            (answer.number, answer.count, answer.node),
            (modelled.number, modelled.count, modelled.node)
        );
        assert_eq!(*self, by_model);
        assert_eq!(reply, reply_by_model);
        (answer.number, answer.count)
    }

    fn number(&mut self, request: &[u8]) -> u32 {
        self.apply(request, &mut []).0
    }

    /// The number beside eight bytes of reply space. On a refusal container and list stay, and unless a test is false
    /// the reply space too.
    fn ask(&mut self, request: &[u8]) -> u32 {
        let (before, mut reply) = (self.clone(), SPACE);
        let (number, count) = self.apply(request, &mut reply);
        if number != 0 {
            assert_eq!(*self, before);
        }
        if number != 0 && number != 8 {
            assert_eq!((count, reply), (0, SPACE));
        }
        number
    }

    /// The same with both lent for reading only.
    fn read(&self, request: &[u8], reply: &mut [u8]) -> (u32, u64) {
        let mut by_model = reply.to_vec();
        let answer = ffi::read_listed(&self.container, &self.list, request, reply);
        let modelled = model::read_listed(&self.container, &self.list, request, &mut by_model);
        assert_eq!(
            (answer.number, answer.count, answer.node),
            (modelled.number, modelled.count, modelled.node)
        );
        assert_eq!(reply, by_model);
        (answer.number, answer.count)
    }

    fn done(&mut self, request: &[u8]) {
        assert_eq!(self.number(request), 0);
    }

    /// The rows of its list, which has zeros behind them.
    fn rows(&self) -> Vec<Row> {
        let number = |at: usize| u32::from_be_bytes(self.list[at..at + 4].try_into().unwrap());
        let rows = (0..number(0) as usize).map(|row| (number(4 + 8 * row), number(8 + 8 * row)));
        let rows: Vec<Row> = rows.collect();
        assert_eq!(self.list, list(&rows));
        rows
    }

    fn data(&self) -> &[u8] {
        let size = u64::from_be_bytes(self.container[84..92].try_into().unwrap());
        &self.container[468..468 + size as usize]
    }
}

/// Ten bytes of data, of which the fifth is not zero, with three bytes of slack in 500.
fn fifth(list: Vec<u8>) -> Slot {
    Slot::spare(500, &[0, 0, 0, 0, 5, 0, 0, 0, 0, 0], 3, list)
}

#[test]
fn p58_lists_that_are_refused() {
    let none = list(&[]);
    let mut trailing = none.clone();
    trailing[LENGTH - 1] = 1;
    let mut behind_last = list(&[(0, 1)]);
    behind_last[3] = 0;
    for (list, number) in [
        (none[..LENGTH - 1].to_vec(), 16),
        ([&none[..], &[0]].concat(), 16),
        (Vec::new(), 16),
        // length 0; touching, overlapping, falling
        (list(&[(2, 0)]), 16),
        (list(&[(0, 1), (1, 1)]), 16),
        (list(&[(0, 3), (2, 2)]), 16),
        (list(&[(5, 1), (0, 1)]), 16),
        // behind the data, in the slack
        (list(&[(8, 3)]), 16),
        (list(&[(10, 1)]), 16),
        // over the fifth byte, by their ends
        (list(&[(3, 2)]), 16),
        (list(&[(4, 2)]), 16),
        (trailing, 16),
        (behind_last, 16),
        (list(&[(1, 4_294_967_295)]), 16),
        // good ones
        (none, 3),
        (list(&[(8, 2)]), 3),
        (list(&[(0, 4), (5, 5)]), 3),
        (list(&[(1, 2)]), 3),
    ] {
        let words = format!("{:?}", list.get(..20));
        assert_eq!(fifth(list).ask(&[]), number, "{words}");
    }
    let mut too_many = full();
    too_many.list[..4].copy_from_slice(&257_u32.to_be_bytes());
    assert_eq!(too_many.ask(&[]), 16);
}

#[test]
fn p59_the_list_between_the_container_and_the_request() {
    let mut foreign = write(&[(0, b"X")], None);
    foreign[8..40].fill(1);
    let before_start = write(&[(-12, b"X")], None);
    let of = |container: Vec<u8>| Slot {
        container,
        list: Vec::new(),
    };
    for (mut slot, request, number) in [
        (of(vec![0; 471]), Vec::new(), 1),
        (of(vec![0; 500]), Vec::new(), 2),
        (fifth(Vec::new()), reads(&[(0, 4)]), 16),
        (fifth(Vec::new()), add(1), 16),
        (fifth(Vec::new()), foreign.clone(), 16),
        (fifth(Vec::new()), before_start.clone(), 16),
        (fifth(list(&[])), foreign, 5),
        (fifth(list(&[])), before_start, 4),
    ] {
        assert_eq!(slot.ask(&request), number, "{request:?}");
    }
}

/// Requests one after the other on a slot: their numbers, the data and the rows in the end.
fn listing(mut slot: Slot, requests: &[Vec<u8>]) -> (Vec<u32>, Vec<u8>, Vec<Row>) {
    let numbers = requests.iter().map(|request| slot.ask(request)).collect();
    (numbers, slot.data().to_vec(), slot.rows())
}

/// A byte at an offset.
fn one(offset: i32, byte: &[u8; 1]) -> Vec<u8> {
    write(&[(offset, byte)], None)
}

fn cut(length: u32) -> Vec<u8> {
    write(&[], Some(length))
}

/// A test that is false, before a write.
fn false_test(write: Write) -> Vec<u8> {
    test_and_write(&[(0, 1, 3, b"X")], &[write], None)
}

#[test]
fn p60_writes_beside_gaps() {
    let gap = write(&[(4, b"AB")], None);
    let then = |request: Vec<u8>| vec![gap.clone(), request];
    for (requests, numbers, data, rows) in [
        (
            vec![gap.clone()],
            &[0][..],
            &b"\0\0\0\0AB"[..],
            &[(0, 4)][..],
        ),
        (then(one(0, b"C")), &[0, 0], b"C\0\0\0AB", &[(1, 3)]),
        (then(one(3, b"C")), &[0, 0], b"\0\0\0CAB", &[(0, 3)]),
        (then(one(1, b"C")), &[0, 0], b"\0C\0\0AB", &[(0, 1), (2, 2)]),
        (then(write(&[(0, b"CDEF")], None)), &[0, 0], b"CDEFAB", &[]),
        (
            then(write(&[(3, b"CDE")], None)),
            &[0, 0],
            b"\0\0\0CDE",
            &[(0, 3)],
        ),
        (
            then(write(&[(1, b"\0\0")], None)),
            &[0, 0],
            b"\0\0\0\0AB",
            &[(0, 1), (3, 1)],
        ),
        (vec![write(&[(9, b"")], None)], &[0], b"", &[]),
        (
            vec![one(2, b"A"), one(-1, b"B"), one(7, b"C")],
            &[0, 0, 0],
            b"\0\0AB\0\0\0C",
            &[(0, 2), (4, 3)],
        ),
        (
            vec![write(&[(1, b"A"), (4, b"B")], None)],
            &[0],
            b"\0A\0\0B",
            &[(0, 1), (2, 2)],
        ),
        (
            vec![write(&[(5, b"A"), (2, b"B")], None)],
            &[0],
            b"\0\0B\0\0A",
            &[(0, 2), (3, 2)],
        ),
        (
            vec![write(&[(3, b"A"), (-5, b"B")], None)],
            &[0],
            b"B\0\0A",
            &[(1, 2)],
        ),
        (
            vec![one(0, b"A"), one(4, b"B"), write(&[(0, b"CD")], None)],
            &[0, 0, 0],
            b"CD\0\0B",
            &[(2, 2)],
        ),
        (
            vec![gap.clone(), one(1, b"C"), write(&[(0, b"DEF")], None)],
            &[0, 0, 0],
            b"DEF\0AB",
            &[(3, 1)],
        ),
        (
            vec![gap.clone(), false_test((0, b"C")), reads(&[(0, 4)]), add(1)],
            &[0, 8, 0, 0],
            b"\0\0\0\0AB",
            &[(0, 4)],
        ),
    ] {
        let expected = (numbers.to_vec(), data.to_vec(), rows.to_vec());
        assert_eq!(listing(Slot::fresh(520), &requests), expected);
    }
}

#[test]
fn p61_cuts_behind_gaps() {
    let gap = write(&[(4, b"AB")], None);
    let six = write(&[(0, b"ABCDEF")], None);
    for (requests, numbers, data, rows) in [
        (
            vec![gap.clone(), cut(2)],
            &[0, 0][..],
            &b"\0\0"[..],
            &[(0, 2)][..],
        ),
        (vec![gap.clone(), cut(4)], &[0, 0], b"\0\0\0\0", &[(0, 4)]),
        (vec![gap.clone(), cut(0)], &[0, 0], b"", &[]),
        (vec![gap.clone(), cut(5)], &[0, 0], b"\0\0\0\0A", &[(0, 4)]),
        (
            vec![gap.clone(), cut(2), one(4, b"Z")],
            &[0, 0, 0],
            b"\0\0\0\0Z",
            &[(0, 4)],
        ),
        (
            vec![six, cut(2), one(4, b"Z")],
            &[0, 0, 0],
            b"AB\0\0Z",
            &[(2, 2)],
        ),
        (
            vec![write(&[(6, b"A")], Some(3))],
            &[0],
            b"\0\0\0",
            &[(0, 3)],
        ),
        (vec![gap.clone(), cut(9)], &[0, 0], b"\0\0\0\0AB", &[(0, 4)]),
    ] {
        let expected = (numbers.to_vec(), data.to_vec(), rows.to_vec());
        assert_eq!(listing(Slot::fresh(520), &requests), expected);
    }
}

#[test]
fn p62_a_far_write_and_a_cut() {
    let requests = [write(&[(2_147_483_647, b"A")], Some(10))];
    let done = (vec![0], vec![0; 10], vec![(0, 10)]);
    assert_eq!(listing(Slot::fresh(482), &requests), done);
    let refused = (vec![11], Vec::new(), Vec::new());
    assert_eq!(listing(Slot::fresh(481), &requests), refused);

    // 1, 2 and 260 to 263, as bytes.
    let mut slot = Slot::fresh(1_000);
    slot.done(&write(&[(0, b"A"), (3, &[b'B'; 257]), (264, b"C")], None));
    let bytes = [0, 0, 0, 2, 0, 0, 0, 1, 0, 0, 0, 2, 0, 0, 1, 4, 0, 0, 0, 4];
    assert_eq!(slot.list[..20], bytes);
    assert!(slot.list[20..].iter().all(|byte| *byte == 0));
}

/// 514 zeros beside 256 rows, the first of three positions and the others of every second.
fn full() -> Slot {
    let mut rows = vec![(0, 3)];
    rows.extend((0..255).map(|row| (4 + 2 * row, 1)));
    Slot::spare(1_100, &[0; 514], 0, list(&rows))
}

/// The number of each request there, how many rows there are then, and the first two.
#[test]
fn p63_too_many_rows() {
    for (request, number, count, first) in [
        (one(1, b"X"), 13, 256, [(0, 3), (4, 1)]),
        (one(520, b"X"), 13, 256, [(0, 3), (4, 1)]),
        (
            write(&[(1, b"X"), (0, b"Y")], None),
            0,
            256,
            [(2, 1), (4, 1)],
        ),
        (write(&[(1, b"X")], Some(512)), 0, 256, [(0, 1), (2, 1)]),
        (one(0, b"X"), 0, 256, [(1, 2), (4, 1)]),
        (one(512, b"X"), 0, 255, [(0, 3), (4, 1)]),
        (reads(&[(0, 1)]), 0, 256, [(0, 3), (4, 1)]),
        (false_test((1, b"X")), 8, 256, [(0, 3), (4, 1)]),
        (one(628, b"X"), 11, 256, [(0, 3), (4, 1)]),
        (one(627, b"X"), 13, 256, [(0, 3), (4, 1)]),
    ] {
        let mut slot = full();
        assert_eq!(slot.ask(&request), number, "{request:?}");
        let after = slot.rows();
        assert_eq!((after.len(), &after[..2]), (count, &first[..]));
    }
}

#[test]
fn the_first_row_byte_by_byte() {
    let mut slot = Slot::fresh(500);
    assert_eq!(slot.list, [0; LENGTH]);
    // P3: `AB` at 3 on empty data.
    slot.done(&write(&[(3, b"AB")], None));
    assert_eq!(slot.list[..12], [0, 0, 0, 1, 0, 0, 0, 0, 0, 0, 0, 3]);
    assert!(slot.list[12..].iter().all(|byte| *byte == 0));
}

#[test]
fn the_incident_leaves_a_row() {
    let mut slot = Slot::fresh(600);
    slot.done(&write(
        &[(0, b"VAN1 21C"), (8, b"VAN2 19C"), (16, b"VAN3 24C")],
        None,
    ));
    assert_eq!(slot.rows(), []);
    slot.done(&write(&[], Some(8)));
    assert_eq!(slot.rows(), []);
    slot.done(&write(&[(24, b"VAN4 20C")], None));
    assert_eq!(slot.rows(), [(8, 16)]);
}

/// What writes make of a row from 2 to 8 in ten bytes, nobody having written 2 to 7.
#[test]
fn a_row_is_filled() {
    for (writes, rows) in [
        // from the left, from the right, in the middle, exactly, and more
        (&[(2, &b"Z"[..])][..], &[(3, 5)][..]),
        (&[(0, b"ZZZZ")], &[(4, 4)]),
        (&[(7, b"Z")], &[(2, 5)]),
        (&[(7, b"ZZZ")], &[(2, 5)]),
        (&[(4, b"Z")], &[(2, 2), (5, 3)]),
        (&[(3, b"ZZZZ")], &[(2, 1), (7, 1)]),
        (&[(2, b"ZZZZZZ")], &[]),
        (&[(0, b"ZZZZZZZZZZZZ")], &[]),
        // beside it
        (&[(0, b"ZZ")], &[(2, 6)]),
        (&[(8, b"ZZ")], &[(2, 6)]),
        (&[(10, b"Z")], &[(2, 6)]),
        (&[(-1, b"Z")], &[(2, 6)]),
        // zeros are written too, and nothing is not
        (&[(3, b"\0\0")], &[(2, 1), (5, 3)]),
        (&[(3, b"")], &[(2, 6)]),
        (&[(40, b"")], &[(2, 6)]),
        (&[], &[(2, 6)]),
        // behind the data: a row of its own, one for each gap
        (&[(13, b"Z")], &[(2, 6), (10, 3)]),
        (&[(11, b"Z"), (13, b"Z")], &[(2, 6), (10, 1), (12, 1)]),
        (&[(13, b"Z"), (10, b"ZZZ")], &[(2, 6)]),
        (&[(13, b"Z"), (10, b"Z")], &[(2, 6), (11, 2)]),
        (&[(13, b"Z"), (12, b"Z")], &[(2, 6), (10, 2)]),
        (&[(13, b"Z"), (11, b"Z")], &[(2, 6), (10, 1), (12, 1)]),
        // counted from the end as each write finds it
        (&[(-9, b"Z")], &[(3, 5)]),
        (&[(-5, b"Z")], &[(2, 4), (7, 1)]),
        (&[(13, b"Z"), (-3, b"Z")], &[(2, 6), (10, 2)]),
        (
            &[(13, b"Z"), (-1, b"Z"), (-13, b"Z")],
            &[(2, 1), (4, 4), (10, 3)],
        ),
    ] {
        let mut slot = Slot::holding(b"AB\0\0\0\0\0\0CD", &[(2, 6)]);
        slot.done(&write(writes, None));
        assert_eq!(slot.rows(), rows, "{writes:?}");
    }
}

/// Writes behind one that reaches to 2^31 or beside it, on empty data and cut to ten bytes.
#[test]
fn rows_behind_a_far_write() {
    const LAST: i32 = 2_147_483_647;
    for (writes, rows) in [
        (&[(LAST, &b"Z"[..])][..], &[(0, 10)][..]),
        (&[(LAST, b"Z"), (0, b"F")], &[(1, 9)]),
        (&[(LAST - 1, b"Z"), (-2_147_483_648, b"F")], &[(1, 9)]),
        (&[(LAST, b"Z"), (-2_147_483_648, b"F")], &[(0, 1), (2, 8)]),
        (
            &[(LAST, b"Z"), (-1, b"Z"), (-2_147_483_648, b"F")],
            &[(0, 2), (3, 7)],
        ),
        (&[(9, b"F"), (LAST, b"Z")], &[(0, 9)]),
        (&[(10, b"F"), (LAST, b"Z")], &[(0, 10)]),
    ] {
        let mut slot = Slot::fresh(482);
        slot.done(&write(writes, Some(10)));
        assert_eq!(slot.rows(), rows, "{writes:?}");
    }
}

/// What a cut leaves of rows from 1 to 3 and from 5 to 8 in ten bytes.
#[test]
fn a_row_is_cut() {
    for (cut, rows) in [
        (11, &[(1, 2), (5, 3)][..]),
        (10, &[(1, 2), (5, 3)]),
        (9, &[(1, 2), (5, 3)]),
        (8, &[(1, 2), (5, 3)]),
        (7, &[(1, 2), (5, 2)]),
        (6, &[(1, 2), (5, 1)]),
        (5, &[(1, 2)]),
        (4, &[(1, 2)]),
        (3, &[(1, 2)]),
        (2, &[(1, 1)]),
        (1, &[]),
        (0, &[]),
    ] {
        let mut slot = Slot::holding(b"A\0\0BB\0\0\0CC", &[(1, 2), (5, 3)]);
        slot.done(&write(&[], Some(cut)));
        assert_eq!(slot.rows(), rows, "a cut to {cut}");
        // What grows again behind it nobody wrote.
        let size = cut.min(10);
        slot.done(&write(&[(size as i32 + 2, b"Z")], None));
        let mut joined = rows.to_vec();
        match joined.last_mut() {
            Some((start, length)) if *start + *length == size => *length += 2,
            _ => joined.push((size, 2)),
        }
        assert_eq!(slot.rows(), joined, "growth behind a cut to {cut}");
    }
}

/// Zeros that the list does not name stay so, whatever is written beside them.
#[test]
fn a_list_may_name_fewer_zeros() {
    for (rows, writes, after) in [
        (&[][..], &[(7, &b"Z"[..])][..], &[(5, 2)][..]),
        (&[], &[(2, b"Z")], &[]),
        (&[(1, 1)], &[(7, b"Z")], &[(1, 1), (5, 2)]),
        (&[(3, 2)], &[(7, b"Z")], &[(3, 4)]),
        (&[(0, 5)], &[(7, b"Z")], &[(0, 7)]),
        (&[(0, 5)], &[(5, b"\0"), (7, b"Z")], &[(0, 5), (6, 1)]),
    ] {
        let mut slot = Slot::holding(&[0; 5], rows);
        slot.done(&write(writes, None));
        assert_eq!(slot.rows(), after, "{rows:?}, {writes:?}");
    }
}

/// Lists beside `AAAAA`, five zeros, `A`, five zeros, and four bytes of slack.
#[test]
fn the_form_of_a_list() {
    let slot = {
        let mut slot = Slot::holding(b"AAAAA\0\0\0\0\0A\0\0\0\0\0AAAA", &[]);
        slot.done(&write(&[], Some(16)));
        slot
    };
    let with_byte = |rows: &[Row], at: usize, byte: u8| {
        let mut list = list(rows);
        list[at] = byte;
        list
    };
    let of_length = |length: usize| {
        let mut list = list(&[(5, 5)]);
        list.resize(length, 0);
        list
    };
    for (list, good) in [
        (list(&[]), true),
        (list(&[(5, 5), (11, 5)]), true),
        (list(&[(5, 1), (7, 1), (9, 1)]), true),
        (of_length(2_052), true),
        (of_length(2_051), false),
        (of_length(2_053), false),
        (of_length(12), false),
        (Vec::new(), false),
        // the count
        (with_byte(&[(5, 5)], 3, 0), false),
        (with_byte(&[(5, 5)], 3, 2), false),
        (with_byte(&[(5, 5)], 2, 1), false),
        (with_byte(&[(5, 5)], 0, 0x80), false),
        (vec![0xFF; 2_052], false),
        // a length of 0, at any start
        (list(&[(0, 0)]), false),
        (list(&[(5, 0)]), false),
        (list(&[(5, 1), (7, 0), (9, 1)]), false),
        // touching, overlapping, falling
        (list(&[(5, 2), (8, 1)]), true),
        (list(&[(5, 2), (7, 1)]), false),
        (list(&[(5, 3), (7, 1)]), false),
        (list(&[(5, 2), (5, 2)]), false),
        (list(&[(11, 5), (5, 5)]), false),
        // the end of the data, and the slack behind it
        (list(&[(11, 6)]), false),
        (list(&[(15, 1)]), true),
        (list(&[(15, 2)]), false),
        (list(&[(16, 1)]), false),
        (list(&[(16, 4)]), false),
        (list(&[(20, 1)]), false),
        // ends that are 2^32 or more
        (list(&[(5, 4_294_967_291)]), false),
        (list(&[(5, 4_294_967_295)]), false),
        (list(&[(4_294_967_295, 1)]), false),
        (list(&[(4_294_967_295, 7)]), false),
        // a byte that is not zero: first, last, inside, alone
        (list(&[(4, 2)]), false),
        (list(&[(9, 2)]), false),
        (list(&[(9, 3)]), false),
        (list(&[(10, 1)]), false),
        (list(&[(0, 1)]), false),
        // behind the rows
        (with_byte(&[], 4, 1), false),
        (with_byte(&[(5, 5)], 12, 1), false),
        (with_byte(&[(5, 5)], 2_051, 1), false),
    ] {
        let mut slot = Slot {
            list,
            ..slot.clone()
        };
        let before = slot.clone();
        let mut reply = [9; 5];
        for (request, number) in [
            (reads(&[(0, 1)]), 0),
            (write(&[], None), 0),
            (cancel(1), 9),
            (reads(&[(-18, 1)]), 4),
            (vec![6], 3),
            (Vec::new(), 3),
            (vec![1; 65_537], 3),
        ] {
            let number = if good { number } else { 16 };
            assert_eq!(slot.apply(&request, &mut reply).0, number);
            assert_eq!(slot, before);
            if !good {
                assert_eq!((slot.read(&request, &mut reply), reply), ((16, 0), [9; 5]));
            }
        }
    }
}

/// A zero and a letter in turn, 256 of each, with a row for so many of the zeros.
fn comb(rows: u32) -> Slot {
    let rows: Vec<Row> = (0..rows).map(|row| (2 * row, 1)).collect();
    Slot::holding(&b"\0A".repeat(256), &rows)
}

#[test]
fn row_256_and_row_257() {
    let gaps: Vec<Write> = (0..16).map(|gap| (513 + 2 * gap, &b"G"[..])).collect();
    let fill: Write = (0, b"F");
    for (rows, writes, cut, after) in [
        (255, &gaps[..1], None, Some(256)),
        (256, &gaps[..1], None, None),
        (255, &gaps[..2], None, None),
        (240, &gaps, None, Some(256)),
        (241, &gaps, None, None),
        (256, &[append_of(b"A")], None, Some(256)),
        // 257 on the way
        (256, &[gaps[0], fill], None, Some(256)),
        (256, &[fill, gaps[0]], None, Some(256)),
        (256, &gaps, Some(512), Some(256)),
        (256, &gaps, Some(100), Some(50)),
        (256, &gaps[..1], Some(513), None),
        (256, &[(2_147_483_647, b"G")], Some(512), Some(256)),
        (256, &[(2_147_483_647, b"G")], Some(513), None),
    ] {
        let mut slot = comb(rows);
        let before = slot.clone();
        match after {
            Some(count) => {
                slot.done(&write(writes, cut));
                assert_eq!(slot.rows().len(), count);
            }
            None => {
                assert_eq!(slot.number(&write(writes, cut)), 13);
                assert_eq!(slot, before);
            }
        }
    }
}

fn append_of(data: &[u8]) -> Write<'_> {
    (-1, data)
}

/// A list counts the longest stretches: a gap behind the last row makes it longer, and a write inside it makes it two.
#[test]
fn row_257_by_a_split() {
    let mut rows: Vec<Row> = (0..256).map(|row| (2 * row, 1)).collect();
    rows[255].1 = 3;
    let data = [&b"\0A".repeat(255)[..], &[0; 3]].concat();
    for (writes, after) in [
        (&[(514, &b"G"[..])][..], Some(256)),
        (&[(511, b"G")], None),
        (&[(510, b"G")], Some(256)),
        (&[(510, b"GGG")], Some(255)),
        (&[(511, b"G"), (0, b"F")], Some(256)),
        (&[(511, b"G"), (512, b"G")], Some(256)),
    ] {
        let mut slot = Slot::holding(&data, &rows);
        let number = slot.number(&write(writes, None));
        let count = (number == 0).then(|| slot.rows().len());
        assert_eq!(
            (count, number == 13),
            (after, after.is_none()),
            "{writes:?}"
        );
    }
}

/// From a fresh container: sixteen requests of sixteen writes fill the list, and the next one is refused.
#[test]
fn a_history_up_to_row_257() {
    let mut slot = Slot::fresh(1_100);
    for request in 0..16 {
        let writes = (0..16).map(|gap| (2 * (16 * request + gap) + 1, &b"A"[..]));
        slot.done(&write(&writes.collect::<Vec<_>>(), None));
        assert_eq!(slot.rows().len(), 16 * (request as usize + 1));
    }
    assert_eq!(slot.list[..4], [0, 0, 1, 0]);
    assert_eq!(slot.list[LENGTH - 8..], [0, 0, 1, 0xFE, 0, 0, 0, 1]);
    let before = slot.clone();
    assert_eq!(slot.number(&write(&[(513, b"A")], None)), 13);
    assert_eq!(slot, before);
    slot.done(&append(b"A"));
    slot.done(&add(1));
    assert_eq!(slot.list, before.list);
}

/// On 13 the tests have held, and still the reply space stays.
#[test]
fn the_answer_on_13() {
    let mut slot = comb(256);
    let before = slot.clone();
    let gap: Write = (513, b"G");
    let holds = test_and_write(&[(0, 2, 3, b"\0A")], &[gap], None);
    let fails = test_and_write(&[(0, 2, 4, b"\0A")], &[gap], None);
    let mut reply = [9; 7];
    assert_eq!((slot.apply(&holds, &mut reply), reply), ((13, 0), [9; 7]));
    assert_eq!(
        (slot.apply(&holds, &mut reply[..5]), reply),
        ((7, 0), [9; 7])
    );
    assert_eq!(slot.apply(&fails, &mut reply), (8, 6));
    assert_eq!(reply, *b"\0\0\0\x02\0A\x09");
    assert_eq!(slot, before);
}

/// 1, 2, 16, then 3 and so on, 13 last.
#[test]
fn the_order_of_outcomes() {
    let gap: Write = (513, b"G");
    let too_far: Write = (2_000, b"G");
    let thirteen = write(&[gap], None);
    let mut other_enabler = thirteen.clone();
    other_enabler[8] ^= 1;
    let mut other_enabler_too_far = write(&[gap, too_far], None);
    other_enabler_too_far[8] ^= 1;
    let holds = (0, 2, 3, &b"\0A"[..]);
    let fails = (0, 2, 4, &b"\0A"[..]);
    let requests = [
        (thirteen.clone(), 13),
        (write(&[gap, too_far], None), 11),
        (test_and_write(&[holds], &[gap], None), 7),
        (test_and_write(&[(9, 0, 4, b"")], &[gap], None), 7),
        (other_enabler, 5),
        (other_enabler_too_far, 5),
        (write(&[gap, (-600, b"G")], None), 4),
        (thirteen[..thirteen.len() - 1].to_vec(), 3),
        (add(1), 0),
        (cancel(1), 9),
        (reads(&[(0, 1)]), 7),
        (reads(&[(-600, 1)]), 4),
        (vec![2; 93], 0),
        (vec![9], 3),
        (Vec::new(), 3),
    ];
    for (request, number) in requests {
        let good = comb(256);
        assert_eq!(good.clone().number(&request), number);
        let mut bad_list = good.clone();
        bad_list.list[3] = 1;
        let mut bad_both = bad_list.clone();
        bad_both.container[0] ^= 1;
        let mut bad_length = bad_both.clone();
        bad_length.container.truncate(471);
        for (mut slot, number) in [(bad_list, 16), (bad_both, 2), (bad_length, 1)] {
            let before = slot.clone();
            assert_eq!(slot.apply(&request, &mut [9; 9]), (number, 0));
            assert_eq!(slot.read(&request, &mut [9; 9]), (number, 0));
            assert_eq!(slot, before);
        }
    }
    let mut space = [0; 6];
    let request = test_and_write(&[fails], &[gap, too_far], None);
    assert_eq!(comb(256).apply(&request, &mut space), (8, 6));
}

/// Only a test-and-write that is done changes the list; one that says nothing of any byte leaves it too.
#[test]
fn what_leaves_the_list() {
    let mut slot = Slot::holding(b"A\0\0B", &[(1, 2)]);
    let mut other_enabler = write(&[(1, b"Z")], None);
    other_enabler[8] ^= 1;
    let renew = |owner: u8| [&[3][..], &[owner; 32], &[0, 0, 0, 9]].concat();
    for (request, number) in [
        (add(1), 0),
        (add(1), 0),
        (renew(1), 0),
        (renew(2), 9),
        (cancel(2), 9),
        (cancel(1), 0),
        (reads(&[]), 0),
        (reads(&[(0, 4)]), 7),
        (reads(&[(-6, 1)]), 4),
        (write(&[], None), 0),
        (write(&[(1, b"")], Some(4)), 0),
        (write(&[(9, b"")], Some(9)), 0),
        (write(&[(1, b"Z"), (-6, b"Z")], None), 4),
        (other_enabler, 5),
        (test_and_write(&[(0, 1, 3, b"A")], &[(1, b"Z")], None), 7),
        (write(&[(1, b"Z"), (900, b"Z")], None), 11),
        (vec![0], 3),
    ] {
        assert_eq!(slot.number(&request), number);
        assert_eq!(slot.rows(), [(1, 2)]);
        assert_eq!(slot.data(), b"A\0\0B");
    }
    let mut reply = [9; 7];
    let fails = test_and_write(&[(0, 2, 4, b"A\0")], &[(1, b"Z")], None);
    assert_eq!(
        (slot.apply(&fails, &mut reply), reply),
        ((8, 6), *b"\0\0\0\x02A\0\x09")
    );
    assert_eq!(slot.rows(), [(1, 2)]);
}

/// Lent for reading only: a read is answered, and all else as the empty request.
#[test]
fn reading_beside_a_list() {
    let slot = Slot::holding(b"A\0\0B", &[(1, 2)]);
    let mut reply = [9; 8];
    assert_eq!(slot.read(&reads(&[(1, 2)]), &mut reply), (0, 6));
    assert_eq!(reply, [0, 0, 0, 2, 0, 0, 9, 9]);
    for (request, number) in [
        (reads(&[]), 0),
        (reads(&[(0, 9)]), 7),
        (reads(&[(-6, 9)]), 4),
        (reads(&[(0, 1)])[..11].to_vec(), 3),
        (write(&[(0, b"Z")], None), 3),
        (write(&[], None), 3),
        (add(1), 3),
        (cancel(1), 3),
        (vec![6], 3),
        (Vec::new(), 3),
    ] {
        let mut reply = [9; 7];
        assert_eq!(
            (slot.read(&request, &mut reply), reply),
            ((number, 0), [9; 7])
        );
    }
}

/// The longest container: all of it but the last byte is one row, and a row may end there and no byte further.
#[test]
fn rows_of_the_longest() {
    const LONGEST: usize = 16_777_216;
    let mut slot = Slot::fresh(LONGEST);
    slot.done(&write(&[(16_776_743, b"Z")], None));
    assert_eq!(
        slot.list[..12],
        [0, 0, 0, 1, 0, 0, 0, 0, 0, 0xFF, 0xFE, 0x27]
    );
    assert_eq!(slot.rows(), [(0, 16_776_743)]);
    let mut a_byte_more = slot.clone();
    a_byte_more.list[11] += 1;
    assert_eq!(a_byte_more.number(&reads(&[])), 16);
    slot.done(&write(&[(-2, b"\0"), (8_000_000, b"Z")], None));
    assert_eq!(slot.rows(), [(0, 8_000_000), (8_000_001, 8_776_742)]);
    slot.done(&write(&[(2_147_483_647, b"Z")], Some(9_000_000)));
    assert_eq!(slot.rows(), [(0, 8_000_000), (8_000_001, 999_999)]);
}

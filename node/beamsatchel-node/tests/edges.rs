//! Numbers at the edges, those of docs/RULES.md, with the bytes that it gives.

mod common;

use beamsatchel_model as model;
use beamsatchel_node::ffi::{self, EditionArguments, ShareArguments};
use common::raw::{add, append, cancel, reads, test_and_write, write, Write, ENABLER, NODE};
use std::sync::LazyLock;

/// Applies a request by the library and by the model, which must agree.
fn apply(container: &mut [u8], request: &[u8], reply: &mut [u8]) -> (u32, u64) {
    let (mut by_model, mut reply_by_model) = (container.to_vec(), reply.to_vec());
    let answer = ffi::apply(container, request, reply);
    let modelled = model::apply(&mut by_model, request, &mut reply_by_model);
    assert_eq!(
        (answer.number, answer.count),
        (modelled.number, modelled.count)
    );
    assert_eq!((answer.node, &*container), (modelled.node, &by_model[..]));
    assert_eq!(reply, reply_by_model);
    (answer.number, answer.count)
}

fn fresh(length: usize) -> Vec<u8> {
    let mut container = vec![0x55; length];
    let answer = ffi::create(&mut container, &NODE, &ENABLER);
    assert_eq!(answer.number, 0);
    container
}

/// A kind 1 request with one test of up to ten bytes at 0, and one write at 0.
fn test(opcode: u8, specimen: &[u8], data: &[u8]) -> Vec<u8> {
    test_and_write(&[(0, 10, opcode, specimen)], &[(0, data)], None)
}

fn number(container: &mut [u8], request: &[u8]) -> u32 {
    apply(container, request, &mut []).0
}

/// The size field, or the offset field.
fn field(container: &[u8], at: usize) -> usize {
    u64::from_be_bytes(container[at..at + 8].try_into().unwrap()) as usize
}

fn data(container: &[u8]) -> &[u8] {
    &container[468..468 + field(container, 84)]
}

fn used(container: &[u8]) -> usize {
    let count = field(container, 92);
    let extras = u32::from_be_bytes(container[count..count + 4].try_into().unwrap());
    count + 4 + 92 * extras as usize
}

/// A container of so many bytes with this data, so many bytes of slack, and no lease.
fn with_data(length: usize, data: &[u8], slack: usize) -> Vec<u8> {
    let mut container = fresh(length);
    let longer = [data, &vec![b'Z'; slack]].concat();
    assert_eq!(number(&mut container, &write(&[(0, &longer)], None)), 0);
    let cut = write(&[], Some(data.len() as u32));
    assert_eq!(number(&mut container, &cut), 0);
    assert_eq!(field(&container, 92), 468 + data.len() + slack);
    container
}

#[test]
fn p1_buffer_lengths() {
    for (length, number) in [(471, 1), (472, 0), (16_777_216, 0), (16_777_217, 1)] {
        assert_eq!(
            ffi::create(&mut vec![0; length], &NODE, &ENABLER).number,
            number
        );
    }
}

/// The most bytes of a container's buffer.
const LONGEST: usize = 16_777_216;

#[test]
fn p35_containers_may_be_longer_than_requests() {
    for length in [65_537, LONGEST] {
        let mut container = fresh(length);
        assert_eq!((field(&container, 84), used(&container)), (0, 472));
        assert_eq!(apply(&mut container, &[5, 0, 0, 0], &mut []), (0, 0));
    }
}

/// The data of a container of which nobody wrote all but the last byte.
fn is_one_behind_zeros(container: &[u8], size: usize) -> bool {
    let data = &container[468..468 + field(container, 84)];
    let (last, zeros) = data.split_last().expect("some data");
    data.len() == size && *last == 65 && zeros.iter().all(|byte| *byte == 0)
}

#[test]
fn p36_a_byte_at_the_last_place_of_the_longest() {
    let mut container = fresh(LONGEST);
    assert_eq!(
        number(&mut container, &write(&[(16_776_744, b"A")], None)),
        11
    );
    assert_eq!((field(&container, 84), used(&container)), (0, 472));
    assert_eq!(
        number(&mut container, &write(&[(16_776_743, b"A")], None)),
        0
    );
    assert!(is_one_behind_zeros(&container, 16_776_744));
    assert_eq!(used(&container), LONGEST);
}

#[test]
fn p37_an_extra_lease_goes_to_the_end_of_the_longest() {
    let mut container = fresh(LONGEST);
    let mut lengths = vec![used(&container)];
    for owner in 1..=5 {
        assert_eq!(number(&mut container, &add(owner)), 0);
        lengths.push(used(&container));
    }
    assert_eq!(lengths, [472, 472, 472, 472, 472, 564]);
    assert_eq!(
        number(&mut container, &write(&[(16_776_652, b"A")], None)),
        11
    );
    assert_eq!((field(&container, 84), used(&container)), (0, 564));
    assert_eq!(
        number(&mut container, &write(&[(16_776_651, b"A")], None)),
        0
    );
    assert!(is_one_behind_zeros(&container, 16_776_652));
    assert_eq!(used(&container), LONGEST);
    assert_eq!(container[LONGEST - 92..], add(5)[1..]);
}

/// Whatever its bytes are; those of the second are a test-and-write's, with every sum right.
#[test]
fn p38_requests_stay_short() {
    let mut container = fresh(LONGEST);
    let longest = write(&[(0, &[b'A'; 65_536 - 48])], None);
    let longer = write(&[(0, &[b'A'; 65_537 - 48])], None);
    assert_eq!((longest.len(), longer.len()), (65_536, 65_537));
    assert_eq!(number(&mut container, &[0xFF; 65_537]), 3);
    assert_eq!(number(&mut container, &longer), 3);
    assert_eq!((field(&container, 84), used(&container)), (0, 472));
    assert_eq!(number(&mut container, &longest), 0);
    assert_eq!(data(&container), [b'A'; 65_488]);
    assert_eq!(used(&container), 65_960);
}

#[test]
fn a_fresh_container() {
    let container = fresh(500);
    assert_eq!(
        &container[..32],
        b"tahoe mutable container v1\x0A\x75\x09\x44\x03\x8E"
    );
    assert_eq!(
        (&container[32..52], &container[52..84]),
        (&NODE[..], &ENABLER[..])
    );
    assert_eq!(
        container[84..100],
        [0, 0, 0, 0, 0, 0, 0, 0, 0, 0, 0, 0, 0, 0, 1, 0xD4]
    );
    assert!(container[100..].iter().all(|byte| *byte == 0));
}

#[test]
fn p2_one_byte_of_room() {
    assert_eq!(number(&mut fresh(472), &write(&[(0, b"A")], None)), 11);
    assert_eq!(number(&mut fresh(473), &write(&[(0, b"A")], None)), 0);
    assert_eq!(number(&mut fresh(473), &write(&[(0, b"AB")], None)), 11);
}

#[test]
fn p3_and_p4_zeros_in_gaps_and_after_a_cut() {
    let mut container = fresh(500);
    assert_eq!(used(&container), 472);
    assert_eq!(number(&mut container, &write(&[(3, b"AB")], None)), 0);
    assert_eq!(data(&container), [0, 0, 0, 0x41, 0x42]);
    assert_eq!(used(&container), 477);

    assert_eq!(number(&mut container, &write(&[], Some(2))), 0);
    assert_eq!(data(&container), [0, 0]);
    assert_eq!(used(&container), 477);
    assert_eq!(number(&mut container, &write(&[(4, b"Z")], None)), 0);
    assert_eq!(data(&container), [0, 0, 0, 0, 0x5A]);
    assert_eq!(used(&container), 477);
}

#[test]
fn p5_writes_run_in_order() {
    let long: Write = (0, b"AAAA");
    let short: Write = (2, b"BB");
    for (writes, result) in [([long, short], b"AABB"), ([short, long], b"AAAA")] {
        let mut container = fresh(500);
        assert_eq!(number(&mut container, &write(&writes, None)), 0);
        assert_eq!(data(&container), result);
    }
}

#[test]
fn p6_room_is_judged_on_the_final_size() {
    let request = write(&[(2_147_483_647, b"A")], Some(10));
    let mut container = fresh(482);
    assert_eq!(number(&mut container, &request), 0);
    assert_eq!(data(&container), [0; 10]);
    assert_eq!(number(&mut fresh(481), &request), 11);
}

#[test]
fn p7_a_fifth_lease() {
    for (length, fifth) in [(563, 11), (564, 0)] {
        let mut container = fresh(length);
        for lease in 1..=4 {
            assert_eq!(
                apply(&mut container, &add(lease), &mut []),
                (0, u64::from(lease))
            );
        }
        assert_eq!(number(&mut container, &add(5)), fifth);
    }
}

#[test]
fn p8_a_prefix_is_less() {
    let mut container = fresh(500);
    let mut space = [0; 14];
    // eq with an empty specimen holds on empty data; it then writes `A`.
    assert_eq!(apply(&mut container, &test(3, b"", b"A"), &mut space).0, 0);
    // `A` is lt `AB`, and `B` is not less than `AA`.
    assert_eq!(
        apply(&mut container, &test(1, b"AB", b"B"), &mut space).0,
        0
    );
    assert_eq!(
        apply(&mut container, &test(1, b"AA", b"C"), &mut space).0,
        8
    );
    assert_eq!(
        (&space[..5], data(&container)),
        (&b"\0\0\0\x01B"[..], &b"B"[..])
    );
}

#[test]
fn p9_a_false_test_comes_before_no_room() {
    let mut container = fresh(472);
    assert_eq!(
        apply(&mut container, &test(4, b"", b"A"), &mut [0; 4]),
        (8, 4)
    );
    assert_eq!(
        apply(&mut container, &test(3, b"", b"A"), &mut [0; 4]),
        (11, 0)
    );
}

#[test]
fn p10_a_zero_token_matches_no_empty_lease() {
    assert_eq!(number(&mut fresh(472), &cancel(0)), 9);
}

#[test]
fn the_whole_request() {
    let mut request = vec![1, 1, 1, 0, 0, 0, 0, 0];
    request.extend([0xEE; 32]);
    request.extend([0, 0, 0, 0, 0, 0, 0, 1, 3, 0, 0, 0]);
    request.extend([0, 0, 0, 3, 0, 0, 0, 2]);
    request.extend([0x41, 0x42]);
    assert_eq!(request.len(), 62);
    let mut container = fresh(500);
    let mut reply = [0xFF; 6];
    assert_eq!(apply(&mut container, &request, &mut reply), (0, 4));
    assert_eq!(reply, [0, 0, 0, 0, 0xFF, 0xFF]);
    assert_eq!(data(&container), [0, 0, 0, 0x41, 0x42]);
}

/// What a request gives on `ABCDE`, beside so many bytes 9: number, count and reply space.
fn seen(request: &[u8], space: usize) -> (u32, u64, Vec<u8>) {
    let before = with_data(500, b"ABCDE", 0);
    let mut container = before.clone();
    let mut reply = vec![9; space];
    let (number, count) = apply(&mut container, request, &mut reply);
    assert_eq!(container, before);
    (number, count, reply)
}

#[test]
fn p13_reads_and_tests_stop_at_the_end() {
    let across = (0, 6, b"\0\0\0\x02DE".to_vec());
    assert_eq!(seen(&reads(&[(3, 4)]), 6), across);
    assert_eq!(seen(&reads(&[(3, 2)]), 6), across);
    let test = test_and_write(&[(3, 4, 3, b"DE")], &[], None);
    assert_eq!(seen(&test, 6), across);
    let nothing = (0, 4, vec![0, 0, 0, 0, 9, 9]);
    for read in [(5, 1), (6, 1), (5, 0), (6, 0)] {
        assert_eq!(seen(&reads(&[read]), 6), nothing);
    }
}

#[test]
fn p14_the_greatest_length_and_offset() {
    let all = (0, 9, b"\0\0\0\x05ABCDE".to_vec());
    assert_eq!(seen(&reads(&[(0, 4_294_967_295)]), 9), all);
    for length in [1, 4_294_967_295] {
        assert_eq!(
            seen(&reads(&[(2_147_483_647, length)]), 4),
            (0, 4, vec![0; 4])
        );
    }
}

#[test]
fn p15_reply_space_holds_the_short_pieces() {
    let request = reads(&[(3, 4), (9, 9), (0, 2)]);
    let pieces = b"\0\0\0\x02\0\0\0\0\0\0\0\x02DEAB".to_vec();
    assert_eq!(seen(&request, 16), (0, 16, pieces));
    assert_eq!(seen(&request, 15), (7, 0, vec![9; 15]));
}

/// A refusal with 4 beside so many bytes.
fn before_the_start(space: usize) -> (u32, u64, Vec<u8>) {
    (4, 0, vec![9; space])
}

#[test]
fn p16_an_offset_before_the_start_comes_first() {
    assert_eq!(seen(&reads(&[(-7, 1)]), 6), before_the_start(6));
    for space in [10, 0] {
        let request = reads(&[(0, 1), (-7, 1)]);
        assert_eq!(seen(&request, space), before_the_start(space));
    }
}

#[test]
fn p39_reads_and_tests_from_the_end() {
    let nothing = |space: usize| (0, 4, [&[0; 4][..], &vec![9; space - 4]].concat());
    let all = (0, 9, b"\0\0\0\x05ABCDE".to_vec());
    assert_eq!(seen(&reads(&[(-1, 10)]), 6), nothing(6));
    let last_four = (0, 8, b"\0\0\0\x04BCDE".to_vec());
    assert_eq!(seen(&reads(&[(-5, 10)]), 8), last_four);
    assert_eq!(seen(&reads(&[(-6, 10)]), 9), all);
    for read in [(-7, 10), (-7, 0), (-2_147_483_648, 1)] {
        assert_eq!(seen(&reads(&[read]), 9), before_the_start(9));
    }
    let eq = |offset, length, specimen| test_and_write(&[(offset, length, 3, specimen)], &[], None);
    for length in [0, 5] {
        assert_eq!(seen(&eq(-1, length, b""), 4), nothing(4));
    }
    assert_eq!(seen(&eq(-6, 5, b"ABCDE"), 9), all);
    assert_eq!(seen(&eq(-7, 0, b""), 4), before_the_start(4));
    // Tests are resolved before any write, and so is their piece.
    let request = test_and_write(&[(-6, 5, 3, b"ABCDE")], &[(-1, b"X")], None);
    let mut container = with_data(500, b"ABCDE", 0);
    let mut reply = [9; 9];
    assert_eq!(apply(&mut container, &request, &mut reply), (0, 9));
    assert_eq!((&reply[..], data(&container)), (&all.2[..], &b"ABCDEX"[..]));
    let request = test_and_write(&[(-7, 0, 3, b"")], &[(-1, b"X")], None);
    assert_eq!(seen(&request, 4), before_the_start(4));
}

/// What requests without tests leave, one after the other in a fresh container of so many bytes: the last one's number,
/// and the data. Those before it are done.
fn left(length: usize, requests: &[(&[Write], Option<u32>)]) -> (u32, Vec<u8>) {
    let mut container = fresh(length);
    let numbers = requests.iter().map(|(writes, cut)| {
        let request = write(writes, *cut);
        number(&mut container, &request)
    });
    let numbers: Vec<u32> = numbers.collect();
    let (last, before) = numbers.split_last().expect("a request");
    assert!(before.iter().all(|number| *number == 0));
    (*last, data(&container).to_vec())
}

#[test]
fn p40_appends() {
    for (writes, number, data) in [
        (&[(-1, &b"AB"[..])][..], 0, &b"AB"[..]),
        (&[(-1, b"AB"), (-1, b"CD")], 0, b"ABCD"),
        (&[(-1, b"AB"), (-2, b"C")], 0, b"AC"),
        (&[(-2, b"X")], 4, b""),
        (&[(-2, b"")], 4, b""),
        (&[(-1, b"")], 0, b""),
        // Empty writes do not count, and gaps do.
        (&[(9, b""), (-1, b"A")], 0, b"A"),
        (&[(3, b"A"), (-1, b"B")], 0, b"\0\0\0AB"),
        (&[(3, b"A"), (-5, b"B")], 0, b"B\0\0A"),
        (&[(3, b"A"), (-6, b"B")], 4, b""),
    ] {
        assert_eq!(left(500, &[(writes, None)]), (number, data.to_vec()));
    }
    let two: [(&[Write], _); 2] = [(&[(-1, b"AB")], None), (&[(-1, b"CD")], None)];
    assert_eq!(left(500, &two), (0, b"ABCD".to_vec()));
    let over_the_first: [(&[Write], _); 2] =
        [(&[(-1, b"ABCDE")], None), (&[(-1, b"F"), (-7, b"X")], None)];
    assert_eq!(left(500, &over_the_first), (0, b"XBCDEF".to_vec()));
}

#[test]
fn p41_appends_and_room() {
    assert_eq!(number(&mut fresh(473), &append(b"A")), 0);
    assert_eq!(number(&mut fresh(473), &append(b"AB")), 11);
    let abcde: (&[Write], _) = (&[(0, b"ABCDE")], None);
    let behind_a_cut = left(500, &[abcde, (&[], Some(2)), (&[(-1, b"Z")], None)]);
    assert_eq!(behind_a_cut, (0, b"ABZ".to_vec()));
    let before_a_cut = left(500, &[abcde, (&[(-1, b"Z")], Some(2))]);
    assert_eq!(before_a_cut, (0, b"AB".to_vec()));
    let inside_a_cut = left(500, &[abcde, (&[(-5, b"Z")], Some(2))]);
    assert_eq!(inside_a_cut, (0, b"AZ".to_vec()));
}

/// On what the cut leaves, the first would go to byte 0, and the others would be before the start.
#[test]
fn a_write_does_not_count_from_the_cut() {
    let abcde: (&[Write], _) = (&[(0, b"ABCDE")], None);
    for (offset, cut, data) in [(-4, 3, &b"ABZ"[..]), (-6, 3, b"ZBC"), (-6, 0, b"")] {
        let after = left(500, &[abcde, (&[(offset, b"Z")], Some(cut))]);
        assert_eq!(after, (0, data.to_vec()));
    }
}

#[test]
fn p42_behind_a_far_write() {
    let writes: &[Write] = &[(2_147_483_647, b"A"), (-1, b"B")];
    assert_eq!(left(482, &[(writes, Some(10))]), (0, vec![0; 10]));
    assert_eq!(left(481, &[(writes, Some(10))]), (11, vec![]));
}

#[test]
fn p43_the_lowest_offset() {
    const LOWEST: i32 = -2_147_483_648;
    let to_ten = |data: &[u8]| [data, &vec![0; 10 - data.len()]].concat();
    for (writes, number, data) in [
        (
            &[(2_147_483_646, &b"A"[..]), (LOWEST, b"B")][..],
            0,
            to_ten(b"B"),
        ),
        (&[(2_147_483_647, b"A"), (LOWEST, b"B")], 0, to_ten(b"\0B")),
        (&[(2_147_483_645, b"A"), (LOWEST, b"B")], 4, vec![]),
        (
            &[(2_147_483_647, b"A"), (LOWEST, b""), (LOWEST, b"B")],
            0,
            to_ten(b"\0B"),
        ),
        (&[(2_147_483_647, b""), (LOWEST, b"B")], 4, vec![]),
    ] {
        assert_eq!(left(482, &[(writes, Some(10))]), (number, data));
    }
}

#[test]
fn p44_before_the_start_comes_after_the_format_alone() {
    let before: Write = (-7, b"X");
    let mut other_enabler = write(&[before], None);
    other_enabler[8..40].fill(1);
    assert_eq!(seen(&other_enabler, 4), before_the_start(4));
    let tested = test_and_write(&[(-7, 5, 3, b"ABCDE")], &[], None);
    assert_eq!(seen(&tested, 0), before_the_start(0));
    let falsely = test_and_write(&[(0, 1, 3, b"")], &[before], None);
    assert_eq!(seen(&falsely, 5), before_the_start(5));
    // Without the second write, and where that names byte 0, there is no room.
    let grown = [b'F'; 24];
    let no_room = |offset: i32| write(&[(5, &grown), (offset, b"")], None);
    assert_eq!(seen(&no_room(-31), 4), before_the_start(4));
    assert_eq!(seen(&no_room(-30), 4), (11, 0, vec![9; 4]));
    let broken = test_and_write(&[(-7, 0, 7, b"")], &[], None);
    assert_eq!(seen(&broken, 4), (3, 0, vec![9; 4]));
    for request in [write(&[before], None), reads(&[(-7, 1)])] {
        let broken = [&request[..], &[0]].concat();
        assert_eq!(seen(&broken, 0), (3, 0, vec![]));
    }
    // It is not before the start of what the write before it leaves.
    let mut container = with_data(500, b"ABCDE", 0);
    let behind = write(&[(5, b"F"), before], None);
    assert_eq!(number(&mut container, &behind), 0);
    assert_eq!(data(&container), b"XBCDEF");
}

/// `ABCDE` with so many bytes of slack, and the leases of owners 1 to 5.
fn with_five_leases(length: usize, slack: usize) -> Vec<u8> {
    let mut container = with_data(length, b"ABCDE", slack);
    for owner in 1..=5 {
        assert_eq!(number(&mut container, &add(owner)), 0);
    }
    container
}

/// What a request touches in a container: its number, and the places of the bytes that differ
/// afterwards.
fn touched_in(before: &[u8], request: &[u8]) -> (u32, Vec<usize>) {
    let mut container = before.to_vec();
    let number = number(&mut container, request);
    let changed = (0..before.len()).filter(|place| before[*place] != container[*place]);
    (number, changed.collect())
}

/// What a request touches on `ABCDE` with five leases in 571 bytes.
fn touched(request: &[u8]) -> (u32, Vec<usize>) {
    touched_in(&with_five_leases(571, 0), request)
}

#[test]
fn p17_inside_the_data_only_written_bytes_change() {
    assert_eq!(touched(&write(&[(1, b"XY")], None)), (0, vec![469, 470]));
    assert_eq!(touched(&write(&[(3, b"XY")], None)), (0, vec![471, 472]));
    let apart = write(&[(0, b"X"), (2, b"Y")], None);
    assert_eq!(touched(&apart), (0, vec![468, 470]));
    assert_eq!(touched(&write(&[(1, b"BC")], None)), (0, vec![]));
}

#[test]
fn p18_a_write_past_the_end_moves_the_extra_lease() {
    assert_eq!(
        touched(&write(&[(5, b"F")], None)),
        (0, vec![91, 99, 473, 476, 477, 480, 481, 484, 485, 549, 569])
    );
    assert_eq!(
        touched(&write(&[(4, b"XF")], None)),
        (
            0,
            vec![91, 99, 472, 473, 476, 477, 480, 481, 484, 485, 549, 569]
        )
    );
    let mut past = vec![
        91, 99, 474, 476, 478, 480, 482, 484, 485, 486, 549, 550, 569, 570,
    ];
    assert_eq!(touched(&write(&[(6, b"G")], None)), (0, past.clone()));
    past.insert(2, 473);
    assert_eq!(touched(&write(&[(6, b"G"), (5, b"F")], None)), (0, past));
}

#[test]
fn p19_a_cut_leaves_it_where_it_is() {
    assert_eq!(touched(&write(&[], Some(4))), (0, vec![91, 472]));
    assert_eq!(
        touched(&write(&[], Some(0))),
        (0, vec![91, 468, 469, 470, 471, 472])
    );
    assert_eq!(touched(&write(&[], Some(5))), (0, vec![]));
}

#[test]
fn p20_what_is_cut_again_counts_for_nothing() {
    assert_eq!(
        touched(&write(&[(2, b"XYZ[")], Some(4))),
        (0, vec![91, 470, 471, 472])
    );
    assert_eq!(touched(&write(&[(9, b"X")], Some(5))), (0, vec![]));
    assert_eq!(touched(&write(&[(7, b"G")], None)), (11, vec![]));
}

/// What a request leaves: its number, the data, the slack and the used length.
type Left<'a> = (u32, &'a [u8], usize, usize);

/// Applies requests one after the other, each of which leaves what stands beside it.
fn leaves(container: &mut [u8], steps: &[(Vec<u8>, Left)]) {
    for (request, left) in steps {
        let number = number(container, request);
        let slack = field(container, 92) - 468 - field(container, 84);
        assert_eq!((number, data(container), slack, used(container)), *left);
    }
}

#[test]
fn p30_up_to_the_slacks_end_a_write_takes_no_room() {
    for (length, offset, bytes, left) in [
        (485, 5, &b"FG"[..], (0, &b"ABCDEFG"[..], 6, 485)),
        (485, 6, b"G", (0, b"ABCDE\0G", 6, 485)),
        (485, 5, &[b'F'; 8], (0, b"ABCDEFFFFFFFF", 0, 485)),
        (485, 5, &[b'F'; 9], (11, b"ABCDE", 8, 485)),
        (486, 5, &[b'F'; 9], (0, b"ABCDEFFFFFFFFF", 0, 486)),
        (486, 13, b"N", (0, b"ABCDE\0\0\0\0\0\0\0\0N", 0, 486)),
    ] {
        let mut container = with_data(length, b"ABCDE", 8);
        assert_eq!(used(&container), 485);
        leaves(&mut container, &[(write(&[(offset, bytes)], None), left)]);
    }
}

#[test]
fn p31_a_cut_leaves_slack() {
    for steps in [
        &[
            (write(&[], Some(2)), (0, &b"AB"[..], 11, 485)),
            (write(&[(4, b"Z")], None), (0, b"AB\0\0Z", 8, 485)),
        ][..],
        &[
            (write(&[], Some(5)), (0, b"ABCDE", 8, 485)),
            (write(&[], None), (0, b"ABCDE", 8, 485)),
        ],
        &[(write(&[(99, b"X")], Some(6)), (0, b"ABCDE\0", 7, 485))],
    ] {
        let mut container = with_data(485, b"ABCDE", 8);
        assert_eq!(used(&container), 485);
        leaves(&mut container, steps);
    }
}

#[test]
fn p32_a_fifth_lease_takes_no_slack() {
    for (length, fifth, end, then) in [
        (571, 11, 480, &[][..]),
        (
            572,
            0,
            572,
            &[
                (write(&[(0, b"AB")], None), (0, &b"AB"[..], 6, 572)),
                (cancel(5), (0, b"AB", 6, 480)),
            ],
        ),
    ] {
        let mut container = with_data(length, b"", 8);
        assert_eq!(used(&container), 480);
        for owner in 1..=4 {
            leaves(&mut container, &[(add(owner), (0, b"", 8, 480))]);
        }
        leaves(&mut container, &[(add(5), (fifth, b"", 8, end))]);
        // With the lease and without, the data has its room up to the slack's end.
        let all = write(&[(0, &[b'A'; 8])], None);
        leaves(&mut container.clone(), &[(all, (0, b"AAAAAAAA", 0, end))]);
        leaves(&mut container, then);
    }
}

#[test]
fn a_gap_where_count_and_extra_lease_stood_is_zero() {
    for slack in [0, 8] {
        let mut container = with_five_leases(800, slack);
        let (count, end) = (field(&container, 92), used(&container));
        let behind = container[count..end].to_vec();
        assert_eq!(number(&mut container, &write(&[(150, b"Z")], None)), 0);
        assert_eq!(data(&container)[..5], *b"ABCDE");
        assert_eq!(data(&container)[5..], [&[0; 145][..], b"Z"].concat());
        assert_eq!(field(&container, 92), 468 + 151);
        assert_eq!(container[619..used(&container)], behind);
    }
}

#[test]
fn a_cut_and_a_write_again() {
    let before = with_five_leases(571, 0);
    let mut container = before.clone();
    // The data that was cut, written again, is the container that was.
    assert_eq!(number(&mut container, &write(&[], Some(1))), 0);
    assert_eq!(data(&container), b"A");
    assert_eq!(container[469..473], [0; 4]);
    assert_eq!(container[473..], before[473..]);
    assert_eq!(number(&mut container, &write(&[(1, b"BCDE")], None)), 0);
    assert_eq!(container, before);
}

#[test]
fn lease_requests_leave_the_slack() {
    let before = with_five_leases(579, 8);
    let touched = |request: &[u8]| touched_in(&before, request);
    // The fifth lease stands from 485 on, its expiry from 489 on, and the count before it.
    let renew = [&[3][..], &[5; 32], &[0, 0, 0, 9]].concat();
    assert_eq!(touched(&renew), (0, vec![492]));
    let changed = [vec![484, 488], (492..577).collect()].concat();
    assert_eq!(touched(&cancel(5)), (0, changed));
    // Another place is emptied, and taken by another lease.
    let mut container = before.clone();
    assert_eq!(number(&mut container, &cancel(1)), 0);
    assert_eq!(number(&mut container, &add(6)), 0);
    assert_eq!(container[468..], before[468..]);
    assert_eq!(container[..100], before[..100]);
    // No room for a sixth one.
    assert_eq!(touched(&add(6)), (11, vec![]));
}

#[test]
fn slack_is_no_data() {
    let mut container = with_five_leases(579, 8);
    let mut space = [9; 10];
    let all = reads(&[(0, 13)]);
    assert_eq!(apply(&mut container, &all, &mut space), (0, 9));
    assert_eq!(space, *b"\0\0\0\x05ABCDE\x09");
    let behind = reads(&[(5, 8)]);
    assert_eq!(apply(&mut container, &behind, &mut space), (0, 4));
    // A test of the data and two bytes more: what is there is `ABCDE`.
    assert_eq!(
        apply(&mut container, &test(3, b"ABCDE\0\0", b""), &mut space),
        (8, 9)
    );
    assert_eq!(
        apply(&mut container, &test(3, b"ABCDE", b""), &mut space),
        (0, 9)
    );
}

/// The outcome of a request for nothing, which the functions that only look give too.
fn judged(container: &[u8]) -> u32 {
    let nothing = [5, 0, 0, 0];
    let number = number(&mut container.to_vec(), &nothing);
    assert_eq!(ffi::read(container, &nothing, &mut []).number, number);
    let refused = matches!(ffi::check_container(container).number, 1 | 2);
    assert_eq!(refused, number != 0);
    number
}

/// A container with other bytes at a place.
fn put(container: &[u8], at: usize, bytes: &[u8]) -> Vec<u8> {
    let mut container = container.to_vec();
    container[at..at + bytes.len()].copy_from_slice(bytes);
    container
}

#[test]
fn p33_offset_fields_and_slack_bytes() {
    let abcde = with_data(500, b"ABCDE", 0);
    for (offset, number) in [
        (472_u64, 2),
        (473, 0),
        (474, 0),
        (496, 0),
        (497, 2),
        (18_446_744_073_709_551_612, 2),
        (18_446_744_073_709_551_615, 2),
    ] {
        let bytes = put(&abcde, 92, &offset.to_be_bytes());
        assert_eq!(judged(&bytes), number, "{offset}");
    }
    // 468 plus this size wraps to 0.
    let size = 18_446_744_073_709_551_148_u64;
    assert_eq!(judged(&put(&abcde, 84, &size.to_be_bytes())), 2);
    // An extra lease up to the buffer's end, and up to a byte past it.
    assert_eq!(judged(&with_five_leases(571, 2)), 0);
    assert_eq!(judged(&with_five_leases(572, 3)[..571]), 2);
    let beside_slack = with_data(500, b"ABCDE", 8);
    assert_eq!(judged(&beside_slack), 0);
    for at in [473, 477, 480] {
        assert_eq!(judged(&put(&beside_slack, at, &[1])), 2, "{at}");
    }
}

/// A container with another offset field, and count and extras there, as far as they fit.
fn with_count_at(container: &[u8], offset: usize) -> Vec<u8> {
    let (count, end) = (field(container, 92), used(container));
    let mut bytes = container.to_vec();
    bytes[count..end].fill(0);
    let there = (end - count).min(bytes.len() - offset);
    bytes[offset..offset + there].copy_from_slice(&container[count..count + there]);
    put(&bytes, 92, &(offset as u64).to_be_bytes())
}

#[test]
fn the_count_stands_behind_the_data_or_further_on() {
    let without_extras = with_data(600, b"ABCDE", 0);
    let with_extra = with_five_leases(600, 0);
    for (container, last) in [(without_extras, 596), (with_extra, 504)] {
        for (offset, number) in [
            (472, 2),
            (473, 0),
            (474, 0),
            (475, 0),
            (480, 0),
            (last - 1, 0),
            (last, 0),
            (last + 1, 2),
            (last + 2, 2),
        ] {
            assert_eq!(
                judged(&with_count_at(&container, offset)),
                number,
                "{offset}"
            );
        }
        // Each byte of the slack counts.
        for offset in [474, 475, 480, last] {
            for at in 473..offset {
                let bytes = put(&with_count_at(&container, offset), at, &[1]);
                assert_eq!(judged(&bytes), 2, "{at} below {offset}");
            }
        }
    }
}

#[test]
fn fields_near_2_to_64_do_not_wrap() {
    let container = with_five_leases(579, 8);
    let with = |size: u64, offset: u64| {
        let fields = [size.to_be_bytes(), offset.to_be_bytes()].concat();
        put(&container, 84, &fields)
    };
    assert_eq!(judged(&with(5, 481)), 0);
    // 468 plus size wraps to 0, to 473 and to the offset itself; count and extras wrap to 0, to the
    // buffer's end, and not at all.
    let below_2_to_64 = |below: u64| 0_u64.wrapping_sub(below);
    for below in [
        1, 2, 3, 4, 5, 92, 95, 96, 97, 463, 467, 468, 469, 472, 473, 479, 481,
    ] {
        assert_eq!(judged(&with(below_2_to_64(below), 481)), 2);
        assert_eq!(judged(&with(5, below_2_to_64(below))), 2);
        assert_eq!(judged(&with(below_2_to_64(below), below_2_to_64(1))), 2);
        assert_eq!(
            judged(&with(
                below_2_to_64(below),
                below_2_to_64(below).wrapping_add(468)
            )),
            2
        );
    }
    // A sum that wraps ends where zeros stand up to the count.
    for container in [fresh(472), fresh(500), with_count_at(&fresh(500), 480)] {
        for below in 1..=468 {
            let size = below_2_to_64(below).to_be_bytes();
            assert_eq!(judged(&put(&container, 84, &size)), 2);
        }
    }
    for high in [1 << 16, 1 << 31, 1 << 32, 1 << 63] {
        assert_eq!(judged(&with(5 | high, 481)), 2);
        assert_eq!(judged(&with(5, 481 | high)), 2);
        assert_eq!(judged(&with(5 | high, 481 | high)), 2);
    }
}

#[test]
fn p34_beside_slack_only_a_write_past_it_moves_the_extra_lease() {
    let before = with_five_leases(573, 2);
    assert_eq!(used(&before), 571);
    let touched = |request: &[u8]| touched_in(&before, request);
    assert_eq!(touched(&write(&[(5, b"F")], None)), (0, vec![91, 473]));
    assert_eq!(touched(&write(&[(6, b"G")], None)), (0, vec![91, 474]));
    assert_eq!(
        touched(&write(&[(5, b"FG")], None)),
        (0, vec![91, 473, 474])
    );
    let mut past = vec![91, 99, 475, 478, 479, 482, 483, 486, 487, 551, 571];
    assert_eq!(touched(&write(&[(7, b"H")], None)), (0, past.clone()));
    past.splice(2..2, [473, 474]);
    assert_eq!(touched(&write(&[(5, b"FGH")], None)), (0, past));
    assert_eq!(touched(&write(&[(9, b"J")], None)), (11, vec![]));
    assert_eq!(touched(&write(&[], Some(4))), (0, vec![91, 472]));
    assert_eq!(
        touched(&write(&[], Some(0))),
        (0, vec![91, 468, 469, 470, 471, 472])
    );
    assert_eq!(touched(&write(&[(9, b"X")], Some(6))), (0, vec![91]));
    assert_eq!(touched(&write(&[(9, b"X")], Some(5))), (0, vec![]));
}

/// What a request touches beside slack of eight bytes, from 473 to 481, with two bytes of room.
fn touched_beside_slack(request: &[u8]) -> (u32, Vec<usize>) {
    touched_in(&with_five_leases(579, 8), request)
}

#[test]
fn beside_slack_a_write_from_inside_the_data_or_past_a_gap() {
    let touched = touched_beside_slack;
    assert_eq!(touched(&write(&[(1, b"XY")], None)), (0, vec![469, 470]));
    // Exactly to the slack's end.
    assert_eq!(
        touched(&write(&[(4, b"EFGHIJKLM")], None)),
        (0, vec![91, 473, 474, 475, 476, 477, 478, 479, 480])
    );
    // Across it: what moves are the bytes of P18, eight places on.
    assert_eq!(
        touched(&write(&[(11, b"LMN")], None)),
        (
            0,
            vec![91, 99, 479, 480, 481, 484, 485, 488, 489, 492, 493, 557, 577]
        )
    );
    // A byte past it, with all the room: the gap's last byte was the count's first, which is zero too.
    assert_eq!(
        touched(&write(&[(14, b"O")], None)),
        (
            0,
            vec![91, 99, 482, 484, 486, 488, 490, 492, 493, 494, 557, 558, 577, 578]
        )
    );
}

#[test]
fn beside_slack_what_is_cut_again_moves_nothing() {
    let touched = touched_beside_slack;
    assert_eq!(touched(&write(&[(20, b"X")], Some(4))), (0, vec![91, 472]));
    let filled = write(&[(0, &[b'X'; 60])], Some(13));
    let changed = [&[91][..], &(468..481).collect::<Vec<_>>()].concat();
    assert_eq!(touched(&filled), (0, changed));
    // A request without effect leaves the slack.
    for request in [
        write(&[], None),
        write(&[], Some(5)),
        write(&[], Some(6)),
        write(&[(9, b"")], None),
        write(&[(0, b"ABCDE")], None),
    ] {
        assert_eq!(touched(&request), (0, vec![]));
    }
}

#[test]
fn another_enabler_tells_the_node() {
    let mut request = write(&[], None);
    request[8] ^= 1;
    let answer = ffi::apply(&mut fresh(500), &request, &mut []);
    assert_eq!((answer.number, answer.node, answer.count), (5, NODE, 0));
}

/// The share of 2,043 bytes.
fn share() -> Vec<u8> {
    let mut share = vec![0; 2043];
    share[1..9].copy_from_slice(&1_u64.to_be_bytes());
    share[57..59].copy_from_slice(&[3, 10]);
    share[59..67].copy_from_slice(&12_u64.to_be_bytes());
    share[67..75].copy_from_slice(&10_u64.to_be_bytes());
    for (field, offset) in [(75, 399_u32), (79, 655), (83, 791), (87, 823)] {
        share[field..field + 4].copy_from_slice(&offset.to_be_bytes());
    }
    share[91..99].copy_from_slice(&827_u64.to_be_bytes());
    share[99..107].copy_from_slice(&2043_u64.to_be_bytes());
    for (entry, node) in [2_u16, 4, 8, 16].into_iter().enumerate() {
        share[655 + 34 * entry..][..2].copy_from_slice(&node.to_be_bytes());
    }
    share
}

#[test]
fn the_share() {
    let good = share();
    let checked = common::check_share(&good);
    assert_eq!((checked.number, checked.edition), (0, 0));
    assert_eq!(checked.bounds, [107, 399, 655, 791, 823, 827, 2043, 2043]);

    let mut segment = good.clone();
    segment[66] = 10;
    let mut node_number = good;
    node_number[655 + 34 + 1] = 31;
    for (share, number) in [(segment, 24), (node_number, 26)] {
        let checked = common::check_share(&share);
        assert_eq!((checked.number, checked.bounds), (number, [0; 8]));
    }
}

#[test]
fn the_share_in_a_container() {
    let mut container = fresh(4096);
    assert_eq!(number(&mut container, &write(&[(0, &share())], None)), 0);
    let share = beamsatchel_node::Share::in_container(&container).unwrap();
    let inside = &container[468..];
    let expected = [
        &inside[107..399],
        &inside[399..655],
        &inside[655..791],
        &inside[791..823],
        &inside[823..827],
        &inside[827..2043],
    ];
    // The very bytes of the container, not equal ones elsewhere.
    let ranges = share.parts().map(|(_, part)| part.as_ptr_range());
    assert!(ranges.eq(expected.map(<[u8]>::as_ptr_range)));

    // A byte after the share inside the data is not the share's end.
    assert_eq!(number(&mut container, &write(&[(2043, b"\0")], None)), 0);
    assert_eq!(ffi::check_container(&container).number, 25);
    // Cut away it is slack, which is no part of the share.
    assert_eq!(number(&mut container, &write(&[], Some(2043))), 0);
    assert_eq!(field(&container, 92), 468 + 2044);
    assert_eq!(ffi::check_container(&container).number, 0);
}

/// A hash chain with these node numbers, and hashes of bytes 4.
fn hash_chain(node_numbers: &[u16]) -> Vec<u8> {
    let entry = |number: &u16| [&number.to_be_bytes()[..], &[4; 32]].concat();
    node_numbers.iter().flat_map(entry).collect()
}

/// The share of P11 as numbers and parts, but for its hash chain.
fn p11(hash_chain: &[u8]) -> ShareArguments<'_> {
    ShareArguments {
        sequence_number: 1,
        root_hash: &[1; 32],
        k: 3,
        n: 10,
        data_length: 10,
        verification_key: &[3; 292],
        signature: &[5; 256],
        hash_chain,
        block_tree: &[6; 32],
        share_data: &[7; 4],
        encrypted_private_key: &[8; 1216],
        edition: EditionArguments::Sdmf { iv: &[2; 16] },
    }
}

/// The shortest share: of k = N = 1, and without data.
fn shortest() -> ShareArguments<'static> {
    ShareArguments {
        k: 1,
        n: 1,
        data_length: 0,
        verification_key: b"K",
        signature: b"S",
        block_tree: &[],
        share_data: &[],
        encrypted_private_key: b"P",
        ..p11(&[])
    }
}

/// Writes a share into so many bytes 255; gives number and length. On a refusal, which has no length, all of them stay.
fn into(space: usize, share: ShareArguments) -> (u32, u64) {
    let mut after = vec![255; space];
    let (number, length) = common::write_share(&share, &mut after);
    assert!(after[length as usize..].iter().all(|byte| *byte == 255));
    (number, length)
}

#[test]
fn p21_lengths_and_space_come_before_the_rest() {
    let chain = hash_chain(&[2, 4, 8, 16]);
    let good = p11(&chain);
    assert_eq!(into(2043, good), (0, 2043));
    assert_eq!(into(2042, good), (7, 0));
    for root_hash in [&[1; 31][..], &[1; 33]] {
        assert_eq!(into(0, ShareArguments { root_hash, ..good }), (3, 0));
    }
    for iv in [&[2; 15][..], &[2; 17]] {
        let edition = EditionArguments::Sdmf { iv };
        assert_eq!(into(0, ShareArguments { edition, ..good }), (3, 0));
    }
    assert_eq!(into(2042, ShareArguments { k: 0, ..good }), (7, 0));
    let share_data = &[7; 5];
    assert_eq!(into(2043, ShareArguments { share_data, ..good }), (7, 0));
}

#[test]
fn p22_k_is_from_1_to_n() {
    let chain = hash_chain(&[2, 4, 8, 16]);
    let good = p11(&chain);
    assert_eq!(into(2043, ShareArguments { k: 0, ..good }), (23, 0));
    assert_eq!(into(2043, ShareArguments { k: 11, ..good }), (23, 0));
    let all_needed = ShareArguments {
        k: 10,
        share_data: &[7; 1],
        ..good
    };
    assert_eq!(into(2043, all_needed), (0, 2040));
}

#[test]
fn p23_a_segment_size_of_2_to_64_comes_before_an_empty_key() {
    let chain = hash_chain(&[2, 4, 8, 16]);
    let all_ones = ShareArguments {
        data_length: 18_446_744_073_709_551_615,
        ..p11(&chain)
    };
    let too_long = ShareArguments { k: 2, ..all_ones };
    assert_eq!(into(2043, too_long), (24, 0));
    let no_key = ShareArguments {
        verification_key: &[],
        ..too_long
    };
    assert_eq!(into(2043, no_key), (24, 0));
    // 2^64-1 is a multiple of 3: the segment size fits, and the share data is too short.
    assert_eq!(into(2043, all_ones), (28, 0));
}

#[test]
fn p24_an_empty_key_comes_before_a_bad_node_number() {
    let (chain, bad_chain) = (hash_chain(&[2, 4, 8, 16]), hash_chain(&[2, 4, 8, 31]));
    let good = p11(&chain);
    let no_key = ShareArguments {
        verification_key: &[],
        ..good
    };
    let no_signature = ShareArguments {
        signature: &[],
        ..good
    };
    let no_private_key = ShareArguments {
        encrypted_private_key: &[],
        ..good
    };
    let no_key_and_bad_chain = ShareArguments {
        hash_chain: &bad_chain,
        ..no_key
    };
    for share in [no_key, no_signature, no_private_key, no_key_and_bad_chain] {
        assert_eq!(into(2043, share), (25, 0));
    }
}

#[test]
fn p25_node_numbers_differ_and_are_below_31() {
    let with = |node_numbers: &[u16]| into(2043, p11(&hash_chain(node_numbers)));
    assert_eq!(with(&[2, 4, 8, 31]), (26, 0));
    assert_eq!(with(&[2, 4, 8, 30]), (0, 2043));
    assert_eq!(with(&[2, 4, 8, 2]), (26, 0));
    assert_eq!(with(&[16, 8, 4, 2]), (0, 2043));
    assert_eq!(with(&[2, 4, 8]), (26, 0));
    // For N = 1 the chain is empty: an entry is too many, also with node number 0, which is not too high.
    let one_entry = ShareArguments {
        hash_chain: &hash_chain(&[0]),
        ..shortest()
    };
    assert_eq!(into(144, one_entry), (26, 0));
}

#[test]
fn p26_tree_share_data_and_sequence_number() {
    let chain = hash_chain(&[2, 4, 8, 16]);
    let good = p11(&chain);
    for block_tree in [&[][..], &[6; 31]] {
        assert_eq!(into(2043, ShareArguments { block_tree, ..good }), (27, 0));
    }
    let share_data = &[7; 5];
    assert_eq!(into(2044, ShareArguments { share_data, ..good }), (28, 0));
    for (sequence_number, answer) in [
        (18_446_744_073_709_551_615, (29, 0)),
        (18_446_744_073_709_551_614, (0, 2043)),
    ] {
        let share = ShareArguments {
            sequence_number,
            ..good
        };
        assert_eq!(into(2043, share), answer);
    }
}

#[test]
fn p27_a_share_without_data() {
    assert_eq!(into(110, shortest()), (0, 110));
    let with_tree = ShareArguments {
        block_tree: &[6; 32],
        ..shortest()
    };
    assert_eq!(into(142, with_tree), (0, 142));
    let with_share_data = ShareArguments {
        share_data: &[7; 1],
        ..shortest()
    };
    assert_eq!(into(111, with_share_data), (28, 0));
}

/// The bytes of P11's share, with those of its fields and parts here.
fn p28() -> Vec<u8> {
    let bytes = [
        &[0][..],                        // version
        &[0, 0, 0, 0, 0, 0, 0, 1],       // sequence number
        &[1; 32],                        // R
        &[2; 16],                        // IV
        &[3, 0x0A],                      // k, N
        &[0, 0, 0, 0, 0, 0, 0, 0x0C],    // segment size
        &[0, 0, 0, 0, 0, 0, 0, 0x0A],    // data length
        &[0x00, 0x00, 0x01, 0x8F],       // signature at 399
        &[0x00, 0x00, 0x02, 0x8F],       // hash chain at 655
        &[0x00, 0x00, 0x03, 0x17],       // block tree at 791
        &[0x00, 0x00, 0x03, 0x37],       // share data at 823
        &[0, 0, 0, 0, 0, 0, 0x03, 0x3B], // private key at 827
        &[0, 0, 0, 0, 0, 0, 0x07, 0xFB], // end at 2,043
        &[3; 292],                       // key
        &[5; 256],                       // signature
        &[0, 2],
        &[4; 32],
        &[0, 4],
        &[4; 32],
        &[0, 8],
        &[4; 32],
        &[0, 16],
        &[4; 32],
        &[6; 32],   // tree
        &[7; 4],    // share data
        &[8; 1216], // private key
    ];
    bytes.concat()
}

#[test]
fn p28_every_byte_of_the_space() {
    let mut space = [255; 2050];
    let written = common::write_share(&p11(&hash_chain(&[2, 4, 8, 16])), &mut space);
    assert_eq!(written, (0, 2043));
    assert_eq!(space[..], [&p28()[..], &[255; 7]].concat());
}

static P45_CHAIN: LazyLock<Vec<u8>> = LazyLock::new(|| hash_chain(&[2, 4, 8, 16]));

/// The MDMF share of P45: two segments of up to 6 bytes, so a salt and 2 bytes for each, and a tree of three hashes.
fn p45() -> ShareArguments<'static> {
    ShareArguments {
        sequence_number: 1,
        root_hash: &[1; 32],
        k: 3,
        n: 10,
        data_length: 10,
        verification_key: &[3; 3],
        signature: &[5; 4],
        hash_chain: &P45_CHAIN,
        block_tree: &[6; 96],
        share_data: &[7; 36],
        encrypted_private_key: &[8; 5],
        edition: EditionArguments::Mdmf {
            segment_size: 6,
            spare: &[9; 2],
        },
    }
}

/// P45's share with another k, segment size and data length, and with share data and a tree of so many bytes.
fn segmented(
    (k, segment_size, data_length): (u8, u64, u64),
    share_data: usize,
    block_tree: usize,
) -> ShareArguments<'static> {
    ShareArguments {
        k,
        data_length,
        block_tree: &[6; 480][..block_tree],
        share_data: &[7; 96][..share_data],
        edition: EditionArguments::Mdmf {
            segment_size,
            spare: &[9; 2],
        },
        ..p45()
    }
}

/// A share, the bytes of the space for it, and what writing it gives: number and length.
type Writing<'a> = (ShareArguments<'a>, usize, u32, u64);

fn give(writings: &[Writing]) {
    for (share, space, number, length) in writings {
        let given = into(*space, *share);
        assert_eq!(given, (*number, *length), "into {space}: {share:?}");
    }
}

#[test]
fn p45_lengths_and_space_come_before_the_rest() {
    let good = p45();
    let with = |root_hash| ShareArguments { root_hash, ..good };
    give(&[
        (good, 405, 0, 405),
        (good, 404, 7, 0),
        (with(&[1; 31]), 0, 3, 0),
        (with(&[1; 33]), 0, 3, 0),
        (segmented((0, 6, 10), 36, 96), 404, 7, 0),
    ]);
}

#[test]
fn p46_k_is_from_1_to_n() {
    give(&[
        (segmented((0, 6, 10), 36, 96), 405, 23, 0),
        (segmented((11, 11, 10), 36, 96), 405, 23, 0),
        (segmented((10, 10, 10), 17, 32), 405, 0, 322),
    ]);
}

#[test]
fn p47_a_segment_size_is_a_multiple_of_k() {
    // 2^64-1 is a multiple of 3.
    let longest = 18_446_744_073_709_551_615;
    let no_key = ShareArguments {
        verification_key: &[],
        ..segmented((3, 7, 10), 36, 96)
    };
    give(&[
        (segmented((3, 7, 10), 36, 96), 405, 24, 0),
        (no_key, 405, 24, 0),
        (segmented((3, 0, 10), 36, 96), 405, 24, 0),
        (segmented((3, 0, 0), 0, 0), 405, 0, 273),
        (segmented((3, 6, 0), 0, 0), 405, 0, 273),
        (segmented((3, 7, 0), 0, 0), 405, 24, 0),
        (segmented((3, longest, 10), 20, 32), 405, 0, 325),
        (segmented((2, longest, 10), 20, 32), 405, 24, 0),
    ]);
}

#[test]
fn p48_three_parts_are_not_empty() {
    let bad_chain = hash_chain(&[2, 4, 8, 31]);
    let no_private_key = ShareArguments {
        encrypted_private_key: &[],
        ..p45()
    };
    let no_signature = ShareArguments {
        signature: &[],
        ..p45()
    };
    let no_key_and_bad_chain = ShareArguments {
        verification_key: &[],
        hash_chain: &bad_chain,
        ..p45()
    };
    let no_spare = ShareArguments {
        edition: EditionArguments::Mdmf {
            segment_size: 6,
            spare: &[],
        },
        ..p45()
    };
    give(&[
        (no_private_key, 405, 25, 0),
        (no_signature, 405, 25, 0),
        (no_key_and_bad_chain, 405, 25, 0),
        (no_spare, 405, 0, 403),
    ]);
}

#[test]
fn p49_node_numbers_differ_and_are_below_31() {
    for (node_numbers, number, length) in [
        (&[2, 4, 8, 31][..], 26, 0),
        (&[2, 4, 8, 30], 0, 405),
        (&[2, 4, 8, 2], 26, 0),
        (&[2, 4, 8], 26, 0),
    ] {
        let share = ShareArguments {
            hash_chain: &hash_chain(node_numbers),
            ..p45()
        };
        give(&[(share, 405, number, length)]);
    }
}

#[test]
fn p50_a_tree_has_a_leaf_for_each_segment() {
    give(&[
        (segmented((3, 6, 0), 0, 32), 405, 27, 0),
        (segmented((3, 6, 6), 18, 32), 405, 0, 323),
        (segmented((3, 6, 6), 18, 0), 405, 27, 0),
        (segmented((3, 6, 7), 35, 32), 405, 27, 0),
        (segmented((3, 6, 7), 35, 64), 405, 27, 0),
        (segmented((3, 6, 18), 54, 224), 900, 0, 551),
        (segmented((3, 6, 18), 54, 160), 900, 27, 0),
        (segmented((3, 6, 24), 72, 224), 900, 0, 569),
        (segmented((3, 6, 24), 72, 480), 900, 27, 0),
        (segmented((3, 6, 25), 89, 224), 900, 27, 0),
        (segmented((3, 6, 25), 89, 480), 900, 0, 842),
    ]);
}

#[test]
fn p51_share_data_has_a_salt_for_each_segment() {
    let longest = 18_446_744_073_709_551_615;
    give(&[
        (segmented((3, 6, 10), 35, 96), 405, 28, 0),
        (segmented((3, 6, 10), 37, 96), 406, 28, 0),
        (segmented((3, 6, 10), 4, 96), 405, 28, 0),
        (segmented((3, 6, 10), 96, 96), 465, 28, 0),
        (segmented((3, 6, 1), 17, 32), 405, 0, 322),
        (segmented((3, 6, 2), 17, 32), 405, 0, 322),
        (segmented((3, 6, 3), 17, 32), 405, 0, 322),
        (segmented((3, 6, 4), 18, 32), 405, 0, 323),
        (segmented((3, 6, 4), 17, 32), 405, 28, 0),
        (segmented((3, longest, longest), 20, 32), 405, 28, 0),
        // A third of 2^64-1 segments, for which one hash is too few.
        (segmented((3, 3, longest), 20, 32), 405, 27, 0),
    ]);
}

#[test]
fn p52_the_last_sequence_number() {
    for (sequence_number, number, length) in [
        (18_446_744_073_709_551_615, 29, 0),
        (18_446_744_073_709_551_614, 0, 405),
    ] {
        let share = ShareArguments {
            sequence_number,
            ..p45()
        };
        give(&[(share, 405, number, length)]);
    }
}

#[test]
fn p53_the_shortest_of_mdmf() {
    let shortest = ShareArguments {
        k: 1,
        n: 1,
        data_length: 0,
        verification_key: &[3],
        signature: &[5],
        hash_chain: &[],
        block_tree: &[],
        share_data: &[],
        encrypted_private_key: &[8],
        edition: EditionArguments::Mdmf {
            segment_size: 0,
            spare: &[],
        },
        ..p45()
    };
    let with_spare = ShareArguments {
        edition: EditionArguments::Mdmf {
            segment_size: 0,
            spare: &[9],
        },
        ..shortest
    };
    let one_entry = ShareArguments {
        hash_chain: &hash_chain(&[0]),
        ..shortest
    };
    give(&[
        (shortest, 126, 0, 126),
        (with_spare, 127, 0, 127),
        (one_entry, 160, 26, 0),
    ]);
}

/// The bytes of P45's share.
fn p54() -> Vec<u8> {
    let bytes = [
        &[1][..],                        // version
        &[0, 0, 0, 0, 0, 0, 0, 1],       // sequence number
        &[1; 32],                        // R
        &[3, 0x0A],                      // k, N
        &[0, 0, 0, 0, 0, 0, 0, 6],       // segment size
        &[0, 0, 0, 0, 0, 0, 0, 0x0A],    // data length
        &[0, 0, 0, 0, 0, 0, 0x00, 0x7B], // private key at 123
        &[0, 0, 0, 0, 0, 0, 0x00, 0x80], // hash chain at 128
        &[0, 0, 0, 0, 0, 0, 0x01, 0x08], // signature at 264
        &[0, 0, 0, 0, 0, 0, 0x01, 0x0C], // key at 268
        &[0, 0, 0, 0, 0, 0, 0x01, 0x0F], // the key's end, and spare bytes, at 271
        &[0, 0, 0, 0, 0, 0, 0x01, 0x11], // share data at 273
        &[0, 0, 0, 0, 0, 0, 0x01, 0x35], // tree at 309
        &[0, 0, 0, 0, 0, 0, 0x01, 0x95], // end at 405
        &[8; 5],                         // private key
        &[0, 2],
        &[4; 32],
        &[0, 4],
        &[4; 32],
        &[0, 8],
        &[4; 32],
        &[0, 16],
        &[4; 32],
        &[5; 4],  // signature
        &[3; 3],  // key
        &[9; 2],  // spare
        &[7; 36], // share data
        &[6; 96], // tree
    ];
    bytes.concat()
}

#[test]
fn p54_every_byte_of_the_space() {
    let mut space = [255; 410];
    assert_eq!(common::write_share(&p45(), &mut space), (0, 405));
    assert_eq!(space[..], [&p54()[..], &[255; 5]].concat());
}

/// What the check gives: number, edition and boundaries.
type Checked = (u32, u32, [u64; 8]);

/// Checks these bytes, bare and as the data of a container, with a byte of slack behind them.
fn checked(share: &[u8]) -> Checked {
    let bare = common::check_share(share);
    let inside = ffi::check_container(&with_data(4096, share, 1));
    assert_eq!((inside.number, inside.edition), (bare.number, bare.edition));
    let first = if bare.number == 0 { 468 } else { 0 };
    assert_eq!(inside.bounds, bare.bounds.map(|bound| first + bound));
    (bare.number, bare.edition, bare.bounds)
}

fn refused(number: u32, edition: u32) -> Checked {
    (number, edition, [0; 8])
}

#[test]
fn p55_the_header_is_that_of_the_version() {
    assert_eq!(checked(&[]), refused(21, 0));
    for (length, version, number, edition) in [
        (106, 0, 21, 0),
        (106, 1, 21, 1),
        (106, 2, 21, 0),
        (107, 0, 23, 0),
        (107, 1, 21, 1),
        (107, 2, 22, 0),
        (122, 1, 21, 1),
        (122, 2, 22, 0),
        (123, 1, 23, 1),
        (123, 2, 22, 0),
        (123, 255, 22, 0),
    ] {
        let mut bytes = vec![0; length];
        bytes[0] = version;
        let given = checked(&bytes);
        assert_eq!(given, refused(number, edition), "{length} of {version}");
    }
}

#[test]
fn p56_offsets_of_mdmf() {
    let bounds = [123, 128, 264, 268, 271, 273, 309, 405];
    assert_eq!(checked(&p54()), (0, 1, bounds));
    // Which of the eight, and what it is then.
    for (which, offset) in [
        (0, 122_u64),
        (0, 124),
        (1, 123),
        (2, 127),
        (3, 264),
        (4, 268),
        (5, 270),
        (6, 272),
        (7, 404),
        (7, 406),
        (7, 18_446_744_073_709_551_615),
    ] {
        let mut share = p54();
        share[59 + 8 * which..][..8].copy_from_slice(&offset.to_be_bytes());
        assert_eq!(checked(&share), refused(25, 1), "{which} is {offset}");
    }
    assert_eq!(checked(&[&p54()[..], &[0]].concat()), refused(25, 1));
}

#[test]
fn p57_the_version_of_the_other_edition() {
    let bounds = [107, 399, 655, 791, 823, 827, 2043, 2043];
    assert_eq!(checked(&p28()), (0, 0, bounds));
    for (mut share, version, given) in [
        (p28(), 1, refused(25, 1)),
        (p54(), 0, refused(23, 0)),
        (p54(), 2, refused(22, 0)),
    ] {
        share[0] = version;
        assert_eq!(checked(&share), given);
    }
}

//! Offsets from the start and from the end: how they are written into requests, and what they name.

mod common;

use beamsatchel_node::{
    BuildError, Container, Offset, Opcode, ReadData, Reason, TestAndWrite, Written,
};
use common::{fresh, with_data, ENABLER};

/// The largest distance that an entry can have.
const FARTHEST: u32 = 2_147_483_647;

/// The offset field of a read, a write and a test there.
fn fields(offset: impl Into<Offset> + Copy) -> [[u8; 4]; 3] {
    let field = |request: Vec<u8>, at: usize| request[at..at + 4].try_into().unwrap();
    let read = ReadData::new().read(offset, 9).unwrap();
    let write = TestAndWrite::new(ENABLER).write(offset, b"AB").unwrap();
    let test = TestAndWrite::new(ENABLER).test(offset, 9, Opcode::Equal, b"AB");
    [
        field(read.to_bytes(), 4),
        field(write.to_bytes(), 40),
        field(test.unwrap().to_bytes(), 40),
    ]
}

#[test]
fn an_offset_is_a_signed_field() {
    for (offset, field) in [
        (Offset::FromStart(0), [0, 0, 0, 0]),
        (Offset::FromStart(1), [0, 0, 0, 1]),
        (Offset::FromStart(0x0102_0304), [1, 2, 3, 4]),
        (Offset::FromStart(FARTHEST), [0x7F, 0xFF, 0xFF, 0xFF]),
        (Offset::END, [0xFF, 0xFF, 0xFF, 0xFF]),
        (Offset::FromEnd(0), [0xFF, 0xFF, 0xFF, 0xFF]),
        (Offset::FromEnd(1), [0xFF, 0xFF, 0xFF, 0xFE]),
        (Offset::FromEnd(0x0102_0304), [0xFE, 0xFD, 0xFC, 0xFB]),
        (Offset::FromEnd(FARTHEST - 1), [0x80, 0, 0, 1]),
        (Offset::FromEnd(FARTHEST), [0x80, 0, 0, 0]),
    ] {
        assert_eq!(fields(offset), [field; 3], "{offset:?}");
    }
}

/// A literal without a type is one too.
#[test]
fn a_number_counts_from_the_start() {
    assert_eq!(Offset::from(7), Offset::FromStart(7));
    assert_eq!(fields(0x0102_0304), [[1, 2, 3, 4]; 3]);
    assert_eq!(fields(FARTHEST), fields(Offset::FromStart(FARTHEST)));
    assert_eq!(Offset::END, Offset::FromEnd(0));
    assert_ne!(Offset::FromStart(0), Offset::FromEnd(0));
}

#[test]
fn a_distance_of_more_than_31_bits_is_not_built() {
    let too_far = BuildError::OffsetTooFar;
    for distance in [FARTHEST + 1, FARTHEST + 2, u32::MAX] {
        for offset in [Offset::FromStart(distance), Offset::FromEnd(distance)] {
            let new = || TestAndWrite::new(ENABLER);
            assert_eq!(ReadData::new().read(offset, 0), Err(too_far));
            assert_eq!(new().write(offset, b""), Err(too_far));
            assert_eq!(new().test(offset, 0, Opcode::Equal, b""), Err(too_far));
        }
        assert_eq!(ReadData::new().read(distance, 0), Err(too_far));
    }
}

#[test]
fn an_append_is_a_write_at_the_end() {
    let new = || TestAndWrite::new(ENABLER).write(3, b"first").unwrap();
    for data in [&b"AB"[..], b""] {
        assert_eq!(new().append(data), new().write(Offset::END, data));
    }
    // It counts as a write.
    let all = (0..16).try_fold(TestAndWrite::new(ENABLER), |request, _| request.append(b""));
    let all = all.unwrap();
    assert_eq!(all.write_count(), 16);
    assert_eq!(all.append(b""), Err(BuildError::TooManyEntries));
    let longest = vec![1; new().write_room()];
    assert!(new().append(&longest).is_ok());
    let longer = [&longest[..], b"!"].concat();
    assert_eq!(new().append(&longer), Err(BuildError::TooLong));
}

/// The data after a request that is done, on this data.
fn written(data: &[u8], request: TestAndWrite) -> Vec<u8> {
    let mut slot = Container::open(with_data(500, data)).unwrap();
    assert!(slot.test_and_write(&request, &mut []).unwrap().is_done());
    slot.view().unwrap().data().to_vec()
}

#[test]
fn appends_stand_one_behind_the_other() {
    let mut slot = Container::open(fresh(500)).unwrap();
    for (sample, data) in [
        (&b"VAN1"[..], &b"VAN1"[..]),
        (b"VAN2", b"VAN1VAN2"),
        (b"", b"VAN1VAN2"),
        (b"VAN3", b"VAN1VAN2VAN3"),
    ] {
        let request = TestAndWrite::new(ENABLER).append(sample).unwrap();
        assert!(slot.test_and_write(&request, &mut []).unwrap().is_done());
        assert_eq!(slot.view().unwrap().data(), data);
    }
    let new = || TestAndWrite::new(ENABLER);
    let both = new().append(b"VAN2").unwrap().append(b"VAN3").unwrap();
    assert_eq!(written(b"VAN1", both), b"VAN1VAN2VAN3");
    // Behind a gap, and before a cut.
    let gap = new().write(6, b"G").unwrap().append(b"H").unwrap();
    assert_eq!(written(b"VAN1", gap), b"VAN1\0\0GH");
    let cut = new().append(b"VAN2").unwrap().cut(6);
    assert_eq!(written(b"VAN1", cut), b"VAN1VA");
}

#[test]
fn a_write_counts_from_the_end_that_those_before_it_leave() {
    let new = || TestAndWrite::new(ENABLER);
    let at = |back: u32| new().write(Offset::FromEnd(back), b"!").unwrap();
    assert_eq!(written(b"abc", at(0)), b"abc!");
    assert_eq!(written(b"abc", at(1)), b"ab!");
    assert_eq!(written(b"abc", at(3)), b"!bc");
    // The second one meets five bytes, whatever the empty one names.
    let writes = new().write(4, b"e").unwrap().write(9, b"").unwrap();
    let writes = writes.write(Offset::FromEnd(5), b"A").unwrap();
    assert_eq!(written(b"abc", writes), b"Abc\0e");
}

#[test]
fn the_last_bytes_are_read_and_tested() {
    let bytes = with_data(500, b"abcdefgh");
    let mut slot = Container::open(bytes).unwrap();
    for (back, length, piece) in [
        (0, 0, &b""[..]),
        (0, 9, b""),
        (1, 1, b"h"),
        (1, u32::MAX, b"h"),
        (3, 3, b"fgh"),
        (3, 2, b"fg"),
        (8, 8, b"abcdefgh"),
        (8, 0, b""),
    ] {
        let offset = Offset::FromEnd(back);
        let request = ReadData::new().read(offset, length).unwrap();
        let mut space = vec![0; 4 + piece.len()];
        let reply = slot.read(&request, &mut space).unwrap();
        assert_eq!(reply.pieces().collect::<Vec<_>>(), [piece]);

        // So does a test, which counts from the end as it is before the write.
        let request = TestAndWrite::new(ENABLER).test(offset, length, Opcode::Equal, piece);
        let request = request.unwrap().append(b"i").unwrap().cut(8);
        let written = slot.test_and_write(&request, &mut space).unwrap();
        let Written::Done(reply) = written else {
            panic!("{written:?}");
        };
        assert_eq!(reply.pieces().collect::<Vec<_>>(), [piece]);
    }
}

#[test]
fn before_the_start_there_is_nothing() {
    let before = with_data(500, b"abcdefgh");
    let mut slot = Container::open(before.clone()).unwrap();
    for back in [9, 10, FARTHEST] {
        let offset = Offset::FromEnd(back);
        let mut space = [0xA5; 20];
        for length in [0, 1, u32::MAX] {
            let request = ReadData::new().read(0, 1).unwrap();
            let request = request.read(offset, length).unwrap();
            let refusal = slot.read(&request, &mut space).unwrap_err();
            assert_eq!(refusal.reason, Reason::OffsetBeforeStart);
            let new = || TestAndWrite::new(ENABLER);
            for request in [
                // An append comes too late for a test, and for a write before it.
                new().test(offset, length, Opcode::GreaterOrEqual, b""),
                new().write(offset, &b"AB"[..length.min(2) as usize]),
            ] {
                let request = request.unwrap().append(b"ijkl").unwrap();
                let refusal = slot.test_and_write(&request, &mut space).unwrap_err();
                assert_eq!(refusal.reason, Reason::OffsetBeforeStart);
                assert_eq!(refusal.accepted_by, None);
            }
        }
        assert_eq!(space, [0xA5; 20]);
    }
    assert_eq!(slot.into_buffer(), before);
}

/// What a node's programmer may count on.
#[test]
fn an_offset_has_its_traits() {
    fn key<T: Copy + Eq + std::hash::Hash>() {}
    key::<Offset>();
    assert_eq!(format!("{:?}", Offset::END), "FromEnd(0)");
    assert_eq!(format!("{:?}", Offset::from(3)), "FromStart(3)");
}

//! What the builders build, the model reads back; what they refuse would be malformed. And how much reply space they
//! ask for.

#![deny(unfulfilled_lint_expectations, unreachable_patterns)]

mod common;

use beamsatchel_model::{self as model, Request};
use beamsatchel_node::{
    AddLease, BuildError, CancelLease, Container, Offset, Opcode, ReadData, Reason, RenewLease,
    TestAndWrite, Written,
};
use common::{lease, rising, with_data, ENABLER};

#[test]
fn test_and_write_comes_back() {
    let opcodes = [
        Opcode::Less,
        Opcode::LessOrEqual,
        Opcode::Equal,
        Opcode::NotEqual,
        Opcode::GreaterOrEqual,
        Opcode::Greater,
    ];
    let mut built = TestAndWrite::new(ENABLER).cut(99);
    let mut expected = model::TestAndWrite {
        enabler: *ENABLER.expose(),
        tests: Vec::new(),
        writes: Vec::new(),
        cut: Some(99),
    };
    for entry in 0..16 {
        let (offset, body) = (entry as i32 * 1000 + 3, vec![entry as u8; entry]);
        let from_end = Offset::FromEnd(offset as u32);
        let opcode = opcodes[entry % 6];
        built = built.test(offset as u32, u32::MAX, opcode, &body).unwrap();
        built = built.write(from_end, &body).unwrap();
        expected.tests.push(model::Test {
            offset,
            length: u32::MAX,
            opcode: entry as u8 % 6 + 1,
            specimen: body.clone(),
        });
        expected.writes.push(model::Write {
            offset: -1 - offset,
            data: body,
        });
        let request = Request::from_bytes(&built.to_bytes());
        assert_eq!(request, Some(Request::TestAndWrite(expected.clone())));
    }
    assert_eq!((built.test_count(), built.write_count()), (16, 16));
    let full = Err(BuildError::TooManyEntries);
    assert_eq!(built.clone().test(0, 0, Opcode::Equal, b""), full);
    assert_eq!(built.write(0, b""), full);
}

/// Tests and writes are counted apart.
#[test]
fn a_request_has_sixteen_entries_of_a_sort() {
    let full = Err(BuildError::TooManyEntries);
    let (mut tests, mut writes) = (TestAndWrite::new(ENABLER), TestAndWrite::new(ENABLER));
    for _ in 0..16 {
        tests = tests.test(0, 0, Opcode::Equal, b"").unwrap();
        writes = writes.write(0, b"").unwrap();
    }
    assert_eq!(tests.clone().test(0, 0, Opcode::Equal, b""), full);
    assert!(tests.write(0, b"").is_ok());
    assert_eq!(writes.clone().write(0, b""), full);
    assert!(writes.test(0, 0, Opcode::Equal, b"").is_ok());
}

#[test]
fn a_request_ends_at_65_536_bytes() {
    let new = || TestAndWrite::new(ENABLER);
    let longest = new().write(0, &vec![1; 65_536 - 48]).unwrap();
    assert_eq!(longest.to_bytes().len(), 65_536);
    assert!(Request::from_bytes(&longest.to_bytes()).is_some());
    let too_long = Err(BuildError::TooLong);
    assert_eq!(new().write(0, &vec![1; 65_537 - 48]), too_long);
    assert_eq!(longest.clone().write(0, b""), too_long);
    assert_eq!(longest.test(0, 0, Opcode::Equal, b""), too_long);

    let longest = new()
        .test(0, 0, Opcode::Less, &vec![1; 65_536 - 52])
        .unwrap();
    assert!(Request::from_bytes(&longest.to_bytes()).is_some());
    assert_eq!(
        new().test(0, 0, Opcode::Less, &vec![1; 65_537 - 52]),
        too_long
    );
    assert_eq!(new().test(0, 0, Opcode::Less, &vec![1; 100_000]), too_long);

    // Every entry and every body before it counts, of either sort.
    let both = new().test(0, 0, Opcode::Less, &[1; 100]).unwrap();
    let both = both.write(0, &[2; 200]).unwrap();
    let left = 65_536 - (40 + 12 + 100 + 8 + 200);
    let longest = both.clone().write(0, &vec![3; left - 8]).unwrap();
    assert_eq!(longest.to_bytes().len(), 65_536);
    assert_eq!(both.clone().write(0, &vec![3; left - 7]), too_long);
    let specimen = vec![3; left - 11];
    let longest = both.clone().test(0, 0, Opcode::Less, &specimen[1..]);
    assert_eq!(longest.unwrap().to_bytes().len(), 65_536);
    assert_eq!(both.test(0, 0, Opcode::Less, &specimen), too_long);
}

#[test]
fn read_comes_back() {
    let mut built = ReadData::new();
    let mut expected = Vec::new();
    for entry in 0..16 {
        let (offset, length) = (i32::MAX - entry, u32::MAX - entry as u32);
        built = built.read(offset as u32, length).unwrap();
        expected.push(model::Read { offset, length });
        let request = Request::from_bytes(&built.to_bytes());
        assert_eq!(request, Some(Request::Read(expected.clone())));
    }
    assert_eq!(built.read_count(), 16);
    assert_eq!(built.read(0, 0), Err(BuildError::TooManyEntries));
}

#[test]
fn lease_requests_come_back() {
    let lease = lease(1);
    let expected = model::Lease {
        owner: lease.owner.get(),
        expiry: lease.expiry,
        renewal: *lease.renewal.expose(),
        cancel: *lease.cancel.expose(),
        node: lease.node.0,
    };
    let add = Request::from_bytes(&AddLease(lease).to_bytes());
    assert_eq!(add, Some(Request::Add(expected)));

    let renew = RenewLease {
        token: lease.renewal,
        expiry: 12,
    };
    let expected = Request::Renew {
        token: *lease.renewal.expose(),
        expiry: 12,
    };
    assert_eq!(Request::from_bytes(&renew.to_bytes()), Some(expected));

    let token = *lease.cancel.expose();
    let cancel = Request::from_bytes(&CancelLease(lease.cancel).to_bytes());
    assert_eq!(cancel, Some(Request::Cancel { token }));
}

#[test]
fn the_bytes_of_a_test_and_write() {
    let mut expected = vec![1, 0, 0, 0, 0, 0, 0, 0];
    expected.extend(rising::<32>(0xE0));
    assert_eq!(TestAndWrite::new(ENABLER).to_bytes(), expected);

    let request = TestAndWrite::new(ENABLER)
        .write(0x0102_0304, b"first")
        .unwrap()
        .test(
            Offset::FromEnd(1),
            0x0506_0708,
            Opcode::GreaterOrEqual,
            b"left",
        )
        .unwrap()
        .cut(0x090A_0B0C)
        .test(9, 10, Opcode::Less, &[0x77; 0x102])
        .unwrap()
        .append(b"")
        .unwrap()
        .write(7, b"last")
        .unwrap();
    let mut expected = vec![1, 2, 3, 1, 9, 10, 11, 12];
    expected.extend(rising::<32>(0xE0));
    expected.extend([0xFF, 0xFF, 0xFF, 0xFE, 5, 6, 7, 8, 5, 0, 0, 4]);
    expected.extend([0, 0, 0, 9, 0, 0, 0, 10, 1, 0, 1, 2]);
    expected.extend([1, 2, 3, 4, 0, 0, 0, 5]);
    expected.extend([0xFF, 0xFF, 0xFF, 0xFF, 0, 0, 0, 0]);
    expected.extend([0, 0, 0, 7, 0, 0, 0, 4]);
    expected.extend(b"left");
    expected.extend([0x77; 0x102]);
    expected.extend(b"firstlast");
    assert_eq!(request.to_bytes(), expected);
    assert_eq!((request.test_count(), request.write_count()), (2, 3));

    // A cut to 0 is a cut; of several the last counts.
    let cut = TestAndWrite::new(ENABLER).cut(5).cut(0);
    assert_eq!(cut.to_bytes()[..8], [1, 0, 0, 1, 0, 0, 0, 0]);
}

#[test]
fn the_bytes_of_lease_requests() {
    let mut expected = vec![2, 0x0A, 0x0B, 0x0C, 0x01, 0x10, 0, 0, 100];
    expected.extend(rising::<32>(0x21));
    expected.extend(rising::<32>(0x81));
    expected.extend(rising::<20>(0xB1));
    assert_eq!(AddLease(lease(1)).to_bytes()[..], expected);

    let renew = RenewLease {
        token: lease(1).renewal,
        expiry: 0x0102_0304,
    };
    let mut expected = vec![3];
    expected.extend(rising::<32>(0x21));
    expected.extend([1, 2, 3, 4]);
    assert_eq!(renew.to_bytes()[..], expected);

    let mut expected = vec![4];
    expected.extend(rising::<32>(0x81));
    assert_eq!(CancelLease(lease(1).cancel).to_bytes()[..], expected);
}

#[test]
fn the_bytes_of_a_read() {
    assert_eq!(ReadData::new().to_bytes(), [5, 0, 0, 0]);
    let request = ReadData::new().read(0x0102_0304, 0x0506_0708).unwrap();
    let request = request.read(Offset::END, 9).unwrap();
    let expected = [
        5, 2, 0, 0, 1, 2, 3, 4, 5, 6, 7, 8, 0xFF, 0xFF, 0xFF, 0xFF, 0, 0, 0, 9,
    ];
    assert_eq!(request.to_bytes(), expected);
    assert_eq!(request.read_count(), 2);
}

#[test]
fn opcodes_have_their_numbers() {
    let opcodes = [
        Opcode::Less,
        Opcode::LessOrEqual,
        Opcode::Equal,
        Opcode::NotEqual,
        Opcode::GreaterOrEqual,
        Opcode::Greater,
    ];
    assert_eq!(opcodes.map(|opcode| opcode as u8), [1, 2, 3, 4, 5, 6]);
}

#[test]
fn what_a_builder_refuses() {
    for (error, text) in [
        (
            BuildError::TooManyEntries,
            "a request has at most 16 entries of a sort",
        ),
        (BuildError::TooLong, "a request has at most 65,536 bytes"),
        (
            BuildError::OffsetTooFar,
            "an offset is at most 2,147,483,647 bytes from the start or the end of the data",
        ),
    ] {
        assert_eq!(error.to_string(), text);
        // More may come: the last arm would be unreachable if that were not announced.
        match error {
            BuildError::TooManyEntries | BuildError::TooLong | BuildError::OffsetTooFar => {}
            _ => unreachable!(),
        }
    }
}

/// The longest data that there can be.
const LONGEST: usize = 16_777_216 - 472;

#[test]
fn a_read_may_need_all_of_its_bound() {
    let slot = Container::open(with_data(16_777_216, &vec![1; LONGEST])).unwrap();
    assert_eq!(ReadData::new().reply_bound(), 0);
    let one = ReadData::new().read(3, 258).unwrap();
    assert_eq!(one.reply_bound(), 4 + 258);
    let longest = ReadData::new().read(0, LONGEST as u32).unwrap();
    assert_eq!(longest.reply_bound(), 4 + LONGEST);
    let all = (0..16).try_fold(ReadData::new(), |request, at| {
        request.read(at, LONGEST as u32 - at)
    });
    let all = all.unwrap();
    assert_eq!(all.reply_bound(), 16 * 4 + 16 * LONGEST - 120);
    for request in [one, longest, all] {
        let bound = request.reply_bound();
        let mut space = vec![0; bound];
        let reply = slot.read(&request, &mut space).unwrap();
        let pieces: usize = reply.pieces().map(<[u8]>::len).sum();
        assert_eq!(4 * reply.len() + pieces, bound);
        let refusal = slot.read(&request, &mut space[1..]).unwrap_err();
        assert_eq!(refusal.reason, Reason::ReplySpace);
    }
    // A longer read cannot be answered, and asks for no more space.
    for length in [LONGEST as u32 + 1, u32::MAX] {
        let longer = ReadData::new().read(0, length).unwrap();
        assert_eq!(longer.reply_bound(), 4 + LONGEST);
    }
}

#[test]
fn a_test_may_need_all_of_its_bound() {
    let mut slot = Container::open(with_data(16_777_216, &vec![1; LONGEST])).unwrap();
    let new = || TestAndWrite::new(ENABLER);
    assert_eq!(new().write(0, b"no test").unwrap().reply_bound(), 0);
    let one = new().test(3, 258, Opcode::Greater, b"").unwrap();
    assert_eq!(one.reply_bound(), 4 + 258);
    // A test may name more than there is, and gets all there is.
    let longer = new().test(0, u32::MAX, Opcode::Greater, b"").unwrap();
    assert_eq!(longer.reply_bound(), 4 + LONGEST);
    let both = longer.clone().test(1, 7, Opcode::Less, b"").unwrap();
    assert_eq!(both.reply_bound(), 4 + LONGEST + 4 + 7);
    for request in [one, longer, both] {
        let bound = request.reply_bound();
        let mut space = vec![0; bound];
        let written = slot.test_and_write(&request, &mut space).unwrap();
        let (Written::Done(reply) | Written::TestFalse(reply)) = written;
        let pieces: usize = reply.pieces().map(<[u8]>::len).sum();
        assert_eq!(4 * reply.len() + pieces, bound);
        let refusal = slot.test_and_write(&request, &mut space[1..]).unwrap_err();
        assert_eq!(refusal.reason, Reason::ReplySpace);
    }
}

/// A write of just so many bytes is taken, and one of a byte more is not.
#[test]
fn the_room_for_one_more_write() {
    let mut request = TestAndWrite::new(ENABLER);
    assert_eq!(request.write_room(), 65_536 - 48);
    for body in [0, 1, 1000, 30_000, 34_000] {
        request = request.write(0, &vec![1; body]).unwrap();
        request = request.test(0, 9, Opcode::Less, &[2; 40]).unwrap();
        let room = request.write_room();
        assert_eq!(room, 65_536 - request.to_bytes().len() - 8);
        let longest = request.clone().write(7, &vec![3; room]).unwrap();
        assert_eq!(
            (longest.to_bytes().len(), longest.write_room()),
            (65_536, 0)
        );
        let too_long = request.clone().write(7, &vec![3; room + 1]);
        assert_eq!(too_long, Err(BuildError::TooLong));
    }
    // Where not even an entry is left, and where there are 16 writes.
    let left = request.write_room();
    let full = request.write(0, &vec![1; left - 3]).unwrap();
    assert_eq!(full.write_room(), 0);
    let all = (0..16).try_fold(TestAndWrite::new(ENABLER), |request, at| {
        request.write(at, b"A")
    });
    assert_eq!(all.unwrap().write_room(), 0);
}

/// In a shorter container an open-ended test or read cannot need as much.
#[test]
fn a_bound_for_one_container() {
    let slot = Container::open(with_data(70_000, &[1; 70_000 - 472])).unwrap();
    let read = ReadData::new().read(0, u32::MAX).unwrap();
    let read = read.read(1, 7).unwrap();
    let test = TestAndWrite::new(ENABLER);
    let test = test.test(0, u32::MAX, Opcode::Less, b"").unwrap();
    let test = test.test(1, 7, Opcode::Less, b"").unwrap();
    for bound in [read.reply_bound_in(70_000), test.reply_bound_in(70_000)] {
        assert_eq!(bound, 4 + 70_000 - 472 + 4 + 7);
        let reply = slot.read(&read, &mut vec![0; bound]).unwrap().len();
        assert_eq!(reply, 2);
        let refusal = slot.read(&read, &mut vec![0; bound - 1]).unwrap_err();
        assert_eq!(refusal.reason, Reason::ReplySpace);
    }
    // Where no container can be, nothing is read.
    for length in [0, 471, 472] {
        assert_eq!(read.reply_bound_in(length), 8);
        assert_eq!(test.reply_bound_in(length), 8);
    }
    for length in [16_777_216, 16_777_217, usize::MAX] {
        assert_eq!(read.reply_bound_in(length), read.reply_bound());
        assert_eq!(test.reply_bound_in(length), test.reply_bound());
    }
}

/// Each statement drops what must not be dropped, which the compiler has to say.
#[test]
fn dropping_is_warned_of() {
    fn made<T>(request: T) -> T {
        request
    }
    let lease = lease(1);
    #[expect(unused_must_use)]
    {
        made(TestAndWrite::new(ENABLER));
    }
    #[expect(unused_must_use)]
    {
        made(AddLease(lease));
    }
    #[expect(unused_must_use)]
    {
        made(RenewLease {
            token: lease.renewal,
            expiry: 1,
        });
    }
    #[expect(unused_must_use)]
    {
        made(CancelLease(lease.cancel));
    }
    #[expect(unused_must_use)]
    {
        made(ReadData::new());
    }
}

//! Containers: create, open, look at, and send each request.

mod common;

use beamsatchel_model as model;
use beamsatchel_node::{
    ffi, CancelToken, Container, Edition, Lease, NodeId, Offset, Opcode, Part, ReadData, Reason,
    Refusal, RenewalToken, Reply, Share, TestAndWrite, View, WriteEnabler, Written,
};
use common::{bad_share, bounds, cut, fresh, lease, rising, share, slot, with_data, ENABLER, NODE};

fn reason<T>(result: Result<T, Refusal>) -> Reason {
    result.err().expect("refused").reason
}

#[test]
fn a_node_id_is_printed_in_hex() {
    assert_eq!(NODE.to_string(), "05060708090a0b0c0d0e0f101112131415161718");
    assert_eq!(NodeId([0xFF; 20]).to_string(), "ff".repeat(20));
}

#[test]
fn a_lease_is_its_record() {
    let lease = lease(1);
    let record = lease.to_record();
    assert_eq!(
        record[..8],
        [0x0A, 0x0B, 0x0C, 0x01, 0x10, 0x00, 0x00, 0x64]
    );
    assert_eq!(record[8..40], rising::<32>(0x21));
    assert_eq!(record[40..72], rising::<32>(0x81));
    assert_eq!(record[72..], rising::<20>(0xB1));
    assert_eq!(Lease::from_record(&record), Some(lease));

    // The owner is all that counts.
    let mut record = record;
    record[..4].fill(0);
    assert_eq!(Lease::from_record(&record), None);
    record[0] = 1;
    assert_eq!(
        Lease::from_record(&record).map(|lease| lease.owner.get()),
        Some(0x0100_0000)
    );
}

#[test]
fn create_writes_the_whole_buffer() {
    for length in [472, 473, 65_537, 16_777_216] {
        let mut by_model = vec![0xAA; length];
        let answer = model::create(&mut by_model, &NODE.0, ENABLER.expose());
        assert_eq!(answer.number, 0);
        let created = Container::create(vec![0xAA; length], NODE, ENABLER).unwrap();
        assert!(created.into_buffer() == by_model);
    }
}

#[test]
fn create_refuses_and_leaves_the_buffer() {
    for length in [0, 471, 16_777_217] {
        let mut bytes = vec![0x55; length];
        let refused = Container::create(&mut bytes[..], NODE, ENABLER);
        assert_eq!(reason(refused), Reason::BufferLength);
        assert!(bytes == vec![0x55; length]);
    }
    let before = with_data(500, b"precious");
    let mut bytes = before.clone();
    let refused = Container::create(&mut bytes[..], NodeId([9; 20]), ENABLER);
    assert_eq!(reason(refused), Reason::AlreadyContainer);
    assert_eq!(bytes, before);
}

#[test]
fn open_asks_for_a_container_alone() {
    assert_eq!(reason(Container::open(&[][..])), Reason::BufferLength);
    assert_eq!(reason(Container::open([0; 471])), Reason::BufferLength);
    assert_eq!(
        reason(Container::open(vec![0; 16_777_217])),
        Reason::BufferLength
    );
    assert_eq!(reason(Container::open([0; 472])), Reason::NotWellFormed);
    let refusal = Container::open([0; 472]).unwrap_err();
    assert_eq!(
        (refusal.reason, refusal.accepted_by),
        (Reason::NotWellFormed, None)
    );

    // Whether the data is a share, and a good one, does not matter.
    for edition in Edition::ALL {
        let bad = (21..=29).map(|number| bad_share(edition, number));
        for data in bad.chain([share(edition)]) {
            let bytes = slot(2000, &data);
            let opened = Container::open(&bytes).unwrap();
            assert_eq!(opened.as_bytes(), bytes);
            assert!(View::open(&bytes).is_ok());
        }
    }
}

#[test]
fn adopt_looks_at_nothing() {
    let bytes = [1, 2, 3];
    let adopted = Container::adopt(&bytes);
    assert_eq!(adopted.as_bytes(), bytes);
    assert_eq!(reason(adopted.view()), Reason::BufferLength);
    assert_eq!(reason(adopted.share()), Reason::BufferLength);
    assert_eq!(adopted.into_buffer(), &bytes);
    assert_eq!(
        reason(Container::adopt([0; 480]).view()),
        Reason::NotWellFormed
    );
}

#[test]
fn buffers_are_lent_or_owned() {
    let request = TestAndWrite::new(ENABLER).write(0, b"AB").unwrap();
    let mut lent = fresh(500);
    let mut slot = Container::open(&mut lent[..]).unwrap();
    assert!(slot.test_and_write(&request, &mut []).unwrap().is_done());
    let mut boxed = Container::open(fresh(500).into_boxed_slice()).unwrap();
    assert!(boxed.test_and_write(&request, &mut []).unwrap().is_done());
    let array: [u8; 500] = fresh(500).try_into().unwrap();
    let mut owned = Container::open(array).unwrap();
    // A copy of an owned buffer goes its own way.
    let copy = owned.clone();
    assert!(owned.test_and_write(&request, &mut []).unwrap().is_done());
    assert_eq!(owned.into_buffer()[..], lent);
    assert_eq!(boxed.into_buffer()[..], lent);
    assert_eq!(copy.into_buffer()[..], fresh(500));
}

#[test]
fn a_view_shows_each_field() {
    let data = rising::<77>(0x30);
    let bytes = slot(1000, &data);
    let view = View::open(&bytes).unwrap();
    assert_eq!(view.node_id(), NODE);
    assert_eq!(view.write_enabler(), ENABLER);
    assert_eq!(view.data(), data);
    assert_eq!(view.data().as_ptr_range(), bytes[468..545].as_ptr_range());
    assert_eq!(view.slack_len(), 0);
    assert_eq!(view.extra_places(), 3);
    assert_eq!(view.used_len(), 472 + 77 + 3 * 92);
    assert_eq!(view.buffer_len(), 1000);
    let leases: Vec<(usize, Lease)> = view.leases().collect();
    assert_eq!(leases, [(2, lease(3)), (6, lease(7))]);
    // Where the records are is where the rules put them.
    for (at, number) in [(284, 3), (733, 7)] {
        assert_eq!(bytes[at..at + 92], lease(number).to_record());
    }

    let opened = Container::open(&bytes[..]).unwrap();
    let again = opened.view().unwrap();
    assert_eq!(again.data().as_ptr(), view.data().as_ptr());
    assert_eq!(again.leases().count(), 2);
}

/// A cut leaves count and extras where they are, and the view finds them behind the slack.
#[test]
fn a_view_beside_slack() {
    let data = rising::<77>(0x30);
    let bytes = cut(slot(1000, &data), 7);
    let view = View::open(&bytes).unwrap();
    assert_eq!(view.data(), &data[..7]);
    assert_eq!((view.slack_len(), view.extra_places()), (70, 3));
    assert_eq!(view.used_len(), 472 + 77 + 3 * 92);
    let leases: Vec<(usize, Lease)> = view.leases().collect();
    assert_eq!(leases, [(2, lease(3)), (6, lease(7))]);
    assert_eq!(bytes[733..825], lease(7).to_record());

    // Growth uses the slack up first: all but one byte, all, and a byte more, which moves count and extras.
    let mut slot = Container::open(bytes).unwrap();
    for (size, slack, used) in [(76, 1, 825), (77, 0, 825), (78, 0, 826)] {
        let request = TestAndWrite::new(ENABLER).write(size - 1, b"!").unwrap();
        assert!(slot.test_and_write(&request, &mut []).unwrap().is_done());
        let view = slot.view().unwrap();
        assert_eq!(view.data().len(), size as usize);
        assert_eq!((view.slack_len(), view.used_len()), (slack, used));
        assert_eq!(view.leases().last(), Some((6, lease(7))));
    }
}

/// The room that a cut frees is the data's, and not a lease's.
#[test]
fn a_lease_finds_no_room_in_slack() {
    let mut tight = Container::open(cut(with_data(571, b"eight by"), 0)).unwrap();
    for number in 1..=4 {
        assert_eq!(tight.add_lease(lease(number)), Ok(u64::from(number)));
    }
    assert_eq!(reason(tight.add_lease(lease(5))), Reason::NoRoom);
    let request = TestAndWrite::new(ENABLER).write(0, b"eight by").unwrap();
    assert!(tight.test_and_write(&request, &mut []).unwrap().is_done());
}

#[test]
fn a_view_of_a_full_container() {
    let mut slot = Container::adopt(fresh(472 + 60 * 92));
    for number in 0..64 {
        assert_eq!(slot.add_lease(lease(number)), Ok(u64::from(number) + 1));
    }
    assert_eq!(reason(slot.add_lease(lease(64))), Reason::LeasesFull);
    let view = slot.view().unwrap();
    assert_eq!(
        (view.extra_places(), view.used_len()),
        (60, view.buffer_len())
    );
    let leases: Vec<(usize, Lease)> = view.leases().collect();
    let expected: Vec<(usize, Lease)> = (0..64)
        .map(|number| (number, lease(number as u8)))
        .collect();
    assert_eq!(leases, expected);
}

#[test]
fn a_read_gives_its_pieces() {
    let bytes = with_data(1000, b"abcdefgh");
    let slot = Container::open(&bytes[..]).unwrap();
    let request = ReadData::new();
    let request = request.read(1, 3).unwrap().read(8, 0).unwrap();
    let request = request.read(0, 8).unwrap();
    // More space than the reply needs: its other bytes stay.
    let mut space = [0xA5; 40];
    let reply = slot.read(&request, &mut space).unwrap();
    assert_eq!(
        reply.pieces().collect::<Vec<_>>(),
        [&b"bcd"[..], b"", b"abcdefgh"]
    );
    assert_eq!(space[..12], [0, 0, 0, 3, 0, 0, 0, 0, 0, 0, 0, 8]);
    assert_eq!(space[12..23], *b"bcdabcdefgh");
    assert_eq!(space[23..], [0xA5; 17]);
    assert!(slot.read(&ReadData::new(), &mut []).unwrap().is_empty());
}

/// Each piece is the part that exists, in a reply space that holds just those parts.
#[test]
fn a_read_is_short_at_the_end() {
    let bytes = with_data(1000, b"abcdefgh");
    let slot = Container::open(&bytes[..]).unwrap();
    for (offset, length, piece) in [
        (6, 2, &b"gh"[..]),
        (6, 3, b"gh"),
        (0, u32::MAX, b"abcdefgh"),
        (8, 0, b""),
        (8, 1, b""),
        (9, 0, b""),
        (9, 1, b""),
        (2_147_483_647, 1, b""),
        (2_147_483_647, u32::MAX, b""),
    ] {
        let request = ReadData::new().read(offset, length).unwrap();
        let mut space = vec![0xA5; 4 + piece.len()];
        let reply = slot.read(&request, &mut space).unwrap();
        assert_eq!(reply.pieces().collect::<Vec<_>>(), [piece]);
    }
    let request = ReadData::new().read(5, 9).unwrap().read(20, 9).unwrap();
    let mut space = [0xA5; 11];
    let reply = slot.read(&request, &mut space).unwrap();
    assert_eq!(reply.pieces().collect::<Vec<_>>(), [&b"fgh"[..], b""]);
    let refused = slot.read(&request, &mut space[..10]);
    assert_eq!(reason(refused), Reason::ReplySpace);
}

#[test]
fn a_read_is_refused() {
    let bytes = with_data(1000, b"abcdefgh");
    let slot = Container::open(&bytes[..]).unwrap();
    let read = |offset: Offset, length, space: usize| {
        let request = ReadData::new().read(offset, length).unwrap();
        let mut space = vec![0xA5; space];
        let refused = reason(slot.read(&request, &mut space));
        assert!(space.iter().all(|byte| *byte == 0xA5));
        refused
    };
    let before_start = Offset::FromEnd(9);
    assert_eq!(read(before_start, 1, 5), Reason::OffsetBeforeStart);
    assert_eq!(read(before_start, 1, 0), Reason::OffsetBeforeStart);
    assert_eq!(read(Offset::FromStart(7), 1, 4), Reason::ReplySpace);
    // The piece that exists has no space.
    assert_eq!(read(Offset::FromStart(6), 100, 5), Reason::ReplySpace);
    assert_eq!(read(Offset::FromEnd(2), 100, 5), Reason::ReplySpace);
    let mut bad = bytes.clone();
    bad[999] = 1;
    let refused = Container::adopt(&bad).read(&ReadData::new(), &mut []);
    assert_eq!(reason(refused), Reason::NotWellFormed);
}

#[test]
fn a_test_and_write_is_done() {
    let mut slot = Container::open(with_data(1000, b"old data")).unwrap();
    let request = TestAndWrite::new(ENABLER)
        .test(0, 3, Opcode::Equal, b"old")
        .unwrap()
        .test(4, 100, Opcode::Greater, b"")
        .unwrap()
        .write(0, b"new")
        .unwrap();
    let mut space = [0xA5; 20];
    let written = slot.test_and_write(&request, &mut space).unwrap();
    assert!(matches!(written, Written::Done(_)));
    // The old pieces, though the first is overwritten.
    let pieces: Vec<&[u8]> = written.reply().pieces().collect();
    assert_eq!(pieces, [b"old", &b"data"[..]]);
    assert_eq!(slot.view().unwrap().data(), b"new data");
    assert_eq!(space[15..], [0xA5; 5]);
}

#[test]
fn a_false_test_is_no_refusal() {
    let before = with_data(1000, b"old data");
    let mut slot = Container::open(before.clone()).unwrap();
    let request = TestAndWrite::new(ENABLER)
        .test(4, 4, Opcode::Equal, b"data")
        .unwrap()
        .test(0, 3, Opcode::Less, b"old")
        .unwrap()
        .write(0, b"new")
        .unwrap();
    let mut space = [0xA5; 20];
    let written = slot.test_and_write(&request, &mut space).unwrap();
    assert!(matches!(written, Written::TestFalse(_)));
    let pieces: Vec<&[u8]> = written.reply().pieces().collect();
    assert_eq!(pieces, [&b"data"[..], b"old"]);
    assert_eq!(space[15..], [0xA5; 5]);
    assert_eq!(slot.into_buffer(), before);
}

#[test]
fn a_test_and_write_is_refused() {
    let before = with_data(480, b"old data");
    let mut slot = Container::open(before.clone()).unwrap();
    let other = WriteEnabler::new([1; 32]);
    let refusal = slot.test_and_write(&TestAndWrite::new(other), &mut []);
    let refusal = refusal.unwrap_err();
    assert_eq!(refusal.reason, Reason::EnablerDiffers);
    assert_eq!(refusal.accepted_by, Some(NODE));

    let longer = TestAndWrite::new(ENABLER).write(8, b"!").unwrap();
    let refusal = slot.test_and_write(&longer, &mut []).unwrap_err();
    assert_eq!(
        (refusal.reason, refusal.accepted_by),
        (Reason::NoRoom, None)
    );
    let append = TestAndWrite::new(ENABLER).append(b"!").unwrap();
    assert_eq!(
        reason(slot.test_and_write(&append, &mut [])),
        Reason::NoRoom
    );
    let before_start = TestAndWrite::new(ENABLER).write(Offset::FromEnd(9), b"!");
    let refused = slot.test_and_write(&before_start.unwrap(), &mut []);
    assert_eq!(reason(refused), Reason::OffsetBeforeStart);
    let request = TestAndWrite::new(ENABLER);
    let request = request.test(0, 8, Opcode::Equal, b"").unwrap();
    let mut space = [0; 11];
    let refused = slot.test_and_write(&request, &mut space);
    assert_eq!(reason(refused), Reason::ReplySpace);
    assert_eq!(slot.into_buffer(), before);
}

#[test]
fn leases_are_added_renewed_and_cancelled() {
    let mut slot = Container::open(fresh(700)).unwrap();
    assert_eq!(slot.add_lease(lease(1)), Ok(1));
    assert_eq!(slot.add_lease(lease(2)), Ok(2));
    // The renewal token is known: the later expiry is kept, and no other field.
    let later = Lease {
        renewal: lease(1).renewal,
        ..lease(9)
    };
    assert_eq!(slot.add_lease(later), Ok(2));
    assert_eq!(slot.renew_lease(lease(2).renewal, u32::MAX - 1), Ok(2));
    assert_eq!(slot.renew_lease(lease(2).renewal, 5), Ok(2));
    let leases: Vec<(usize, Lease)> = slot.view().unwrap().leases().collect();
    let first = Lease {
        expiry: lease(9).expiry,
        ..lease(1)
    };
    let second = Lease {
        expiry: u32::MAX - 1,
        ..lease(2)
    };
    assert_eq!(leases, [(0, first), (1, second)]);

    let unknown = slot.renew_lease(RenewalToken::new([0; 32]), 1);
    assert_eq!(reason(unknown), Reason::NoSuchLease);
    let unknown = slot.cancel_lease(CancelToken::new([0; 32]));
    assert_eq!(reason(unknown), Reason::NoSuchLease);
    // A token of the other sort does not do.
    let other = slot.cancel_lease(CancelToken::new(*lease(2).renewal.expose()));
    assert_eq!(reason(other), Reason::NoSuchLease);
    assert_eq!(slot.cancel_lease(lease(1).cancel), Ok(1));
    assert_eq!(slot.cancel_lease(lease(2).cancel), Ok(0));
    assert_eq!(slot.into_buffer(), fresh(700));

    let mut tight = Container::open(fresh(563)).unwrap();
    for number in 1..=4 {
        assert_eq!(tight.add_lease(lease(number)), Ok(u64::from(number)));
    }
    assert_eq!(reason(tight.add_lease(lease(5))), Reason::NoRoom);
}

#[test]
fn apply_sends_raw_bytes() {
    let mut slot = Container::open(with_data(1000, b"abcdefgh")).unwrap();
    let mut space = [0xA5; 8];
    let answer = slot.apply(&[5, 1, 0, 0, 0, 0, 0, 1, 0, 0, 0, 2], &mut space);
    assert_eq!((answer.outcome, answer.count), (Ok(()), 6));
    let reply = Reply::new(&space[..6], 1).unwrap();
    assert_eq!(reply.pieces().next(), Some(&b"bc"[..]));
    for request in [&[][..], &[5], &[6, 0, 0, 0], &[5, 0, 0, 0, 0]] {
        let answer = slot.apply(request, &mut []);
        assert_eq!(answer.outcome.unwrap_err().reason, Reason::RequestFormat);
    }
    let mut request = vec![1, 0, 0, 0, 0, 0, 0, 0];
    request.extend([0xFF; 32]);
    let answer = slot.apply(&request, &mut []);
    let refusal = answer.outcome.unwrap_err();
    assert_eq!(refusal.reason, Reason::EnablerDiffers);
    assert_eq!((refusal.accepted_by, answer.count), (Some(NODE), 0));
}

/// The container for reading answers as the one for writing does, and takes no other request.
#[test]
fn reading_needs_no_writing() {
    let mut bytes = slot(1000, b"abcdefgh");
    let request = [5, 1, 0, 0, 0, 0, 0, 1, 0, 0, 0, 2];
    let (mut space, mut other) = ([0xA5; 8], [0xA5; 8]);
    let read = ffi::read(&bytes, &request, &mut space);
    assert_eq!(read, ffi::apply(&mut bytes, &request, &mut other));
    assert_eq!((read.number, read.count, space), (0, 6, other));
    let cancel = [&[4][..], lease(3).cancel.expose()].concat();
    assert_eq!(ffi::read(&bytes, &cancel, &mut space).number, 3);
    assert_eq!(ffi::apply(&mut bytes, &cancel, &mut space).number, 0);
}

#[test]
fn the_share_is_the_containers_data() {
    for edition in Edition::ALL {
        let bytes = slot(2000, &share(edition));
        let opened = Container::open(&bytes[..]).unwrap();
        let found = opened.share().unwrap();
        assert_eq!(found, Share::in_container(&bytes).unwrap());
        assert_eq!(found.edition(), edition);
        let (_, first) = found.parts().next().unwrap();
        let place = 468 + bounds(edition)[0]..468 + bounds(edition)[1];
        assert_eq!(first.as_ptr_range(), bytes[place].as_ptr_range());
        for number in 21..=29 {
            let opened = Container::open(slot(2000, &bad_share(edition, number))).unwrap();
            assert_eq!(reason(opened.share()).number(), number);
        }
    }
}

#[test]
fn debug_tells_sizes_alone() {
    let bytes = slot(1000, &rising::<77>(0x30));
    let slot = Container::open(&bytes[..]).unwrap();
    assert_eq!(format!("{slot:?}"), "Container { buffer_len: 1000, .. }");
    assert_eq!(
        format!("{:?}", slot.view().unwrap()),
        "View { buffer_len: 1000, used_len: 825, node_id: NodeId(05060708090a0b0c0d0e0f101112131415161718), \
         data_len: 77, slack_len: 0, leases: 2, .. }"
    );
    let bytes = cut(bytes, 70);
    let words = format!("{:?}", View::open(&bytes).unwrap());
    assert!(words.ends_with(" data_len: 70, slack_len: 7, leases: 2, .. }"));
    // Where refused, it is printed all the same.
    let adopted = Container::adopt([0xEE; 3]);
    assert_eq!(format!("{adopted:?}"), "Container { buffer_len: 3, .. }");
}

/// What a view or a `Written` gives outlives them: it is of the bytes.
#[test]
fn parts_outlive_what_gave_them() {
    fn data(bytes: &[u8]) -> &[u8] {
        View::open(bytes).unwrap().data()
    }
    fn leases(bytes: &[u8]) -> impl Iterator<Item = (usize, Lease)> + '_ {
        View::open(bytes).unwrap().leases()
    }
    fn first<'r>(written: Written<'r>) -> &'r [u8] {
        written.reply().pieces().next().unwrap()
    }
    let bytes = slot(1000, b"abcdefgh");
    assert_eq!(data(&bytes), b"abcdefgh");
    assert_eq!(leases(&bytes).count(), 2);
    let reply = Reply::new(b"\0\0\0\x01A", 1).unwrap();
    assert_eq!(first(Written::Done(reply)), b"A");
}

/// What a node's programmer may count on: ids as keys, small values that are copied.
#[test]
fn values_have_their_traits() {
    fn copied<T: Copy>() {}
    fn key<T: Copy + Eq + std::hash::Hash>() {}
    key::<NodeId>();
    key::<Reason>();
    key::<Opcode>();
    key::<Edition>();
    key::<Part>();
    copied::<View>();
    copied::<Lease>();
    copied::<Reply>();
    copied::<Refusal>();
    copied::<Share>();
    assert_eq!(
        format!("{:?}", NodeId([0xAB; 20])),
        format!("NodeId({})", "ab".repeat(20))
    );
}

//! A slot with its list: create, open, look at, and send each request.

#![allow(clippy::single_range_in_vec_init)] // A stretch is a range.

mod common;

use beamsatchel_node::layout::list::{COUNT, LENGTH, MAX_ROWS, ROW, ROWS};
use beamsatchel_node::{
    Container, Edition, ListedContainer, Offset, Opcode, ReadData, Reason, Refusal, Stretches,
    TestAndWrite, WriteEnabler, Written,
};
use common::{fresh, lease, share, with_data, ENABLER, NODE};
use std::ops::Range;

type Owned = ListedContainer<Vec<u8>, Vec<u8>>;

fn reason<T>(result: Result<T, Refusal>) -> Reason {
    result.err().expect("refused").reason
}

fn slot(length: usize) -> Owned {
    ListedContainer::create(vec![0x55; length], vec![0x55; LENGTH], NODE, ENABLER).unwrap()
}

/// Sends what is done, and gives the stretches afterwards.
fn send(slot: &mut Owned, request: TestAndWrite) -> Vec<Range<usize>> {
    assert!(slot.test_and_write(&request, &mut []).unwrap().is_done());
    slot.stretches().unwrap().iter().collect()
}

fn write(at: u32, data: &[u8]) -> TestAndWrite {
    TestAndWrite::new(ENABLER).write(at, data).unwrap()
}

/// 256 stretches of one byte, each before a byte that somebody wrote.
fn full() -> Owned {
    let mut slot = slot(2_000);
    for stretch in 0..256 {
        send(&mut slot, write(2 * stretch + 1, b"!"));
    }
    assert_eq!(slot.stretches().unwrap().len(), MAX_ROWS);
    slot
}

#[test]
fn the_table_of_a_list() {
    assert_eq!((COUNT, ROWS, ROW, MAX_ROWS), (0, 4, 8, 256));
    assert_eq!(LENGTH, ROWS + ROW * MAX_ROWS);
}

/// A new list beside the old container, as when only the list was stored, is refused or names no written byte.
#[test]
fn the_list_is_stored_first() {
    let mut slot = slot(1_000);
    let mut seed: u32 = 1;
    let mut random = |below: u32| {
        seed = seed.wrapping_mul(1_664_525).wrapping_add(1_013_904_223);
        (seed >> 16) % below
    };
    let (mut refused, mut fewer) = (0, 0);
    for _ in 0..500 {
        let old = slot.clone();
        let named: Vec<_> = old.stretches().unwrap().iter().flatten().collect();
        let mut request = TestAndWrite::new(ENABLER);
        for _ in 0..random(3) {
            let data = vec![random(2) as u8; random(9) as usize];
            request = request.write(random(80), &data).unwrap();
        }
        if random(3) == 0 {
            request = request.cut(random(80));
        }
        send(&mut slot, request);
        match Stretches::open(old.as_bytes(), slot.list_bytes()) {
            Ok(stretches) => {
                assert!(stretches.iter().flatten().all(|byte| named.contains(&byte)));
                fewer += usize::from(stretches.byte_count() < named.len());
            }
            Err(refusal) => {
                assert_eq!(refusal.reason, Reason::ListNotGood);
                refused += 1;
            }
        }
    }
    assert!(refused > 20 && fewer > 20, "{refused} {fewer}");
}

/// Stretches stand in a loop, lent or handed over, as in the iterator.
#[test]
fn stretches_in_a_loop() {
    let mut slot = slot(600);
    let written = send(&mut slot, write(3, b"AB").write(9, b"C").unwrap());
    assert_eq!(written, [0..3, 5..9]);
    let stretches = slot.stretches().unwrap();
    let mut looped = Vec::new();
    for stretch in &stretches {
        looped.push(stretch);
    }
    assert_eq!(looped, written);
    assert_eq!(stretches.into_iter().collect::<Vec<_>>(), written);
    assert_eq!(stretches.into_iter().rev().len(), 2);
}

#[test]
fn create_writes_both() {
    let created = slot(600);
    assert_eq!(created.as_bytes(), fresh(600));
    assert_eq!(created.list_bytes(), [0; LENGTH]);
    assert!(created.stretches().unwrap().is_empty());
}

#[test]
fn create_refuses_and_leaves_both() {
    let precious = with_data(500, b"precious");
    for (buffer, length, why) in [
        (vec![0x55; 471], LENGTH, Reason::BufferLength),
        (vec![0x55; 500], LENGTH - 1, Reason::ListNotGood),
        (vec![0x55; 500], LENGTH + 1, Reason::ListNotGood),
        (vec![0x55; 500], 0, Reason::ListNotGood),
        (precious, LENGTH, Reason::AlreadyContainer),
    ] {
        let (mut bytes, mut list) = (buffer.clone(), vec![0x55; length]);
        let refused = ListedContainer::create(&mut bytes[..], &mut list[..], NODE, ENABLER);
        assert_eq!(reason(refused), why);
        assert!(bytes == buffer && list == vec![0x55; length]);
    }
}

#[test]
fn open_judges_both() {
    let zeros = [0; LENGTH];
    assert_eq!(
        reason(ListedContainer::open(&[][..], &[][..])),
        Reason::BufferLength
    );
    assert_eq!(
        reason(ListedContainer::open(&[0; 472], &[])),
        Reason::NotWellFormed
    );
    assert_eq!(
        reason(ListedContainer::open(fresh(472), &[])),
        Reason::ListNotGood
    );
    assert!(ListedContainer::open(fresh(472), &zeros).is_ok());
    let refusal = ListedContainer::open(fresh(472), [1; LENGTH]).unwrap_err();
    assert_eq!(
        (refusal.reason, refusal.accepted_by),
        (Reason::ListNotGood, None)
    );
    // A list that names fewer zeros than it could is good.
    assert!(ListedContainer::open(with_data(500, &[0; 20]), zeros).is_ok());
}

/// What is adopted is judged by whatever is asked of it.
#[test]
fn adopt_looks_at_nothing() {
    let bad = ListedContainer::adopt(fresh(500), vec![1; LENGTH]);
    assert_eq!(bad.list_bytes(), [1; LENGTH]);
    assert_eq!(reason(bad.view()), Reason::ListNotGood);
    assert_eq!(reason(bad.stretches()), Reason::ListNotGood);
    assert_eq!(reason(bad.share()), Reason::ListNotGood);
    assert_eq!(
        reason(bad.read(&ReadData::new(), &mut [])),
        Reason::ListNotGood
    );
    let mut bad = bad;
    let request = TestAndWrite::new(ENABLER);
    assert_eq!(
        reason(bad.test_and_write(&request, &mut [])),
        Reason::ListNotGood
    );
    assert_eq!(reason(bad.add_lease(lease(1))), Reason::ListNotGood);
    assert_eq!(
        reason(bad.renew_lease(lease(1).renewal, 7)),
        Reason::ListNotGood
    );
    assert_eq!(
        reason(bad.cancel_lease(lease(1).cancel)),
        Reason::ListNotGood
    );
    assert_eq!(bad.into_parts(), (fresh(500), vec![1; LENGTH]));
    assert_eq!(
        reason(Stretches::open(&fresh(500), &[1; LENGTH])),
        Reason::ListNotGood
    );
}

#[test]
fn both_are_lent_or_owned() {
    let request = write(3, b"AB");
    let (mut buffer, mut list) = (fresh(500), vec![0; LENGTH]);
    let mut lent = ListedContainer::open(&mut buffer[..], &mut list[..]).unwrap();
    assert!(lent.test_and_write(&request, &mut []).unwrap().is_done());
    let mut mixed = ListedContainer::open(fresh(500).into_boxed_slice(), [0; LENGTH]).unwrap();
    // A copy of owned ones goes its own way.
    let copy = mixed.clone();
    assert!(mixed.test_and_write(&request, &mut []).unwrap().is_done());
    assert_eq!(
        (mixed.as_bytes(), mixed.list_bytes()),
        (&buffer[..], &list[..])
    );
    assert_eq!(
        (copy.as_bytes(), copy.list_bytes()),
        (&fresh(500)[..], &[0; LENGTH][..])
    );
    let for_reading = ListedContainer::open(&buffer, &list).unwrap();
    assert_eq!(for_reading.view().unwrap().data(), b"\0\0\0AB");
    let reply = &mut [0; 9];
    let read = ReadData::new().read(0, 5).unwrap();
    let reply = for_reading.read(&read, reply).unwrap();
    assert_eq!(reply.pieces().next(), Some(&b"\0\0\0AB"[..]));
}

#[test]
fn the_list_follows_the_writes() {
    let mut slot = slot(600);
    let slot = &mut slot;
    assert_eq!(send(slot, write(10, b"AB")), [0..10]);
    // A row that ends where the data ends is lengthened.
    assert_eq!(send(slot, TestAndWrite::new(ENABLER).cut(6)), [0..6]);
    assert_eq!(send(slot, write(9, b"C")), [0..9]);
    assert_eq!(send(slot, write(4, b"\0")), [0..4, 5..9]);
    assert_eq!(send(slot, write(20, b"DEFG")), [0..4, 5..9, 10..20]);
    // Over several, with both ends inside.
    assert_eq!(send(slot, write(2, &[7; 10])), [0..2, 12..20]);
    assert_eq!(send(slot, write(24, b"")), [0..2, 12..20]);
    // Appended, which leaves no gap; and behind a gap of the same request.
    let request = TestAndWrite::new(ENABLER);
    let request = request.append(b"H").unwrap().write(30, b"I").unwrap();
    let request = request.append(b"J").unwrap();
    assert_eq!(send(slot, request), [0..2, 12..20, 25..30]);
    let last = TestAndWrite::new(ENABLER).write(Offset::FromEnd(3), b"K");
    assert_eq!(send(slot, last.unwrap()), [0..2, 12..20, 25..29]);
    // The cut comes last.
    assert_eq!(send(slot, write(50, b"L").cut(13)), [0..2, 12..13]);
    assert_eq!(send(slot, TestAndWrite::new(ENABLER).cut(12)), [0..2]);
    assert_eq!(send(slot, TestAndWrite::new(ENABLER).cut(0)), []);
    assert_eq!(slot.list_bytes(), [0; LENGTH]);
}

/// The bytes before a cut come back neither as data nor as something written.
#[test]
fn the_incident() {
    let mut slot = slot(600);
    let vans = write(0, b"VAN1 21CVAN2 19CVAN3 24C");
    assert_eq!(send(&mut slot, vans), []);
    assert_eq!(send(&mut slot, TestAndWrite::new(ENABLER).cut(8)), []);
    assert_eq!(send(&mut slot, write(24, b"VAN4 20C")), [8..24]);
    let stretches = slot.stretches().unwrap();
    assert_eq!((stretches.len(), stretches.byte_count()), (1, 16));
    assert!(!stretches.is_empty());
    for position in 0..40 {
        assert_eq!(stretches.contains(position), (8..24).contains(&position));
    }
    assert!(!stretches.contains(usize::MAX));
}

#[test]
fn stretches_are_ranges_of_the_data() {
    let mut slot = slot(600);
    for at in [3, 9, 20] {
        send(&mut slot, write(at, b"A"));
    }
    let stretches = slot.stretches().unwrap();
    assert_eq!(format!("{stretches:?}"), "[0..3, 4..9, 10..20]");
    assert_eq!(
        stretches.iter().rev().collect::<Vec<_>>(),
        [10..20, 4..9, 0..3]
    );
    let mut iterator = stretches.iter();
    for left in (1..=3).rev() {
        assert_eq!((iterator.len(), iterator.clone().count()), (left, left));
        assert!(iterator.next().is_some());
    }
    assert_eq!((iterator.len(), iterator.next()), (0, None));
    assert_eq!((stretches.len(), stretches.is_empty()), (3, false));
    for (range, met) in [
        (0..1, Some(0..3)),
        (2..10, Some(0..3)),
        (3..4, None),
        (3..5, Some(4..9)),
        (9..10, None),
        (9..11, Some(10..20)),
        (19..100, Some(10..20)),
        (20..21, None),
        (20..usize::MAX, None),
        // No byte has none in common with anything.
        (5..5, None),
    ] {
        assert_eq!(stretches.meets(range.clone()), met, "{range:?}");
    }
    let data = slot.view().unwrap().data();
    assert!(stretches
        .iter()
        .all(|stretch| data[stretch].iter().all(|byte| *byte == 0)));
    // The same list beside the same bytes.
    assert_eq!(
        Stretches::open(slot.as_bytes(), slot.list_bytes()),
        Ok(stretches)
    );
}

#[test]
fn a_full_list() {
    let mut slot = full();
    let before = slot.clone().into_parts();
    let stretches = slot.stretches().unwrap();
    assert!(stretches.iter().eq((0..256).map(|at| 2 * at..2 * at + 1)));
    // The reply space stays as it was too, though the test holds.
    let more = TestAndWrite::new(ENABLER).test(0, 2, Opcode::Equal, b"\0!");
    let more = more.unwrap().write(600, b"!").unwrap();
    let mut reply = [0xA5; 6];
    let refusal = slot.test_and_write(&more, &mut reply).unwrap_err();
    assert_eq!(
        (refusal.reason, refusal.accepted_by),
        (Reason::ListFull, None)
    );
    assert_eq!(
        refusal.to_string(),
        "13: The never-written list would have more than 256 stretches."
    );
    assert_eq!(reply, [0xA5; 6]);
    let answer = slot.apply(&more.to_bytes(), &mut reply);
    assert_eq!((answer.outcome, answer.count), (Err(refusal), 0));
    assert_eq!(slot.clone().into_parts(), before);
    // More on the way do not matter: one comes, one goes.
    let exchange = write(600, b"!").write(0, b"!").unwrap();
    let after = send(&mut slot, exchange);
    assert_eq!((after.len(), after.last()), (256, Some(&(512..600))));
    assert_eq!(send(&mut slot, write(700, b"!").cut(601)), after);
}

/// Leases and reads leave the list, and so does what is refused.
#[test]
fn other_requests_leave_the_list() {
    let mut slot = slot(700);
    send(&mut slot, write(9, b"A"));
    let list = slot.list_bytes().to_vec();
    assert_eq!(slot.add_lease(lease(1)), Ok(1));
    assert_eq!(slot.add_lease(lease(2)), Ok(2));
    assert_eq!(slot.renew_lease(lease(1).renewal, u32::MAX), Ok(2));
    assert_eq!(slot.cancel_lease(lease(2).cancel), Ok(1));
    assert_eq!(
        reason(slot.cancel_lease(lease(2).cancel)),
        Reason::NoSuchLease
    );
    let (_, kept) = slot.view().unwrap().leases().next().unwrap();
    assert_eq!((kept.owner, kept.expiry), (lease(1).owner, u32::MAX));

    let other = TestAndWrite::new(WriteEnabler::new([1; 32]));
    let refusal = slot.test_and_write(&other, &mut []).unwrap_err();
    assert_eq!(
        (refusal.reason, refusal.accepted_by),
        (Reason::EnablerDiffers, Some(NODE))
    );
    assert_eq!(
        reason(slot.test_and_write(&write(700, b"A"), &mut [])),
        Reason::NoRoom
    );
    let test = write(3, b"A").test(9, 1, Opcode::Less, b"A").unwrap();
    let mut space = [0; 5];
    match slot.test_and_write(&test, &mut space).unwrap() {
        Written::TestFalse(reply) => assert_eq!(reply.pieces().next(), Some(&b"A"[..])),
        Written::Done(_) => unreachable!(),
    }
    for request in [&b""[..], b"\x05\0\0\0", b"\x06", &[7; 70_000]] {
        let _ = slot.apply(request, &mut []);
    }
    assert_eq!(slot.list_bytes(), list);
}

/// A plain container writes past the list, which then tells of what somebody wrote, or is refused.
#[test]
fn a_write_beside_the_list() {
    let mut slot = slot(600);
    send(&mut slot, write(9, b"A"));
    let (buffer, list) = slot.into_parts();
    let mut plain = Container::open(buffer).unwrap();
    assert!(plain
        .test_and_write(&write(4, b"\0"), &mut [])
        .unwrap()
        .is_done());
    let listed = ListedContainer::open(plain.as_bytes(), &list).unwrap();
    assert!(listed.stretches().unwrap().contains(4));
    assert!(plain
        .test_and_write(&write(4, b"B"), &mut [])
        .unwrap()
        .is_done());
    assert_eq!(
        reason(ListedContainer::open(plain.as_bytes(), &list)),
        Reason::ListNotGood
    );
}

#[test]
fn a_share_beside_a_list() {
    for edition in Edition::ALL {
        let bytes = with_data(2_000, &share(edition));
        let slot = ListedContainer::open(&bytes, [0; LENGTH]).unwrap();
        assert_eq!(slot.share().unwrap().edition(), edition);
    }
    assert_eq!(reason(slot(500).share()), Reason::ShareShort);
}

/// The lengths alone: the bytes hold secrets.
#[test]
fn a_listed_container_in_debug_words() {
    let words = "ListedContainer { buffer_len: 500, list_len: 2052, .. }";
    assert_eq!(format!("{:?}", slot(500)), words);
}

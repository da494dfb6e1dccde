//! Reasons, answers, refusals, errors and replies.

#![deny(unfulfilled_lint_expectations, unreachable_patterns)]

mod common;

use beamsatchel_node::ffi::RawAnswer;
use beamsatchel_node::{
    Answer, BuildError, Container, Edition, Error, ListedContainer, NewShareError, Reason, Reply,
    TestAndWrite, Written,
};
use common::{fresh, new_share, ENABLER, NODE};

/// Every reason with its number and what it says.
const REASONS: [(Reason, u32, &str); 22] = [
    (Reason::BufferLength, 1, "The container's buffer is not 472 to 16,777,216 bytes long."),
    (Reason::NotWellFormed, 2, "The buffer does not hold a well-formed container."),
    (Reason::RequestFormat, 3, "The request breaks its format."),
    (Reason::OffsetBeforeStart, 4, "Some offset reaches before the start of the data."),
    (Reason::EnablerDiffers, 5, "The write enabler is not the container's."),
    (Reason::ReplySpace, 7, "The reply space is shorter than the reply."),
    (Reason::TestFalse, 8, "Some test is false, so nothing was written."),
    (Reason::NoSuchLease, 9, "No lease has the token."),
    (Reason::LeasesFull, 10, "There are 64 leases, none with the renewal token."),
    (Reason::NoRoom, 11, "The result would not fit the container's buffer."),
    (Reason::AlreadyContainer, 12, "The buffer begins with a container's magic."),
    (Reason::ListFull, 13, "The never-written list would have more than 256 stretches."),
    (
        Reason::ListNotGood,
        16,
        "The never-written list breaks its form, or names a byte outside the data or one that is not zero.",
    ),
    (Reason::ShareShort, 21, "The share is shorter than its header, 107 bytes in SDMF and 123 in MDMF."),
    (Reason::ShareVersion, 22, "The share's version is neither 0 (SDMF) nor 1 (MDMF)."),
    (Reason::ShareCoding, 23, "The share's k is 0 or above its N."),
    (
        Reason::ShareSegmentSize,
        24,
        "The share's segment size is not the least multiple of k at or above its data length (SDMF), \
         or is no multiple of k, or 0 with data (MDMF).",
    ),
    (
        Reason::ShareOffsets,
        25,
        "The share's offsets are not in order, or do not reach from its header to its last byte.",
    ),
    (
        Reason::ShareHashChain,
        26,
        "The share's hash chain has a wrong length, or a node number in it repeats or is too large.",
    ),
    (
        Reason::ShareBlockTree,
        27,
        "The share's block tree has another length than its number of segments asks.",
    ),
    (
        Reason::ShareData,
        28,
        "The share's data is not data length / k bytes long, rounded up, and 16 more for each segment (MDMF).",
    ),
    (
        Reason::ShareSequence,
        29,
        "The share's sequence number is 2^64-1, which has no successor.",
    ),
];

/// Of a reply the lengths are told, and not the bytes, of which there may be many.
#[test]
fn a_reply_in_debug_words() {
    let bytes = [0, 0, 0, 2, 0, 0, 0, 0, 0, 0, 0, 1, 0x41, 0x42, 0x43];
    let reply = Reply::new(&bytes, 3).unwrap();
    let words = "Reply { piece_lens: [2, 0, 1], .. }";
    assert_eq!(format!("{reply:?}"), words);
    assert_eq!(
        format!("{:?}", Written::Done(reply)),
        format!("Done({words})")
    );
}

#[test]
fn reasons_have_their_numbers_and_sentences() {
    assert_eq!(Reason::ALL, REASONS.map(|(reason, ..)| reason));
    for (reason, number, sentence) in REASONS {
        assert_eq!((reason.number(), reason.sentence()), (number, sentence));
        assert_eq!(Reason::from_number(number), Some(reason));
        assert_eq!(reason.to_string(), format!("{number}: {sentence}"));
    }
    // 257 is 1 in its last byte.
    for number in [0, 6, 14, 15, 17, 20, 30, 257, u32::MAX] {
        assert_eq!(Reason::from_number(number), None);
    }
}

/// An answer record as the library gives it; the node id is never zeros here.
fn answer(number: u32, count: u64) -> Option<Answer> {
    let node = NODE.0;
    Answer::from_raw(RawAnswer {
        number,
        node,
        count,
    })
}

#[test]
fn an_answer_is_the_record() {
    let count = u64::MAX - 7;
    let done = answer(0, count).unwrap();
    assert_eq!((done.outcome, done.count), (Ok(()), count));
    for (reason, number, _) in REASONS {
        let refused = answer(number, count).unwrap();
        let refusal = refused.outcome.unwrap_err();
        assert_eq!((refusal.reason, refused.count), (reason, count));
        let named = (number == 5).then_some(NODE);
        assert_eq!(refusal.accepted_by, named, "only 5 names a node");
        assert_eq!(refused.done(), Err(refusal));
    }
    assert_eq!(done.done(), Ok(count));
}

#[test]
fn a_number_that_is_no_outcome_gives_no_answer() {
    for number in [6, 14, 15, 17, 20, 30, 256, u32::MAX] {
        assert_eq!(answer(number, 0), None);
    }
}

#[test]
fn a_refusal_names_the_node_that_accepted_the_enabler() {
    let refusal = answer(5, 0).unwrap().done().unwrap_err();
    assert_eq!(
        refusal.to_string(),
        "5: The write enabler is not the container's. \
         It was accepted by node 05060708090a0b0c0d0e0f101112131415161718."
    );
    // It stays where the refusal becomes the one error.
    assert_eq!(Error::from(refusal).to_string(), refusal.to_string());
    let refusal = answer(11, 0).unwrap().done().unwrap_err();
    assert_eq!(
        refusal.to_string(),
        "11: The result would not fit the container's buffer."
    );
}

#[test]
fn every_error_converts_into_one() {
    fn refuse() -> Result<(), Error> {
        Container::open([0; 472])?;
        Ok(())
    }
    fn build() -> Result<(), Error> {
        Err(BuildError::TooLong)?;
        Ok(())
    }
    fn write() -> Result<(), Error> {
        new_share(Edition::Sdmf).write(&mut [])?;
        Ok(())
    }
    let refused = refuse().unwrap_err();
    let Error::Refused(refusal) = refused else {
        panic!("{refused}");
    };
    assert_eq!(refusal.reason, Reason::NotWellFormed);
    assert_eq!(
        refused.to_string(),
        "2: The buffer does not hold a well-formed container."
    );
    let not_built = build().unwrap_err();
    assert_eq!(not_built, Error::NotBuilt(BuildError::TooLong));
    assert_eq!(not_built.to_string(), "a request has at most 65,536 bytes");
    let not_written = write().unwrap_err();
    assert_eq!(not_written, Error::ShareNotWritten(NewShareError::Space));
    assert_eq!(
        not_written.to_string(),
        "7: The space is shorter than the share."
    );

    // All of them are errors for those who box them. `done` is none of them.
    let boxed: [Box<dyn std::error::Error + Send + Sync>; 4] = [
        refused.into(),
        refusal.into(),
        BuildError::TooManyEntries.into(),
        NewShareError::Coding.into(),
    ];
    assert_eq!(
        boxed.map(|error| error.to_string())[1..],
        [
            "2: The buffer does not hold a well-formed container.",
            "a request has at most 16 entries of a sort",
            "23: The share's k is 0 or above its N."
        ]
    );
}

/// A reply with these pieces.
fn reply_bytes(pieces: &[&[u8]]) -> Vec<u8> {
    let mut bytes = Vec::new();
    for piece in pieces {
        bytes.extend((piece.len() as u32).to_be_bytes());
    }
    bytes.extend(pieces.concat());
    bytes
}

#[test]
fn a_reply_has_the_pieces_in_order() {
    // Longer than 255, so that the order of a length's bytes matters.
    let long = [0x11; 258];
    let bytes = reply_bytes(&[b"abc", b"", &long, b"d"]);
    let reply = Reply::new(&bytes, 4).unwrap();
    assert_eq!((reply.len(), reply.is_empty()), (4, false));
    let pieces: Vec<&[u8]> = reply.pieces().collect();
    assert_eq!(pieces, [&b"abc"[..], b"", &long, b"d"]);
    // Slices of the reply space, not copies.
    let places = [16..19, 19..19, 19..277, 277..278];
    for (piece, place) in pieces.into_iter().zip(places) {
        assert_eq!(piece.as_ptr_range(), bytes[place].as_ptr_range());
    }
}

#[test]
fn pieces_know_how_many_are_left() {
    let bytes = reply_bytes(&[b"ab", b"c", b""]);
    let mut pieces = Reply::new(&bytes, 3).unwrap().pieces();
    for left in (1..=3).rev() {
        assert_eq!(
            (pieces.len(), pieces.size_hint()),
            (left, (left, Some(left)))
        );
        let clone = pieces.clone();
        assert_eq!(clone.count(), left);
        assert!(pieces.next().is_some());
    }
    assert_eq!((pieces.len(), pieces.next()), (0, None));
}

#[test]
fn a_reply_without_entries_is_empty() {
    let reply = Reply::new(&[], 0).unwrap();
    assert_eq!((reply.len(), reply.is_empty()), (0, true));
    assert_eq!(reply.pieces().len(), 0);
    // One entry with an empty piece is not.
    let reply = Reply::new(&[0; 4], 1).unwrap();
    assert_eq!((reply.len(), reply.is_empty()), (1, false));
    assert_eq!(reply.pieces().next(), Some(&[][..]));
}

#[test]
fn lengths_add_up_to_the_pieces() {
    let bytes = reply_bytes(&[b"ab", b"c"]);
    assert!(Reply::new(&bytes, 2).is_some());
    for entries in [0, 1, 3, 4, usize::MAX] {
        assert_eq!(Reply::new(&bytes, entries), None, "{entries} entries");
    }
    // Four times as many is 2^64, which is 0 in 64 bits.
    assert_eq!(Reply::new(&[], usize::MAX / 4 + 1), None);
    assert_eq!(Reply::new(&bytes[..10], 2), None, "a byte less");
    let longer = [&bytes[..], b"d"].concat();
    assert_eq!(Reply::new(&longer, 2), None, "a byte more");
    assert_eq!(Reply::new(&[0; 7], 2), None, "a table cut off");
    // The sum is 2^32, which is 0 in 32 bits.
    assert_eq!(Reply::new(&[255, 255, 255, 255, 0, 0, 0, 1], 2), None);
}

#[test]
fn written_tells_whether() {
    let bytes = reply_bytes(&[b"ab"]);
    let reply = Reply::new(&bytes, 1).unwrap();
    let (done, test_false) = (Written::Done(reply), Written::TestFalse(reply));
    assert_eq!((done.is_done(), test_false.is_done()), (true, false));
    assert_eq!((done.reply(), test_false.reply()), (reply, reply));
}

/// Each statement drops what must not be dropped, which the compiler has to say.
#[test]
fn dropping_is_warned_of() {
    let mut slot = Container::adopt(fresh(472));
    #[expect(unused_must_use)]
    {
        slot.apply(&[], &mut []);
    }
    #[expect(unused_must_use)]
    {
        slot.test_and_write(&TestAndWrite::new(ENABLER), &mut [])
            .unwrap();
    }
    #[expect(unused_must_use)]
    {
        beamsatchel_node::ffi::apply(&mut [], &[], &mut []);
    }
    #[expect(unused_must_use)]
    {
        beamsatchel_node::ffi::check_share(&[]);
    }
    let mut slot = ListedContainer::adopt(fresh(472), [0; 2_052]);
    #[expect(unused_must_use)]
    {
        slot.apply(&[], &mut []);
    }
    #[expect(unused_must_use)]
    {
        slot.test_and_write(&TestAndWrite::new(ENABLER), &mut [])
            .unwrap();
    }
    #[expect(unused_must_use)]
    {
        beamsatchel_node::ffi::apply_listed(&mut [], &mut [], &[], &mut []);
    }
    #[expect(unused_must_use)]
    {
        beamsatchel_node::ffi::read_listed(&[], &[], &[], &mut []);
    }
}

/// More reasons and errors may come: the last arm of each would be unreachable if that were not announced.
#[test]
fn more_may_come() {
    match Error::NotBuilt(BuildError::TooLong) {
        Error::Refused(_) | Error::NotBuilt(_) | Error::ShareNotWritten(_) => {}
        _ => unreachable!(),
    }
    for (reason, ..) in REASONS {
        match reason {
            Reason::BufferLength
            | Reason::NotWellFormed
            | Reason::RequestFormat
            | Reason::OffsetBeforeStart
            | Reason::EnablerDiffers
            | Reason::ReplySpace
            | Reason::TestFalse
            | Reason::NoSuchLease
            | Reason::LeasesFull
            | Reason::NoRoom
            | Reason::AlreadyContainer
            | Reason::ListFull
            | Reason::ListNotGood
            | Reason::ShareShort
            | Reason::ShareVersion
            | Reason::ShareCoding
            | Reason::ShareSegmentSize
            | Reason::ShareOffsets
            | Reason::ShareHashChain
            | Reason::ShareBlockTree
            | Reason::ShareData
            | Reason::ShareSequence => {}
            _ => unreachable!(),
        }
    }
}

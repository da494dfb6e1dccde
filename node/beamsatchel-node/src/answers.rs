//! What a call answers: the answer record, why it was refused, and the reply.

use crate::container::NodeId;
use crate::ffi::RawAnswer;
use crate::requests::BuildError;
use crate::shares::NewShareError;
use std::fmt;

/// Why a call was refused: the outcomes 1 to 5 and 7 to 12 for containers, 13 and 16 for never-written lists beside
/// them, and 21 to 29 for shares that are checked. Outcome 0, done, is no refusal, and no outcome has the number 6. Why
/// a share is not written, [`NewShareError`] says.
///
/// Where several apply, the lowest number is given; only 16 comes before 3.
///
/// ```
/// use beamsatchel_node::Reason;
///
/// assert_eq!(Reason::NoRoom.number(), 11);
/// assert_eq!(Reason::from_number(11), Some(Reason::NoRoom));
/// assert_eq!(Reason::from_number(0), None);
/// println!("{}", Reason::NoRoom);
/// ```
#[derive(Clone, Copy, Debug, PartialEq, Eq, Hash)]
#[non_exhaustive]
#[repr(u8)]
pub enum Reason {
    /// 1: the container's buffer is not 472 to 16,777,216 bytes long.
    BufferLength = 1,
    /// 2: the container is not well formed; [`Fault`](crate::Fault) tells where.
    NotWellFormed = 2,
    /// 3: the request breaks its format.
    RequestFormat = 3,
    /// 4: some offset reaches before the start of the data; [`Offset`](crate::Offset) tells how they are counted.
    OffsetBeforeStart = 4,
    /// 5: the write enabler differs.
    EnablerDiffers = 5,
    /// 7: the reply space is shorter than the reply.
    ReplySpace = 7,
    /// 8: some test is false.
    TestFalse = 8,
    /// 9: no lease has the token.
    NoSuchLease = 9,
    /// 10: 64 leases, none with the renewal token.
    LeasesFull = 10,
    /// 11: the used length after the request, slack included, would exceed the buffer.
    NoRoom = 11,
    /// 12: create on a buffer that begins with the magic.
    AlreadyContainer = 12,
    /// 13: the never-written list would have more than 256 stretches. Fill a stretch first, or cut the data, or go on
    /// with a list of zeros: what was there then counts as written.
    ListFull = 13,
    /// 16: the never-written list has another length or form, or names a byte outside the data or one that is not zero;
    /// [`ListFault`](crate::ListFault) tells where.
    ListNotGood = 16,
    /// 21: the share is shorter than its header: 107 bytes, or 123 where it begins as MDMF does.
    ShareShort = 21,
    /// 22: the share's version is neither 0, SDMF, nor 1, MDMF.
    ShareVersion = 22,
    /// 23: the share's k is 0 or above N.
    ShareCoding = 23,
    /// 24: the share's segment size does not follow from data length and k (SDMF), or is no multiple of k, or 0 with
    /// data (MDMF).
    ShareSegmentSize = 24,
    /// 25: the share's offsets are not in order, or do not reach from its header to its last byte.
    ShareOffsets = 25,
    /// 26: the share's hash chain has a wrong length or a wrong node number.
    ShareHashChain = 26,
    /// 27: the share's block tree has a wrong length.
    ShareBlockTree = 27,
    /// 28: the share's data has a wrong length.
    ShareData = 28,
    /// 29: the share's sequence number is the last one.
    ShareSequence = 29,
}

impl Reason {
    /// Every reason, by rising number.
    pub const ALL: &'static [Reason] = &[
        Reason::BufferLength,
        Reason::NotWellFormed,
        Reason::RequestFormat,
        Reason::OffsetBeforeStart,
        Reason::EnablerDiffers,
        Reason::ReplySpace,
        Reason::TestFalse,
        Reason::NoSuchLease,
        Reason::LeasesFull,
        Reason::NoRoom,
        Reason::AlreadyContainer,
        Reason::ListFull,
        Reason::ListNotGood,
        Reason::ShareShort,
        Reason::ShareVersion,
        Reason::ShareCoding,
        Reason::ShareSegmentSize,
        Reason::ShareOffsets,
        Reason::ShareHashChain,
        Reason::ShareBlockTree,
        Reason::ShareData,
        Reason::ShareSequence,
    ];

    /// The outcome's number.
    pub const fn number(self) -> u32 {
        self as u32
    }

    /// The reason with a number; `None` for 0, which is done, and for numbers that no outcome has.
    pub fn from_number(number: u32) -> Option<Reason> {
        let mut reasons = Reason::ALL.iter().copied();
        reasons.find(|reason| reason.number() == number)
    }

    /// What it means, in a sentence.
    pub const fn sentence(self) -> &'static str {
        match self {
            Reason::BufferLength => "The container's buffer is not 472 to 16,777,216 bytes long.",
            Reason::NotWellFormed => "The buffer does not hold a well-formed container.",
            Reason::RequestFormat => "The request breaks its format.",
            Reason::OffsetBeforeStart => "Some offset reaches before the start of the data.",
            Reason::EnablerDiffers => "The write enabler is not the container's.",
            Reason::ReplySpace => "The reply space is shorter than the reply.",
            Reason::TestFalse => "Some test is false, so nothing was written.",
            Reason::NoSuchLease => "No lease has the token.",
            Reason::LeasesFull => "There are 64 leases, none with the renewal token.",
            Reason::NoRoom => "The result would not fit the container's buffer.",
            Reason::AlreadyContainer => "The buffer begins with a container's magic.",
            Reason::ListFull => "The never-written list would have more than 256 stretches.",
            Reason::ListNotGood => {
                "The never-written list breaks its form, or names a byte outside the data or one that is not zero."
            }
            Reason::ShareShort => "The share is shorter than its header, 107 bytes in SDMF and 123 in MDMF.",
            Reason::ShareVersion => "The share's version is neither 0 (SDMF) nor 1 (MDMF).",
            Reason::ShareCoding => "The share's k is 0 or above its N.",
            Reason::ShareSegmentSize => {
                "The share's segment size is not the least multiple of k at or above its data length (SDMF), \
                 or is no multiple of k, or 0 with data (MDMF)."
            }
            Reason::ShareOffsets => {
                "The share's offsets are not in order, or do not reach from its header to its last byte."
            }
            Reason::ShareHashChain => {
                "The share's hash chain has a wrong length, or a node number in it repeats or is too large."
            }
            Reason::ShareBlockTree => "The share's block tree has another length than its number of segments asks.",
            Reason::ShareData => {
                "The share's data is not data length / k bytes long, rounded up, and 16 more for each segment (MDMF)."
            }
            Reason::ShareSequence => "The share's sequence number is 2^64-1, which has no successor.",
        }
    }
}

/// The number and the sentence.
impl fmt::Display for Reason {
    fn fmt(&self, f: &mut fmt::Formatter<'_>) -> fmt::Result {
        write!(f, "{}: {}", self.number(), self.sentence())
    }
}

/// What the number of a share's check says: done, or why not.
pub(crate) fn outcome(number: u32) -> Result<(), Reason> {
    match number {
        0 => Ok(()),
        _ => Err(Reason::from_number(number).unwrap_or_else(|| no_outcome(number))),
    }
}

/// This crate's library gives outcomes alone, so another one is linked.
pub(crate) fn no_outcome(number: u32) -> ! {
    panic!("the library answered {number}, which is no outcome: is the archive of another version?")
}

/// The answer record of one request.
///
/// ```
/// use beamsatchel_node::{Container, Reason};
///
/// let answer = Container::adopt([0; 472]).apply(&[], &mut []);
/// assert_eq!(answer.outcome.unwrap_err().reason, Reason::NotWellFormed);
/// assert!(answer.done().is_err());
/// ```
#[derive(Clone, Copy, Debug, PartialEq, Eq)]
#[must_use]
#[non_exhaustive]
pub struct Answer {
    /// Done, or why the request was refused.
    pub outcome: Result<(), Refusal>,
    /// Reply bytes (kinds 1 and 5 when done, kind 1 also on [`Reason::TestFalse`]), or leases present after the
    /// request (kinds 2 to 4 when done); else 0.
    pub count: u64,
}

impl Answer {
    /// The record that a function of [`ffi`](crate::ffi) gave; `None` where its number is no outcome's.
    pub fn from_raw(raw: RawAnswer) -> Option<Answer> {
        let outcome = match raw.number {
            0 => Ok(()),
            number => {
                let reason = Reason::from_number(number)?;
                let accepted_by = (reason == Reason::EnablerDiffers).then_some(NodeId(raw.node));
                Err(Refusal {
                    reason,
                    accepted_by,
                })
            }
        };
        let count = raw.count;
        Some(Answer { outcome, count })
    }

    /// The record that the library gave, whose numbers are outcomes'.
    pub(crate) fn of_library(raw: RawAnswer) -> Answer {
        Answer::from_raw(raw).unwrap_or_else(|| no_outcome(raw.number))
    }

    /// The count of a request that is done.
    pub fn done(self) -> Result<u64, Refusal> {
        self.outcome.map(|()| self.count)
    }
}

/// A refused call. The container is as it was, and a list beside it too; so is the reply space, unless the reason is
/// [`Reason::TestFalse`], when it holds the reply.
///
/// ```
/// use beamsatchel_node::{CancelToken, Container, NodeId, Reason, WriteEnabler};
///
/// # fn main() -> Result<(), beamsatchel_node::Error> {
/// let mut slot = Container::create([0; 472], NodeId([7; 20]), WriteEnabler::new([1; 32]))?;
/// let refusal = slot.cancel_lease(CancelToken::new([0; 32])).unwrap_err();
/// assert_eq!(refusal.reason, Reason::NoSuchLease);
/// assert_eq!(refusal.to_string(), "9: No lease has the token.");
/// # Ok(())
/// # }
/// ```
#[derive(Clone, Copy, Debug, PartialEq, Eq)]
#[non_exhaustive]
pub struct Refusal {
    /// Which row of the table of outcomes applies.
    pub reason: Reason,
    /// The node that accepted the write enabler, on [`Reason::EnablerDiffers`] only.
    pub accepted_by: Option<NodeId>,
}

impl Refusal {
    /// A refusal that names no node.
    pub(crate) fn of(reason: Reason) -> Refusal {
        Refusal {
            reason,
            accepted_by: None,
        }
    }
}

impl fmt::Display for Refusal {
    fn fmt(&self, f: &mut fmt::Formatter<'_>) -> fmt::Result {
        write!(f, "{}", self.reason)?;
        match self.accepted_by {
            Some(node) => write!(f, " It was accepted by node {node}."),
            None => Ok(()),
        }
    }
}

impl std::error::Error for Refusal {}

/// Whatever can go wrong: a request that cannot be built, a call that is refused, a share that is not written.
///
/// ```
/// use beamsatchel_node::{Container, Error, NodeId, TestAndWrite, WriteEnabler};
///
/// fn store(buffer: &mut [u8], sample: &[u8]) -> Result<bool, Error> {
///     let enabler = WriteEnabler::new([1; 32]);
///     let mut slot = Container::create(buffer, NodeId([7; 20]), enabler)?;
///     let request = TestAndWrite::new(enabler).write(0, sample)?;
///     Ok(slot.test_and_write(&request, &mut [])?.is_done())
/// }
/// assert!(matches!(store(&mut [0; 472], b"VAN1"), Err(Error::Refused(_))));
/// assert!(matches!(store(&mut [0; 472], &[0; 65_536]), Err(Error::NotBuilt(_))));
/// ```
#[derive(Clone, Copy, Debug, PartialEq, Eq)]
#[non_exhaustive]
pub enum Error {
    /// The library refused.
    Refused(Refusal),
    /// A builder did not take an entry.
    NotBuilt(BuildError),
    /// The library wrote no share.
    ShareNotWritten(NewShareError),
}

impl fmt::Display for Error {
    fn fmt(&self, f: &mut fmt::Formatter<'_>) -> fmt::Result {
        match self {
            Error::Refused(refusal) => refusal.fmt(f),
            Error::NotBuilt(error) => error.fmt(f),
            Error::ShareNotWritten(error) => error.fmt(f),
        }
    }
}

impl std::error::Error for Error {}

impl From<Refusal> for Error {
    fn from(refusal: Refusal) -> Error {
        Error::Refused(refusal)
    }
}

impl From<BuildError> for Error {
    fn from(error: BuildError) -> Error {
        Error::NotBuilt(error)
    }
}

impl From<NewShareError> for Error {
    fn from(error: NewShareError) -> Error {
        Error::ShareNotWritten(error)
    }
}

/// Bytes of a length in the reply's table.
const LENGTH: usize = 4;

/// The reply to a read or a test-and-write: one piece of old data for each read or test.
///
/// ```
/// use beamsatchel_node::Reply;
///
/// let bytes = [0, 0, 0, 2, 0, 0, 0, 0, b'A', b'B'];
/// let reply = Reply::new(&bytes, 2).unwrap();
/// assert_eq!(reply.len(), 2);
/// assert_eq!(reply.pieces().collect::<Vec<_>>(), [&b"AB"[..], b""]);
/// assert!(Reply::new(&bytes, 1).is_none());
/// ```
#[derive(Clone, Copy, PartialEq, Eq)]
pub struct Reply<'r> {
    table: &'r [u8],
    pieces: &'r [u8],
}

impl<'r> Reply<'r> {
    /// Reads a reply of so many entries, which is the first [`count`](Answer::count) bytes of the reply space;
    /// `None` where its lengths do not add up to its bytes.
    pub fn new(bytes: &'r [u8], entries: usize) -> Option<Reply<'r>> {
        let (table, pieces) = bytes.split_at_checked(entries.checked_mul(LENGTH)?)?;
        let sum =
            lengths(table).try_fold(0, |sum: usize, length| sum.checked_add(length as usize))?;
        (sum == pieces.len()).then_some(Reply { table, pieces })
    }

    /// The pieces, in the order of the request's entries, as slices of the reply space.
    pub fn pieces(&self) -> impl ExactSizeIterator<Item = &'r [u8]> + Clone + use<'r> {
        let mut left = self.pieces;
        lengths(self.table).map(move |length| {
            let (piece, rest) = left.split_at(length as usize);
            left = rest;
            piece
        })
    }

    /// How many pieces there are.
    pub fn len(&self) -> usize {
        self.table.len() / LENGTH
    }

    /// Whether the request had no entries.
    pub fn is_empty(&self) -> bool {
        self.table.is_empty()
    }
}

/// The lengths of the pieces: there may be 256 MiB of them.
impl fmt::Debug for Reply<'_> {
    fn fmt(&self, f: &mut fmt::Formatter<'_>) -> fmt::Result {
        let lengths: Vec<u32> = lengths(self.table).collect();
        f.debug_struct("Reply")
            .field("piece_lens", &lengths)
            .finish_non_exhaustive()
    }
}

fn lengths<'r>(table: &'r [u8]) -> impl ExactSizeIterator<Item = u32> + Clone + use<'r> {
    let entries = table.chunks_exact(LENGTH);
    entries.map(|entry| u32::from_be_bytes(entry.try_into().expect("a chunk of four")))
}

/// How a test-and-write ended that was not refused for a flaw. Either way the reply has the old bytes that each
/// test looked at.
///
/// ```
/// use beamsatchel_node::{Container, NodeId, Opcode, TestAndWrite, WriteEnabler, Written};
///
/// # fn main() -> Result<(), beamsatchel_node::Error> {
/// let enabler = WriteEnabler::new([1; 32]);
/// let mut slot = Container::create([0; 500], NodeId([7; 20]), enabler)?;
/// let request = TestAndWrite::new(enabler).write(0, b"old")?;
/// assert!(slot.test_and_write(&request, &mut [])?.is_done());
///
/// let request = TestAndWrite::new(enabler)
///     .test(0, 3, Opcode::Equal, b"new")?
///     .write(0, b"newer")?;
/// let mut space = [0; 7];
/// match slot.test_and_write(&request, &mut space)? {
///     Written::Done(_) => unreachable!(),
///     Written::TestFalse(reply) => assert_eq!(reply.pieces().next(), Some(&b"old"[..])),
/// }
/// # Ok(())
/// # }
/// ```
#[derive(Clone, Copy, Debug, PartialEq, Eq)]
#[must_use = "nothing is written where a test is false"]
pub enum Written<'r> {
    /// Every test held; the writes and the cut are made.
    Done(Reply<'r>),
    /// Some test is false; the container is unchanged.
    TestFalse(Reply<'r>),
}

impl<'r> Written<'r> {
    /// Whether the writes are made.
    #[must_use]
    pub fn is_done(&self) -> bool {
        matches!(self, Written::Done(_))
    }

    /// The pieces that the tests looked at, as they were before any write.
    #[must_use]
    pub fn reply(&self) -> Reply<'r> {
        match self {
            Written::Done(reply) | Written::TestFalse(reply) => *reply,
        }
    }
}

//! Builders for the five requests. None of them can build a malformed one.

use crate::container::Lease;
use crate::layout::{MAX_LENGTH, MAX_REQUEST, MIN_LENGTH};
use crate::offsets::Offset;
use crate::secrets::{CancelToken, RenewalToken, WriteEnabler};
use std::fmt;

/// The most tests, writes or reads of a request.
const MAX_ENTRIES: usize = 16;
/// Bytes of a test-and-write before its first entry.
const HEADER: usize = 40;
/// Bytes of a test's entry.
const TEST: usize = 12;
/// Bytes of a write's entry and of a read's.
const ENTRY: usize = 8;

/// The most bytes of a reply to a table of entries, each of which has its length behind a four-byte offset, from a
/// container in a buffer of so many bytes.
fn reply_bound(table: &[u8], entry: usize, buffer_len: usize) -> usize {
    let most = buffer_len.min(MAX_LENGTH).saturating_sub(MIN_LENGTH);
    let lengths = table.chunks_exact(entry).map(|entry| {
        let length = entry[4..8].try_into().expect("four bytes");
        u32::from_be_bytes(length) as usize
    });
    lengths.map(|length| 4 + most.min(length)).sum()
}

/// Why a builder did not take an entry.
///
/// ```
/// use beamsatchel_node::{BuildError, ReadData};
///
/// let full = (0..16).try_fold(ReadData::new(), |request, at| request.read(at, 1)).unwrap();
/// assert_eq!(full.read(16, 1), Err(BuildError::TooManyEntries));
/// ```
#[derive(Clone, Copy, Debug, PartialEq, Eq)]
#[non_exhaustive]
pub enum BuildError {
    /// A request has at most 16 tests, 16 writes and 16 reads.
    TooManyEntries,
    /// A request has at most 65,536 bytes.
    TooLong,
    /// An offset is at most 2,147,483,647 bytes from the start or the end of the data.
    OffsetTooFar,
}

impl fmt::Display for BuildError {
    fn fmt(&self, f: &mut fmt::Formatter<'_>) -> fmt::Result {
        f.write_str(match self {
            BuildError::TooManyEntries => "a request has at most 16 entries of a sort",
            BuildError::TooLong => "a request has at most 65,536 bytes",
            BuildError::OffsetTooFar => {
                "an offset is at most 2,147,483,647 bytes from the start or the end of the data"
            }
        })
    }
}

impl std::error::Error for BuildError {}

/// How a test compares the piece of data, on the left, with the specimen, on the right: byte by byte unsigned, a
/// proper prefix being less.
///
/// ```
/// use beamsatchel_node::Opcode;
///
/// assert_eq!(Opcode::LessOrEqual as u8, 2);
/// ```
#[derive(Clone, Copy, Debug, PartialEq, Eq, Hash)]
#[repr(u8)]
pub enum Opcode {
    /// lt
    Less = 1,
    /// le
    LessOrEqual = 2,
    /// eq
    Equal = 3,
    /// ne
    NotEqual = 4,
    /// ge
    GreaterOrEqual = 5,
    /// gt
    Greater = 6,
}

/// Kind 1: tests, and writes and a cut that are made when every test holds.
///
/// ```
/// use beamsatchel_node::{Opcode, TestAndWrite, WriteEnabler};
///
/// # fn main() -> Result<(), beamsatchel_node::BuildError> {
/// let request = TestAndWrite::new(WriteEnabler::new([0xEE; 32]))
///     .test(0, 1, Opcode::Equal, b"")?
///     .write(3, b"AB")?;
/// assert_eq!(request.to_bytes().len(), 62);
/// # Ok(())
/// # }
/// ```
#[derive(Clone, Debug, PartialEq, Eq)]
#[must_use]
pub struct TestAndWrite {
    enabler: WriteEnabler,
    cut: Option<u32>,
    tests: Vec<u8>,
    writes: Vec<u8>,
    specimens: Vec<u8>,
    data: Vec<u8>,
}

impl TestAndWrite {
    /// A request without tests, writes or cut.
    pub fn new(enabler: WriteEnabler) -> TestAndWrite {
        TestAndWrite {
            enabler,
            cut: None,
            tests: Vec::new(),
            writes: Vec::new(),
            specimens: Vec::new(),
            data: Vec::new(),
        }
    }

    /// Adds a test of the data at an [`Offset`], at most `length` bytes and stopping at the end of data. All tests look
    /// at the data as it is before any write. One that would begin before byte 0 is not false: the whole request is
    /// refused, with [`OffsetBeforeStart`](crate::Reason::OffsetBeforeStart).
    pub fn test(
        mut self,
        offset: impl Into<Offset>,
        length: u32,
        opcode: Opcode,
        specimen: &[u8],
    ) -> Result<TestAndWrite, BuildError> {
        let offset = offset.into().field()?;
        self.admit(self.test_count(), TEST, specimen)?;
        let specimen_length = u16::try_from(specimen.len()).expect("shorter than a request");
        self.tests.extend(offset.to_be_bytes());
        self.tests.extend(length.to_be_bytes());
        self.tests.extend([opcode as u8, 0]);
        self.tests.extend(specimen_length.to_be_bytes());
        self.specimens.extend(specimen);
        Ok(self)
    }

    /// Adds a write at an [`Offset`]. Writes run in order; one past the end of data leaves zeros between. A request has
    /// room for [`write_room`](TestAndWrite::write_room) bytes more.
    pub fn write(
        mut self,
        offset: impl Into<Offset>,
        data: &[u8],
    ) -> Result<TestAndWrite, BuildError> {
        let offset = offset.into().field()?;
        self.admit(self.write_count(), ENTRY, data)?;
        let data_length = u32::try_from(data.len()).expect("shorter than a request");
        self.writes.extend(offset.to_be_bytes());
        self.writes.extend(data_length.to_be_bytes());
        self.data.extend(data);
        Ok(self)
    }

    /// Adds a write at the end of the data, as the writes before it in this request leave it. A cut of the same request
    /// comes after it, in whatever order the two are called, and may take it away again: to append behind a cut, send
    /// two requests.
    ///
    /// ```
    /// use beamsatchel_node::{Container, NodeId, Offset, Opcode, TestAndWrite, WriteEnabler};
    ///
    /// # fn main() -> Result<(), beamsatchel_node::Error> {
    /// let enabler = WriteEnabler::new([1; 32]);
    /// let mut slot = Container::create([0; 500], NodeId([7; 20]), enabler)?;
    /// // Behind the zeros of a gap, and one behind the other.
    /// let request = TestAndWrite::new(enabler).write(2, b"C")?.append(b"D")?.append(b"E")?;
    /// assert!(slot.test_and_write(&request, &mut [])?.is_done());
    /// assert_eq!(slot.view()?.data(), b"\0\0CDE");
    ///
    /// // An append that is sent again stands there twice. A test of the bytes that were last before it prevents that,
    /// // where the data does not end in them again: with records of one length, no two of them the same, it does not.
    /// let request = TestAndWrite::new(enabler)
    ///     .test(Offset::FromEnd(2), 2, Opcode::Equal, b"DE")?
    ///     .append(b"FG")?;
    /// assert!(slot.test_and_write(&request, &mut [0; 6])?.is_done());
    /// assert!(!slot.test_and_write(&request, &mut [0; 6])?.is_done());
    /// assert_eq!(slot.view()?.data(), b"\0\0CDEFG");
    /// # Ok(())
    /// # }
    /// ```
    pub fn append(self, data: &[u8]) -> Result<TestAndWrite, BuildError> {
        self.write(Offset::END, data)
    }

    /// Cuts the data to a new length after the writes, where it is longer. What it frees stays with the data, as slack
    /// that later writes use; leases find no room there ([`View::slack_len`](crate::View::slack_len)).
    ///
    /// ```
    /// use beamsatchel_node::{Container, NodeId, TestAndWrite, WriteEnabler};
    ///
    /// # fn main() -> Result<(), beamsatchel_node::Error> {
    /// let enabler = WriteEnabler::new([1; 32]);
    /// let mut slot = Container::create([0; 480], NodeId([7; 20]), enabler)?;
    /// let request = TestAndWrite::new(enabler).write(0, b"abcdefghijklmnop")?.cut(3);
    /// assert!(slot.test_and_write(&request, &mut [])?.is_done());
    /// assert_eq!(slot.view()?.data(), b"abc");
    /// # Ok(())
    /// # }
    /// ```
    pub fn cut(mut self, new_length: u32) -> TestAndWrite {
        self.cut = Some(new_length);
        self
    }

    /// How many bytes one more write can have, since a request has at most 65,536 and a container up to 16 MiB: data
    /// that is longer takes several requests. 0 may also mean that not even an empty write is taken any more.
    ///
    /// ```
    /// use beamsatchel_node::{Container, NodeId, TestAndWrite, WriteEnabler};
    ///
    /// # fn main() -> Result<(), beamsatchel_node::Error> {
    /// let enabler = WriteEnabler::new([1; 32]);
    /// let mut slot = Container::create(vec![0; 1_000_472], NodeId([7; 20]), enabler)?;
    /// let samples = vec![0xA7; 1_000_000];
    /// for part in samples.chunks(TestAndWrite::new(enabler).write_room()) {
    ///     let request = TestAndWrite::new(enabler).append(part)?;
    ///     assert!(slot.test_and_write(&request, &mut [])?.is_done());
    /// }
    /// assert!(slot.view()?.data() == samples);
    /// # Ok(())
    /// # }
    /// ```
    pub fn write_room(&self) -> usize {
        match self.write_count() {
            MAX_ENTRIES => 0,
            _ => MAX_REQUEST.saturating_sub(self.len() + ENTRY),
        }
    }

    /// How many tests there are, and so pieces in the reply.
    pub fn test_count(&self) -> usize {
        self.tests.len() / TEST
    }

    /// How many writes there are.
    pub fn write_count(&self) -> usize {
        self.writes.len() / ENTRY
    }

    /// Reply space of this length is always enough, whatever the container. A test of more than there can be counts as
    /// 16,776,744 bytes here: [`reply_bound_in`](TestAndWrite::reply_bound_in) asks for less.
    pub fn reply_bound(&self) -> usize {
        self.reply_bound_in(MAX_LENGTH)
    }

    /// Reply space of this length is always enough for a container in a buffer of `buffer_len` bytes.
    pub fn reply_bound_in(&self, buffer_len: usize) -> usize {
        reply_bound(&self.tests, TEST, buffer_len)
    }

    /// The request's bytes.
    pub fn to_bytes(&self) -> Vec<u8> {
        // Both counts are at most 16.
        let counts = [self.test_count() as u8, self.write_count() as u8];
        [
            &[1, counts[0], counts[1], u8::from(self.cut.is_some())],
            &self.cut.unwrap_or(0).to_be_bytes()[..],
            self.enabler.expose(),
            &self.tests,
            &self.writes,
            &self.specimens,
            &self.data,
        ]
        .concat()
    }

    /// How many bytes the request has.
    fn len(&self) -> usize {
        let tables = self.tests.len() + self.writes.len();
        HEADER + tables + self.specimens.len() + self.data.len()
    }

    /// Whether one more entry with this body keeps to the format.
    fn admit(&self, entries: usize, entry: usize, body: &[u8]) -> Result<(), BuildError> {
        if entries == MAX_ENTRIES {
            Err(BuildError::TooManyEntries)
        } else if self.len() + entry + body.len() > MAX_REQUEST {
            Err(BuildError::TooLong)
        } else {
            Ok(())
        }
    }
}

/// Kind 2: adds a lease, or renews the one that has its renewal token.
///
/// ```
/// use beamsatchel_node::{AddLease, CancelToken, Lease, NodeId, RenewalToken};
/// use std::num::NonZeroU32;
///
/// let request = AddLease(Lease {
///     owner: NonZeroU32::MIN,
///     expiry: 1_800_000_000,
///     renewal: RenewalToken::new([2; 32]),
///     cancel: CancelToken::new([3; 32]),
///     node: NodeId([4; 20]),
/// });
/// assert_eq!(request.to_bytes()[..5], [2, 0, 0, 0, 1]);
/// ```
#[derive(Clone, Copy, Debug, PartialEq, Eq)]
#[must_use]
pub struct AddLease(pub Lease);

impl AddLease {
    /// The request's bytes.
    pub fn to_bytes(&self) -> [u8; 93] {
        let mut bytes = [2; 93];
        bytes[1..].copy_from_slice(&self.0.to_record());
        bytes
    }
}

/// Kind 3: the first lease with a renewal token keeps the later expiry.
///
/// ```
/// use beamsatchel_node::{RenewLease, RenewalToken};
///
/// let request = RenewLease {
///     token: RenewalToken::new([2; 32]),
///     expiry: 1_900_000_000,
/// };
/// assert_eq!(request.to_bytes()[..2], [3, 2]);
/// ```
#[derive(Clone, Copy, Debug, PartialEq, Eq)]
#[must_use]
pub struct RenewLease {
    /// The lease's renewal token.
    pub token: RenewalToken,
    /// The expiry to keep, unless the lease has a later one.
    pub expiry: u32,
}

impl RenewLease {
    /// The request's bytes.
    pub fn to_bytes(&self) -> [u8; 37] {
        let mut bytes = [3; 37];
        bytes[1..33].copy_from_slice(self.token.expose());
        bytes[33..].copy_from_slice(&self.expiry.to_be_bytes());
        bytes
    }
}

/// Kind 4: removes the first lease with a cancel token.
///
/// ```
/// use beamsatchel_node::{CancelLease, CancelToken};
///
/// let request = CancelLease(CancelToken::new([3; 32]));
/// assert_eq!(request.to_bytes()[..2], [4, 3]);
/// ```
#[derive(Clone, Copy, Debug, PartialEq, Eq)]
#[must_use]
pub struct CancelLease(pub CancelToken);

impl CancelLease {
    /// The request's bytes.
    pub fn to_bytes(&self) -> [u8; 33] {
        let mut bytes = [4; 33];
        bytes[1..].copy_from_slice(self.0.expose());
        bytes
    }
}

/// Kind 5: up to 16 reads, each of the part of the data that exists.
///
/// ```
/// use beamsatchel_node::ReadData;
///
/// # fn main() -> Result<(), beamsatchel_node::BuildError> {
/// let request = ReadData::new().read(0, 100)?.read(4096, 16)?;
/// assert_eq!(request.reply_bound(), 4 + 4 + 100 + 16);
/// # Ok(())
/// # }
/// ```
#[derive(Clone, Debug, Default, PartialEq, Eq)]
#[must_use]
pub struct ReadData {
    reads: Vec<u8>,
}

impl ReadData {
    /// A request that reads nothing yet. It is answered as well.
    pub fn new() -> ReadData {
        ReadData::default()
    }

    /// Adds a read of the data at an [`Offset`], at most `length` bytes and stopping at the end of data.
    ///
    /// ```
    /// use beamsatchel_node::{Container, NodeId, Offset, ReadData, Reason, TestAndWrite, WriteEnabler};
    ///
    /// # fn main() -> Result<(), beamsatchel_node::Error> {
    /// let enabler = WriteEnabler::new([1; 32]);
    /// let mut slot = Container::create([0; 500], NodeId([7; 20]), enabler)?;
    /// let request = TestAndWrite::new(enabler).append(b"samples")?;
    /// assert!(slot.test_and_write(&request, &mut [])?.is_done());
    ///
    /// let last_three = ReadData::new().read(Offset::FromEnd(3), 3)?;
    /// let mut space = vec![0; last_three.reply_bound()];
    /// let reply = slot.read(&last_three, &mut space)?;
    /// assert_eq!(reply.pieces().next(), Some(&b"les"[..]));
    ///
    /// // There are no last eight bytes of seven.
    /// let last_eight = ReadData::new().read(Offset::FromEnd(8), 8)?;
    /// let refusal = slot.read(&last_eight, &mut [0; 12]).unwrap_err();
    /// assert_eq!(refusal.reason, Reason::OffsetBeforeStart);
    /// # Ok(())
    /// # }
    /// ```
    pub fn read(mut self, offset: impl Into<Offset>, length: u32) -> Result<ReadData, BuildError> {
        let offset = offset.into().field()?;
        if self.read_count() == MAX_ENTRIES {
            return Err(BuildError::TooManyEntries);
        }
        self.reads.extend(offset.to_be_bytes());
        self.reads.extend(length.to_be_bytes());
        Ok(self)
    }

    /// How many reads there are, and so pieces in the reply.
    pub fn read_count(&self) -> usize {
        self.reads.len() / ENTRY
    }

    /// Reply space of this length is always enough, whatever the container. A read of more than there can be counts as
    /// 16,776,744 bytes here: [`reply_bound_in`](ReadData::reply_bound_in) asks for less.
    pub fn reply_bound(&self) -> usize {
        self.reply_bound_in(MAX_LENGTH)
    }

    /// Reply space of this length is always enough for a container in a buffer of `buffer_len` bytes.
    ///
    /// ```
    /// use beamsatchel_node::ReadData;
    ///
    /// # fn main() -> Result<(), beamsatchel_node::BuildError> {
    /// let all = ReadData::new().read(0, u32::MAX)?;
    /// assert_eq!(all.reply_bound_in(1000), 4 + 1000 - 472);
    /// # Ok(())
    /// # }
    /// ```
    pub fn reply_bound_in(&self, buffer_len: usize) -> usize {
        reply_bound(&self.reads, ENTRY, buffer_len)
    }

    /// The request's bytes.
    pub fn to_bytes(&self) -> Vec<u8> {
        // The count is at most 16.
        [&[5, self.read_count() as u8, 0, 0], &self.reads[..]].concat()
    }
}

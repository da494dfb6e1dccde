//! The slot container: its leases, the requests on it, and a view of what it holds.

use crate::answers::{outcome, Answer, Reason, Refusal, Reply, Written};
use crate::ffi;
use crate::layout::{
    field, COUNT, COUNT_OFFSET, DATA, FIXED_PLACES, LEASES, NODE_ID, RECORD, SIZE, WRITE_ENABLER,
};
use crate::requests::{AddLease, CancelLease, ReadData, RenewLease, TestAndWrite};
use crate::secrets::{CancelToken, RenewalToken, WriteEnabler};
use crate::shares::Share;
use std::fmt;
use std::num::NonZeroU32;

/// Where the lease places begin: the four, then the extras behind a count.
pub(crate) fn places(count: usize, extras: usize) -> impl Iterator<Item = usize> + Clone {
    let fixed = (0..FIXED_PLACES).map(|place| LEASES + RECORD * place);
    fixed.chain((0..extras).map(move |place| count + COUNT + RECORD * place))
}

/// The 20-byte id of a storage node.
///
/// ```
/// use beamsatchel_node::NodeId;
///
/// assert!(NodeId([0xAB; 20]).to_string().starts_with("abab"));
/// ```
#[derive(Clone, Copy, PartialEq, Eq, Hash)]
pub struct NodeId(pub [u8; 20]);

impl fmt::Debug for NodeId {
    fn fmt(&self, f: &mut fmt::Formatter<'_>) -> fmt::Result {
        write!(f, "NodeId({self})")
    }
}

impl fmt::Display for NodeId {
    fn fmt(&self, f: &mut fmt::Formatter<'_>) -> fmt::Result {
        self.0.iter().try_for_each(|byte| write!(f, "{byte:02x}"))
    }
}

/// A lease record: who keeps the slot, until when, and the tokens to renew and to cancel it.
///
/// ```
/// use beamsatchel_node::{CancelToken, Lease, NodeId, RenewalToken};
/// use std::num::NonZeroU32;
///
/// let lease = Lease {
///     owner: NonZeroU32::MIN,
///     expiry: 1_800_000_000,
///     renewal: RenewalToken::new([2; 32]),
///     cancel: CancelToken::new([3; 32]),
///     node: NodeId([4; 20]),
/// };
/// assert_eq!(Lease::from_record(&lease.to_record()), Some(lease));
/// assert_eq!(Lease::from_record(&[0; 92]), None);
/// ```
#[derive(Clone, Copy, Debug, PartialEq, Eq)]
pub struct Lease {
    /// Owner 0 means that there is no lease, so it cannot be named here.
    pub owner: NonZeroU32,
    /// A time, of which the later one is kept.
    pub expiry: u32,
    /// Renews the lease.
    pub renewal: RenewalToken,
    /// Cancels the lease.
    pub cancel: CancelToken,
    /// The node that accepted the lease.
    pub node: NodeId,
}

impl Lease {
    /// The 92 bytes of the record.
    pub fn to_record(&self) -> [u8; 92] {
        let mut record = [0; RECORD];
        record[..4].copy_from_slice(&self.owner.get().to_be_bytes());
        record[4..8].copy_from_slice(&self.expiry.to_be_bytes());
        record[8..40].copy_from_slice(self.renewal.expose());
        record[40..72].copy_from_slice(self.cancel.expose());
        record[72..].copy_from_slice(&self.node.0);
        record
    }

    /// The lease in a record; `None` where its owner is 0.
    pub fn from_record(record: &[u8; 92]) -> Option<Lease> {
        Some(Lease {
            owner: NonZeroU32::new(u32::from_be_bytes(field(record, 0)))?,
            expiry: u32::from_be_bytes(field(record, 4)),
            renewal: RenewalToken::new(field(record, 8)),
            cancel: CancelToken::new(field(record, 40)),
            node: NodeId(field(record, 72)),
        })
    }
}

/// A slot container in a buffer of 472 to 16,777,216 bytes.
///
/// The buffer may be lent for writing (`&mut [u8]`), lent for reading (`&[u8]`), or owned (`Vec<u8>`,
/// `Box<[u8]>`, an array): what needs no writing asks for no `&mut`.
///
/// Nothing is kept beside the bytes, so a container may be opened, used and dropped for each request. Every call
/// judges the whole container anew, and one that is refused changes nothing.
///
/// A slot beside which a never-written list is kept is a [`ListedContainer`](crate::ListedContainer): what is written
/// through a plain container, its list does not follow.
///
/// ```
/// use beamsatchel_node::{CancelToken, Container, Lease, NodeId, RenewalToken, WriteEnabler};
/// use std::num::NonZeroU32;
///
/// # fn main() -> Result<(), beamsatchel_node::Refusal> {
/// let node = NodeId([7; 20]);
/// let mut buffer = vec![0; 1024];
/// let mut slot = Container::create(&mut buffer[..], node, WriteEnabler::new([0xEE; 32]))?;
///
/// let lease = Lease {
///     owner: NonZeroU32::MIN,
///     expiry: 100,
///     renewal: RenewalToken::new([2; 32]),
///     cancel: CancelToken::new([3; 32]),
///     node,
/// };
/// assert_eq!(slot.add_lease(lease)?, 1);
/// assert_eq!(slot.renew_lease(lease.renewal, 200)?, 1);
///
/// let for_reading = Container::open(&buffer[..])?;
/// assert_eq!(for_reading.view()?.leases().count(), 1);
///
/// let mut owned = Container::open(buffer)?;
/// assert_eq!(owned.cancel_lease(lease.cancel)?, 0);
/// # Ok(())
/// # }
/// ```
#[derive(Clone)]
pub struct Container<B> {
    buffer: B,
}

impl<B: AsRef<[u8]>> Container<B> {
    /// Takes a buffer that holds a container, and refuses one that is not well formed. A buffer that is handed over
    /// is dropped on a refusal; lend it to keep it.
    ///
    /// ```
    /// use beamsatchel_node::{Container, Reason};
    ///
    /// let refusal = Container::open(&[0; 500]).unwrap_err();
    /// assert_eq!(refusal.reason, Reason::NotWellFormed);
    /// ```
    pub fn open(buffer: B) -> Result<Container<B>, Refusal> {
        judge(buffer.as_ref()).map_err(Refusal::of)?;
        Ok(Container { buffer })
    }

    /// Takes a buffer without a look at it, for one request: each request judges the container itself, so nothing is
    /// lost but an early answer.
    ///
    /// ```
    /// use beamsatchel_node::{Container, ReadData, Reason};
    ///
    /// let refusal = Container::adopt(&[]).read(&ReadData::new(), &mut []).unwrap_err();
    /// assert_eq!(refusal.reason, Reason::BufferLength);
    /// ```
    pub fn adopt(buffer: B) -> Container<B> {
        Container { buffer }
    }

    /// Reads pieces of the data. Each is the part that exists: shorter where the data ends before, and empty from an
    /// offset at or past the end.
    ///
    /// ```
    /// use beamsatchel_node::{Container, NodeId, ReadData, TestAndWrite, WriteEnabler};
    ///
    /// # fn main() -> Result<(), beamsatchel_node::Error> {
    /// let enabler = WriteEnabler::new([1; 32]);
    /// let mut slot = Container::create([0; 500], NodeId([7; 20]), enabler)?;
    /// let request = TestAndWrite::new(enabler).write(0, b"samples")?;
    /// assert!(slot.test_and_write(&request, &mut [])?.is_done());
    ///
    /// let request = ReadData::new().read(0, 2)?.read(5, 100)?.read(7, 100)?;
    /// let mut space = vec![0; request.reply_bound()];
    /// let reply = slot.read(&request, &mut space)?;
    /// assert_eq!(reply.pieces().collect::<Vec<_>>(), [&b"sa"[..], b"es", b""]);
    /// # Ok(())
    /// # }
    /// ```
    pub fn read<'r>(&self, request: &ReadData, reply: &'r mut [u8]) -> Result<Reply<'r>, Refusal> {
        let answer = Answer::of_library(ffi::read(self.as_bytes(), &request.to_bytes(), reply));
        answer.done()?;
        Ok(reply_of(answer, reply, request.read_count()))
    }

    /// The container's fields, data and leases, for looking at.
    pub fn view(&self) -> Result<View<'_>, Refusal> {
        View::open(self.as_bytes())
    }

    /// The share that is the container's data, SDMF or MDMF.
    pub fn share(&self) -> Result<Share<'_>, Refusal> {
        Share::in_container(self.as_bytes())
    }

    /// All bytes of the buffer, secrets included.
    pub fn as_bytes(&self) -> &[u8] {
        self.buffer.as_ref()
    }

    /// The buffer.
    pub fn into_buffer(self) -> B {
        self.buffer
    }
}

impl<B: AsRef<[u8]> + AsMut<[u8]>> Container<B> {
    /// Writes a fresh container over all of the buffer: no data, no leases. A buffer that begins with a container's
    /// magic is refused with [`Reason::AlreadyContainer`]. A buffer that is handed over is dropped on a refusal; lend
    /// it to keep it.
    pub fn create(
        mut buffer: B,
        node: NodeId,
        enabler: WriteEnabler,
    ) -> Result<Container<B>, Refusal> {
        Answer::of_library(ffi::create(buffer.as_mut(), &node.0, enabler.expose())).done()?;
        Ok(Container { buffer })
    }

    /// Sends a request as raw bytes, of whatever kind and however malformed. The reply is the first
    /// [`count`](Answer::count) bytes of the reply space, for [`Reply::new`].
    ///
    /// ```
    /// use beamsatchel_node::{Container, NodeId, Reason, WriteEnabler};
    ///
    /// # fn main() -> Result<(), beamsatchel_node::Refusal> {
    /// let enabler = WriteEnabler::new([1; 32]);
    /// let mut slot = Container::create([0; 472], NodeId([7; 20]), enabler)?;
    /// assert_eq!(slot.apply(b"\x05\0\0\0", &mut []).outcome, Ok(()));
    /// let refusal = slot.apply(b"\x06\0\0\0", &mut []).outcome.unwrap_err();
    /// assert_eq!(refusal.reason, Reason::RequestFormat);
    /// # Ok(())
    /// # }
    /// ```
    pub fn apply(&mut self, request: &[u8], reply: &mut [u8]) -> Answer {
        Answer::of_library(ffi::apply(self.as_bytes_mut(), request, reply))
    }

    /// Makes the writes and the cut where every test holds. The reply has the old bytes that the tests looked at,
    /// also when one of them is false.
    pub fn test_and_write<'r>(
        &mut self,
        request: &TestAndWrite,
        reply: &'r mut [u8],
    ) -> Result<Written<'r>, Refusal> {
        let answer = self.apply(&request.to_bytes(), reply);
        written_of(answer, reply, request.test_count())
    }

    /// Adds a lease, or lets the one with its renewal token keep the later expiry. Gives the leases present
    /// afterwards.
    pub fn add_lease(&mut self, lease: Lease) -> Result<u64, Refusal> {
        self.apply(&AddLease(lease).to_bytes(), &mut []).done()
    }

    /// Lets the first lease with the token keep the later expiry. Gives the leases present afterwards.
    pub fn renew_lease(&mut self, token: RenewalToken, expiry: u32) -> Result<u64, Refusal> {
        let request = RenewLease { token, expiry };
        self.apply(&request.to_bytes(), &mut []).done()
    }

    /// Removes the first lease with the token. Gives the leases present afterwards.
    pub fn cancel_lease(&mut self, token: CancelToken) -> Result<u64, Refusal> {
        self.apply(&CancelLease(token).to_bytes(), &mut []).done()
    }

    /// The bytes of the buffer, for the library to write.
    pub(crate) fn as_bytes_mut(&mut self) -> &mut [u8] {
        self.buffer.as_mut()
    }
}

/// The length alone: the bytes hold secrets.
impl<B: AsRef<[u8]>> fmt::Debug for Container<B> {
    fn fmt(&self, f: &mut fmt::Formatter<'_>) -> fmt::Result {
        let length = self.as_bytes().len();
        f.debug_struct("Container")
            .field("buffer_len", &length)
            .finish_non_exhaustive()
    }
}

/// The reply that the library wrote.
pub(crate) fn reply_of(answer: Answer, reply: &mut [u8], entries: usize) -> Reply<'_> {
    Reply::new(&reply[..answer.count as usize], entries)
        .expect("the library's count is table plus pieces")
}

/// How a test-and-write of so many tests ended.
pub(crate) fn written_of(
    answer: Answer,
    reply: &mut [u8],
    tests: usize,
) -> Result<Written<'_>, Refusal> {
    if answer.outcome == Err(Refusal::of(Reason::TestFalse)) {
        return Ok(Written::TestFalse(reply_of(answer, reply, tests)));
    }
    answer.done()?;
    Ok(Written::Done(reply_of(answer, reply, tests)))
}

/// The library's judgement of a container. Only a well-formed one is asked about its share, so every later outcome
/// means that it is well formed.
pub(crate) fn judge(buffer: &[u8]) -> Result<(), Reason> {
    match outcome(ffi::check_container(buffer).number) {
        Err(reason @ (Reason::BufferLength | Reason::NotWellFormed)) => Err(reason),
        _ => Ok(()),
    }
}

/// The fields, data and leases of a well-formed container, for looking at.
///
/// ```
/// use beamsatchel_node::{Container, NodeId, View, WriteEnabler};
///
/// # fn main() -> Result<(), beamsatchel_node::Refusal> {
/// let mut buffer = [0; 500];
/// Container::create(&mut buffer, NodeId([7; 20]), WriteEnabler::new([1; 32]))?;
/// let view = View::open(&buffer)?;
/// assert_eq!(view.node_id(), NodeId([7; 20]));
/// assert_eq!((view.data(), view.used_len(), view.leases().count()), (&[][..], 472, 0));
/// # Ok(())
/// # }
/// ```
#[derive(Clone, Copy)]
pub struct View<'a> {
    bytes: &'a [u8],
    /// Where the data ends.
    data_end: usize,
    /// Where the extra-lease count stands.
    count: usize,
}

impl<'a> View<'a> {
    /// Looks at a container's bytes, where the library judges them well formed.
    pub fn open(bytes: &'a [u8]) -> Result<View<'a>, Refusal> {
        judge(bytes).map_err(Refusal::of)?;
        let size = u64::from_be_bytes(field(bytes, SIZE)) as usize;
        let count = u64::from_be_bytes(field(bytes, COUNT_OFFSET)) as usize;
        Ok(View {
            bytes,
            data_end: DATA + size,
            count,
        })
    }

    /// The node that accepted the write enabler.
    pub fn node_id(&self) -> NodeId {
        NodeId(field(self.bytes, NODE_ID))
    }

    /// The write enabler.
    pub fn write_enabler(&self) -> WriteEnabler {
        WriteEnabler::new(field(self.bytes, WRITE_ENABLER))
    }

    /// The data.
    pub fn data(&self) -> &'a [u8] {
        &self.bytes[DATA..self.data_end]
    }

    /// How many zeros stand between the data and the extra-lease count. Data that grows uses them up before any lease
    /// moves, and what a cut takes from the data is added to them, so that a cut frees no room for leases.
    ///
    /// ```
    /// use beamsatchel_node::{Container, NodeId, TestAndWrite, WriteEnabler};
    ///
    /// # fn main() -> Result<(), beamsatchel_node::Error> {
    /// let enabler = WriteEnabler::new([1; 32]);
    /// let mut slot = Container::create([0; 500], NodeId([7; 20]), enabler)?;
    /// let request = TestAndWrite::new(enabler).write(0, b"samples")?;
    /// assert!(slot.test_and_write(&request, &mut [])?.is_done());
    /// let cut = TestAndWrite::new(enabler).cut(2);
    /// assert!(slot.test_and_write(&cut, &mut [])?.is_done());
    ///
    /// let view = slot.view()?;
    /// assert_eq!((view.data(), view.slack_len(), view.used_len()), (&b"sa"[..], 5, 479));
    /// # Ok(())
    /// # }
    /// ```
    pub fn slack_len(&self) -> usize {
        self.count - self.data_end
    }

    /// The number of extra lease places, empty ones included.
    pub fn extra_places(&self) -> usize {
        u32::from_be_bytes(field(self.bytes, self.count)) as usize
    }

    /// The leases present, each with its place: 0 to 3 are the four places, 4 and above the extras.
    pub fn leases(&self) -> impl Iterator<Item = (usize, Lease)> + Clone + use<'a> {
        let bytes = self.bytes;
        let records = places(self.count, self.extra_places()).map(move |at| field(bytes, at));
        records
            .enumerate()
            .filter_map(|(place, record)| Some((place, Lease::from_record(&record)?)))
    }

    /// The bytes in use, the slack among them; those after are zero.
    pub fn used_len(&self) -> usize {
        self.count + COUNT + RECORD * self.extra_places()
    }

    /// The length of the whole buffer.
    pub fn buffer_len(&self) -> usize {
        self.bytes.len()
    }
}

/// Sizes and counts: the bytes hold secrets.
impl fmt::Debug for View<'_> {
    fn fmt(&self, f: &mut fmt::Formatter<'_>) -> fmt::Result {
        f.debug_struct("View")
            .field("buffer_len", &self.buffer_len())
            .field("used_len", &self.used_len())
            .field("node_id", &self.node_id())
            .field("data_len", &self.data().len())
            .field("slack_len", &self.slack_len())
            .field("leases", &self.leases().count())
            .finish_non_exhaustive()
    }
}

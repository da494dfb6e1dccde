//! A slot with its list: a container, and beside it the list of what nobody wrote.

use crate::answers::{Answer, Reason, Refusal, Reply, Written};
use crate::container::{reply_of, written_of, Container, Lease, NodeId, View};
use crate::ffi;
use crate::layout::list::LENGTH;
use crate::requests::{AddLease, CancelLease, ReadData, RenewLease, TestAndWrite};
use crate::secrets::{CancelToken, RenewalToken, WriteEnabler};
use crate::shares::Share;
use crate::stretches::{judge, Stretches};
use std::fmt;

/// A slot with its list: a container in a buffer of 472 to 16,777,216 bytes, and beside it 2,052 bytes, which is
/// [`layout::list::LENGTH`](LENGTH), that name the stretches of its data that hold zeros only because nobody wrote
/// there.
///
/// Buffer and list may each be lent for writing (`&mut [u8]`), lent for reading (`&[u8]`), or owned, as a
/// [`Container`]'s buffer. Nothing is kept beside the bytes: whoever stores the slot stores both, and hands both on.
/// Every call judges both anew, and one that is refused changes neither.
///
/// Where the two cannot be stored at once, store them after each request and the list first: beside the old container
/// it names a byte outside the data (16), or fewer bytes than it could, and never a written one. After 16, go on with
/// 2,052 zeros; what was there then counts as written.
///
/// A test-and-write that is done brings the list up to date: a gap before a write is listed, what is written is taken
/// out, and a cut drops what it cuts away. So from a fresh slot on a position is listed exactly when its byte is zero
/// for want of a write:
///
/// ```
/// use beamsatchel_node::layout::list::LENGTH;
/// use beamsatchel_node::{ListedContainer, NodeId, TestAndWrite, WriteEnabler};
///
/// # fn main() -> Result<(), beamsatchel_node::Error> {
/// let (mut buffer, mut list) = (vec![0; 600], vec![0; LENGTH]);
/// let enabler = WriteEnabler::new([0xEE; 32]);
/// let mut slot = ListedContainer::create(&mut buffer[..], &mut list[..], NodeId([7; 20]), enabler)?;
///
/// // Three vans write a sample each, two are cut away, and later a fourth writes at its own place.
/// let vans = TestAndWrite::new(enabler).write(0, b"VAN1 21CVAN2 19CVAN3 24C")?;
/// assert!(slot.test_and_write(&vans, &mut [])?.is_done());
/// assert!(slot.test_and_write(&TestAndWrite::new(enabler).cut(8), &mut [])?.is_done());
/// let van_4 = TestAndWrite::new(enabler).write(24, b"VAN4 20C")?;
/// assert!(slot.test_and_write(&van_4, &mut [])?.is_done());
/// assert_eq!(slot.stretches()?.iter().collect::<Vec<_>>(), [8..24]);
///
/// // Looking needs both for reading only.
/// let slot = ListedContainer::open(&buffer, &list)?;
/// let data = slot.view()?.data();
/// for stretch in slot.stretches()? {
///     assert!(data[stretch].iter().all(|byte| *byte == 0));
/// }
/// # Ok(())
/// # }
/// ```
///
/// A write that does not go through this type leaves the list as it was, which then tells of bytes that somebody wrote,
/// or is refused. So nothing here hands out the plain [`Container`] for writing:
///
/// ```compile_fail
/// # use beamsatchel_node::layout::list::LENGTH;
/// # use beamsatchel_node::{Container, ListedContainer, TestAndWrite, WriteEnabler};
/// fn write(slot: &mut Container<Vec<u8>>, request: &TestAndWrite) {
///     assert!(slot.test_and_write(request, &mut []).unwrap().is_done());
/// }
/// # let enabler = WriteEnabler::new([1; 32]);
/// let mut slot = ListedContainer::adopt(vec![0; 600], vec![0; LENGTH]);
/// write(&mut slot, &TestAndWrite::new(enabler));
/// ```
#[derive(Clone)]
pub struct ListedContainer<B, L> {
    container: Container<B>,
    list: L,
}

impl<B: AsRef<[u8]>, L: AsRef<[u8]>> ListedContainer<B, L> {
    /// Takes a buffer that holds a container and the list beside it, and refuses a container that is not well formed
    /// and a list that is not good. What is handed over is dropped on a refusal; lend it to keep it.
    ///
    /// A list that names fewer zeros than it could is good. So for a container that never had one, 2,052 zeros are:
    /// they say of none of its bytes that nobody wrote it.
    ///
    /// ```
    /// use beamsatchel_node::layout::list::LENGTH;
    /// use beamsatchel_node::{Container, ListedContainer, NodeId, Reason, WriteEnabler};
    ///
    /// # fn main() -> Result<(), beamsatchel_node::Refusal> {
    /// let slot = Container::create([0; 500], NodeId([7; 20]), WriteEnabler::new([1; 32]))?;
    /// let refusal = ListedContainer::open(slot.as_bytes(), [1; LENGTH]).unwrap_err();
    /// assert_eq!(refusal.reason, Reason::ListNotGood);
    /// assert!(ListedContainer::open(slot.as_bytes(), [0; LENGTH]).is_ok());
    /// # Ok(())
    /// # }
    /// ```
    pub fn open(buffer: B, list: L) -> Result<ListedContainer<B, L>, Refusal> {
        judge(buffer.as_ref(), list.as_ref())?;
        Ok(ListedContainer::adopt(buffer, list))
    }

    /// Takes a buffer and a list without a look at them, for one request: each request judges both itself, so nothing
    /// is lost but an early answer.
    ///
    /// ```
    /// use beamsatchel_node::{ListedContainer, ReadData, Reason};
    ///
    /// let slot = ListedContainer::adopt(&[], &[]);
    /// let refusal = slot.read(&ReadData::new(), &mut []).unwrap_err();
    /// assert_eq!(refusal.reason, Reason::BufferLength);
    /// ```
    pub fn adopt(buffer: B, list: L) -> ListedContainer<B, L> {
        let container = Container::adopt(buffer);
        ListedContainer { container, list }
    }

    /// Reads pieces of the data, as [`Container::read`]. [`stretches`](ListedContainer::stretches) tells which of their
    /// bytes nobody wrote. Where an offset counts from the end, the reply does not say where the piece begins: ask
    /// [`view`](ListedContainer::view) for the size of the data.
    pub fn read<'r>(&self, request: &ReadData, reply: &'r mut [u8]) -> Result<Reply<'r>, Refusal> {
        let raw = ffi::read_listed(
            self.as_bytes(),
            self.list_bytes(),
            &request.to_bytes(),
            reply,
        );
        let answer = Answer::of_library(raw);
        answer.done()?;
        Ok(reply_of(answer, reply, request.read_count()))
    }

    /// The never-written stretches of the data.
    pub fn stretches(&self) -> Result<Stretches<'_>, Refusal> {
        Stretches::open(self.as_bytes(), self.list_bytes())
    }

    /// The container's fields, data and leases, for looking at.
    pub fn view(&self) -> Result<View<'_>, Refusal> {
        judge(self.as_bytes(), self.list_bytes())?;
        self.container.view()
    }

    /// The share that is the container's data, SDMF or MDMF.
    pub fn share(&self) -> Result<Share<'_>, Refusal> {
        judge(self.as_bytes(), self.list_bytes())?;
        self.container.share()
    }

    /// All bytes of the container's buffer, secrets included.
    pub fn as_bytes(&self) -> &[u8] {
        self.container.as_bytes()
    }

    /// The bytes of the list.
    pub fn list_bytes(&self) -> &[u8] {
        self.list.as_ref()
    }

    /// The buffer and the list.
    pub fn into_parts(self) -> (B, L) {
        (self.container.into_buffer(), self.list)
    }
}

impl<B, L> ListedContainer<B, L>
where
    B: AsRef<[u8]> + AsMut<[u8]>,
    L: AsRef<[u8]> + AsMut<[u8]>,
{
    /// Writes a fresh container over all of the buffer, and zeros over all of the list. A list that is not 2,052 bytes
    /// long is refused with [`Reason::ListNotGood`], before anything that [`Container::create`] refuses; on a refusal
    /// neither is changed. What is handed over is dropped then; lend it to keep it.
    pub fn create(
        buffer: B,
        mut list: L,
        node: NodeId,
        enabler: WriteEnabler,
    ) -> Result<ListedContainer<B, L>, Refusal> {
        if list.as_ref().len() != LENGTH {
            return Err(Refusal::of(Reason::ListNotGood));
        }
        let container = Container::create(buffer, node, enabler)?;
        list.as_mut().fill(0);
        Ok(ListedContainer { container, list })
    }

    /// Sends a request as raw bytes, of whatever kind and however malformed. The reply is the first
    /// [`count`](Answer::count) bytes of the reply space, for [`Reply::new`].
    ///
    /// ```
    /// use beamsatchel_node::layout::list::LENGTH;
    /// use beamsatchel_node::{ListedContainer, NodeId, Reason, WriteEnabler};
    ///
    /// # fn main() -> Result<(), beamsatchel_node::Refusal> {
    /// let enabler = WriteEnabler::new([1; 32]);
    /// let slot = ListedContainer::create([0; 472], [0; LENGTH], NodeId([7; 20]), enabler)?;
    /// let (buffer, mut list) = slot.into_parts();
    /// list[LENGTH - 1] = 1;
    /// // The list is judged before the request.
    /// let mut slot = ListedContainer::adopt(buffer, list);
    /// let refusal = slot.apply(b"no request", &mut []).outcome.unwrap_err();
    /// assert_eq!(refusal.reason, Reason::ListNotGood);
    /// # Ok(())
    /// # }
    /// ```
    pub fn apply(&mut self, request: &[u8], reply: &mut [u8]) -> Answer {
        let (buffer, list) = (self.container.as_bytes_mut(), self.list.as_mut());
        Answer::of_library(ffi::apply_listed(buffer, list, request, reply))
    }

    /// Makes the writes and the cut where every test holds, and brings the list up to date. The reply has the old bytes
    /// that the tests looked at, also when one of them is false. Where the list would have more than 256 stretches, the
    /// request is refused with [`Reason::ListFull`].
    ///
    /// ```
    /// use beamsatchel_node::layout::list::LENGTH;
    /// use beamsatchel_node::{ListedContainer, NodeId, Reason, TestAndWrite, WriteEnabler};
    ///
    /// # fn main() -> Result<(), beamsatchel_node::Error> {
    /// let enabler = WriteEnabler::new([1; 32]);
    /// let mut slot = ListedContainer::create([0; 2_000], [0; LENGTH], NodeId([7; 20]), enabler)?;
    /// // Every other byte.
    /// for stretch in 0..256 {
    ///     let request = TestAndWrite::new(enabler).write(2 * stretch + 1, b"!")?;
    ///     assert!(slot.test_and_write(&request, &mut [])?.is_done());
    /// }
    /// let one_more = TestAndWrite::new(enabler).write(513, b"!")?;
    /// let refusal = slot.test_and_write(&one_more, &mut []).unwrap_err();
    /// assert_eq!(refusal.reason, Reason::ListFull);
    ///
    /// // Whoever fills a stretch makes room, zeros too.
    /// let request = TestAndWrite::new(enabler).write(0, b"\0")?;
    /// assert!(slot.test_and_write(&request, &mut [])?.is_done());
    /// assert!(slot.test_and_write(&one_more, &mut [])?.is_done());
    /// # Ok(())
    /// # }
    /// ```
    pub fn test_and_write<'r>(
        &mut self,
        request: &TestAndWrite,
        reply: &'r mut [u8],
    ) -> Result<Written<'r>, Refusal> {
        let answer = self.apply(&request.to_bytes(), reply);
        written_of(answer, reply, request.test_count())
    }

    /// Adds a lease, or lets the one with its renewal token keep the later expiry. Gives the leases present
    /// afterwards.
    pub fn add_lease(&mut self, lease: Lease) -> Result<u64, Refusal> {
        self.apply(&AddLease(lease).to_bytes(), &mut []).done()
    }

    /// Lets the first lease with the token keep the later expiry. Gives the leases present afterwards.
    pub fn renew_lease(&mut self, token: RenewalToken, expiry: u32) -> Result<u64, Refusal> {
        let request = RenewLease { token, expiry };
        self.apply(&request.to_bytes(), &mut []).done()
    }

    /// Removes the first lease with the token. Gives the leases present afterwards.
    pub fn cancel_lease(&mut self, token: CancelToken) -> Result<u64, Refusal> {
        self.apply(&CancelLease(token).to_bytes(), &mut []).done()
    }
}

/// The lengths alone: the bytes hold secrets.
impl<B: AsRef<[u8]>, L: AsRef<[u8]>> fmt::Debug for ListedContainer<B, L> {
    fn fmt(&self, f: &mut fmt::Formatter<'_>) -> fmt::Result {
        f.debug_struct("ListedContainer")
            .field("buffer_len", &self.as_bytes().len())
            .field("list_len", &self.list_bytes().len())
            .finish_non_exhaustive()
    }
}

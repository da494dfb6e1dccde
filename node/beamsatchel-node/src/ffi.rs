//! The boundary: the nine C-callable functions of the proved library, on slices.
//!
//! Everything `unsafe` of this crate stands here. The functions take any bytes, of any length; a node's programmer
//! will rather use [`Container`](crate::Container), [`ListedContainer`](crate::ListedContainer),
//! [`Share`](crate::Share) and [`NewShare`](crate::NewShare). [`write_share`] stands for two of the nine, one for each
//! edition.

#![allow(unsafe_code)]

use std::fmt;

/// `beamsatchel_answer` of `include/beamsatchel.h`.
#[repr(C)]
#[derive(Clone, Copy, Debug, PartialEq, Eq)]
#[must_use]
pub struct RawAnswer {
    /// The outcome's number.
    pub number: u32,
    /// The container's node id on 5, else zeros.
    pub node: [u8; 20],
    /// Reply bytes, or leases present, or 0.
    pub count: u64,
}

/// `beamsatchel_share` of `include/beamsatchel.h`.
#[repr(C)]
#[derive(Clone, Copy, Debug, PartialEq, Eq)]
#[must_use]
pub struct RawShare {
    /// The outcome's number.
    pub number: u32,
    /// 1 where the share's first byte is 1, which is MDMF, also on a refusal for the share; else 0.
    pub edition: u32,
    /// The eight boundaries of seven parts, in the order in which they lie, counted from the first of the bytes that
    /// were checked, a container's also; all 0 on a refusal. In SDMF the seventh part is always empty.
    pub bounds: [u64; 8],
}

/// `beamsatchel_written` of `include/beamsatchel.h`.
#[repr(C)]
#[derive(Clone, Copy, Debug, PartialEq, Eq)]
#[must_use]
pub struct RawWrittenShare {
    /// The outcome's number.
    pub number: u32,
    /// The share's length on 0, else 0.
    pub length: u64,
}

// The sizes that a C compiler gives the structs.
const _: () = assert!(size_of::<RawAnswer>() == 32 && size_of::<RawShare>() == 72);
const _: () = assert!(size_of::<RawWrittenShare>() == 16);

/// What [`write_share`] writes a share from, by name: any numbers, and slices of any length.
#[derive(Clone, Copy, PartialEq, Eq)]
pub struct ShareArguments<'a> {
    /// The sequence number.
    pub sequence_number: u64,
    /// R, the root hash.
    pub root_hash: &'a [u8],
    /// k, how many shares are needed.
    pub k: u8,
    /// N, how many shares there are.
    pub n: u8,
    /// The data length.
    pub data_length: u64,
    /// The verification key.
    pub verification_key: &'a [u8],
    /// The signature.
    pub signature: &'a [u8],
    /// The hash chain.
    pub hash_chain: &'a [u8],
    /// The block tree.
    pub block_tree: &'a [u8],
    /// The share data.
    pub share_data: &'a [u8],
    /// The encrypted private key.
    pub encrypted_private_key: &'a [u8],
    /// Which writer is called, and what it alone takes.
    pub edition: EditionArguments<'a>,
}

/// What only one of the two writers takes.
#[derive(Clone, Copy, PartialEq, Eq)]
pub enum EditionArguments<'a> {
    /// `beamsatchel_write_sdmf`.
    Sdmf {
        /// IV, the initialization vector.
        iv: &'a [u8],
    },
    /// `beamsatchel_write_mdmf`.
    Mdmf {
        /// The segment size.
        segment_size: u64,
        /// The spare bytes.
        spare: &'a [u8],
    },
}

/// Numbers and lengths, as of a [`NewShare`](crate::NewShare).
impl fmt::Debug for ShareArguments<'_> {
    fn fmt(&self, f: &mut fmt::Formatter<'_>) -> fmt::Result {
        f.debug_struct("ShareArguments")
            .field("edition", &self.edition)
            .field("sequence_number", &self.sequence_number)
            .field("root_hash_len", &self.root_hash.len())
            .field("k", &self.k)
            .field("n", &self.n)
            .field("data_length", &self.data_length)
            .field("verification_key_len", &self.verification_key.len())
            .field("signature_len", &self.signature.len())
            .field("hash_chain_len", &self.hash_chain.len())
            .field("block_tree_len", &self.block_tree.len())
            .field("share_data_len", &self.share_data.len())
            .field(
                "encrypted_private_key_len",
                &self.encrypted_private_key.len(),
            )
            .finish_non_exhaustive()
    }
}

/// Number and lengths.
impl fmt::Debug for EditionArguments<'_> {
    fn fmt(&self, f: &mut fmt::Formatter<'_>) -> fmt::Result {
        match self {
            EditionArguments::Sdmf { iv } => f
                .debug_struct("Sdmf")
                .field("iv_len", &iv.len())
                .finish_non_exhaustive(),
            EditionArguments::Mdmf {
                segment_size,
                spare,
            } => f
                .debug_struct("Mdmf")
                .field("segment_size", segment_size)
                .field("spare_len", &spare.len())
                .finish_non_exhaustive(),
        }
    }
}

// The declarations of include/beamsatchel.h. Each takes pointer and length for each slice and
// keeps neither after it returns.
unsafe extern "C" {
    fn beamsatchel_create(
        container: *mut u8,
        container_len: usize,
        node: *const u8,
        node_len: usize,
        enabler: *const u8,
        enabler_len: usize,
    ) -> RawAnswer;

    fn beamsatchel_apply(
        container: *mut u8,
        container_len: usize,
        request: *const u8,
        request_len: usize,
        reply: *mut u8,
        reply_len: usize,
    ) -> RawAnswer;

    fn beamsatchel_read(
        container: *const u8,
        container_len: usize,
        request: *const u8,
        request_len: usize,
        reply: *mut u8,
        reply_len: usize,
    ) -> RawAnswer;

    fn beamsatchel_apply_listed(
        container: *mut u8,
        container_len: usize,
        list: *mut u8,
        list_len: usize,
        request: *const u8,
        request_len: usize,
        reply: *mut u8,
        reply_len: usize,
    ) -> RawAnswer;

    fn beamsatchel_read_listed(
        container: *const u8,
        container_len: usize,
        list: *const u8,
        list_len: usize,
        request: *const u8,
        request_len: usize,
        reply: *mut u8,
        reply_len: usize,
    ) -> RawAnswer;

    fn beamsatchel_check_bare_share(share: *const u8, share_len: usize) -> RawShare;

    fn beamsatchel_check_share_in(container: *const u8, container_len: usize) -> RawShare;

    fn beamsatchel_write_sdmf(
        sequence_number: u64,
        root_hash: *const u8,
        root_hash_len: usize,
        iv: *const u8,
        iv_len: usize,
        k: u8,
        n: u8,
        data_length: u64,
        verification_key: *const u8,
        verification_key_len: usize,
        signature: *const u8,
        signature_len: usize,
        hash_chain: *const u8,
        hash_chain_len: usize,
        block_tree: *const u8,
        block_tree_len: usize,
        share_data: *const u8,
        share_data_len: usize,
        encrypted_private_key: *const u8,
        encrypted_private_key_len: usize,
        space: *mut u8,
        space_len: usize,
    ) -> RawWrittenShare;

    fn beamsatchel_write_mdmf(
        sequence_number: u64,
        root_hash: *const u8,
        root_hash_len: usize,
        k: u8,
        n: u8,
        segment_size: u64,
        data_length: u64,
        encrypted_private_key: *const u8,
        encrypted_private_key_len: usize,
        hash_chain: *const u8,
        hash_chain_len: usize,
        signature: *const u8,
        signature_len: usize,
        verification_key: *const u8,
        verification_key_len: usize,
        spare: *const u8,
        spare_len: usize,
        share_data: *const u8,
        share_data_len: usize,
        block_tree: *const u8,
        block_tree_len: usize,
        space: *mut u8,
        space_len: usize,
    ) -> RawWrittenShare;
}

/// Create, from a node id and a write enabler of any length.
///
/// ```
/// use beamsatchel_node::ffi;
///
/// let mut buffer = [0; 472];
/// assert_eq!(ffi::create(&mut buffer, &[7; 20], &[0xEE; 31]).number, 3);
/// assert_eq!(ffi::create(&mut buffer, &[7; 20], &[0xEE; 32]).number, 0);
/// ```
pub fn create(container: &mut [u8], node: &[u8], enabler: &[u8]) -> RawAnswer {
    // SAFETY: each pointer and length come from one live slice, so the bytes are there to read,
    // and those of the `&mut` slice to write; a slice's pointer is never null, also when it is
    // empty; a `&mut` slice overlaps no other.
    unsafe {
        beamsatchel_create(
            container.as_mut_ptr(),
            container.len(),
            node.as_ptr(),
            node.len(),
            enabler.as_ptr(),
            enabler.len(),
        )
    }
}

/// Applies any request bytes to any container bytes, with any reply space.
///
/// ```
/// use beamsatchel_node::ffi;
///
/// assert_eq!(ffi::apply(&mut [], &[], &mut []).number, 1);
/// ```
pub fn apply(container: &mut [u8], request: &[u8], reply: &mut [u8]) -> RawAnswer {
    // SAFETY: as for `create`; the two `&mut` slices overlap nothing.
    unsafe {
        beamsatchel_apply(
            container.as_mut_ptr(),
            container.len(),
            request.as_ptr(),
            request.len(),
            reply.as_mut_ptr(),
            reply.len(),
        )
    }
}

/// Applies a read to container bytes that are lent for reading only. A request that is no read is answered as the
/// empty request is.
///
/// ```
/// use beamsatchel_node::ffi;
///
/// let mut buffer = [0; 472];
/// assert_eq!(ffi::create(&mut buffer, &[7; 20], &[0xEE; 32]).number, 0);
/// assert_eq!(ffi::read(&buffer, &[5, 0, 0, 0], &mut []).number, 0);
/// assert_eq!(ffi::read(&buffer, &[4; 33], &mut []).number, 3);
/// ```
pub fn read(container: &[u8], request: &[u8], reply: &mut [u8]) -> RawAnswer {
    // SAFETY: as for `create`; the container is only read, and the `&mut` slice overlaps nothing.
    unsafe {
        beamsatchel_read(
            container.as_ptr(),
            container.len(),
            request.as_ptr(),
            request.len(),
            reply.as_mut_ptr(),
            reply.len(),
        )
    }
}

/// Applies any request bytes to any container bytes with any list bytes beside them, with any reply space. A
/// test-and-write that is done brings the list up to date; nothing else changes it.
///
/// ```
/// use beamsatchel_node::ffi;
///
/// let (mut buffer, mut list) = ([0; 480], [0; 2_052]);
/// assert_eq!(ffi::create(&mut buffer, &[7; 20], &[0xEE; 32]).number, 0);
/// // One write, of a byte at 3.
/// let request = [&[1, 0, 1, 0, 0, 0, 0, 0][..], &[0xEE; 32], &[0, 0, 0, 3, 0, 0, 0, 1, b'A']].concat();
/// assert_eq!(ffi::apply_listed(&mut buffer, &mut list[..2_051], &request, &mut []).number, 16);
/// assert_eq!(ffi::apply_listed(&mut buffer, &mut list, &request, &mut []).number, 0);
/// // One stretch, from 0 on, of three bytes.
/// assert_eq!(list[..12], [0, 0, 0, 1, 0, 0, 0, 0, 0, 0, 0, 3]);
/// ```
pub fn apply_listed(
    container: &mut [u8],
    list: &mut [u8],
    request: &[u8],
    reply: &mut [u8],
) -> RawAnswer {
    // SAFETY: as for `create`; the three `&mut` slices overlap nothing.
    unsafe {
        beamsatchel_apply_listed(
            container.as_mut_ptr(),
            container.len(),
            list.as_mut_ptr(),
            list.len(),
            request.as_ptr(),
            request.len(),
            reply.as_mut_ptr(),
            reply.len(),
        )
    }
}

/// Applies a read to container and list bytes that are lent for reading only. A request that is no read is answered as
/// the empty request is. The read of nothing, `05 00 00 00`, asks whether container and list are good.
///
/// ```
/// use beamsatchel_node::ffi;
///
/// let mut buffer = [0; 472];
/// assert_eq!(ffi::create(&mut buffer, &[7; 20], &[0xEE; 32]).number, 0);
/// assert_eq!(ffi::read_listed(&buffer, &[0; 2_052], &[5, 0, 0, 0], &mut []).number, 0);
/// assert_eq!(ffi::read_listed(&buffer, &[0; 2_052], &[4; 33], &mut []).number, 3);
/// assert_eq!(ffi::read_listed(&buffer, &[1; 2_052], &[4; 33], &mut []).number, 16);
/// ```
pub fn read_listed(container: &[u8], list: &[u8], request: &[u8], reply: &mut [u8]) -> RawAnswer {
    // SAFETY: as for `create`; container and list are only read, and the `&mut` slice overlaps nothing.
    unsafe {
        beamsatchel_read_listed(
            container.as_ptr(),
            container.len(),
            list.as_ptr(),
            list.len(),
            request.as_ptr(),
            request.len(),
            reply.as_mut_ptr(),
            reply.len(),
        )
    }
}

/// Checks the layout of bare share bytes.
///
/// ```
/// assert_eq!(beamsatchel_node::ffi::check_share(&[]).number, 21);
/// ```
pub fn check_share(share: &[u8]) -> RawShare {
    // SAFETY: pointer and length come from one live slice, never null, which is only read.
    unsafe { beamsatchel_check_bare_share(share.as_ptr(), share.len()) }
}

/// Checks the layout of the share that is a container's data.
///
/// ```
/// assert_eq!(beamsatchel_node::ffi::check_container(&[0; 472]).number, 2);
/// ```
pub fn check_container(container: &[u8]) -> RawShare {
    // SAFETY: pointer and length come from one live slice, never null, which is only read.
    unsafe { beamsatchel_check_share_in(container.as_ptr(), container.len()) }
}

/// Writes a share into the first bytes of the space, by the writer of its edition. On a refusal no byte of the space
/// changes, and on 0 none behind the share.
///
/// ```
/// use beamsatchel_node::ffi::{self, EditionArguments, ShareArguments};
///
/// let share = ShareArguments {
///     sequence_number: 1,
///     root_hash: &[0x52; 32],
///     k: 1,
///     n: 1,
///     data_length: 0,
///     verification_key: b"K",
///     signature: b"S",
///     hash_chain: b"",
///     block_tree: b"",
///     share_data: b"",
///     encrypted_private_key: b"P",
///     edition: EditionArguments::Sdmf { iv: &[0x49; 15] },
/// };
/// let mut space = [0; 200];
/// assert_eq!(ffi::write_share(&share, &mut space).number, 3);
/// for (edition, length) in [
///     (EditionArguments::Sdmf { iv: &[0x49; 16] }, 107 + 3),
///     (EditionArguments::Mdmf { segment_size: 0, spare: b"spare" }, 123 + 8),
/// ] {
///     let written = ffi::write_share(&ShareArguments { edition, ..share }, &mut space);
///     assert_eq!((written.number, written.length), (0, length));
/// }
/// ```
pub fn write_share(share: &ShareArguments<'_>, space: &mut [u8]) -> RawWrittenShare {
    match share.edition {
        EditionArguments::Sdmf { iv } => write_sdmf(share, iv, space),
        EditionArguments::Mdmf {
            segment_size,
            spare,
        } => write_mdmf(share, segment_size, spare, space),
    }
}

fn write_sdmf(share: &ShareArguments<'_>, iv: &[u8], space: &mut [u8]) -> RawWrittenShare {
    // SAFETY: as for `create`; all but the space are only read, and the `&mut` slice overlaps none of them.
    unsafe {
        beamsatchel_write_sdmf(
            share.sequence_number,
            share.root_hash.as_ptr(),
            share.root_hash.len(),
            iv.as_ptr(),
            iv.len(),
            share.k,
            share.n,
            share.data_length,
            share.verification_key.as_ptr(),
            share.verification_key.len(),
            share.signature.as_ptr(),
            share.signature.len(),
            share.hash_chain.as_ptr(),
            share.hash_chain.len(),
            share.block_tree.as_ptr(),
            share.block_tree.len(),
            share.share_data.as_ptr(),
            share.share_data.len(),
            share.encrypted_private_key.as_ptr(),
            share.encrypted_private_key.len(),
            space.as_mut_ptr(),
            space.len(),
        )
    }
}

fn write_mdmf(
    share: &ShareArguments<'_>,
    segment_size: u64,
    spare: &[u8],
    space: &mut [u8],
) -> RawWrittenShare {
    // SAFETY: as for `write_sdmf`.
    unsafe {
        beamsatchel_write_mdmf(
            share.sequence_number,
            share.root_hash.as_ptr(),
            share.root_hash.len(),
            share.k,
            share.n,
            segment_size,
            share.data_length,
            share.encrypted_private_key.as_ptr(),
            share.encrypted_private_key.len(),
            share.hash_chain.as_ptr(),
            share.hash_chain.len(),
            share.signature.as_ptr(),
            share.signature.len(),
            share.verification_key.as_ptr(),
            share.verification_key.len(),
            spare.as_ptr(),
            spare.len(),
            share.share_data.as_ptr(),
            share.share_data.len(),
            share.block_tree.as_ptr(),
            share.block_tree.len(),
            space.as_mut_ptr(),
            space.len(),
        )
    }
}

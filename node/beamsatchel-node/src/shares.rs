//! Shares, SDMF and MDMF, checked and written: the header's numbers and the parts.

use crate::answers::{no_outcome, outcome, Reason, Refusal};
use crate::ffi::{self, EditionArguments, RawShare, ShareArguments};
use crate::layout::share::{Header, MDMF, ROOT_HASH, SDMF, SEQUENCE_NUMBER};
use crate::layout::{field, DATA};
use std::fmt;

/// The editions of a share: SDMF for small files, with one segment, and MDMF for large ones, with any number.
///
/// ```
/// use beamsatchel_node::{Edition, Part};
///
/// assert_eq!(Edition::from_version(1), Some(Edition::Mdmf));
/// assert_eq!(Edition::from_version(2), None);
/// assert_eq!((Edition::Mdmf.version(), Edition::Mdmf.header().len), (1, 123));
/// assert_eq!(Edition::Sdmf.parts()[0], Part::VerificationKey);
/// assert_eq!(Edition::Mdmf.to_string(), "MDMF");
/// ```
#[derive(Clone, Copy, Debug, PartialEq, Eq, PartialOrd, Ord, Hash)]
#[repr(u8)]
pub enum Edition {
    /// Version 0, small distributed mutable file.
    Sdmf = 0,
    /// Version 1, medium distributed mutable file.
    Mdmf = 1,
}

impl Edition {
    /// Both, by rising version.
    pub const ALL: [Edition; 2] = [Edition::Sdmf, Edition::Mdmf];

    /// The version, a share's first byte.
    pub const fn version(self) -> u8 {
        self as u8
    }

    /// The edition with a version; `None` where no edition has it.
    pub fn from_version(version: u8) -> Option<Edition> {
        let mut editions = Edition::ALL.into_iter();
        editions.find(|edition| edition.version() == version)
    }

    /// Where the fields of the header begin.
    pub const fn header(self) -> &'static Header {
        match self {
            Edition::Sdmf => &SDMF,
            Edition::Mdmf => &MDMF,
        }
    }

    /// The parts, in the order in which they lie.
    pub const fn parts(self) -> &'static [Part] {
        match self {
            Edition::Sdmf => &[
                Part::VerificationKey,
                Part::Signature,
                Part::HashChain,
                Part::BlockTree,
                Part::ShareData,
                Part::EncryptedPrivateKey,
            ],
            Edition::Mdmf => &[
                Part::EncryptedPrivateKey,
                Part::HashChain,
                Part::Signature,
                Part::VerificationKey,
                Part::Spare,
                Part::ShareData,
                Part::BlockTree,
            ],
        }
    }
}

/// The edition's name.
impl fmt::Display for Edition {
    fn fmt(&self, f: &mut fmt::Formatter<'_>) -> fmt::Result {
        f.write_str(match self {
            Edition::Sdmf => "SDMF",
            Edition::Mdmf => "MDMF",
        })
    }
}

/// A part of a share. SDMF has all but the last one here, MDMF has all; [`Edition::parts`] has them in their order.
///
/// ```
/// use beamsatchel_node::Part;
///
/// assert_eq!(Part::EncryptedPrivateKey.to_string(), "encrypted private key");
/// ```
#[derive(Clone, Copy, Debug, PartialEq, Eq, Hash)]
pub enum Part {
    /// The key that verifies the signature.
    VerificationKey,
    /// The signature.
    Signature,
    /// Entries of a node number (2 bytes) and a hash (32).
    HashChain,
    /// Hashes of a tree over the segments.
    BlockTree,
    /// The block of each segment; in MDMF each has a salt before it.
    ShareData,
    /// The key that signs, encrypted.
    EncryptedPrivateKey,
    /// Bytes behind the verification key, of MDMF alone: any number of any bytes.
    Spare,
}

/// The part's name, in words.
impl fmt::Display for Part {
    fn fmt(&self, f: &mut fmt::Formatter<'_>) -> fmt::Result {
        f.pad(match self {
            Part::VerificationKey => "verification key",
            Part::Signature => "signature",
            Part::HashChain => "hash chain",
            Part::BlockTree => "block tree",
            Part::ShareData => "share data",
            Part::EncryptedPrivateKey => "encrypted private key",
            Part::Spare => "spare",
        })
    }
}

/// A share with a good layout, of either edition: its header's numbers, and its parts as slices of the caller's own
/// bytes. The check verifies no hash and no signature.
///
/// ```
/// use beamsatchel_node::{Edition, Part, Reason, Share};
///
/// # fn main() -> Result<(), beamsatchel_node::Refusal> {
/// // k = N = 1 and no data: no hash chain, no block tree, no share data.
/// let mut bytes = [0; 110];
/// bytes[57..59].copy_from_slice(&[1, 1]);
/// bytes[78] = 108; // signature
/// for offset in [82, 86, 90, 98] {
///     bytes[offset] = 109; // chain, tree, data, private key
/// }
/// bytes[106] = 110; // end
/// let share = Share::check(&bytes)?;
/// assert_eq!(share.edition(), Edition::Sdmf);
/// assert_eq!(share.verification_key(), &bytes[107..108]);
/// assert_eq!(share.parts().last(), Some((Part::EncryptedPrivateKey, &bytes[109..])));
///
/// // As MDMF it is shorter than its header, and there is no third edition.
/// bytes[0] = 1;
/// assert_eq!(Share::check(&bytes).unwrap_err().reason, Reason::ShareShort);
/// bytes[0] = 2;
/// assert_eq!(Share::check(&bytes).unwrap_err().reason, Reason::ShareVersion);
/// # Ok(())
/// # }
/// ```
#[derive(Clone, Copy, PartialEq, Eq)]
pub struct Share<'a> {
    bytes: &'a [u8],
    edition: Edition,
    bounds: Bounds,
}

/// Where the parts begin in a share's bytes, and where the last one ends. In SDMF a spare part follows the six, and is
/// empty.
type Bounds = [usize; 8];

impl<'a> Share<'a> {
    /// Checks bare share bytes.
    pub fn check(bytes: &'a [u8]) -> Result<Share<'a>, Refusal> {
        Share::of(bytes, 0, ffi::check_share(bytes))
    }

    /// Checks the data of a container as a share. The container is judged first, so 1 or 2 come before the share's
    /// own outcomes.
    ///
    /// ```
    /// use beamsatchel_node::{Container, NodeId, Reason, Share, WriteEnabler};
    ///
    /// # fn main() -> Result<(), beamsatchel_node::Refusal> {
    /// let mut buffer = [0; 500];
    /// let refusal = Share::in_container(&buffer).unwrap_err();
    /// assert_eq!(refusal.reason, Reason::NotWellFormed);
    /// Container::create(&mut buffer, NodeId([7; 20]), WriteEnabler::new([1; 32]))?;
    /// let refusal = Share::in_container(&buffer).unwrap_err();
    /// assert_eq!(refusal.reason, Reason::ShareShort);
    /// # Ok(())
    /// # }
    /// ```
    pub fn in_container(container: &'a [u8]) -> Result<Share<'a>, Refusal> {
        Share::of(container, DATA, ffi::check_container(container))
    }

    /// The share whose header begins at `start`. The bounds count from the first of the bytes that were checked.
    fn of(bytes: &'a [u8], start: usize, checked: RawShare) -> Result<Share<'a>, Refusal> {
        outcome(checked.number).map_err(Refusal::of)?;
        let bounds = checked.bounds.map(|bound| bound as usize - start);
        Ok(Share {
            bytes: &bytes[start..start + bounds[7]],
            edition: match checked.edition {
                0 => Edition::Sdmf,
                _ => Edition::Mdmf,
            },
            bounds,
        })
    }

    /// All bytes of the share, the header's and the parts'.
    pub fn as_bytes(&self) -> &'a [u8] {
        self.bytes
    }

    /// Which edition the share is of.
    pub fn edition(&self) -> Edition {
        self.edition
    }

    /// The sequence number, below 2^64-1.
    pub fn sequence_number(&self) -> u64 {
        u64::from_be_bytes(field(self.bytes, SEQUENCE_NUMBER))
    }

    /// R, the root hash.
    pub fn root_hash(&self) -> [u8; 32] {
        field(self.bytes, ROOT_HASH)
    }

    /// IV, the initialization vector, which SDMF alone has: in MDMF each block has a salt before it.
    pub fn iv(&self) -> Option<[u8; 16]> {
        self.edition.header().iv.map(|at| field(self.bytes, at))
    }

    /// k, how many shares are needed.
    pub fn k(&self) -> u8 {
        self.bytes[self.edition.header().k]
    }

    /// N, how many shares there are.
    pub fn n(&self) -> u8 {
        self.bytes[self.edition.header().n]
    }

    /// The segment size.
    pub fn segment_size(&self) -> u64 {
        u64::from_be_bytes(field(self.bytes, self.edition.header().segment_size))
    }

    /// The data length.
    pub fn data_length(&self) -> u64 {
        u64::from_be_bytes(field(self.bytes, self.edition.header().data_length))
    }

    /// How many segments the data has: data length / segment size, rounded up, and none without data. In SDMF there is
    /// no more than one.
    pub fn segments(&self) -> u64 {
        match self.data_length() {
            0 => 0,
            // Which is not 0 then.
            length => length.div_ceil(self.segment_size()),
        }
    }

    /// The verification key, not empty.
    pub fn verification_key(&self) -> &'a [u8] {
        self.part(Part::VerificationKey)
    }

    /// The signature, not empty.
    pub fn signature(&self) -> &'a [u8] {
        self.part(Part::Signature)
    }

    /// The hash chain: entries of a node number (2 bytes) and a hash (32).
    pub fn hash_chain(&self) -> &'a [u8] {
        self.part(Part::HashChain)
    }

    /// The block tree, of hashes. In SDMF it is one hash, or nothing for data length 0; in MDMF a whole tree with a
    /// leaf for each [segment](Share::segments), up to the next power of two, and nothing without segments.
    pub fn block_tree(&self) -> &'a [u8] {
        self.part(Part::BlockTree)
    }

    /// The share data: data length / k bytes, rounded up, and in MDMF 16 more for each [segment](Share::segments), a
    /// salt before its block.
    pub fn share_data(&self) -> &'a [u8] {
        self.part(Part::ShareData)
    }

    /// The encrypted private key, not empty.
    pub fn encrypted_private_key(&self) -> &'a [u8] {
        self.part(Part::EncryptedPrivateKey)
    }

    /// The spare bytes, which MDMF alone has, behind the verification key; empty in SDMF.
    pub fn spare(&self) -> &'a [u8] {
        self.part(Part::Spare)
    }

    /// A part by its name.
    pub fn part(&self, part: Part) -> &'a [u8] {
        let mut parts = self.edition.parts().iter();
        // What is not among the six of SDMF follows them.
        let place = parts.position(|there| *there == part).unwrap_or(6);
        &self.bytes[self.bounds[place]..self.bounds[place + 1]]
    }

    /// The parts with their names, in the order in which they lie: six in SDMF, seven in MDMF.
    pub fn parts(&self) -> impl ExactSizeIterator<Item = (Part, &'a [u8])> + Clone + use<'a> {
        let share = *self;
        let parts = self.edition.parts().iter();
        parts.map(move |part| (*part, share.part(*part)))
    }
}

/// Numbers and lengths: a share's bytes are too many to print.
impl fmt::Debug for Share<'_> {
    fn fmt(&self, f: &mut fmt::Formatter<'_>) -> fmt::Result {
        let lengths: Vec<usize> = self.parts().map(|(_, bytes)| bytes.len()).collect();
        f.debug_struct("Share")
            .field("edition", &self.edition)
            .field("sequence_number", &self.sequence_number())
            .field("k", &self.k())
            .field("n", &self.n())
            .field("segment_size", &self.segment_size())
            .field("data_length", &self.data_length())
            .field("part_lens", &lengths)
            .finish_non_exhaustive()
    }
}

/// What a share is written from: numbers of its header, and its parts. Version, offsets and the segment size of SDMF
/// follow from them. No hash and no signature is computed or verified: R, signature, hash chain and block tree are
/// written as they are given.
///
/// An SDMF share:
///
/// ```
/// use beamsatchel_node::{NewEdition, NewShare, NewShareError, Share};
///
/// # fn main() -> Result<(), NewShareError> {
/// // Of N = 2 shares, so the hash chain has one entry: a node number in 2 bytes, and a hash.
/// let hash_chain = [&[0, 2][..], &[0xC2; 32]].concat();
/// let share = NewShare {
///     sequence_number: 1,
///     root_hash: [0x52; 32],
///     k: 1,
///     n: 2,
///     data_length: 8,
///     verification_key: b"a key",
///     signature: b"a signature",
///     hash_chain: &hash_chain,
///     block_tree: &[0xB7; 32],
///     share_data: b"VAN1 21C",
///     encrypted_private_key: b"another key",
///     edition: NewEdition::Sdmf { iv: [0x49; 16] },
/// };
/// let mut space = vec![0; share.written_len()];
/// let written = share.write(&mut space)?;
/// assert_eq!(written.segment_size(), 8);
/// assert_eq!(Share::check(written.as_bytes()), Ok(written));
///
/// let too_many = NewShare { k: 3, ..share };
/// assert_eq!(too_many.write(&mut [0; 300]), Err(NewShareError::Coding));
/// # Ok(())
/// # }
/// ```
///
/// An MDMF share, with a salt before each block and a tree over the segments:
///
/// ```
/// use beamsatchel_node::{NewEdition, NewShare, NewShareError, Share};
///
/// # fn main() -> Result<(), NewShareError> {
/// let share_data = [&[0x5A; 16][..], b"VAN1 21C", &[0x5B; 16], b"VAN1"].concat();
/// let share = NewShare {
///     sequence_number: 1,
///     root_hash: [0x52; 32],
///     k: 1,
///     n: 1,
///     data_length: 12,
///     verification_key: b"a key",
///     signature: b"a signature",
///     hash_chain: b"",
///     block_tree: &[0xB7; 96], // two leaves and the root
///     share_data: &share_data,
///     encrypted_private_key: b"another key",
///     edition: NewEdition::Mdmf { segment_size: 8, spare: b"" },
/// };
/// let mut space = vec![0; share.written_len()];
/// let written = share.write(&mut space)?;
/// assert_eq!((written.segments(), written.iv()), (2, None));
/// assert_eq!(Share::check(written.as_bytes()), Ok(written));
///
/// let edition = NewEdition::Mdmf { segment_size: 4, spare: b"" };
/// let smaller = NewShare { edition, ..share };
/// assert_eq!(smaller.write(&mut [0; 300]), Err(NewShareError::BlockTree));
/// # Ok(())
/// # }
/// ```
#[derive(Clone, Copy, PartialEq, Eq)]
#[must_use]
pub struct NewShare<'a> {
    /// The sequence number, below 2^64-1.
    pub sequence_number: u64,
    /// R, the root hash.
    pub root_hash: [u8; 32],
    /// k, how many shares are needed, from 1 to N.
    pub k: u8,
    /// N, how many shares there are.
    pub n: u8,
    /// The data length.
    pub data_length: u64,
    /// The verification key, not empty.
    pub verification_key: &'a [u8],
    /// The signature, not empty.
    pub signature: &'a [u8],
    /// The hash chain: c entries of a node number (2 bytes) and a hash (32), where c is the least number with 2^c at
    /// least N. The node numbers differ, and each is below 2 * 2^c - 1.
    pub hash_chain: &'a [u8],
    /// The block tree. In SDMF it is 32 bytes, a hash; for data length 0 it may be empty. In MDMF it is 2 * 2^d - 1
    /// hashes, where d is the least number with 2^d at least the number of segments, and without data it is empty.
    pub block_tree: &'a [u8],
    /// The share data: data length / k bytes, rounded up, and in MDMF 16 more for each segment.
    pub share_data: &'a [u8],
    /// The encrypted private key, not empty.
    pub encrypted_private_key: &'a [u8],
    /// Which edition it is of, and what that edition alone has.
    pub edition: NewEdition<'a>,
}

/// The edition of a [`NewShare`], and what a share of that edition alone is written from.
#[derive(Clone, Copy, PartialEq, Eq)]
pub enum NewEdition<'a> {
    /// An SDMF share. Its segment size is the least multiple of k at or above the data length, and must be below 2^64.
    Sdmf {
        /// IV, the initialization vector.
        iv: [u8; 16],
    },
    /// An MDMF share, with data length / segment size segments, rounded up, and none without data.
    Mdmf {
        /// The segment size: a multiple of k, and 0 without data only.
        segment_size: u64,
        /// The spare bytes, any number of any bytes.
        spare: &'a [u8],
    },
}

impl NewEdition<'_> {
    /// Which edition it is.
    pub fn edition(&self) -> Edition {
        match self {
            NewEdition::Sdmf { .. } => Edition::Sdmf,
            NewEdition::Mdmf { .. } => Edition::Mdmf,
        }
    }
}

impl<'a> NewShare<'a> {
    /// The bytes that the share takes: space of this length is enough, and any shorter one too little.
    ///
    /// Parts may overlap, so that their lengths can add up to more than a `usize` holds. It is [`usize::MAX`] then,
    /// and there is no space of that length.
    pub fn written_len(&self) -> usize {
        let lengths = self.parts().map(|(_, bytes)| bytes.len());
        lengths.fold(self.header_len(), usize::saturating_add)
    }

    /// Writes the share into the first bytes of the space, and gives it as [`Share::check`] would. The bytes behind it
    /// stay as they are; on a refusal all do.
    pub fn write<'s>(&self, space: &'s mut [u8]) -> Result<Share<'s>, NewShareError> {
        let written = ffi::write_share(&self.arguments(), space);
        if written.number != 0 {
            let error = NewShareError::from_number(written.number);
            return Err(error.unwrap_or_else(|| no_outcome(written.number)));
        }
        // That the check accepts it with these bounds is proved of the library.
        let length = written.length as usize;
        let mut bounds = [length; 8];
        let mut start = self.header_len();
        for (bound, (_, bytes)) in bounds.iter_mut().zip(self.parts()) {
            *bound = start;
            start += bytes.len();
        }
        Ok(Share {
            bytes: &space[..length],
            edition: self.edition.edition(),
            bounds,
        })
    }

    fn header_len(&self) -> usize {
        self.edition.edition().header().len
    }

    /// A part by its name; of SDMF the spare one is empty.
    pub fn part(&self, part: Part) -> &'a [u8] {
        match part {
            Part::VerificationKey => self.verification_key,
            Part::Signature => self.signature,
            Part::HashChain => self.hash_chain,
            Part::BlockTree => self.block_tree,
            Part::ShareData => self.share_data,
            Part::EncryptedPrivateKey => self.encrypted_private_key,
            Part::Spare => match self.edition {
                NewEdition::Sdmf { .. } => &[],
                NewEdition::Mdmf { spare, .. } => spare,
            },
        }
    }

    /// The parts with their names, in the order in which they are written: six in SDMF, seven in MDMF.
    pub fn parts(&self) -> impl ExactSizeIterator<Item = (Part, &'a [u8])> + Clone + use<'a> {
        let share = *self;
        let parts = self.edition.edition().parts().iter();
        parts.map(move |part| (*part, share.part(*part)))
    }

    /// The same numbers and parts, as [`ffi::write_share`] takes them.
    pub fn arguments(&self) -> ShareArguments<'_> {
        ShareArguments {
            sequence_number: self.sequence_number,
            root_hash: &self.root_hash,
            k: self.k,
            n: self.n,
            data_length: self.data_length,
            verification_key: self.verification_key,
            signature: self.signature,
            hash_chain: self.hash_chain,
            block_tree: self.block_tree,
            share_data: self.share_data,
            encrypted_private_key: self.encrypted_private_key,
            edition: match &self.edition {
                NewEdition::Sdmf { iv } => EditionArguments::Sdmf { iv },
                NewEdition::Mdmf {
                    segment_size,
                    spare,
                } => EditionArguments::Mdmf {
                    segment_size: *segment_size,
                    spare,
                },
            },
        }
    }
}

/// What a checked share is written from: written again, it is the same share, of the same edition.
///
/// ```
/// use beamsatchel_node::{NewEdition, NewShare, Share};
///
/// # fn main() -> Result<(), beamsatchel_node::Error> {
/// # let mut bytes = [0; 150];
/// # let first = NewShare {
/// #     sequence_number: 1,
/// #     root_hash: [0x52; 32],
/// #     k: 1,
/// #     n: 1,
/// #     data_length: 8,
/// #     verification_key: b"K",
/// #     signature: b"S",
/// #     hash_chain: b"",
/// #     block_tree: &[0xB7; 32],
/// #     share_data: b"VAN1 21C",
/// #     encrypted_private_key: b"P",
/// #     edition: NewEdition::Sdmf { iv: [0x49; 16] },
/// # };
/// # first.write(&mut bytes)?;
/// let share = Share::check(&bytes)?;
/// let same = NewShare::from(share);
/// let mut space = vec![0; same.written_len()];
/// assert_eq!(same.write(&mut space)?, share);
/// assert_eq!(space, bytes);
///
/// // With other data all that is computed from the data is new too. Nothing here asks whether it fits the data.
/// let next = NewShare {
///     sequence_number: share.sequence_number() + 1,
///     root_hash: [0x53; 32],
///     signature: b"T",
///     block_tree: &[0xB8; 32],
///     share_data: b"VAN1 19C",
///     edition: NewEdition::Sdmf { iv: [0x4A; 16] },
///     ..same
/// };
/// let next = next.write(&mut space)?;
/// assert_eq!((next.sequence_number(), next.share_data()), (2, &b"VAN1 19C"[..]));
/// assert_eq!(next.verification_key(), share.verification_key());
/// # Ok(())
/// # }
/// ```
impl<'a> From<Share<'a>> for NewShare<'a> {
    fn from(share: Share<'a>) -> NewShare<'a> {
        NewShare {
            sequence_number: share.sequence_number(),
            root_hash: share.root_hash(),
            k: share.k(),
            n: share.n(),
            data_length: share.data_length(),
            verification_key: share.verification_key(),
            signature: share.signature(),
            hash_chain: share.hash_chain(),
            block_tree: share.block_tree(),
            share_data: share.share_data(),
            encrypted_private_key: share.encrypted_private_key(),
            edition: match share.iv() {
                Some(iv) => NewEdition::Sdmf { iv },
                None => NewEdition::Mdmf {
                    segment_size: share.segment_size(),
                    spare: share.spare(),
                },
            },
        }
    }
}

/// Numbers and lengths, as of a [`Share`].
impl fmt::Debug for NewShare<'_> {
    fn fmt(&self, f: &mut fmt::Formatter<'_>) -> fmt::Result {
        let lengths: Vec<usize> = self.parts().map(|(_, bytes)| bytes.len()).collect();
        f.debug_struct("NewShare")
            .field("edition", &self.edition)
            .field("sequence_number", &self.sequence_number)
            .field("k", &self.k)
            .field("n", &self.n)
            .field("data_length", &self.data_length)
            .field("part_lens", &lengths)
            .finish_non_exhaustive()
    }
}

/// The edition and its number.
impl fmt::Debug for NewEdition<'_> {
    fn fmt(&self, f: &mut fmt::Formatter<'_>) -> fmt::Result {
        match self {
            NewEdition::Sdmf { .. } => f.debug_struct("Sdmf").finish_non_exhaustive(),
            NewEdition::Mdmf { segment_size, .. } => f
                .debug_struct("Mdmf")
                .field("segment_size", segment_size)
                .finish_non_exhaustive(),
        }
    }
}

/// Why a share was not written: the outcomes 7 and 23 to 29 of the writer. Where several apply, the lowest number is
/// given, so with too little space none of the others is told.
///
/// Outcome 3, for R or IV of another length, is not among them: a [`NewShare`] has arrays for both.
///
/// ```
/// use beamsatchel_node::NewShareError;
///
/// assert_eq!(NewShareError::HashChain.number(), 26);
/// assert_eq!(NewShareError::from_number(26), Some(NewShareError::HashChain));
/// assert_eq!(NewShareError::from_number(3), None);
/// assert_eq!(NewShareError::Space.to_string(), "7: The space is shorter than the share.");
/// ```
#[derive(Clone, Copy, Debug, PartialEq, Eq, Hash)]
#[non_exhaustive]
#[repr(u8)]
pub enum NewShareError {
    /// 7: the space is shorter than [`NewShare::written_len`].
    Space = 7,
    /// 23: k is 0 or above N.
    Coding = 23,
    /// 24: the segment size of SDMF would be 2^64 or more, or that of MDMF is no multiple of k, or 0 with data.
    SegmentSize = 24,
    /// 25: verification key, signature or encrypted private key is empty, or an offset of SDMF does not fit its field.
    /// Those of signature, hash chain, block tree and share data have 4 bytes there.
    Offsets = 25,
    /// 26: the hash chain is not c entries of 34 bytes, where c is the least number with 2^c at least N, or a node
    /// number repeats or is 2 * 2^c - 1 or more.
    HashChain = 26,
    /// 27: the block tree of SDMF is not 32 bytes, nor empty with data length 0; or that of MDMF is not 2 * 2^d - 1
    /// hashes of 32 bytes, where d is the least number with 2^d at least the number of segments, or without data not
    /// empty.
    BlockTree = 27,
    /// 28: the share data is not data length / k bytes, rounded up, and in MDMF 16 more for each segment.
    ShareData = 28,
    /// 29: the sequence number is 2^64-1.
    SequenceNumber = 29,
}

impl NewShareError {
    /// Every reason, by rising number.
    pub const ALL: &'static [NewShareError] = &[
        NewShareError::Space,
        NewShareError::Coding,
        NewShareError::SegmentSize,
        NewShareError::Offsets,
        NewShareError::HashChain,
        NewShareError::BlockTree,
        NewShareError::ShareData,
        NewShareError::SequenceNumber,
    ];

    /// The outcome's number.
    pub const fn number(self) -> u32 {
        self as u32
    }

    /// The reason with a number; `None` for 0, which is done, and for all others that are not listed here.
    pub fn from_number(number: u32) -> Option<NewShareError> {
        let mut reasons = NewShareError::ALL.iter().copied();
        reasons.find(|reason| reason.number() == number)
    }

    /// What it means, in a sentence.
    pub const fn sentence(self) -> &'static str {
        match self {
            NewShareError::Space => "The space is shorter than the share.",
            NewShareError::Coding => Reason::ShareCoding.sentence(),
            NewShareError::SegmentSize => {
                "The share's segment size would be 2^64 or more (SDMF), or is no multiple of k, or 0 with data (MDMF)."
            }
            NewShareError::Offsets => {
                "The share's verification key, signature or private key is empty, \
                 or an offset does not fit its field (SDMF)."
            }
            NewShareError::HashChain => {
                "The hash chain is not c entries of 34 bytes (c least with 2^c at least N), \
                 or a node number repeats or is 2 * 2^c - 1 or more."
            }
            NewShareError::BlockTree => {
                "The block tree is not 32 bytes long, nor empty with data length 0 (SDMF), or not 32(2 * 2^d - 1), \
                 d least with 2^d at least the number of segments, nor empty without any (MDMF)."
            }
            NewShareError::ShareData => {
                "The share data is not data length / k bytes long, rounded up, and 16 more for each segment (MDMF)."
            }
            NewShareError::SequenceNumber => Reason::ShareSequence.sentence(),
        }
    }
}

/// The number and the sentence.
impl fmt::Display for NewShareError {
    fn fmt(&self, f: &mut fmt::Formatter<'_>) -> fmt::Result {
        write!(f, "{}: {}", self.number(), self.sentence())
    }
}

impl std::error::Error for NewShareError {}

//! The tables of `docs/RULES.md`: where the fields of a container, of a never-written list and of a share begin, and
//! the sizes of what repeats.
//!
//! Requests need none of this: the builders write them. It is for those who look at bytes, or are sent requests.

/// The container's first 32 bytes.
pub const MAGIC: &[u8; 32] = b"tahoe mutable container v1\x0A\x75\x09\x44\x03\x8E";
/// The id of the node that accepted the write enabler.
pub const NODE_ID: usize = 32;
/// The write enabler.
pub const WRITE_ENABLER: usize = 52;
/// The data size, in 8 bytes.
pub const SIZE: usize = 84;
/// The offset of the extra-lease count, in 8 bytes. The extra leases follow the count.
pub const COUNT_OFFSET: usize = 92;
/// The first of the four lease places.
pub const LEASES: usize = 100;
/// The data. Zeros, the slack, fill what lies between its end and the extra-lease count.
pub const DATA: usize = 468;
/// Bytes of the extra-lease count.
pub const COUNT: usize = 4;
/// Bytes of a lease record.
pub const RECORD: usize = 92;
/// The lease places before the data.
pub const FIXED_PLACES: usize = 4;
/// The most lease places behind the data.
pub const MAX_EXTRAS: usize = 60;
/// The least bytes of a container's buffer.
pub const MIN_LENGTH: usize = 472;
/// The most bytes of a container's buffer.
pub const MAX_LENGTH: usize = 16_777_216;
/// The most bytes of a request.
pub const MAX_REQUEST: usize = 65_536;

/// The never-written list beside a slot: a count, then so many rows, then zeros.
pub mod list {
    /// Bytes of a list, whatever it names.
    pub const LENGTH: usize = 2_052;
    /// The number of rows, in 4 bytes.
    pub const COUNT: usize = 0;
    /// The first row.
    pub const ROWS: usize = 4;
    /// Bytes of a row: where a stretch of the data begins, in 4 bytes, and its length, in 4 bytes.
    pub const ROW: usize = 8;
    /// The most rows of a list.
    pub const MAX_ROWS: usize = 256;
}

/// The header of a share: what both editions have at the same bytes, and for each edition a table of the rest.
pub mod share {
    use crate::shares::Part;

    /// The version, in 1 byte: 0 for SDMF, 1 for MDMF.
    pub const VERSION: usize = 0;
    /// The sequence number, in 8 bytes.
    pub const SEQUENCE_NUMBER: usize = 1;
    /// R, the root hash, in 32 bytes.
    pub const ROOT_HASH: usize = 9;

    /// Where the fields of one edition's header begin.
    #[derive(Clone, Copy, Debug, PartialEq, Eq)]
    #[non_exhaustive]
    pub struct Header {
        /// IV, the initialization vector, in 16 bytes.
        pub iv: Option<usize>,
        /// k, how many shares are needed.
        pub k: usize,
        /// N, how many shares there are.
        pub n: usize,
        /// The segment size, in 8 bytes.
        pub segment_size: usize,
        /// The data length, in 8 bytes.
        pub data_length: usize,
        /// The offsets, in the order of the parts; the last one is that of the end.
        pub offsets: &'static [OffsetField],
        /// Bytes of the whole header. The first part follows it.
        pub len: usize,
    }

    /// A field that says where a part begins, or where the last one ends.
    #[derive(Clone, Copy, Debug, PartialEq, Eq)]
    #[non_exhaustive]
    pub struct OffsetField {
        /// The part; none for the end.
        pub part: Option<Part>,
        /// Where the field begins.
        pub at: usize,
        /// Bytes of the field.
        pub len: usize,
    }

    /// The header of an SDMF share. The verification key always follows it, so that there is no offset of it.
    pub const SDMF: Header = Header {
        iv: Some(41),
        k: 57,
        n: 58,
        segment_size: 59,
        data_length: 67,
        offsets: &[
            offset(Some(Part::Signature), 75, 4),
            offset(Some(Part::HashChain), 79, 4),
            offset(Some(Part::BlockTree), 83, 4),
            offset(Some(Part::ShareData), 87, 4),
            offset(Some(Part::EncryptedPrivateKey), 91, 8),
            offset(None, 99, 8),
        ],
        len: 107,
    };

    /// The header of an MDMF share.
    pub const MDMF: Header = Header {
        iv: None,
        k: 41,
        n: 42,
        segment_size: 43,
        data_length: 51,
        offsets: &[
            offset(Some(Part::EncryptedPrivateKey), 59, 8),
            offset(Some(Part::HashChain), 67, 8),
            offset(Some(Part::Signature), 75, 8),
            offset(Some(Part::VerificationKey), 83, 8),
            offset(Some(Part::Spare), 91, 8),
            offset(Some(Part::ShareData), 99, 8),
            offset(Some(Part::BlockTree), 107, 8),
            offset(None, 115, 8),
        ],
        len: 123,
    };

    const fn offset(part: Option<Part>, at: usize, len: usize) -> OffsetField {
        OffsetField { part, at, len }
    }
}

/// The N bytes of a field.
pub(crate) fn field<const N: usize>(bytes: &[u8], at: usize) -> [u8; N] {
    *bytes[at..]
        .first_chunk()
        .expect("the field lies inside the bytes")
}

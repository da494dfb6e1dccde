//! Which shares were written, and how those came close that were not.

use beamsatchel_model::{NewEdition, NewShare};
use beamsatchel_node::Edition;

/// What is at an edge of a share to be written, or of its space: first of those that are written, then of those that
/// are refused, by rising number. What concerns the segments of MDMF, `laid` has.
#[derive(Clone, Copy, Debug, PartialEq, Eq, PartialOrd, Ord)]
pub enum Shape {
    SpaceFits,
    SpaceByteMore,
    SpaceLonger,
    KeysOfAByte,
    NoDataNoTree,
    NoDataTree,
    SegmentOfDataLength,
    SegmentLonger,
    RootNode,
    LastNode,
    NodesRise,
    NodesShuffled,
    SequenceLastButOne,
    /// By the check, with the same numbers and parts.
    AcceptedAsWritten,
    /// What the check accepts, from its own parts.
    WrittenAgain,
    RootHashByteLess,
    RootHashByteMore,
    IvByteLess,
    IvByteMore,
    SpaceByteLess,
    SpaceOfHeader,
    SpaceByteLessThanHeader,
    NoSpace,
    NoK,
    KAboveN,
    /// The least data length of which the segment size is 2^64 or more.
    SegmentTooLong,
    /// The greatest data length of which it is not: all that is left is share data of another length.
    SegmentLongest,
    NoKey,
    NoSignature,
    NoPrivateKey,
    ChainEntryLess,
    ChainEntryMore,
    ChainByteMore,
    NodeTooLarge,
    NodeRepeats,
    NoTree,
    TreeByteLess,
    TreeByteMore,
    DataByteLess,
    DataByteMore,
    SequenceLast,
}

impl Shape {
    /// Those that a share of an edition can have.
    pub fn all(edition: Edition) -> Vec<Shape> {
        let both = Shape::BOTH.into_iter();
        match edition {
            Edition::Sdmf => both.chain(Shape::OF_SDMF).collect(),
            Edition::Mdmf => both.collect(),
        }
    }

    const OF_SDMF: [Shape; 13] = [
        Shape::NoDataNoTree,
        Shape::NoDataTree,
        Shape::SegmentOfDataLength,
        Shape::SegmentLonger,
        Shape::IvByteLess,
        Shape::IvByteMore,
        Shape::SegmentTooLong,
        Shape::SegmentLongest,
        Shape::NoTree,
        Shape::TreeByteLess,
        Shape::TreeByteMore,
        Shape::DataByteLess,
        Shape::DataByteMore,
    ];

    const BOTH: [Shape; 28] = [
        Shape::SpaceFits,
        Shape::SpaceByteMore,
        Shape::SpaceLonger,
        Shape::KeysOfAByte,
        Shape::RootNode,
        Shape::LastNode,
        Shape::NodesRise,
        Shape::NodesShuffled,
        Shape::SequenceLastButOne,
        Shape::AcceptedAsWritten,
        Shape::WrittenAgain,
        Shape::RootHashByteLess,
        Shape::RootHashByteMore,
        Shape::SpaceByteLess,
        Shape::SpaceOfHeader,
        Shape::SpaceByteLessThanHeader,
        Shape::NoSpace,
        Shape::NoK,
        Shape::KAboveN,
        Shape::NoKey,
        Shape::NoSignature,
        Shape::NoPrivateKey,
        Shape::ChainEntryLess,
        Shape::ChainEntryMore,
        Shape::ChainByteMore,
        Shape::NodeTooLarge,
        Shape::NodeRepeats,
        Shape::SequenceLast,
    ];

    /// The shapes of a share that was answered with this number, beside space of this length.
    pub fn of_case(share: &NewShare, space: usize, number: u32) -> Vec<Shape> {
        let needed = share.length() as usize;
        let header = share.edition().header();
        let is_sdmf = matches!(share.edition, NewEdition::Sdmf { .. });
        let met = match number {
            0 => return of_written(share, space - needed),
            3 => match (share.root_hash.len(), share.edition) {
                (31, _) => Shape::RootHashByteLess,
                (33, _) => Shape::RootHashByteMore,
                (32, NewEdition::Sdmf { iv }) if iv.len() == 15 => Shape::IvByteLess,
                (32, NewEdition::Sdmf { iv }) if iv.len() == 17 => Shape::IvByteMore,
                _ => return Vec::new(),
            },
            7 if space + 1 == needed => Shape::SpaceByteLess,
            7 => match space as u64 {
                0 => Shape::NoSpace,
                space if space == header => Shape::SpaceOfHeader,
                space if space + 1 == header => Shape::SpaceByteLessThanHeader,
                _ => return Vec::new(),
            },
            23 if share.k == 0 => Shape::NoK,
            23 => Shape::KAboveN,
            24 if is_sdmf && share.data_length == longest(share) + 1 => Shape::SegmentTooLong,
            25 => match keys(share).map(<[u8]>::is_empty) {
                [true, false, false] => Shape::NoKey,
                [false, true, false] => Shape::NoSignature,
                [false, false, true] => Shape::NoPrivateKey,
                _ => return Vec::new(),
            },
            26 => return of_chain(share),
            27 if is_sdmf => match (share.block_tree.len(), share.data_length) {
                (0, 1..) => Shape::NoTree,
                (31, _) => Shape::TreeByteLess,
                (33, _) => Shape::TreeByteMore,
                _ => return Vec::new(),
            },
            28 if is_sdmf && share.k > 1 && share.data_length == longest(share) => {
                Shape::SegmentLongest
            }
            28 if is_sdmf => {
                let there = share.share_data.len() as u64;
                let wanted = share.data_length.div_ceil(u64::from(share.k));
                match there.wrapping_sub(wanted) {
                    1 => Shape::DataByteMore,
                    u64::MAX => Shape::DataByteLess,
                    _ => return Vec::new(),
                }
            }
            29 => Shape::SequenceLast,
            _ => return Vec::new(),
        };
        vec![met]
    }
}

/// What must not be empty.
fn keys<'a>(share: &NewShare<'a>) -> [&'a [u8]; 3] {
    [
        share.verification_key,
        share.signature,
        share.encrypted_private_key,
    ]
}

/// The greatest multiple of k below 2^64.
fn longest(share: &NewShare) -> u64 {
    u64::MAX - u64::MAX % u64::from(share.k)
}

/// Of a share that was written, with so many bytes behind it.
fn of_written(share: &NewShare, behind: usize) -> Vec<Shape> {
    let mut met = vec![match behind {
        0 => Shape::SpaceFits,
        1 => Shape::SpaceByteMore,
        _ => Shape::SpaceLonger,
    }];
    let mut meet = |shape: Shape, here: bool| met.extend(here.then_some(shape));
    meet(Shape::KeysOfAByte, keys(share).map(<[u8]>::len) == [1; 3]);
    if let NewEdition::Sdmf { .. } = share.edition {
        let (no_data, no_tree) = (share.data_length == 0, share.block_tree.is_empty());
        meet(Shape::NoDataNoTree, no_data && no_tree);
        meet(Shape::NoDataTree, no_data && !no_tree);
        let padded = share.data_length % u64::from(share.k) != 0;
        meet(Shape::SegmentLonger, padded);
        meet(Shape::SegmentOfDataLength, !padded && !no_data);
    }
    let nodes = nodes(share);
    meet(Shape::RootNode, nodes.contains(&0));
    meet(
        Shape::LastNode,
        nodes.contains(&(bound(share) - 1)) && !nodes.is_empty(),
    );
    meet(Shape::NodesRise, nodes.len() > 1 && nodes.is_sorted());
    meet(Shape::NodesShuffled, !nodes.is_sorted());
    meet(
        Shape::SequenceLastButOne,
        share.sequence_number == u64::MAX - 1,
    );
    met
}

/// Of a share that was refused for its hash chain.
fn of_chain(share: &NewShare) -> Vec<Shape> {
    let wanted = 34 * usize::from(share.n).next_power_of_two().ilog2() as usize;
    let there = share.hash_chain.len();
    if there + 34 == wanted {
        return vec![Shape::ChainEntryLess];
    } else if there == wanted + 34 {
        return vec![Shape::ChainEntryMore];
    } else if there == wanted + 1 {
        return vec![Shape::ChainByteMore];
    } else if there != wanted {
        return Vec::new();
    }
    let mut nodes = nodes(share);
    nodes.sort_unstable();
    let repeats = nodes.windows(2).any(|pair| pair[0] == pair[1]);
    match (repeats, nodes.last()) {
        (true, Some(last)) if *last < bound(share) => vec![Shape::NodeRepeats],
        (false, Some(last)) if *last == bound(share) => vec![Shape::NodeTooLarge],
        _ => Vec::new(),
    }
}

/// The node numbers of the chain's entries.
fn nodes(share: &NewShare) -> Vec<usize> {
    let entries = share.hash_chain.chunks_exact(34);
    let numbers = entries.map(|entry| u16::from_be_bytes([entry[0], entry[1]]));
    numbers.map(usize::from).collect()
}

/// The first node number that the tree does not have.
fn bound(share: &NewShare) -> usize {
    2 * usize::from(share.n).next_power_of_two() - 1
}

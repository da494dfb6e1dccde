//! The share, SDMF or MDMF: the check of its layout.

use super::bytes::{array_at, u32_at, u64_at};
use super::{Container, LENGTHS};
use std::collections::HashSet;
use std::ops::Range;

/// The editions of a share, each with its version byte.
#[derive(Clone, Copy, Debug, PartialEq, Eq)]
pub enum Edition {
    Sdmf = 0,
    Mdmf = 1,
}

impl Edition {
    /// Bytes of the header.
    pub fn header(self) -> u64 {
        match self {
            Edition::Sdmf => 107,
            Edition::Mdmf => 123,
        }
    }
}

/// The outcome's number, the edition, and on 0 where the parts begin and the last one ends, in the order in which they
/// lie. SDMF: verification key, signature, hash chain, block tree, share data, encrypted private key, and a seventh
/// that is always empty. MDMF: encrypted private key, hash chain, signature, verification key, spare bytes, share data,
/// block tree. All are offsets from the share's first byte. On a refusal all are 0, so that every part is empty; the
/// edition is 1 where the first byte is.
#[derive(Clone, Copy, Debug, PartialEq, Eq)]
pub struct Share {
    pub number: u32,
    pub edition: u32,
    pub bounds: [u64; 8],
}

impl Share {
    pub(crate) fn refused(number: u32, edition: Edition) -> Share {
        Share {
            number,
            edition: edition as u32,
            bounds: [0; 8],
        }
    }
}

/// The container is judged first, by its own outcomes 1 and 2.
pub fn check_container(buffer: &[u8]) -> Share {
    if !LENGTHS.contains(&buffer.len()) {
        return Share::refused(1, Edition::Sdmf);
    }
    match Container::from_bytes(buffer) {
        Some(container) => check_share(&container.data),
        None => Share::refused(2, Edition::Sdmf),
    }
}

/// Asks from the lowest number up, and answers with the first that applies.
pub fn check_share(share: &[u8]) -> Share {
    // What is no MDMF share counts as SDMF, also where it has no first byte or another version.
    let edition = match share.first() {
        Some(1) => Edition::Mdmf,
        _ => Edition::Sdmf,
    };
    let refused = |number| Share::refused(number, edition);
    // 21: the header is not whole.
    if (share.len() as u64) < edition.header() {
        return refused(21);
    }
    // 22: another version.
    if share[0] > 1 {
        return refused(22);
    }
    // R, and the IV of SDMF, may be anything.
    let Header {
        sequence_number,
        k,
        n,
        cut,
        bounds,
    } = Header::of(edition, share);
    // 23: k of N shares are needed, so k is at least 1 and at most N.
    if k == 0 || k > n {
        return refused(23);
    }
    // 24: the segment size.
    if !cut.size_is_good(k) {
        return refused(24);
    }
    // 25: the parts lie in order, from the header to the share's last byte.
    if !in_order(edition, bounds, share.len() as u64) {
        return refused(25);
    }
    let part = |part: Range<u64>| &share[part.start as usize..part.end as usize];
    let [chain, tree, share_data] = match edition {
        Edition::Sdmf => [2, 3, 4],
        Edition::Mdmf => [1, 6, 5],
    }
    .map(|place| part(bounds[place]..bounds[place + 1]));
    // 26: the hash chain.
    if !chain_is_good(chain, n) {
        return refused(26);
    }
    // 27: the block tree.
    if !cut.tree_is_good(tree.len()) {
        return refused(27);
    }
    // 28: the share data.
    if share_data.len() as u128 != cut.share_data(k) {
        return refused(28);
    }
    // 29: the last sequence number.
    if sequence_number == u64::MAX {
        return refused(29);
    }
    Share {
        number: 0,
        edition: edition as u32,
        bounds,
    }
}

/// What stands in a share's header, but for R and IV.
struct Header {
    sequence_number: u64,
    k: u8,
    n: u8,
    cut: Cut,
    bounds: [u64; 8],
}

impl Header {
    /// Reads the header of a share that has a whole one.
    fn of(edition: Edition, share: &[u8]) -> Header {
        // In MDMF k follows R, in SDMF the IV lies between. N, segment size and data length follow k in both.
        let after_r = match edition {
            Edition::Sdmf => 57,
            Edition::Mdmf => 41,
        };
        let bounds = match edition {
            // Where each part but the first begins, and where the last one ends: four offsets of four bytes, then two
            // of eight.
            Edition::Sdmf => {
                let [signature, chain, tree, share_data] =
                    [75, 79, 83, 87].map(|at| u64::from(u32_at(share, at)));
                let [private_key, end] = [91, 99].map(|at| u64_at(share, at));
                [
                    107,
                    signature,
                    chain,
                    tree,
                    share_data,
                    private_key,
                    end,
                    end,
                ]
            }
            // Where each part begins, and where the last one ends: eight offsets of eight bytes.
            Edition::Mdmf => [59, 67, 75, 83, 91, 99, 107, 115].map(|at| u64_at(share, at)),
        };
        Header {
            sequence_number: u64_at(share, 1),
            k: share[after_r],
            n: share[after_r + 1],
            cut: Cut {
                edition,
                segment_size: u64_at(share, after_r + 2),
                data_length: u64_at(share, after_r + 10),
            },
            bounds,
        }
    }
}

/// Row 25: key, signature and private key are not empty, and no byte lies outside the parts.
fn in_order(edition: Edition, bounds: [u64; 8], length: u64) -> bool {
    match edition {
        Edition::Sdmf => {
            let [header, signature, chain, tree, share_data, private_key, end, _] = bounds;
            header < signature
                && signature < chain
                && chain <= tree
                && tree <= share_data
                && share_data <= private_key
                && private_key < end
                && end == length
        }
        Edition::Mdmf => {
            let [private_key, chain, signature, key, key_end, share_data, tree, end] = bounds;
            123 == private_key
                && private_key < chain
                && chain <= signature
                && signature < key
                && key < key_end
                && key_end <= share_data
                && share_data <= tree
                && tree <= end
                && end == length
        }
    }
}

/// How the data of a share is cut into segments. All that follows from it is a number, and none wraps.
#[derive(Clone, Copy)]
pub(crate) struct Cut {
    pub edition: Edition,
    pub segment_size: u64,
    pub data_length: u64,
}

impl Cut {
    /// Row 24, for a k that is not 0.
    pub fn size_is_good(self, k: u8) -> bool {
        match self.edition {
            // One segment: a least multiple of 2^64 or more equals no field.
            Edition::Sdmf => u128::from(self.segment_size) == least_multiple(k, self.data_length),
            Edition::Mdmf => {
                let multiple = self.segment_size % u64::from(k) == 0;
                multiple && (self.segment_size != 0 || self.data_length == 0)
            }
        }
    }

    /// How many segments the data of an MDMF share has, whose segment size is good.
    fn segments(self) -> u128 {
        match self.data_length {
            0 => 0,
            length => u128::from(length.div_ceil(self.segment_size)),
        }
    }

    /// Row 27, for a good segment size. A hash has 32 bytes.
    pub fn tree_is_good(self, tree: usize) -> bool {
        let tree = tree as u128;
        match (self.edition, self.data_length) {
            (Edition::Sdmf, 0) => tree == 0 || tree == 32,
            (Edition::Sdmf, _) => tree == 32,
            (Edition::Mdmf, 0) => tree == 0,
            // A leaf for each segment, up to the next power of two, and all nodes above them.
            (Edition::Mdmf, _) => tree == 32 * (2 * self.segments().next_power_of_two() - 1),
        }
    }

    /// Row 28: how long the share data is, for a good segment size.
    pub fn share_data(self, k: u8) -> u128 {
        match self.edition {
            Edition::Sdmf => u128::from(self.segment_size / u64::from(k)),
            // A salt before each block.
            Edition::Mdmf => {
                16 * self.segments() + u128::from(self.data_length.div_ceil(u64::from(k)))
            }
        }
    }
}

/// The least multiple of k, which is not 0, at or above the data length.
pub(crate) fn least_multiple(k: u8, data_length: u64) -> u128 {
    u128::from(data_length).div_ceil(u128::from(k)) * u128::from(k)
}

/// Row 26: a tree over N shares, with leaves up to the next power of two, 2^c: the chain has c entries, each a node
/// number and a hash, and the numbers differ and are those of nodes of the tree.
pub(crate) fn chain_is_good(chain: &[u8], n: u8) -> bool {
    let leaves = usize::from(n).next_power_of_two();
    let c = leaves.trailing_zeros() as usize;
    let numbers: Vec<u16> = chain
        .chunks_exact(34)
        .map(|entry| u16::from_be_bytes(array_at(entry, 0)))
        .collect();
    let different: HashSet<&u16> = numbers.iter().collect();
    chain.len() == 34 * c
        && different.len() == numbers.len()
        && numbers
            .iter()
            .all(|number| usize::from(*number) < 2 * leaves - 1)
}

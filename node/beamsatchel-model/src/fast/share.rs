use super::frame::Frame;
use crate::bytes::{u32_at, u64_at};
use crate::{Edition, Share, LENGTHS};

/// Checks the share in a container, as the model does.
pub fn check_container(buffer: &[u8]) -> Share {
    if !LENGTHS.contains(&buffer.len()) {
        return Share::refused(1, Edition::Sdmf);
    }
    match Frame::find(buffer) {
        Some(frame) => check_share(frame.data(buffer)),
        None => Share::refused(2, Edition::Sdmf),
    }
}

/// Checks a share, as the model does.
pub fn check_share(share: &[u8]) -> Share {
    let (edition, judged) = match share.first() {
        Some(1) => (Edition::Mdmf, judge_mdmf(share)),
        _ => (Edition::Sdmf, judge_sdmf(share)),
    };
    match judged {
        Ok(bounds) => Share {
            number: 0,
            edition: edition as u32,
            bounds,
        },
        Err(number) => Share::refused(number, edition),
    }
}

pub fn unless(good: bool, number: u32) -> Result<(), u32> {
    if good {
        Ok(())
    } else {
        Err(number)
    }
}

fn judge_sdmf(share: &[u8]) -> Result<[u64; 8], u32> {
    unless(share.len() >= 107, 21)?;
    unless(share[0] == 0, 22)?;
    let (k, n) = (u64::from(share[57]), share[58]);
    unless(k > 0 && k <= u64::from(n), 23)?;
    let (segment_size, data_length) = (u64_at(share, 59), u64_at(share, 67));
    // A multiple, at or above, and none between: no sum that could wrap.
    let least =
        segment_size % k == 0 && segment_size >= data_length && segment_size - data_length < k;
    unless(least, 24)?;
    let offset = |at| u64::from(u32_at(share, at));
    let (signature, chain, tree, data) = (offset(75), offset(79), offset(83), offset(87));
    let (private_key, end) = (u64_at(share, 91), u64_at(share, 99));
    let in_order = 107 < signature
        && signature < chain
        && chain <= tree
        && tree <= data
        && data <= private_key
        && private_key < end
        && end == share.len() as u64;
    unless(in_order, 25)?;
    unless(chain_is_good(&share[chain as usize..tree as usize], n), 26)?;
    unless(sdmf_tree_is_good(data - tree, data_length), 27)?;
    unless(private_key - data == segment_size / k, 28)?;
    unless(u64_at(share, 1) != u64::MAX, 29)?;
    Ok([107, signature, chain, tree, data, private_key, end, end])
}

fn judge_mdmf(share: &[u8]) -> Result<[u64; 8], u32> {
    unless(share.len() >= 123, 21)?;
    let (k, n) = (u64::from(share[41]), share[42]);
    unless(k > 0 && k <= u64::from(n), 23)?;
    let segments = Segments::new(k, u64_at(share, 43), u64_at(share, 51)).ok_or(24_u32)?;
    let bounds = [59, 67, 75, 83, 91, 99, 107, 115].map(|at| u64_at(share, at));
    let [private_key, chain, signature, key, spare, data, tree, end] = bounds;
    let in_order = private_key == 123
        && private_key < chain
        && chain <= signature
        && signature < key
        && key < spare
        && spare <= data
        && data <= tree
        && tree <= end
        && end == share.len() as u64;
    unless(in_order, 25)?;
    let chain = &share[chain as usize..signature as usize];
    unless(chain_is_good(chain, n), 26)?;
    unless(segments.tree_is_good(end - tree), 27)?;
    unless(segments.data_is_good(tree - data), 28)?;
    unless(u64_at(share, 1) != u64::MAX, 29)?;
    Ok(bounds)
}

pub fn sdmf_tree_is_good(tree: u64, data_length: u64) -> bool {
    tree == 32 || tree == 0 && data_length == 0
}

/// The segments of an MDMF share.
pub struct Segments {
    count: u64,
    /// The bytes of all blocks.
    blocks: u64,
}

impl Segments {
    /// None where the segment size is not good.
    pub fn new(k: u64, segment_size: u64, data_length: u64) -> Option<Segments> {
        if segment_size % k != 0 || segment_size == 0 && data_length != 0 {
            return None;
        }
        let count = match data_length {
            0 => 0,
            _ => data_length.div_ceil(segment_size),
        };
        let blocks = data_length.div_ceil(k);
        Some(Segments { count, blocks })
    }

    /// Whether so many bytes are the hashes of a tree over the segments.
    pub fn tree_is_good(&self, length: u64) -> bool {
        match self.count {
            0 => length == 0,
            // No slice has so many hashes.
            count if count > 1 << 56 => false,
            count => length == 32 * (2 * count.next_power_of_two() - 1),
        }
    }

    /// Whether so many bytes are a salt and a block for each segment, of which there are no more than a tree has room
    /// for.
    pub fn data_is_good(&self, length: u64) -> bool {
        length.checked_sub(self.blocks) == Some(16 * self.count)
    }
}

pub fn chain_is_good(chain: &[u8], n: u8) -> bool {
    let leaves = usize::from(n).next_power_of_two();
    if chain.len() != 34 * leaves.trailing_zeros() as usize {
        return false;
    }
    // At most 511 node numbers.
    let mut seen = [0_u64; 8];
    chain.chunks_exact(34).all(|entry| {
        let number = usize::from(u16::from_be_bytes([entry[0], entry[1]]));
        if number >= 2 * leaves - 1 {
            return false;
        }
        let (word, bit) = (number / 64, 1 << (number % 64));
        let new = seen[word] & bit == 0;
        seen[word] |= bit;
        new
    })
}

use super::share::{chain_is_good, sdmf_tree_is_good, unless, Segments};
use crate::{NewEdition, NewShare, WrittenShare};

/// Writes a share, as the model does.
pub fn write_share(share: &NewShare, space: &mut [u8]) -> WrittenShare {
    match judge(share, space.len()) {
        Ok(segment_size) => WrittenShare {
            number: 0,
            length: write(share, segment_size, space) as u64,
        },
        Err(number) => WrittenShare { number, length: 0 },
    }
}

/// The segment size, where nothing is to be refused.
fn judge(share: &NewShare, room: usize) -> Result<u64, u32> {
    let (header, iv_is_good) = match share.edition {
        NewEdition::Sdmf { iv } => (107, iv.len() == 16),
        NewEdition::Mdmf { .. } => (123, true),
    };
    unless(share.root_hash.len() == 32 && iv_is_good, 3)?;
    // What is left of the room: no sum that could wrap.
    let mut left = room.checked_sub(header).ok_or(7_u32)?;
    for part in share.parts() {
        left = left.checked_sub(part.len()).ok_or(7_u32)?;
    }
    let k = u64::from(share.k);
    unless(k > 0 && share.k <= share.n, 23)?;
    let segment_size = match share.edition {
        NewEdition::Sdmf { .. } => judge_sdmf(share, k)?,
        NewEdition::Mdmf { segment_size, .. } => judge_mdmf(share, k, segment_size)?,
    };
    unless(share.sequence_number != u64::MAX, 29)?;
    Ok(segment_size)
}

/// The rows 24 to 28 of SDMF; gives the segment size.
fn judge_sdmf(share: &NewShare, k: u64) -> Result<u64, u32> {
    let blocks = share.data_length.div_ceil(k);
    let segment_size = blocks.checked_mul(k).ok_or(24_u32)?;
    // All inside the room, so that these sums do not wrap, and the last two offsets fit.
    let share_data_at = 107
        + share.verification_key.len()
        + share.signature.len()
        + share.hash_chain.len()
        + share.block_tree.len();
    unless(
        keys_are_there(share) && share_data_at <= u32::MAX as usize,
        25,
    )?;
    unless(chain_is_good(share.hash_chain, share.n), 26)?;
    let tree = share.block_tree.len() as u64;
    unless(sdmf_tree_is_good(tree, share.data_length), 27)?;
    unless(share.share_data.len() as u64 == blocks, 28)?;
    Ok(segment_size)
}

/// The rows 24 to 28 of MDMF; gives the segment size.
fn judge_mdmf(share: &NewShare, k: u64, segment_size: u64) -> Result<u64, u32> {
    let segments = Segments::new(k, segment_size, share.data_length).ok_or(24_u32)?;
    unless(keys_are_there(share), 25)?;
    unless(chain_is_good(share.hash_chain, share.n), 26)?;
    unless(segments.tree_is_good(share.block_tree.len() as u64), 27)?;
    unless(segments.data_is_good(share.share_data.len() as u64), 28)?;
    Ok(segment_size)
}

fn keys_are_there(share: &NewShare) -> bool {
    !share.verification_key.is_empty()
        && !share.signature.is_empty()
        && !share.encrypted_private_key.is_empty()
}

/// Writes what is good into space that has room for it; gives the share's length.
fn write(share: &NewShare, segment_size: u64, space: &mut [u8]) -> usize {
    space[0] = share.edition() as u8;
    space[1..9].copy_from_slice(&share.sequence_number.to_be_bytes());
    space[9..41].copy_from_slice(share.root_hash);
    let after_r = match share.edition {
        NewEdition::Sdmf { iv } => {
            space[41..57].copy_from_slice(iv);
            57
        }
        NewEdition::Mdmf { .. } => 41,
    };
    let numbers = &mut space[after_r..after_r + 18];
    numbers[0] = share.k;
    numbers[1] = share.n;
    numbers[2..10].copy_from_slice(&segment_size.to_be_bytes());
    numbers[10..].copy_from_slice(&share.data_length.to_be_bytes());
    match share.edition {
        NewEdition::Sdmf { .. } => write_sdmf_parts(share, space),
        NewEdition::Mdmf { .. } => write_mdmf_parts(share, space),
    }
}

fn write_sdmf_parts(share: &NewShare, space: &mut [u8]) -> usize {
    let (header, mut rest) = space.split_at_mut(107);
    let mut end = 107;
    for (part, field) in share.parts().into_iter().zip([75, 79, 83, 87, 91, 99]) {
        end += part.len();
        match field {
            75..91 => header[field..field + 4].copy_from_slice(&(end as u32).to_be_bytes()),
            _ => header[field..field + 8].copy_from_slice(&(end as u64).to_be_bytes()),
        }
        let (place, after) = rest.split_at_mut(part.len());
        place.copy_from_slice(part);
        rest = after;
    }
    end
}

fn write_mdmf_parts(share: &NewShare, space: &mut [u8]) -> usize {
    let (header, mut rest) = space.split_at_mut(123);
    let (first, ends) = header[59..].split_at_mut(8);
    let mut end = 123;
    first.copy_from_slice(&(end as u64).to_be_bytes());
    for (part, field) in share.parts().into_iter().zip(ends.chunks_exact_mut(8)) {
        end += part.len();
        field.copy_from_slice(&(end as u64).to_be_bytes());
        let (place, after) = rest.split_at_mut(part.len());
        place.copy_from_slice(part);
        rest = after;
    }
    end
}

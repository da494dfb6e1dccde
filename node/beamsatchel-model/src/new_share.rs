//! The share, SDMF or MDMF: its writing.

use super::share::{chain_is_good, least_multiple, Cut, Edition};

/// What a share is written from.
#[derive(Clone, Copy, Debug, PartialEq, Eq)]
pub struct NewShare<'a> {
    pub sequence_number: u64,
    pub root_hash: &'a [u8],
    pub k: u8,
    pub n: u8,
    pub data_length: u64,
    pub verification_key: &'a [u8],
    pub signature: &'a [u8],
    pub hash_chain: &'a [u8],
    pub block_tree: &'a [u8],
    pub share_data: &'a [u8],
    pub encrypted_private_key: &'a [u8],
    pub edition: NewEdition<'a>,
}

/// What only one edition is written from.
#[derive(Clone, Copy, Debug, PartialEq, Eq)]
pub enum NewEdition<'a> {
    Sdmf { iv: &'a [u8] },
    Mdmf { segment_size: u64, spare: &'a [u8] },
}

impl<'a> NewShare<'a> {
    pub fn edition(&self) -> Edition {
        match self.edition {
            NewEdition::Sdmf { .. } => Edition::Sdmf,
            NewEdition::Mdmf { .. } => Edition::Mdmf,
        }
    }

    /// The parts, in the order in which they lie. SDMF has six, and the seventh is empty.
    pub fn parts(&self) -> [&'a [u8]; 7] {
        match self.edition {
            NewEdition::Sdmf { .. } => [
                self.verification_key,
                self.signature,
                self.hash_chain,
                self.block_tree,
                self.share_data,
                self.encrypted_private_key,
                &[],
            ],
            NewEdition::Mdmf { spare, .. } => [
                self.encrypted_private_key,
                self.hash_chain,
                self.signature,
                self.verification_key,
                spare,
                self.share_data,
                self.block_tree,
            ],
        }
    }

    /// Where the parts begin and the last one ends, with no byte between them. A sum is that of the numbers, and
    /// nothing wraps.
    fn bounds(&self) -> [u128; 8] {
        let mut bounds = [u128::from(self.edition().header()); 8];
        for (place, part) in self.parts().iter().enumerate() {
            bounds[place + 1] = bounds[place] + part.len() as u128;
        }
        bounds
    }

    /// The share's length.
    pub fn length(&self) -> u128 {
        self.bounds()[7]
    }
}

/// The outcome's number, and the share's length on 0, else 0.
#[derive(Clone, Copy, Debug, PartialEq, Eq)]
pub struct WrittenShare {
    pub number: u32,
    pub length: u64,
}

/// Writes a share into the first bytes of the space, which changes on 0 only. Asks from the lowest number up, and
/// answers with the first that applies.
pub fn write_share(share: &NewShare, space: &mut [u8]) -> WrittenShare {
    let refused = |number| WrittenShare { number, length: 0 };
    // 3: here it is about the lengths of the fields that come as bytes.
    let iv_is_good = match share.edition {
        NewEdition::Sdmf { iv } => iv.len() == 16,
        NewEdition::Mdmf { .. } => true,
    };
    if share.root_hash.len() != 32 || !iv_is_good {
        return refused(3);
    }
    // 7: for the share with the parts as they are given, good or not.
    if (space.len() as u128) < share.length() {
        return refused(7);
    }
    // 23: as the check has it.
    if share.k == 0 || share.k > share.n {
        return refused(23);
    }
    // 24: of SDMF the segment size follows from k and the data length, and has a field of eight bytes. Of MDMF it is as
    // the check has it.
    let segment_size = match share.edition {
        NewEdition::Sdmf { .. } => u64::try_from(least_multiple(share.k, share.data_length)).ok(),
        NewEdition::Mdmf { segment_size, .. } => Some(segment_size),
    };
    let cut = segment_size.map(|segment_size| Cut {
        edition: share.edition(),
        segment_size,
        data_length: share.data_length,
    });
    let Some(cut) = cut.filter(|cut| cut.size_is_good(share.k)) else {
        return refused(24);
    };
    // 25: what must not be empty, and offsets that must fit their fields.
    let must_not_be_empty = [
        share.verification_key,
        share.signature,
        share.encrypted_private_key,
    ];
    let offsets: Option<Vec<Vec<u8>>> = share.offsets().into_iter().collect();
    let (Some(offsets), false) = (
        offsets,
        must_not_be_empty.iter().any(|part| part.is_empty()),
    ) else {
        return refused(25);
    };
    // 26 to 29: as the check has them.
    if !chain_is_good(share.hash_chain, share.n) {
        return refused(26);
    }
    if !cut.tree_is_good(share.block_tree.len()) {
        return refused(27);
    }
    if share.share_data.len() as u128 != cut.share_data(share.k) {
        return refused(28);
    }
    if share.sequence_number == u64::MAX {
        return refused(29);
    }

    // The header's fields in their order, then the parts.
    let mut bytes = vec![share.edition() as u8];
    bytes.extend(share.sequence_number.to_be_bytes());
    bytes.extend(share.root_hash);
    if let NewEdition::Sdmf { iv } = share.edition {
        bytes.extend(iv);
    }
    bytes.extend([share.k, share.n]);
    bytes.extend(cut.segment_size.to_be_bytes());
    bytes.extend(share.data_length.to_be_bytes());
    bytes.extend(offsets.concat());
    for part in share.parts() {
        bytes.extend(part);
    }
    space[..bytes.len()].copy_from_slice(&bytes);
    WrittenShare {
        number: 0,
        length: bytes.len() as u64,
    }
}

impl NewShare<'_> {
    /// The bytes of the header's offsets, as far as they fit their fields.
    fn offsets(&self) -> Vec<Option<Vec<u8>>> {
        let bounds = self.bounds();
        let in_four = |bound: &u128| Some(u32::try_from(*bound).ok()?.to_be_bytes().to_vec());
        let in_eight = |bound: &u128| Some(u64::try_from(*bound).ok()?.to_be_bytes().to_vec());
        match self.edition {
            // That of the first part has no field; four have fields of four bytes, and two of eight.
            NewEdition::Sdmf { .. } => {
                let (near, far) = (bounds[1..5].iter(), bounds[5..7].iter());
                near.map(in_four).chain(far.map(in_eight)).collect()
            }
            NewEdition::Mdmf { .. } => bounds.iter().map(in_eight).collect(),
        }
    }
}

//! What several tests build: a slot with leases, and shares whose fields and parts all differ. And what several compare
//! with the model.

#![allow(dead_code)] // Each test uses some of it.

#[cfg(target_os = "linux")]
pub mod memory;
pub mod raw;

use beamsatchel_model as model;
use beamsatchel_node::ffi::{self, EditionArguments, ShareArguments};
use beamsatchel_node::{
    CancelToken, Container, Edition, Lease, NewEdition, NewShare, NodeId, RenewalToken,
    TestAndWrite, WriteEnabler,
};
use std::num::NonZeroU32;

pub const NODE: NodeId = NodeId(rising(0x05));
pub const ENABLER: WriteEnabler = WriteEnabler::new(rising(0xE0));

/// N bytes that rise from a first one, so that a byte too early or too late is another byte.
pub const fn rising<const N: usize>(first: u8) -> [u8; N] {
    let mut bytes = [0; N];
    let mut at = 0;
    while at < N {
        bytes[at] = first.wrapping_add(at as u8);
        at += 1;
    }
    bytes
}

/// The lease with a number, from which each of its fields follows.
pub fn lease(number: u8) -> Lease {
    Lease {
        owner: NonZeroU32::new(0x0A0B_0C00 + u32::from(number)).unwrap(),
        expiry: 0x1000_0000 + 100 * u32::from(number),
        renewal: RenewalToken::new(rising(0x20 + number)),
        cancel: CancelToken::new(rising(0x80 + number)),
        node: NodeId(rising(0xB0 + number)),
    }
}

/// The bytes of a fresh container.
pub fn fresh(length: usize) -> Vec<u8> {
    let mut bytes = vec![0x55; length];
    Container::create(&mut bytes[..], NODE, ENABLER).unwrap();
    bytes
}

/// The bytes of a container with this data, and no leases.
pub fn with_data(length: usize, data: &[u8]) -> Vec<u8> {
    let mut slot = Container::adopt(fresh(length));
    // As many requests as it takes.
    for bytes in data.chunks(65_000) {
        let request = TestAndWrite::new(ENABLER).append(bytes).unwrap();
        assert!(slot.test_and_write(&request, &mut []).unwrap().is_done());
    }
    slot.into_buffer()
}

/// The bytes of a container with this data, and leases 3 and 7 at the places 2 and 6: there are empty places among the
/// four and among the three extras.
pub fn slot(length: usize, data: &[u8]) -> Vec<u8> {
    let mut slot = Container::adopt(with_data(length, data));
    for number in 1..=7 {
        assert_eq!(slot.add_lease(lease(number)), Ok(u64::from(number)));
    }
    for (number, left) in [(2, 6), (4, 5), (5, 4), (6, 3), (1, 2)] {
        assert_eq!(slot.cancel_lease(lease(number).cancel), Ok(left));
    }
    slot.into_buffer()
}

/// The bytes of a container after a cut, which leaves slack.
pub fn cut(bytes: Vec<u8>, new_length: u32) -> Vec<u8> {
    let mut slot = Container::adopt(bytes);
    let request = TestAndWrite::new(ENABLER).cut(new_length);
    assert!(slot.test_and_write(&request, &mut []).unwrap().is_done());
    slot.into_buffer()
}

/// Where the parts of [`share`] begin, and where the last one ends.
pub const fn bounds(edition: Edition) -> [usize; 8] {
    match edition {
        Edition::Sdmf => [107, 112, 119, 255, 287, 544, 555, 555],
        Edition::Mdmf => [123, 134, 270, 277, 282, 291, 596, 820],
    }
}

/// A good share, k = 3 and N = 10, whose fields and parts all differ: in length, in their bytes, and in where they lie.
/// In MDMF its data has three segments.
pub fn share(edition: Edition) -> Vec<u8> {
    let bounds = bounds(edition);
    let mut share = vec![edition.version()];
    share.extend(0x0102_0304_0506_0708_u64.to_be_bytes());
    share.extend(rising::<32>(0x09)); // R
    if edition == Edition::Sdmf {
        share.extend(rising::<16>(0x60)); // IV
    }
    share.extend([3, 10]);
    let segment_size: u64 = match edition {
        Edition::Sdmf => 0x0303,
        Edition::Mdmf => 0x0120,
    };
    share.extend(segment_size.to_be_bytes());
    share.extend(0x0302_u64.to_be_bytes()); // data length
    let (near, far) = match edition {
        Edition::Sdmf => (&bounds[1..5], &bounds[5..7]),
        Edition::Mdmf => (&[][..], &bounds[..]),
    };
    for offset in near {
        share.extend((*offset as u32).to_be_bytes());
    }
    for offset in far {
        share.extend((*offset as u64).to_be_bytes());
    }
    let (key, signature, private_key) = ([0xB1; 5], [0xB2; 7], [0xB6; 11]);
    let parts: [&[u8]; 7] = match edition {
        Edition::Sdmf => [
            &key,
            &signature,
            &HASH_CHAIN,
            &[0xB4; 32],
            &[0xB5; 257],
            &private_key,
            &[],
        ],
        Edition::Mdmf => [
            &private_key,
            &HASH_CHAIN,
            &signature,
            &key,
            &[0xB7; 9],
            &[0xB5; 305],
            &[0xB4; 224],
        ],
    };
    share.extend(parts.concat());
    assert_eq!(share.len(), bounds[7]);
    share
}

/// [`share`], spoiled so that it is refused with a number from 21 to 29.
pub fn bad_share(edition: Edition, number: u32) -> Vec<u8> {
    let mut share = share(edition);
    match (number, edition) {
        (21, _) => share.truncate(bounds(edition)[0] - 1),
        (22, _) => share[0] = 2,
        (23, Edition::Sdmf) => share[57] = 11,
        (23, Edition::Mdmf) => share[41] = 11,
        (24, Edition::Sdmf) => share[66] ^= 1,
        (24, Edition::Mdmf) => share[50] ^= 1,
        // The end.
        (25, _) => share[bounds(edition)[0] - 1] ^= 1,
        (26, Edition::Sdmf) => share[119 + 1] = 31,
        (26, Edition::Mdmf) => share[134 + 1] = 31,
        // The share data begins a byte later, and with it the tree ends.
        (27, Edition::Sdmf) => share[90] += 1,
        // The tree begins a byte later.
        (27, Edition::Mdmf) => share[114] += 1,
        // The share data ends a byte later.
        (28, Edition::Sdmf) => share[98] += 1,
        // There is more data, which makes a block longer.
        (28, Edition::Mdmf) => share[58] += 2,
        (29, _) => share[1..9].fill(0xFF),
        _ => unreachable!(),
    }
    share
}

/// The hash chain of [`share`].
static HASH_CHAIN: [u8; 136] = hash_chain([30, 0, 8, 16]);

const fn hash_chain(node_numbers: [u8; 4]) -> [u8; 136] {
    let mut chain = [0xB3; 136];
    let mut entry = 0;
    while entry < 4 {
        chain[34 * entry] = 0;
        chain[34 * entry + 1] = node_numbers[entry];
        entry += 1;
    }
    chain
}

/// What [`share`] is written from.
pub fn new_share(edition: Edition) -> NewShare<'static> {
    NewShare {
        sequence_number: 0x0102_0304_0506_0708,
        root_hash: rising(0x09),
        k: 3,
        n: 10,
        data_length: 0x0302,
        verification_key: &[0xB1; 5],
        signature: &[0xB2; 7],
        hash_chain: &HASH_CHAIN,
        block_tree: match edition {
            Edition::Sdmf => &[0xB4; 32],
            Edition::Mdmf => &[0xB4; 224],
        },
        share_data: match edition {
            Edition::Sdmf => &[0xB5; 257],
            Edition::Mdmf => &[0xB5; 305],
        },
        encrypted_private_key: &[0xB6; 11],
        edition: match edition {
            Edition::Sdmf => NewEdition::Sdmf { iv: rising(0x60) },
            Edition::Mdmf => NewEdition::Mdmf {
                segment_size: 0x0120,
                spare: &[0xB7; 9],
            },
        },
    }
}

/// [`new_share`], spoiled so that it is refused with a number from 23 to 29.
pub fn bad_new_share(edition: Edition, number: u32) -> NewShare<'static> {
    let mut share = new_share(edition);
    match (number, edition) {
        (23, _) => share.k = 11,
        (24, Edition::Sdmf) => (share.k, share.data_length) = (2, u64::MAX),
        (24, Edition::Mdmf) => share.k = 5,
        (25, _) => share.signature = &[],
        (26, _) => share.n = 17,
        (27, _) => share.block_tree = &[0xB4; 96],
        (28, _) => share.share_data = &[0xB5; 256],
        (29, _) => share.sequence_number = u64::MAX,
        _ => unreachable!(),
    }
    share
}

/// The model's form of what a share is written from.
pub fn modelled<'a>(share: &ShareArguments<'a>) -> model::NewShare<'a> {
    model::NewShare {
        sequence_number: share.sequence_number,
        root_hash: share.root_hash,
        k: share.k,
        n: share.n,
        data_length: share.data_length,
        verification_key: share.verification_key,
        signature: share.signature,
        hash_chain: share.hash_chain,
        block_tree: share.block_tree,
        share_data: share.share_data,
        encrypted_private_key: share.encrypted_private_key,
        edition: match share.edition {
            EditionArguments::Sdmf { iv } => model::NewEdition::Sdmf { iv },
            EditionArguments::Mdmf {
                segment_size,
                spare,
            } => model::NewEdition::Mdmf {
                segment_size,
                spare,
            },
        },
    }
}

/// Checks a bare share by the library and by the model, which must agree.
pub fn check_share(share: &[u8]) -> model::Share {
    let checked = ffi::check_share(share);
    let modelled = model::check_share(share);
    assert_eq!(
        (checked.number, checked.edition, checked.bounds),
        (modelled.number, modelled.edition, modelled.bounds)
    );
    modelled
}

/// Writes a share by the library and by the model, which must agree. Gives number and length.
pub fn write_share(share: &ShareArguments, space: &mut [u8]) -> (u32, u64) {
    let mut by_model = space.to_vec();
    let written = ffi::write_share(share, space);
    let modelled = model::write_share(&modelled(share), &mut by_model);
    assert_eq!(
        (written.number, written.length),
        (modelled.number, modelled.length)
    );
    assert!(
        space == by_model,
        "outcome {}: another space",
        written.number
    );
    (written.number, written.length)
}

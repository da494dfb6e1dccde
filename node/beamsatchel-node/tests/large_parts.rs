//! Shares with parts of 4 GiB. To the end of some in SDMF no offset of four bytes reaches: P29 of docs/RULES.md, and
//! other parts as long. In MDMF every offset does. No page of the parts is in memory: they are read-only, and each
//! share is refused before a byte of its parts is copied. A store to the space would end the test with a signal.
#![cfg(target_os = "linux")]

mod common;

use beamsatchel_model as model;
use beamsatchel_node::ffi::{self, EditionArguments, ShareArguments};
use common::memory::{Access, Memory};
use common::modelled;

/// The first number that four bytes do not hold.
const LIMIT: usize = 1 << 32;
/// Longer than every share here.
const LENGTH: usize = 2 * LIMIT;

/// What a share is written from, but for its edition: lengths of key, signature, chain, tree, share data, private key.
type Lengths = [usize; 6];

/// The outcomes of SDMF shares whose parts have these lengths, and which have as much data as share data.
fn outcomes<const CASES: usize>(lengths: [Lengths; CASES]) -> [u32; CASES] {
    let edition = EditionArguments::Sdmf { iv: &[0; 16] };
    lengths.map(|lengths| outcome(lengths, lengths[4] as u64, edition))
}

/// The outcome of a share of N = 2, k = 1 and with the last sequence number: where all else is good it is 29, and
/// nothing is written.
fn outcome(lengths: Lengths, data_length: u64, edition: EditionArguments) -> u32 {
    // Neither can be written, and no share is.
    let [zeros, mut space] = [0; 2].map(|_| Memory::new(LENGTH, Access::Read));
    // The parts may overlap: each begins with the first byte.
    let parts = lengths.map(|length| &zeros.bytes()[..length]);
    let share = ShareArguments {
        sequence_number: u64::MAX,
        root_hash: &[0; 32],
        k: 1,
        n: 2,
        data_length,
        verification_key: parts[0],
        signature: parts[1],
        hash_chain: parts[2],
        block_tree: parts[3],
        share_data: parts[4],
        encrypted_private_key: parts[5],
        edition,
    };
    let written = ffi::write_share(&share, space.bytes_mut());
    let by_model = model::write_share(&modelled(&share), space.bytes_mut());
    let by_fast = model::fast::write_share(&modelled(&share), space.bytes_mut());
    assert_eq!(by_model, by_fast);
    assert_eq!(
        (written.number, written.length),
        (by_model.number, by_model.length)
    );
    written.number
}

/// With this key the signature begins at 2^32.
const KEY: usize = 4_294_967_189;

#[test]
fn p29_a_key_of_4_294_967_189_bytes_or_more() {
    assert_eq!(
        outcomes([
            [KEY, 1, 34, 32, 5, 1],
            [KEY + 1, 1, 34, 32, 5, 1],
            // A sum of lengths that is small again in four bytes.
            [LIMIT, 1, 34, 32, 5, 1],
            [LIMIT + 293, 1, 34, 32, 5, 1],
        ]),
        [25, 25, 25, 25]
    );
}

#[test]
fn each_offset_of_four_bytes_ends_at_4_gib() {
    assert_eq!(
        outcomes([
            // The hash chain begins at 2^32, behind a signature at 2^32 - 1; or the signature is as long as that.
            [KEY - 1, 1, 34, 32, 5, 1],
            [1, KEY - 1, 34, 32, 5, 1],
            // The block tree does.
            [KEY - 35, 1, 34, 32, 5, 1],
            // The share data does.
            [KEY - 67, 1, 34, 32, 5, 1],
            // The share data begins at 2^32 - 1, and the private key behind it.
            [KEY - 68, 1, 34, 32, 5, 1],
        ]),
        [25, 25, 25, 25, 29]
    );
}

#[test]
fn offsets_of_eight_bytes_go_on() {
    assert_eq!(
        outcomes([
            [1, 1, 34, 32, LIMIT, 1],
            [1, 1, 34, 32, 5, LIMIT],
            [1, 1, 34, 32, LIMIT - 107, LIMIT - 107],
        ]),
        [29, 29, 29]
    );
}

/// The space is shorter than the sum of the lengths, whatever is left of that in four bytes.
#[test]
fn space_of_8_gib_is_too_little_for_more() {
    assert_eq!(outcomes([[LIMIT; 6], [LIMIT, 1, 34, 32, LIMIT, 1]]), [7, 7]);
}

/// The outcome of an MDMF share with segments of this size, and spare bytes.
fn mdmf(lengths: Lengths, spare: usize, segment_size: u64, data_length: u64) -> u32 {
    let zeros = Memory::new(LENGTH, Access::Read);
    let spare = &zeros.bytes()[..spare];
    let edition = EditionArguments::Mdmf {
        segment_size,
        spare,
    };
    outcome(lengths, data_length, edition)
}

#[test]
fn mdmf_offsets_go_on_behind_each_part() {
    // Of one segment.
    let good = [1, 1, 34, 32, 21, 1];
    assert_eq!(mdmf(good, 0, 5, 5), 29);
    assert_eq!(mdmf(good, LIMIT, 5, 5), 29);
    for part in [0, 1, 5] {
        let mut long = good;
        long[part] = LIMIT;
        assert_eq!(mdmf(long, 0, 5, 5), 29);
    }
    let length = LIMIT as u64 + 7;
    let much_data = [1, 1, 34, 32, LIMIT + 7 + 16, 1];
    assert_eq!(mdmf(much_data, 0, length, length), 29);
    assert_eq!(mdmf(much_data, 0, length, length + 1), 27);
    assert_eq!(mdmf(much_data, 0, length + 1, length + 1), 28);
    assert_eq!(mdmf([LIMIT; 6], LIMIT, 5, 5), 7);
}

/// Of 2^26 segments of a byte the tree takes 32 bytes less than 4 GiB. With one more, the length that is asked for is
/// the same in four bytes.
#[test]
fn mdmf_a_tree_of_4_gib() {
    let segments = 1 << 26;
    let tree = LIMIT - 32;
    let good = [1, 1, 34, tree, 17 * segments, 1];
    assert_eq!(mdmf(good, 0, 1, segments as u64), 29);
    let one_more = [1, 1, 34, tree, 17 * (segments + 1), 1];
    assert_eq!(mdmf(one_more, 0, 1, segments as u64 + 1), 27);
    // Half the tree has room for half the segments.
    let half = [1, 1, 34, tree / 2 - 16, 17 * segments, 1];
    assert_eq!(mdmf(half, 0, 1, segments as u64), 27);
}

/// A share of more than 4 GiB, in memory of which two pages are used, since the check looks at header and chain alone.
#[test]
fn mdmf_of_more_than_4_gib_is_checked() {
    let segments: u64 = 1 << 26;
    let lengths = [1, 0, 1, 1, 0, 17 * segments, (1 << 32) - 32];
    let mut bounds = [123; 8];
    for (part, length) in lengths.into_iter().enumerate() {
        bounds[part + 1] = bounds[part] + length;
    }
    let length = bounds[7] as usize;
    let mut memory = Memory::new(length + 1, Access::ReadAndWrite);
    let header = &mut memory.bytes_mut()[..123];
    header[0] = 1;
    header[41..43].copy_from_slice(&[1, 1]);
    header[43..51].copy_from_slice(&1_u64.to_be_bytes());
    header[51..59].copy_from_slice(&segments.to_be_bytes());
    for (field, bound) in header[59..].chunks_exact_mut(8).zip(bounds) {
        field.copy_from_slice(&bound.to_be_bytes());
    }
    let checked = common::check_share(&memory.bytes()[..length]);
    assert_eq!((checked.number, checked.bounds), (0, bounds));
    for longer_or_shorter in [length - 1, length + 1] {
        let checked = common::check_share(&memory.bytes()[..longer_or_shorter]);
        assert_eq!(checked.number, 25);
    }
    memory.bytes_mut()[58] += 1;
    assert_eq!(common::check_share(&memory.bytes()[..length]).number, 27);
}

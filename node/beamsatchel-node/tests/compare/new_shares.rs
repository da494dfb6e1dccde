//! Shares that are written, of both editions: good ones and such with a flaw, into space of any length.

use crate::checker::Checker;
use crate::rng::Rng;
use crate::shares::{header, node_numbers, Draft};
use beamsatchel_node::ffi::{EditionArguments, ShareArguments};
use beamsatchel_node::Edition;

/// One call of a writer. Each slice can have any length.
#[derive(Clone)]
pub struct Case {
    pub edition: Edition,
    pub sequence_number: u64,
    pub root_hash: Vec<u8>,
    /// Of SDMF alone.
    pub iv: Vec<u8>,
    pub k: u8,
    pub n: u8,
    /// Of MDMF alone.
    pub segment_size: u64,
    pub data_length: u64,
    /// Key, signature, chain, tree, share data, private key, and the spare bytes, which SDMF does not have.
    pub parts: [Vec<u8>; 7],
    /// Bytes of space beyond those that the share takes; below 0, how many of those are missing.
    pub spare: isize,
}

impl Case {
    /// A good share.
    pub fn any(rng: &mut Rng, edition: Edition) -> Case {
        Case::of(&Draft::any(rng, edition), rng)
    }

    /// What the draft is written from, but for its version, and in SDMF for its segment size.
    pub fn of(draft: &Draft, rng: &mut Rng) -> Case {
        let chain = draft.chain_bytes(rng);
        Case {
            edition: draft.edition,
            sequence_number: draft.sequence_number,
            root_hash: rng.bytes(32),
            iv: rng.bytes(16),
            k: draft.k,
            n: draft.n,
            segment_size: draft.segment_size,
            data_length: draft.data_length,
            parts: [
                draft.key.clone(),
                draft.signature.clone(),
                chain,
                draft.tree.clone(),
                draft.share_data.clone(),
                draft.private_key.clone(),
                draft.spare.clone(),
            ],
            spare: rng.pick(&[0, 0, 1, 2, 33]),
        }
    }

    /// What the parts take, with the header.
    pub fn needed(&self) -> usize {
        header(self.edition) + self.parts.iter().map(Vec::len).sum::<usize>()
    }

    /// Compares the call, with any bytes in the space before it; gives the outcome.
    pub fn run(&self, rng: &mut Rng, checker: &mut Checker) -> u32 {
        let space = self.needed().saturating_add_signed(self.spare);
        let mut space = rng.bytes(space);
        let [key, signature, chain, tree, share_data, private_key, spare] = &self.parts;
        let share = ShareArguments {
            sequence_number: self.sequence_number,
            root_hash: &self.root_hash,
            k: self.k,
            n: self.n,
            data_length: self.data_length,
            verification_key: key,
            signature,
            hash_chain: chain,
            block_tree: tree,
            share_data,
            encrypted_private_key: private_key,
            edition: match self.edition {
                Edition::Sdmf => EditionArguments::Sdmf { iv: &self.iv },
                Edition::Mdmf => EditionArguments::Mdmf {
                    segment_size: self.segment_size,
                    spare,
                },
            },
        };
        checker.write_share(&share, &mut space).number
    }
}

pub fn run(cases: u64, rng: &mut Rng, checker: &mut Checker) {
    segment_sizes(rng, checker);
    for edition in Edition::ALL {
        lengths(rng, checker, edition);
        chains(rng, checker, edition);
    }
    let until = checker.tally.cases + cases;
    while checker.tally.cases < until {
        let edition = rng.pick(&Edition::ALL);
        let mut case = Case::any(rng, edition);
        for _ in 0..rng.below(3) {
            spoil(&mut case, rng);
        }
        case.run(rng, checker);
    }
}

/// Changes a number, a length or a byte; anything may come of it.
fn spoil(case: &mut Case, rng: &mut Rng) {
    match rng.below(10) {
        0 => case.sequence_number = rng.pick(&[0, 1 << 63, u64::MAX - 1, u64::MAX]),
        1 => {
            let (root_hash, iv) =
                rng.pick(&[(31, 16), (33, 16), (32, 15), (32, 17), (16, 32), (0, 0)]);
            (case.root_hash, case.iv) = (rng.bytes(root_hash), rng.bytes(iv));
        }
        2 => case.k = rng.pick(&[0, 1, case.n, case.n.wrapping_add(1), 255]),
        3 => case.n = rng.pick(&[0, 1, case.n ^ 1, case.n.wrapping_add(1), 255]),
        4 => {
            let (far, more) = (rng.below(600) as u64, case.data_length.saturating_add(1));
            case.data_length = rng.pick(&[0, more, far, u64::MAX - far, u64::MAX]);
        }
        5 | 6 => {
            let part = match case.edition {
                Edition::Sdmf => rng.below(6),
                Edition::Mdmf => rng.below(7),
            };
            let there = case.parts[part].len();
            let length = rng.pick(&[0, 1, 31, 32, 33, 34, there + 1, there.saturating_sub(1)]);
            case.parts[part].resize(length, 7);
        }
        7 => {
            // A byte of the chain, which may be a node number's.
            let chain = &mut case.parts[2];
            if let Some(byte) = chain.get_mut(rng.pick(&[0, 1, 34, 35])) {
                *byte = rng.byte();
            }
        }
        8 => {
            let (k, size) = (u64::from(case.k), case.segment_size);
            case.segment_size = rng.pick(&[
                0,
                size.wrapping_add(1),
                size.wrapping_sub(k),
                size.wrapping_add(k),
                u64::MAX,
                1 << 63,
            ]);
        }
        _ => {
            let (needed, header) = (case.needed() as isize, header(case.edition) as isize);
            case.spare = rng.pick(&[-1, 0, 1, -needed, header - 1 - needed, header - needed]);
        }
    }
}

/// The lengths of R and IV, of each part and of the space at their edges.
fn lengths(rng: &mut Rng, checker: &mut Checker, edition: Edition) {
    for _ in 0..50 {
        let good = Case::any(rng, edition);
        assert_eq!(good.run(rng, checker), 0);
        let (needed, header) = (good.needed() as isize, header(edition) as isize);
        for spare in [-1, -needed, header - 1 - needed, header - needed] {
            let short = Case {
                spare,
                ..good.clone()
            };
            assert_eq!(short.run(rng, checker), 7);
        }
        for (root_hash, iv) in [
            (31, 16),
            (33, 16),
            (32, 15),
            (32, 17),
            (0, 16),
            (32, 0),
            (16, 32),
        ] {
            let mut other = good.clone();
            (other.root_hash, other.iv) = (rng.bytes(root_hash), rng.bytes(iv));
            // MDMF has no IV.
            let fits = edition == Edition::Mdmf && root_hash == 32;
            assert_eq!(other.run(rng, checker), if fits { 0 } else { 3 });
        }
        // Key, signature and private key of a byte each.
        let mut short = good.clone();
        for part in [0, 1, 5] {
            short.parts[part] = rng.bytes(1);
        }
        assert_eq!(short.run(rng, checker), 0);
        for part in [0, 1, 5] {
            let mut none = good.clone();
            none.parts[part].clear();
            assert_eq!(none.run(rng, checker), 25);
        }
        for length in [0, 1, 31, 32, 33, 64] {
            let mut other = good.clone();
            other.parts[3] = rng.bytes(length);
            let fits = match edition {
                Edition::Sdmf => length == 32 || length == 0 && good.data_length == 0,
                Edition::Mdmf => length == good.parts[3].len(),
            };
            assert_eq!(other.run(rng, checker), if fits { 0 } else { 27 });
        }
        let mut longer = good.clone();
        longer.parts[4].push(0);
        assert_eq!(longer.run(rng, checker), 28);
        if good.data_length > 0 {
            let mut shorter = good.clone();
            shorter.parts[4].pop();
            assert_eq!(shorter.run(rng, checker), 28);
        }
        for (sequence_number, number) in [(0, 0), (u64::MAX - 1, 0), (u64::MAX, 29)] {
            let other = Case {
                sequence_number,
                ..good.clone()
            };
            assert_eq!(other.run(rng, checker), number);
        }
    }
}

/// For each k, data lengths around the greatest whose segment size fits its field in SDMF. A share with so much data is
/// too long for any memory, so where it fits the share data is what is wrong.
fn segment_sizes(rng: &mut Rng, checker: &mut Checker) {
    for k in 1..=255_u8 {
        let mut draft = Draft::of_n(rng, Edition::Sdmf, usize::from(k), 255);
        draft.share_data = rng.bytes(9);
        let good = Case::of(&draft, rng);
        let greatest = u64::MAX - u64::MAX % u64::from(k);
        let below = greatest.saturating_sub(u64::from(k));
        for data_length in [greatest, greatest - 1, below, below + 1, 1 << 63] {
            let case = Case {
                data_length,
                ..good.clone()
            };
            assert_eq!(case.run(rng, checker), 28);
        }
        for data_length in (greatest..=u64::MAX).skip(1) {
            let case = Case {
                data_length,
                ..good.clone()
            };
            assert_eq!(case.run(rng, checker), 24);
        }
        // And a little data.
        for data_length in [1, 254, 255, 256] {
            let mut case = Case {
                data_length,
                ..good.clone()
            };
            case.parts[4] = rng.bytes(data_length.div_ceil(u64::from(k)) as usize);
            assert_eq!(case.run(rng, checker), 0);
        }
    }
}

/// For each N: the chain as it must be, with rising, falling and shuffled node numbers, an entry less and more, a
/// repeat, and each number around the largest that is allowed.
fn chains(rng: &mut Rng, checker: &mut Checker, edition: Edition) {
    for n in 1..=255 {
        let mut draft = Draft::of_n(rng, edition, 1, n);
        let bound = 2 * n.next_power_of_two() as u16 - 1;
        let entries = draft.chain.len();
        let mut rising = draft.chain.clone();
        rising.sort_unstable();
        let falling = rising.iter().rev().copied().collect();
        let mut good = vec![draft.chain.clone(), rising, falling];
        let mut wrong = Vec::new();
        for entry in 0..entries {
            for number in [0, bound - 1] {
                let mut chain = draft.chain.clone();
                // The number goes to this entry, wherever it was.
                match chain.iter().position(|there| *there == number) {
                    Some(there) => chain.swap(there, entry),
                    None => chain[entry] = number,
                }
                good.push(chain);
            }
            for number in [bound, bound + 1, 1 << 15, u16::MAX] {
                let mut chain = draft.chain.clone();
                chain[entry] = number;
                wrong.push(chain);
            }
            for other in 0..entry {
                let mut chain = draft.chain.clone();
                chain[entry] = chain[other];
                wrong.push(chain);
            }
        }
        // One entry more, with a number that no other has, and one less.
        let mut longer = draft.chain.clone();
        longer.extend((0..bound).find(|number| !draft.chain.contains(number)));
        wrong.push(longer);
        if entries > 0 {
            wrong.push(draft.chain[1..].to_vec());
        }
        for (chains, number) in [(good, 0), (wrong, 26)] {
            for chain in chains {
                draft.chain = chain;
                assert_eq!(Case::of(&draft, rng).run(rng, checker), number);
            }
        }
        draft.chain = node_numbers(rng, n);
        for chain_excess in [1, 33] {
            draft.chain_excess = chain_excess;
            assert_eq!(Case::of(&draft, rng).run(rng, checker), 26);
        }
    }
}

//! Shares of both editions: valid and damaged in each way, bare and inside containers.

use crate::checker::Checker;
use crate::containers::{self, Sizes};
use crate::laid::LENGTHS;
use crate::rng::Rng;
use beamsatchel_model::{Container, MAGIC};
use beamsatchel_node::Edition;

/// What a share is written from. Every number can be set wrong.
#[derive(Clone)]
pub struct Draft {
    pub edition: Edition,
    pub version: u8,
    pub sequence_number: u64,
    pub k: u8,
    pub n: u8,
    pub segment_size: u64,
    pub data_length: u64,
    pub key: Vec<u8>,
    pub signature: Vec<u8>,
    /// The node numbers of the chain's entries.
    pub chain: Vec<u16>,
    /// Bytes after the chain's last entry.
    pub chain_excess: usize,
    pub tree: Vec<u8>,
    pub share_data: Vec<u8>,
    pub private_key: Vec<u8>,
    /// Of MDMF alone.
    pub spare: Vec<u8>,
}

impl Draft {
    /// A good share.
    pub fn any(rng: &mut Rng, edition: Edition) -> Draft {
        let n = if rng.chance(80) {
            rng.within(1..=20)
        } else {
            rng.within(1..=255)
        };
        let k = rng.within(1..=n);
        let mut draft = Draft::of_n(rng, edition, k, n);
        let (size, data) = match edition {
            Edition::Sdmf => {
                let data = if rng.chance(15) { 0 } else { rng.below(200) };
                (data.div_ceil(k) * k, data)
            }
            Edition::Mdmf => {
                let size = k * rng.within(1..=20);
                let data = if rng.chance(15) {
                    0
                } else {
                    rng.below(9 * size)
                };
                let none = data == 0 && rng.chance(50);
                (if none { 0 } else { size }, data)
            }
        };
        draft.set_data(rng, size as u64, data as u64);
        if edition == Edition::Sdmf && data == 0 {
            draft.tree.truncate(rng.pick(&[0, 32]));
        }
        draft
    }

    /// A good share of this k and N, with one segment of k bytes.
    pub fn of_n(rng: &mut Rng, edition: Edition, k: usize, n: usize) -> Draft {
        let some = |rng: &mut Rng| {
            let count = rng.within(1..=30);
            rng.bytes(count)
        };
        let spare = match edition {
            Edition::Sdmf => 0,
            Edition::Mdmf => rng.pick(&[0, 0, 1, 5, 34]),
        };
        let mut draft = Draft {
            edition,
            version: edition.version(),
            sequence_number: rng.pick(&[0, 1, 2, 1 << 63, u64::MAX - 1]),
            k: k as u8,
            n: n as u8,
            segment_size: 0,
            data_length: 0,
            key: some(rng),
            signature: some(rng),
            chain: node_numbers(rng, n),
            chain_excess: 0,
            tree: Vec::new(),
            share_data: Vec::new(),
            private_key: some(rng),
            spare: rng.bytes(spare),
        };
        draft.set_data(rng, k as u64, k as u64);
        draft
    }

    /// So much data in segments of this size, with tree and share data to go with them, which must fit memory.
    pub fn set_data(&mut self, rng: &mut Rng, segment_size: u64, data_length: u64) {
        (self.segment_size, self.data_length) = (segment_size, data_length);
        let (tree, share_data) = match self.edition {
            Edition::Sdmf => (32, u128::from(segment_size / u64::from(self.k))),
            Edition::Mdmf => {
                let segments = self.segments();
                (segments.asked_tree(), segments.asked_share_data())
            }
        };
        self.tree = rng.bytes(tree as usize);
        self.share_data = rng.bytes(share_data as usize);
    }

    /// The segments of MDMF.
    pub fn segments(&self) -> Segments {
        Segments {
            k: u64::from(self.k),
            size: self.segment_size,
            data: self.data_length,
            tree: self.tree.len(),
            share_data: self.share_data.len(),
            spare: self.spare.len(),
        }
    }

    /// The chain's bytes: node numbers and hashes.
    pub fn chain_bytes(&self, rng: &mut Rng) -> Vec<u8> {
        let mut chain = Vec::new();
        for number in &self.chain {
            chain.extend(number.to_be_bytes());
            chain.extend(rng.array::<32>());
        }
        chain.extend(rng.bytes(self.chain_excess));
        chain
    }

    /// The parts, in the order in which they lie.
    fn parts<'a>(&'a self, chain: &'a [u8]) -> Vec<&'a [u8]> {
        match self.edition {
            Edition::Sdmf => vec![
                &self.key,
                &self.signature,
                chain,
                &self.tree,
                &self.share_data,
                &self.private_key,
            ],
            Edition::Mdmf => vec![
                &self.private_key,
                chain,
                &self.signature,
                &self.key,
                &self.spare,
                &self.share_data,
                &self.tree,
            ],
        }
    }

    /// The share's bytes, with offsets that follow from the parts.
    pub fn to_bytes(&self, rng: &mut Rng) -> Vec<u8> {
        let chain = self.chain_bytes(rng);
        let parts = self.parts(&chain);
        let mut bytes = vec![self.version];
        bytes.extend(self.sequence_number.to_be_bytes());
        bytes.extend(rng.array::<32>()); // R
        if self.edition == Edition::Sdmf {
            bytes.extend(rng.array::<16>()); // IV
        }
        bytes.extend([self.k, self.n]);
        bytes.extend(self.segment_size.to_be_bytes());
        bytes.extend(self.data_length.to_be_bytes());
        // The last offsets are those of the last parts and of the end.
        let fields = offset_fields(self.edition);
        let without_offset = parts.len() + 1 - fields.len();
        for (place, (_, width)) in fields.iter().enumerate() {
            let before = &parts[..without_offset + place];
            let offset = header(self.edition) + before.iter().map(|part| part.len()).sum::<usize>();
            bytes.extend(&(offset as u64).to_be_bytes()[8 - width..]);
        }
        bytes.extend(parts.concat());
        bytes
    }
}

/// The segments of an MDMF share: its numbers, and the lengths of parts.
pub struct Segments {
    pub k: u64,
    pub size: u64,
    pub data: u64,
    pub tree: usize,
    pub share_data: usize,
    pub spare: usize,
}

impl Segments {
    /// Those of a share whose offsets are in order; of others with no parts.
    pub fn of(share: &[u8]) -> Segments {
        let number = |at: usize| {
            let bytes = share[at..at + 8].try_into().expect("eight bytes");
            u64::from_be_bytes(bytes)
        };
        let length = |from: usize, to: usize| number(to).saturating_sub(number(from)) as usize;
        Segments {
            k: u64::from(share[41]),
            size: number(43),
            data: number(51),
            tree: length(107, 115),
            share_data: length(99, 107),
            spare: length(91, 99),
        }
    }

    /// How many there are; the size is 0 without data only.
    pub fn count(&self) -> u64 {
        match self.data {
            0 => 0,
            data => data.div_ceil(self.size),
        }
    }

    /// The bytes that the tree must have.
    pub fn asked_tree(&self) -> u128 {
        match self.count() {
            0 => 0,
            count => 64 * u128::from(count).next_power_of_two() - 32,
        }
    }

    /// The bytes that the share data must have.
    pub fn asked_share_data(&self) -> u128 {
        let blocks = self.data.div_ceil(self.k);
        16 * u128::from(self.count()) + u128::from(blocks)
    }
}

/// Bytes of the header.
pub fn header(edition: Edition) -> usize {
    match edition {
        Edition::Sdmf => 107,
        Edition::Mdmf => 123,
    }
}

/// Where the header's offsets stand, and how many bytes each has.
pub fn offset_fields(edition: Edition) -> &'static [(usize, usize)] {
    match edition {
        Edition::Sdmf => &[(75, 4), (79, 4), (83, 4), (87, 4), (91, 8), (99, 8)],
        Edition::Mdmf => &[
            (59, 8),
            (67, 8),
            (75, 8),
            (83, 8),
            (91, 8),
            (99, 8),
            (107, 8),
            (115, 8),
        ],
    }
}

/// As many different node numbers as the chain of N shares has entries, the root and the last
/// one included now and then.
pub fn node_numbers(rng: &mut Rng, n: usize) -> Vec<u16> {
    let leaves = n.next_power_of_two();
    let mut all: Vec<u16> = (0..2 * leaves as u16 - 1).collect();
    (0..leaves.ilog2())
        .map(|_| {
            all.swap_remove(if rng.chance(20) {
                all.len() - 1
            } else {
                rng.below(all.len())
            })
        })
        .collect()
}

/// A container whose data is these bytes, with so much slack, and with leases and room.
pub fn container_with(rng: &mut Rng, data: Vec<u8>, slack: usize) -> Container {
    let (extras, room) = (rng.below(3), rng.below(50));
    let sizes = Sizes {
        data: 0,
        slack,
        extras,
        room,
    };
    let length = 472 + data.len() + slack + 92 * extras + room;
    Container {
        length,
        data,
        ..containers::with(rng, sizes, 30)
    }
}

pub fn run(cases: u64, rng: &mut Rng, checker: &mut Checker) {
    for edition in Edition::ALL {
        offsets(rng, checker, edition);
        chains(rng, checker, edition);
        lengths(rng, checker, edition);
        versions(rng, checker, edition);
    }
    let until = checker.tally.cases + cases;
    while checker.tally.cases < until {
        let edition = rng.pick(&Edition::ALL);
        let mut share = Draft::any(rng, edition).to_bytes(rng);
        match rng.below(4) {
            0 => {}
            // A header byte, or a field, with any value; anything may come of it.
            1 => {
                let offsets = offset_fields(edition).iter();
                let mut ends: Vec<usize> = offsets.map(|(at, width)| at + width - 1).collect();
                ends.extend(match edition {
                    Edition::Sdmf => [0, 57, 58, 66, 74],
                    Edition::Mdmf => [0, 41, 42, 50, 58],
                });
                share[rng.pick(&ends)] = rng.byte();
            }
            2 => {
                let offsets = offset_fields(edition).iter();
                let mut fields: Vec<usize> = offsets.map(|(at, _)| *at).collect();
                fields.extend(match edition {
                    Edition::Sdmf => [1, 59, 67],
                    Edition::Mdmf => [1, 43, 51],
                });
                let field = rng.pick(&fields);
                let edge = rng.pick(&[
                    0,
                    1,
                    106,
                    107,
                    122,
                    123,
                    1 << 31,
                    1 << 63,
                    u64::MAX - 1,
                    u64::MAX,
                ]);
                share[field..field + 8].copy_from_slice(&edge.to_be_bytes());
            }
            _ => {
                let (less, more) = (share.len() - 1, share.len() + 1);
                let length = rng.pick(&[0, 1, 106, 107, 108, 122, 123, 124, less, more]);
                share.resize(length, 0);
            }
        }
        checker.share(&share);
        let slack = containers::slack(rng).min(1000);
        let container = container_with(rng, share, slack);
        let bytes = match rng.below(20) {
            0 => containers::damaged(rng, &container),
            1 => containers::of_wrong_length(rng, &container),
            _ => container.to_bytes(),
        };
        checker.share_in_container(&bytes);
    }
}

/// Checks a share bare and in a container without slack; gives the outcome, which is the same.
fn both(rng: &mut Rng, checker: &mut Checker, share: Vec<u8>) -> u32 {
    let number = checker.share(&share);
    let container = container_with(rng, share, 0).to_bytes();
    assert_eq!(checker.share_in_container(&container), number);
    number
}

/// Every offset of a good share moved by one, to its neighbours and to the edges.
fn offsets(rng: &mut Rng, checker: &mut Checker, edition: Edition) {
    let fields = offset_fields(edition);
    let read = |share: &[u8], (at, width): (usize, usize)| {
        share[at..at + width]
            .iter()
            .fold(0, |number, byte| number << 8 | u64::from(*byte))
    };
    for _ in 0..20 {
        let share = Draft::any(rng, edition).to_bytes(rng);
        let there: Vec<u64> = fields.iter().map(|field| read(&share, *field)).collect();
        for (field, (at, width)) in fields.iter().enumerate() {
            let own = there[field];
            let beside = [
                own - 1,
                own + 1,
                own ^ 1 << 31,
                own ^ 1 << 32,
                own ^ 1 << 63,
            ];
            // A byte on the wrong side of each other offset.
            let past = there.iter().flat_map(|offset| [offset - 1, offset + 1]);
            let edges = [0, 106, 107, 108, 122, 124, u64::from(u32::MAX), 1 << 63];
            let most = [u64::MAX, u64::MAX - 122, u64::MAX - 255];
            for value in there
                .iter()
                .copied()
                .chain(past)
                .chain(beside)
                .chain(edges)
                .chain(most)
            {
                let mut moved = share.clone();
                moved[*at..at + width].copy_from_slice(&value.to_be_bytes()[8 - width..]);
                both(rng, checker, moved);
            }
        }
        // The share's end a byte before and behind its last byte.
        for length in [share.len() - 1, share.len() + 1] {
            let mut other = share.clone();
            other.resize(length, 0);
            assert_eq!(both(rng, checker, other), 25);
        }
    }
}

/// The first bytes of a good share with each version, for every length around both headers.
fn lengths(rng: &mut Rng, checker: &mut Checker, edition: Edition) {
    let share = Draft::any(rng, edition).to_bytes(rng);
    let share = [&share[..], &[0; LENGTHS]].concat();
    for version in [0, 1, 2, 255] {
        for length in 0..=LENGTHS {
            let mut short = share[..length].to_vec();
            short.iter_mut().take(1).for_each(|byte| *byte = version);
            let number = both(rng, checker, short);
            let header = if version == 1 { 123 } else { 107 };
            assert_eq!(number == 21, length < header);
            assert_eq!(number == 22, length >= header && version > 1);
        }
    }
}

/// Good shares with every other version.
fn versions(rng: &mut Rng, checker: &mut Checker, edition: Edition) {
    for version in 0..=255 {
        let mut share = Draft::any(rng, edition).to_bytes(rng);
        share.splice(..1, [version]);
        let number = both(rng, checker, share);
        match version {
            2.. => assert_eq!(number, 22),
            _ => assert_eq!(number == 0, version == edition.version()),
        }
    }
}

/// For each N: the chain's length, one entry less and more, a repeat, and each number around
/// the largest that is allowed.
fn chains(rng: &mut Rng, checker: &mut Checker, edition: Edition) {
    for n in 1..=255 {
        let good = Draft::of_n(rng, edition, 1, n);
        assert_eq!(checker.share(&good.to_bytes(rng)), 0);
        let mut wrong = vec![good.clone(), good.clone(), good.clone()];
        wrong[0].chain.push(u16::MAX);
        wrong[1].chain_excess = 1;
        wrong[2].chain_excess = 33;
        let bound = 2 * n.next_power_of_two() as u16 - 1;
        for entry in 0..good.chain.len() {
            for number in [bound, bound + 1, u16::MAX, 1 << 15] {
                wrong.push(good.clone());
                wrong.last_mut().expect("pushed").chain[entry] = number;
            }
            for other in 0..entry {
                wrong.push(good.clone());
                wrong.last_mut().expect("pushed").chain[entry] = good.chain[other];
            }
        }
        if !good.chain.is_empty() {
            wrong.push(good.clone());
            wrong.last_mut().expect("pushed").chain.pop();
        }
        for share in wrong {
            assert_eq!(checker.share(&share.to_bytes(rng)), 26);
        }
    }
    // A container's magic is no share.
    assert_eq!(checker.share(&[MAGIC; 4].concat()), 22);
}

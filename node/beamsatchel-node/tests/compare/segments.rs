//! MDMF shares by their segments: each number of them at and beside powers of two, sizes and data lengths at their
//! edges, trees and share data that are a little wrong, and so many segments that no memory holds their tree. Each is
//! checked bare and in a container, with slack too, and written; what is good or wrong of it is told by all alike.

use crate::checker::Checker;
use crate::laid::COUNTS;
use crate::new_shares::Case;
use crate::rng::Rng;
use crate::shares::{container_with, Draft};
use beamsatchel_node::Edition;

pub fn run(rng: &mut Rng, checker: &mut Checker) {
    counts(rng, checker);
    data_lengths(rng, checker);
    sizes(rng, checker);
    far(rng, checker);
}

/// Checks and writes the share.
fn demand(draft: &Draft, number: u32, rng: &mut Rng, checker: &mut Checker) {
    let told = format!(
        "k {}, segment size {}, data length {}, tree {}, share data {}",
        draft.k,
        draft.segment_size,
        draft.data_length,
        draft.tree.len(),
        draft.share_data.len()
    );
    let share = draft.to_bytes(rng);
    assert_eq!(checker.share(&share), number, "{told}");
    for slack in [0, rng.pick(&[1, 8, 100])] {
        let container = container_with(rng, share.clone(), slack).to_bytes();
        assert_eq!(checker.share_in_container(&container), number, "{told}");
    }
    assert_eq!(Case::of(draft, rng).run(rng, checker), number, "{told}");
}

/// A good share of this k.
fn of_k(k: u64, rng: &mut Rng) -> Draft {
    let n = rng.within(k as usize..=255);
    Draft::of_n(rng, Edition::Mdmf, k as usize, n)
}

/// Every number of segments, the last one full and of a byte; then with tree and share data that are wrong.
fn counts(rng: &mut Rng, checker: &mut Checker) {
    for count in COUNTS {
        // Of many segments the tree is long enough.
        let (ks, blocks): (&[u64], &[u64]) = match count {
            0..600 => (&[1, 2, 3, 10, 255], &[1, 3]),
            _ => (&[1], &[1]),
        };
        for (k, blocks) in ks
            .iter()
            .flat_map(|k| blocks.iter().map(move |it| (*k, *it)))
        {
            let size = k * blocks;
            let full = count * size;
            let mut lengths = vec![full, full.saturating_sub(size - 1)];
            lengths.dedup();
            for data_length in lengths {
                let mut draft = of_k(k, rng);
                draft.set_data(rng, size, data_length);
                assert_eq!(draft.segments().count(), count.min(data_length));
                demand(&draft, 0, rng, checker);
                if count < 100 {
                    wrong_parts(&draft, rng, checker);
                }
            }
        }
    }
}

/// A good share with trees and share data of other lengths.
fn wrong_parts(good: &Draft, rng: &mut Rng, checker: &mut Checker) {
    let count = good.segments().count() as usize;
    let (tree, share_data) = (good.tree.len(), good.share_data.len());
    let mut trees = vec![0, 32, 32 * count, 2 * tree + 32];
    trees.extend([
        tree + 1,
        tree + 32,
        tree.saturating_sub(1),
        tree.saturating_sub(32),
    ]);
    trees.push(tree.saturating_sub(32) / 2);
    trees.sort_unstable();
    trees.dedup();
    for length in trees.into_iter().filter(|length| *length != tree) {
        let mut draft = good.clone();
        draft.tree = rng.bytes(length);
        demand(&draft, 27, rng, checker);
    }
    let block = 16 + (good.segment_size / u64::from(good.k)) as usize;
    let mut others = vec![0, 16 * count, share_data - 16 * count, count * block];
    others.extend([share_data + 1, share_data + 16]);
    others.extend([share_data.saturating_sub(1), share_data.saturating_sub(16)]);
    others.sort_unstable();
    others.dedup();
    for length in others.into_iter().filter(|length| *length != share_data) {
        let mut draft = good.clone();
        draft.share_data = rng.bytes(length);
        demand(&draft, 28, rng, checker);
    }
}

/// The greatest multiple of k that eight bytes hold.
fn greatest(k: u64) -> u64 {
    u64::MAX - u64::MAX % k
}

/// Little data around k, in segments of k bytes, of more, and of the most.
fn data_lengths(rng: &mut Rng, checker: &mut Checker) {
    for k in [1, 2, 3, 7, 16, 100, 255] {
        for data_length in [0, 1, k - 1, k, k + 1] {
            for size in [k, 2 * k, 5 * k, greatest(k), greatest(k) - k] {
                let mut draft = of_k(k, rng);
                draft.set_data(rng, size, data_length);
                demand(&draft, 0, rng, checker);
            }
        }
    }
}

/// Segment sizes that are no multiple of k, and none at all.
fn sizes(rng: &mut Rng, checker: &mut Checker) {
    for k in [1, 2, 3, 7, 16, 100, 255] {
        let good = of_k(k, rng);
        let mut none = good.clone();
        none.set_data(rng, 0, 0);
        demand(&none, 0, rng, checker);
        wrong_parts(&none, rng, checker);
        // With data there is no segment of no bytes.
        for data_length in [1, k, u64::MAX] {
            let draft = Draft {
                segment_size: 0,
                data_length,
                ..good.clone()
            };
            demand(&draft, 24, rng, checker);
        }
        let most = greatest(k);
        for multiple in [0, k, 2 * k, 1000 * k, most - k, most] {
            let beside = [multiple.wrapping_sub(1), multiple.wrapping_add(1)];
            let beside = beside.into_iter().chain([u64::MAX]);
            for segment_size in beside.filter(|size| size % k != 0) {
                for without in [&none, &good] {
                    let draft = Draft {
                        segment_size,
                        ..without.clone()
                    };
                    demand(&draft, 24, rng, checker);
                }
            }
        }
    }
}

/// So much data that no memory holds what is asked for: with few segments the share data is what is wrong, with many
/// the tree. Neither is compared with what is left of the length in fewer bytes.
fn far(rng: &mut Rng, checker: &mut Checker) {
    for k in [1, 2, 3, 7, 255] {
        let most = greatest(k);
        let near = [
            most,
            most - k,
            most / 2 / k * k,
            most / 2 / k * k + k,
            most / 3 / k * k,
        ];
        let powers = [26, 32, 56, 57, 58, 59, 60, 62].map(|power| (1 << power) / k * k);
        for size in near.into_iter().chain(powers).chain([k, 2 * k, 3 * k]) {
            for data_length in [u64::MAX, u64::MAX - 1, most, 1 << 63, (1 << 63) + 1] {
                let mut draft = Draft {
                    segment_size: size,
                    data_length,
                    ..of_k(k, rng)
                };
                let asked = draft.segments().asked_tree();
                // Where few segments have a tree, the share data of no length is the right one.
                let wrapped = draft.segments().asked_share_data() as u64;
                let number = match usize::try_from(asked) {
                    Ok(tree @ ..1000) => {
                        draft.tree = rng.bytes(tree);
                        28
                    }
                    _ => 27,
                };
                demand(&draft, number, rng, checker);
                if wrapped < 1000 {
                    draft.share_data = rng.bytes(wrapped as usize);
                    demand(&draft, number, rng, checker);
                }
                if number == 27 {
                    for tree in [0, 32, 96] {
                        draft.tree = rng.bytes(tree);
                        demand(&draft, 27, rng, checker);
                    }
                }
            }
        }
    }
}

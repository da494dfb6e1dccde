//! Every two refusals of the writers: a share with the one flaw gives the one, with the other flaw the other, and with
//! both the lower. Any two can be had together. One cannot be had without another: where the segment size of SDMF is
//! 2^64 or more (24), share data of the length that 28 asks for would be more than any memory has.

use crate::calls::{Beside, Call};
use crate::checker::Checker;
use crate::new_shares::Case;
use crate::rng::Rng;
use crate::shares::{header, Draft};
use beamsatchel_node::Edition;

pub fn run(rounds: u64, rng: &mut Rng, checker: &mut Checker) {
    for edition in Edition::ALL {
        let call = Call::WriteShare(edition);
        for pair @ (low, high) in call.pairs() {
            for _ in 0..rounds.max(10) {
                for (flaws, number) in [(&[low][..], low), (&[high], high), (&[low, high], low)] {
                    let met = case(edition, flaws, rng).run(rng, checker);
                    assert_eq!(met, number, "a new {edition} share with flaws {flaws:?}");
                }
                checker.tally.pair(call, Beside::NoSlack, pair);
            }
        }
    }
}

/// A call with these flaws, each named by its outcome. With 24 an SDMF share has 28 as well.
fn case(edition: Edition, flaws: &[u32], rng: &mut Rng) -> Case {
    let has = |flaw| flaws.contains(&flaw);
    // Data, and some chain entries, so that each flaw has something to spoil.
    let n = rng.within(8..=40);
    let mut draft = match edition {
        Edition::Sdmf => sdmf(&has, n, rng),
        Edition::Mdmf => mdmf(&has, n, rng),
    };
    if has(25) {
        match rng.below(3) {
            0 => draft.key.clear(),
            1 => draft.signature.clear(),
            _ => draft.private_key.clear(),
        }
    }
    if has(26) {
        match rng.below(4) {
            0 => draft.chain[1] = draft.chain[0],
            1 => draft.chain[0] = 2 * n.next_power_of_two() as u16 - 1,
            2 => draft.chain.truncate(1),
            _ => draft.chain_excess = rng.within(1..=40),
        }
    }
    if has(29) {
        draft.sequence_number = u64::MAX;
    }
    let mut case = Case::of(&draft, rng);
    if has(3) {
        let lengths: &[(usize, usize)] = match edition {
            Edition::Sdmf => &[(31, 16), (33, 16), (32, 15), (32, 17), (0, 0)],
            Edition::Mdmf => &[(31, 16), (33, 16), (0, 0)],
        };
        let (root_hash, iv) = rng.pick(lengths);
        (case.root_hash, case.iv) = (rng.bytes(root_hash), rng.bytes(iv));
    }
    if has(7) {
        let (needed, header) = (case.needed() as isize, header(edition) as isize);
        case.spare = rng.pick(&[-1, -2, -needed, header - 1 - needed, header - needed]);
    }
    case
}

/// A draft with those of the flaws 23, 24, 27 and 28 that are wanted.
fn sdmf(has: &dyn Fn(u32) -> bool, n: usize, rng: &mut Rng) -> Draft {
    let k = match (has(23), has(24)) {
        (false, false) => rng.within(2..=8),
        // 2^64 - 1 is a multiple of none of these.
        (false, true) => rng.pick(&[2, 4, 6, 7, 8]),
        (true, true) => rng.pick(&[64, 100, 254]),
        // A k of 0 has no multiple, and so no share data that is wrong.
        (true, false) if has(28) => rng.pick(&[n + 1, 255]),
        (true, false) => rng.pick(&[0, n + 1, 255]),
    };
    let data_length = match has(24) {
        // Above the greatest multiple of k.
        true => u64::MAX - rng.below((u64::MAX % k as u64) as usize) as u64,
        false => rng.within(10..=99) as u64,
    };
    let share_data = match (k, has(24)) {
        (0, _) | (_, true) => rng.within(1..=20),
        _ => data_length.div_ceil(k as u64) as usize,
    };
    let share_data = if has(28) {
        share_data + 1 - rng.pick(&[0, 2])
    } else {
        share_data
    };
    let tree = if has(27) {
        rng.pick(&[0, 1, 31, 33, 64])
    } else {
        32
    };
    Draft {
        k: k as u8,
        data_length,
        tree: rng.bytes(tree),
        share_data: rng.bytes(share_data),
        ..Draft::of_n(rng, Edition::Sdmf, 1, n)
    }
}

/// The same of MDMF.
fn mdmf(has: &dyn Fn(u32) -> bool, n: usize, rng: &mut Rng) -> Draft {
    let k = rng.within(2..=8) as u64;
    let mut draft = Draft::of_n(rng, Edition::Mdmf, k as usize, n);
    let (blocks, data_length) = (rng.within(1..=30) as u64, rng.within(10..=99) as u64);
    draft.set_data(rng, blocks * k, data_length);
    if has(27) {
        let there = draft.tree.len();
        draft.tree.resize(
            rng.pick(&[0, there - 1, there + 1, there - 32, there + 32]),
            7,
        );
    }
    if has(28) {
        let there = draft.share_data.len();
        draft.share_data.resize(
            rng.pick(&[0, there - 1, there + 1, there - 16, there + 16]),
            7,
        );
    }
    if has(24) {
        let size = draft.segment_size;
        draft.segment_size = rng.pick(&[0, size + 1, size - 1, u64::MAX - u64::MAX % k - 1]);
    }
    if has(23) {
        draft.k = rng.pick(&[0, n as u8 + 1, 255]);
    }
    draft
}

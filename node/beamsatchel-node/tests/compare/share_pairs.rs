//! Every two outcomes of a share that can apply together, for each edition: a share with the one flaw gives the one,
//! with the other flaw the other, and with both the lower.

use crate::calls::{Beside, Call};
use crate::checker::Checker;
use crate::containers;
use crate::rng::Rng;
use crate::shares::{container_with, header, offset_fields, Draft};
use beamsatchel_node::Edition;

pub fn run(rounds: u64, rng: &mut Rng, checker: &mut Checker) {
    for edition in Edition::ALL {
        for call in [Call::BareShare(edition), Call::ShareInContainer(edition)] {
            for pair @ (low, high) in call.pairs() {
                for &slack in call.slacks() {
                    for _ in 0..rounds.max(10) {
                        for (flaws, number) in
                            [(&[low][..], low), (&[high], high), (&[low, high], low)]
                        {
                            let share = share(edition, flaws, rng);
                            let checked = check(call, share, flaws, slack, rng, checker);
                            assert_eq!(checked, number, "{call:?} with flaws {flaws:?}");
                        }
                        checker.tally.pair(call, slack, pair);
                    }
                }
            }
        }
    }
}

fn check(
    call: Call,
    share: Vec<u8>,
    flaws: &[u32],
    slack: Beside,
    rng: &mut Rng,
    checker: &mut Checker,
) -> u32 {
    if let Call::BareShare(_) = call {
        return checker.share(&share);
    }
    let slack = slack.some(rng);
    let container = container_with(rng, share, slack);
    if slack > 0 && flaws.contains(&2) && !flaws.contains(&1) {
        return checker.share_in_container(&containers::with_bad_slack(rng, &container));
    }
    let mut bytes = match flaws.contains(&1) {
        true => containers::of_wrong_length(rng, &container),
        false => container.to_bytes(),
    };
    if flaws.contains(&2) {
        bytes.iter_mut().take(1).for_each(|byte| *byte ^= 1);
    }
    checker.share_in_container(&bytes)
}

/// The bytes of a share with exactly these flaws, each named by its outcome.
fn share(edition: Edition, flaws: &[u32], rng: &mut Rng) -> Vec<u8> {
    let has = |flaw| flaws.contains(&flaw);
    // Data, and at least two chain entries, so that each flaw has something to spoil.
    let n = rng.within(3..=40);
    let mut draft = Draft::of_n(rng, edition, 3, n);
    let data_length = rng.within(10..=99) as u64;
    let segment_size = match edition {
        Edition::Sdmf => data_length.div_ceil(3) * 3,
        Edition::Mdmf => 3 * rng.within(1..=40) as u64,
    };
    draft.set_data(rng, segment_size, data_length);
    if has(22) {
        draft.version = rng.within(2..=255) as u8;
    }
    if has(23) {
        // The good N stays, and with it the chain.
        draft.k = rng.pick(&[0, n as u8 + 1, 255]);
    }
    if has(24) {
        draft.segment_size = match edition {
            Edition::Sdmf => rng.pick(&[segment_size + 1, segment_size + 3, segment_size - 3]),
            Edition::Mdmf => rng.pick(&[segment_size + 1, segment_size - 1, 0, u64::MAX - 1]),
        };
        if edition == Edition::Sdmf {
            // Row 28 asks for segment size / k, and is not meant here.
            let count = (draft.segment_size / 3) as usize;
            draft.share_data = rng.bytes(count);
        }
    }
    if has(26) {
        match rng.below(4) {
            0 => draft.chain[1] = draft.chain[0],
            1 => draft.chain[0] = 2 * n.next_power_of_two() as u16 - 1,
            2 => draft.chain.truncate(1),
            _ => draft.chain_excess = rng.within(1..=40),
        }
    }
    if has(27) {
        let there = draft.tree.len();
        let count = match edition {
            Edition::Sdmf => rng.pick(&[0, 31, 33, 64]),
            Edition::Mdmf => rng.pick(&[0, there - 1, there + 1, there - 32, there + 32]),
        };
        draft.tree = rng.bytes(count);
    }
    if has(28) {
        let there = draft.share_data.len();
        let count = match edition {
            Edition::Sdmf => rng.pick(&[there - 1, there + 1]),
            Edition::Mdmf => rng.pick(&[0, there - 1, there + 1, there - 16, there + 16]),
        };
        draft.share_data = rng.bytes(count);
    }
    if has(29) {
        draft.sequence_number = u64::MAX;
    }
    let mut bytes = draft.to_bytes(rng);
    if has(25) {
        let (at, width) = offset_fields(edition)[0];
        // Where the header ends, and in MDMF where it does not.
        let first = match edition {
            Edition::Sdmf => 107,
            Edition::Mdmf => rng.pick(&[122, 124]),
        };
        match rng.below(3) {
            0 => bytes.push(0),
            1 => bytes[at + width - 1] = first,
            // The end.
            _ => bytes[header(edition) - 8] = 0x80,
        }
    }
    if has(21) {
        // The longer header is not asked of another version.
        let lengths: &[usize] = match (edition, has(22)) {
            (Edition::Mdmf, false) => &[0, 1, 41, 42, 59, 106, 107, 115, 121, 122],
            _ => &[0, 1, 57, 58, 75, 99, 105, 106],
        };
        bytes.truncate(rng.pick(lengths));
    }
    bytes
}

//! Create, on buffers of any length and with any bytes in them.

use crate::calls::{Beside, Call};
use crate::checker::Checker;
use crate::containers::{self, MAX_LENGTH};
use crate::rng::Rng;
use beamsatchel_model::MAGIC;

pub fn run(cases: u64, rng: &mut Rng, checker: &mut Checker) {
    for _ in 0..cases {
        let flaws = [1, 3, 12].map(|flaw| if rng.chance(20) { flaw } else { 0 });
        create(&flaws, rng, checker);
    }
    // Every two refusals, each alone and both.
    for pair @ (low, high) in Call::Create.pairs() {
        for _ in 0..100 {
            let mut again = rng.clone();
            assert_eq!(create(&[low], &mut again.clone(), checker), low);
            assert_eq!(create(&[high], &mut again.clone(), checker), high);
            assert_eq!(create(&[low, high], &mut again, checker), low);
            checker.tally.pair(Call::Create, Beside::NoSlack, pair);
            *rng = again;
        }
    }
}

/// Creates in a case that has exactly these flaws.
fn create(flaws: &[u32], rng: &mut Rng, checker: &mut Checker) -> u32 {
    let has = |flaw| flaws.contains(&flaw);
    let length = match rng.below(100) {
        0..60 => rng.pick(&[472, 473, 474, 563, 564]),
        60..99 => rng.within(472..=1500),
        _ => rng.pick(&[MAX_LENGTH, MAX_LENGTH + 1]),
    };
    let length = if has(1) {
        rng.pick(&[0, 1, 32, 468, 471])
    } else {
        length
    };
    let mut buffer = rng.bytes(length);
    buffer.iter_mut().take(1).for_each(|byte| *byte |= 0x80);
    if has(12) {
        // The magic alone, and a whole container.
        if rng.chance(50) {
            let there = length.min(32);
            buffer[..there].copy_from_slice(&MAGIC[..there]);
        } else {
            let container = containers::any(rng).to_bytes();
            let there = length.min(container.len());
            buffer[..there].copy_from_slice(&container[..there]);
        }
    } else if rng.chance(30) && length >= 32 {
        // Nearly the magic.
        buffer[..32].copy_from_slice(&MAGIC);
        buffer[rng.below(32)] ^= 1 << rng.below(8);
    }
    let (mut node, mut enabler) = (20, 32);
    if has(3) {
        match rng.below(3) {
            0 => node = rng.pick(&[0, 1, 19, 21, 32, 40]),
            1 => enabler = rng.pick(&[0, 1, 20, 31, 33, 64]),
            _ => (node, enabler) = (32, 20),
        }
    }
    let (node, enabler) = (rng.bytes(node), rng.bytes(enabler));
    checker.create(&mut buffer, &node, &enabler).number
}

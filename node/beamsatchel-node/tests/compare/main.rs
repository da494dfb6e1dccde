//! The library against the model of the rules (docs/RULES.md): answer record, whole container,
//! whole reply space, whole never-written list, whole space of a share.
//!
//! `BEAMSATCHEL_SEED` sets another seed, `BEAMSATCHEL_CASES` a longer run; with only some thousand
//! cases a run does not meet all that is asked for, and fails for it. The run prints how often each
//! outcome and each pair of outcomes was met, where tests and reads looked, what offsets from the end
//! named, what test-and-writes touched, where the count stood, what was met in long containers, what
//! never-written lists were like and what became of them, of which shapes shares to be written were, and
//! how shares of both editions were laid out; it fails where a possible one was not met, and at once where
//! an impossible outcome is or a byte changed that a test-and-write leaves alone.

mod apart;
mod calls;
mod case;
mod checker;
#[path = "../common/mod.rs"]
mod common;
mod containers;
mod creates;
mod edges;
mod histories;
mod laid;
mod lists;
mod long;
mod looks;
mod new_share_pairs;
mod new_shares;
mod offsets;
mod pairs;
mod requests;
mod rng;
mod segments;
mod shapes;
mod share_pairs;
mod shares;
mod singles;
mod slacks;
mod tally;
mod touches;
mod woven;

use checker::Checker;
use rng::Rng;
use std::time::Instant;

const DEFAULT_SEED: u64 = 0xBEA5_A7C4_E100_0001;
const DEFAULT_CASES: u64 = 1_125_000;

fn main() {
    let seed = from_environment("BEAMSATCHEL_SEED", DEFAULT_SEED);
    let cases = from_environment("BEAMSATCHEL_CASES", DEFAULT_CASES);
    println!("comparison with the model: BEAMSATCHEL_SEED={seed} BEAMSATCHEL_CASES={cases}");

    let mut checker = Checker::default();
    let mut section = |name: &str, run: &dyn Fn(&mut Rng, &mut Checker)| {
        let (before, start) = (checker.tally.cases, Instant::now());
        // Each section has its own numbers, so that a change in one leaves the others alone.
        let salt = name
            .bytes()
            .fold(seed, |salt, byte| salt.rotate_left(8) ^ u64::from(byte));
        run(&mut Rng::new(salt), &mut checker);
        println!(
            "{name:>20}: {:>9} cases, {:.1} s",
            checker.tally.cases - before,
            start.elapsed().as_secs_f64()
        );
    };
    section("edges", &|rng, checker| edges::run(rng, checker));
    section("long containers", &|rng, checker| long::run(rng, checker));
    section("edges of lists", &|rng, checker| {
        lists::edges::run(rng, checker)
    });
    section("long beside lists", &|rng, checker| {
        lists::long::run(rng, checker)
    });
    section("pairs", &|rng, checker| {
        pairs::run(cases / 20_000, rng, checker)
    });
    section("pairs beside lists", &|rng, checker| {
        lists::pairs::run(cases / 100_000, rng, checker)
    });
    section("pairs in shares", &|rng, checker| {
        share_pairs::run(cases / 50_000, rng, checker)
    });
    section("pairs in new shares", &|rng, checker| {
        new_share_pairs::run(cases / 50_000, rng, checker)
    });
    section("creates", &|rng, checker| {
        creates::run(cases / 30, rng, checker)
    });
    section("segments", &|rng, checker| segments::run(rng, checker));
    section("shares", &|rng, checker| {
        shares::run(cases / 8, rng, checker)
    });
    section("new shares", &|rng, checker| {
        new_shares::run(cases / 15, rng, checker)
    });
    section("histories", &|rng, checker| {
        histories::run(cases / 10, rng, checker)
    });
    section("woven histories", &|rng, checker| {
        woven::run(cases / 5, rng, checker)
    });
    section("lists in histories", &|rng, checker| {
        lists::histories::run(cases / 40, rng, checker)
    });
    section("woven with lists", &|rng, checker| {
        lists::woven::run(cases / 50, rng, checker)
    });
    section("beside lists", &|rng, checker| {
        lists::singles::run(cases / 25, rng, checker)
    });
    section("slack apart", &|rng, checker| {
        apart::run(cases / 10, rng, checker)
    });
    section("single requests", &|rng, checker| {
        singles::run(cases.saturating_sub(checker.tally.cases), rng, checker)
    });

    checker.tally.print();
    checker.tally.demand_all();
    println!("{} cases, no difference", checker.tally.cases);
}

/// A number from the environment; a value that is no number is an error, not the default.
fn from_environment(variable: &str, default: u64) -> u64 {
    match std::env::var(variable) {
        Ok(value) => value
            .parse()
            .unwrap_or_else(|_| panic!("{variable}={value} is no number")),
        Err(_) => default,
    }
}

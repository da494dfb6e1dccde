//! Every two outcomes that can apply together beside a list: a case with the one flaw gives the one, with the other
//! flaw the other, and with both the one that is judged first. That is the lower, but for 16, which comes right after
//! 2.

use super::case::ListedCase;
use super::made;
use super::rows::encode;
use crate::calls::{Call, Kind};
use crate::checker::Checker;
use crate::pairs::{case, parts, test_and_write, write_at, Reaching};
use crate::rng::Rng;
use beamsatchel_model::{Container, Request, MOST_ROWS};
use std::ops::Range;

pub fn run(rounds: u64, rng: &mut Rng, checker: &mut Checker) {
    for call in Kind::ALL
        .into_iter()
        .flat_map(|kind| [Call::ApplyListed(kind), Call::ReadListed(kind)])
    {
        for pair @ (first, second) in call.pairs() {
            for &slack in call.slacks() {
                for round in 0..rounds.max(10) {
                    let reaching = Reaching::of_round(round);
                    for (flaws, number) in [
                        (&[first][..], first),
                        (&[second], second),
                        (&[first, second], first),
                    ] {
                        let slack = slack.some(rng);
                        let answer = ask(call, flaws, slack, reaching, rng, checker);
                        assert_eq!(
                            answer, number,
                            "{call:?} with flaws {flaws:?}, {reaching:?}"
                        );
                    }
                    checker.tally.pair(call, slack, pair);
                }
            }
        }
    }
}

/// The outcome of a case with exactly these flaws.
fn ask(
    call: Call,
    flaws: &[u32],
    slack: usize,
    reaching: Reaching,
    rng: &mut Rng,
    checker: &mut Checker,
) -> u32 {
    let has = |flaw: u32| flaws.contains(&flaw);
    match call {
        Call::ApplyListed(kind) => {
            let mut case = listed(kind, &has, slack, reaching, rng);
            checker.apply_listed(&mut case).number
        }
        Call::ReadListed(kind) => {
            let mut case = listed(kind, &has, slack, reaching, rng);
            checker.read_listed(&mut case).number
        }
        _ => unreachable!("no call beside a list"),
    }
}

fn listed(
    kind: Kind,
    has: &dyn Fn(u32) -> bool,
    slack: usize,
    reaching: Reaching,
    rng: &mut Rng,
) -> ListedCase {
    let (container, request, rows) = match kind {
        Kind::TestAndWrite => combed(has, slack, reaching, rng),
        _ => {
            let (container, request) = parts(kind, has, slack, reaching, rng);
            let rows = made::rows(rng, &container);
            (container, request, rows)
        }
    };
    ListedCase {
        list: match has(16) {
            true => made::bad_list(rng, &rows, &container),
            false => encode(&rows),
        },
        case: case(kind, has, &container, &request, rng),
    }
}

/// A test-and-write for a container with a list that is full or nearly so, which it makes too long where flaw 13 is
/// wanted. What it writes otherwise splits no row, and leaves a gap only where it is refused.
fn combed(
    has: &dyn Fn(u32) -> bool,
    slack: usize,
    reaching: Reaching,
    rng: &mut Rng,
) -> (Container, Request, Vec<Range<u64>>) {
    let container = made::comb(rng, slack);
    let mut request = test_and_write(has, &container, reaching, rng);
    if has(13) {
        // More gaps than the write before them can fill rows.
        let end = container.data.len() as u64 + 11;
        let gaps = (0..16 - request.writes.len() as u64).map(|gap| write_at(end + 2 * gap, b"G"));
        request.writes.extend(gaps);
    }
    let rows = match has(13) {
        true => MOST_ROWS,
        false => rng.within(1..=MOST_ROWS),
    };
    (container, Request::TestAndWrite(request), made::teeth(rows))
}

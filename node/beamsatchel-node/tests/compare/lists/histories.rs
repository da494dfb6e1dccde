//! Whole histories from a fresh container and a list of zeros: after every request the list is the one that the
//! accepted writes and cuts tell.

use super::aimed;
use super::case::ListedCase;
use super::routes::Route;
use super::rows::decode;
use super::told::Told;
use super::Listing;
use crate::calls::Kind;
use crate::case::Case;
use crate::checker::Checker;
use crate::histories::{bytes_for, create, test_and_write};
use crate::requests;
use crate::rng::Rng;
use beamsatchel_model::{Container, Request, TestAndWrite, Write, LIST_LENGTH, MOST_ROWS};

const REQUESTS: u64 = 500;

pub fn run(cases: u64, rng: &mut Rng, checker: &mut Checker) {
    let mut steps = 0;
    for number in 0..cases.div_ceil(REQUESTS) {
        let sort = match number % 3 {
            0 => Sort::ManyGaps,
            _ => Sort::Mixed,
        };
        let length = match sort {
            Sort::Mixed if rng.chance(50) => rng.within(472..=700),
            Sort::Mixed => rng.within(700..=3000),
            Sort::ManyGaps => rng.within(1500..=8000),
        };
        let mut told = Told::of_fresh(length);
        let mut container = create(length, rng, checker);
        let mut list = vec![0; LIST_LENGTH];
        for turn in 0..REQUESTS {
            let mut case = next(rng, container, list, sort.gaps_percent(turn));
            let (kind, route) = (
                Kind::of_request(&case.case.request),
                Route::any(rng, &case.case.request),
            );
            let answer = route.send(checker, &mut case);
            let done = (answer.number, kind) == (0, Kind::TestAndWrite);
            if done {
                told.accept(&test_and_write(&case.case.request));
            }
            assert_eq!(case.list, told.list(), "the list in a history");
            let tally = &mut checker.tally;
            tally.listings([Listing::Went(kind, route)]);
            tally.listings(told.has_been_cut().then_some(Listing::WrittenBeforeTheCut));
            tally.listings((answer.number == 13).then_some(Listing::TooManyInHistory));
            let is_full = decode(&case.list).len() == MOST_ROWS;
            tally.listings((done && is_full).then_some(Listing::FullInHistory));
            (container, list) = (case.case.container, case.list);
            steps += 1;
        }
        let parts = Container::from_bytes(&container).expect("well formed");
        assert_eq!(parts.data.len(), told.size(), "the size after a history");
    }
    println!("after {steps} requests the list was as the history tells");
}

#[derive(Clone, Copy)]
enum Sort {
    Mixed,
    /// The list becomes full soon.
    ManyGaps,
}

impl Sort {
    /// How many of a hundred requests only leave gaps.
    fn gaps_percent(self, turn: u64) -> usize {
        match (self, turn) {
            (Sort::Mixed, _) => 2,
            (Sort::ManyGaps, 0..100) => 95,
            (Sort::ManyGaps, _) => 40,
        }
    }
}

/// A case with a request for a container and its list, now and then a broken one.
fn next(rng: &mut Rng, container: Vec<u8>, list: Vec<u8>, gaps_percent: usize) -> ListedCase {
    let parts = Container::from_bytes(&container).expect("well formed");
    let request = match rng.chance(gaps_percent) {
        true => Request::TestAndWrite(gaps(rng, &parts, decode(&list).len())),
        false => aimed::any(rng, &parts, &decode(&list)),
    };
    let (mut bytes, reply) = bytes_for(rng, &request, &parts);
    if rng.chance(2) {
        bytes = requests::unknown(rng);
    }
    ListedCase {
        case: Case {
            container,
            request: bytes,
            reply,
        },
        list,
    }
}

/// Up to sixteen bytes behind the data, with a gap before each. Beside so many rows that this could be too many, mostly
/// as many as there may be, or one more.
fn gaps(rng: &mut Rng, container: &Container, rows: usize) -> TestAndWrite {
    let left = MOST_ROWS - rows;
    let count = match left < 16 && rng.chance(70) {
        true => left + rng.below(2),
        false => rng.within(1..=16),
    };
    let mut end = container.data.len();
    let mut writes = Vec::new();
    for _ in 0..count {
        end += rng.pick(&[1, 1, 1, 2]);
        writes.push(Write {
            offset: end as i32,
            data: rng.letters(1),
        });
        end += 1;
    }
    TestAndWrite {
        enabler: container.enabler,
        tests: Vec::new(),
        writes,
        cut: None,
    }
}

//! Woven histories that hand a list on: where neither meets outcome 11 or 13, each request gets the same answer and
//! reply bytes, and the final containers and lists are equal.

use super::aimed;
use super::case::ListedCase;
use super::routes::Route;
use super::rows::decode;
use super::Listing;
use crate::case::Case;
use crate::checker::Checker;
use crate::histories::{bytes_for, create};
use crate::requests;
use crate::rng::Rng;
use crate::woven::{sequence, weave, Answered, Sent};
use beamsatchel_model::{self as model, Container, LIST_LENGTH};

pub fn run(cases: u64, rng: &mut Rng, checker: &mut Checker) {
    let until = checker.tally.cases + cases;
    let (mut compared, mut met_limit) = (0, 0);
    while checker.tally.cases < until {
        let length = rng.within(600..=8000);
        let fresh = create(length, rng, checker);
        let data = data_sequence(rng, &fresh);
        let leases = sequence(rng, &fresh, requests::any_lease_request);
        let ways = [weave(rng, &data, &leases), weave(rng, &data, &leases)];
        let [first, second] = ways.map(|way| history(rng, checker, &fresh, &data, &leases, &way));
        let limited = |run: &Run| {
            let mut answers = run.data.iter().chain(&run.leases);
            answers.any(|(answer, _)| matches!(answer.number, 11 | 13))
        };
        if limited(&first) || limited(&second) {
            met_limit += 1;
            continue;
        }
        compared += 1;
        assert_eq!(first.data, second.data, "reads and test-and-writes");
        assert_eq!(first.leases, second.leases, "lease requests");
        assert_eq!(first.container, second.container, "final containers");
        assert_eq!(first.list, second.list, "final lists");
        if !decode(&first.list).is_empty() {
            checker.tally.listings([Listing::SameInWovenHistories]);
        }
    }
    println!("{compared} pairs of histories end with equal lists; {met_limit} met 11 or 13");
    assert!(compared >= met_limit, "most pairs are to be compared");
}

/// Reads and test-and-writes, each made for what those before it leave, without those that meet 11 or 13.
fn data_sequence(rng: &mut Rng, fresh: &[u8]) -> Vec<Sent> {
    let (mut container, mut list) = (fresh.to_vec(), vec![0; LIST_LENGTH]);
    let mut sent = Vec::new();
    for _ in 0..rng.below(40) {
        let parts = Container::from_bytes(&container).expect("well formed");
        let request = aimed::any_data_request(rng, &parts, &decode(&list));
        let (request, mut reply) = bytes_for(rng, &request, &parts);
        let space = reply.clone();
        let answer = model::apply_listed(&mut container, &mut list, &request, &mut reply);
        if !matches!(answer.number, 11 | 13) {
            sent.push((request, space));
        }
    }
    sent
}

struct Run {
    data: Vec<Answered>,
    leases: Vec<Answered>,
    container: Vec<u8>,
    list: Vec<u8>,
}

fn history(
    rng: &mut Rng,
    checker: &mut Checker,
    fresh: &[u8],
    data: &[Sent],
    leases: &[Sent],
    way: &[bool],
) -> Run {
    let (mut next_data, mut next_lease) = (data.iter(), leases.iter());
    let mut run = Run {
        data: Vec::new(),
        leases: Vec::new(),
        container: fresh.to_vec(),
        list: vec![0; LIST_LENGTH],
    };
    for is_data in way {
        let (next, answered) = match is_data {
            true => (next_data.next(), &mut run.data),
            false => (next_lease.next(), &mut run.leases),
        };
        let (request, reply) = next.expect("the way has as many as there are").clone();
        let route = Route::any(rng, &request);
        let mut case = ListedCase {
            case: Case {
                container: run.container,
                request,
                reply,
            },
            list: run.list,
        };
        let answer = route.send(checker, &mut case);
        answered.push((answer, case.case.reply));
        (run.container, run.list) = (case.case.container, case.list);
    }
    run
}

//! Histories in docs/RULES.md: the same reads and test-and-writes in the same order and the same
//! lease requests in the same order, woven together in two ways. Where neither meets outcome 11,
//! each request gets the same answer and reply bytes, and the final containers are equal.

use crate::case::Case;
use crate::checker::Checker;
use crate::containers::MAX_LENGTH;
use crate::histories::{create, next_request};
use crate::offsets::{appends, Named};
use crate::requests;
use crate::rng::Rng;
use beamsatchel_model::{self as model, Container, Request};

/// A request and the reply space that it has in both histories.
pub type Sent = (Vec<u8>, Vec<u8>);

/// A request's answer and the reply space afterwards.
pub type Answered = (model::Answer, Vec<u8>);

pub fn run(cases: u64, rng: &mut Rng, checker: &mut Checker) {
    let until = checker.tally.cases + cases;
    let (mut compared, mut no_room) = (0, 0);
    while checker.tally.cases < until {
        let length = match rng.below(10) {
            0..3 => rng.within(472..=1000),
            3..9 => rng.within(1000..=8000),
            _ => rng.pick(&[2000, 4000, MAX_LENGTH]),
        };
        let fresh = create(length, rng, checker);
        let data = sequence(rng, &fresh, requests::any_data_request);
        let leases = sequence(rng, &fresh, requests::any_lease_request);
        let ways = [weave(rng, &data, &leases), weave(rng, &data, &leases)];
        let [first, second] = ways.map(|way| history(checker, &fresh, &data, &leases, &way));
        let met_no_room = |run: &Run| {
            let answers = run.data.iter().chain(&run.leases);
            answers.into_iter().any(|(answer, _)| answer.number == 11)
        };
        if met_no_room(&first) || met_no_room(&second) {
            no_room += 1;
            continue;
        }
        compared += 1;
        assert_eq!(first.data, second.data, "reads and test-and-writes");
        assert_eq!(first.leases, second.leases, "lease requests");
        assert_eq!(first.container, second.container, "final containers");
        for ((request, _), (answer, _)) in data.iter().zip(&first.data) {
            if answer.number == 0 && appends(request) {
                checker.tally.named([Named::AppendInWovenHistories]);
            }
        }
    }
    println!("{compared} pairs of histories are equal; {no_room} met \"no room\"");
    assert!(compared >= no_room, "most pairs are to be compared");
}

/// Requests of one sort, each made for what those before it leave. Those that meet outcome 11 by
/// themselves are left out, so that most pairs can be compared.
pub fn sequence(
    rng: &mut Rng,
    fresh: &[u8],
    sort: fn(&mut Rng, &Container) -> Request,
) -> Vec<Sent> {
    let mut container = fresh.to_vec();
    let mut sent = Vec::new();
    for _ in 0..rng.below(40) {
        let case = next_request(rng, container.clone(), sort);
        let answer = model::apply(&mut container, &case.request, &mut case.reply.clone());
        if answer.number != 11 {
            sent.push((case.request, case.reply));
        }
    }
    sent
}

/// An order: `true` for the next read or test-and-write, `false` for the next lease request.
pub fn weave(rng: &mut Rng, data: &[Sent], leases: &[Sent]) -> Vec<bool> {
    let mut way = vec![true; data.len()];
    match rng.below(10) {
        // one sort after the other
        0 => way.extend(vec![false; leases.len()]),
        1 => way.splice(0..0, vec![false; leases.len()]).for_each(drop),
        _ => {
            for _ in leases {
                way.insert(rng.below(way.len() + 1), false);
            }
        }
    }
    way
}

struct Run {
    data: Vec<Answered>,
    leases: Vec<Answered>,
    container: Vec<u8>,
}

fn history(
    checker: &mut Checker,
    fresh: &[u8],
    data: &[Sent],
    leases: &[Sent],
    way: &[bool],
) -> Run {
    let (mut next_data, mut next_lease) = (data.iter(), leases.iter());
    let mut run = Run {
        data: Vec::new(),
        leases: Vec::new(),
        container: fresh.to_vec(),
    };
    for is_data in way {
        let (next, answered) = match is_data {
            true => (next_data.next(), &mut run.data),
            false => (next_lease.next(), &mut run.leases),
        };
        let (request, reply) = next.expect("the way has as many as there are");
        let mut case = Case {
            container: run.container,
            request: request.clone(),
            reply: reply.clone(),
        };
        let answer = checker.apply(&mut case);
        answered.push((answer, case.reply));
        run.container = case.container;
    }
    run
}

//! Whole histories: thousands of requests on one container, each finding what the one before
//! left, and at the end every data byte as Histories in docs/RULES.md tells it, and the count where
//! the longest data ended.

use crate::case::Case;
use crate::checker::Checker;
use crate::containers::MAX_LENGTH;
use crate::offsets::{appends, Named};
use crate::requests;
use crate::rng::Rng;
use beamsatchel_model::{grow, place, Container, Request, TestAndWrite};
use std::ops::Range;

const REQUESTS: u64 = 3000;

pub fn run(cases: u64, rng: &mut Rng, checker: &mut Checker) {
    for _ in 0..cases.div_ceil(REQUESTS) {
        // Most are tight enough that now and then there is no room.
        let length = match rng.below(10) {
            0..7 => rng.within(472..=1500),
            7..9 => rng.within(1500..=6500),
            _ => rng.pick(&[472, 473, 564, MAX_LENGTH]),
        };
        let mut container = create(length, rng, checker);
        let mut accepted: Vec<Accepted> = Vec::new();
        for _ in 0..REQUESTS {
            let mut case = next_request(rng, container, requests::any);
            let answer = checker.apply(&mut case);
            if answer.number == 0 && case.request[0] == 1 {
                let size = accepted.last().map_or(0, |last| last.size);
                accepted.push(Accepted::on(size, test_and_write(&case.request)));
                if appends(&case.request) {
                    checker.tally.named([Named::AppendInHistory]);
                }
            }
            container = case.container;
        }
        let parts = Container::from_bytes(&container).expect("well formed");
        assert_eq!(parts.data, data_of(&accepted), "data after a history");
        let longest = accepted.iter().map(|request| request.size).max();
        let count = 468 + longest.unwrap_or(0);
        assert_eq!(parts.count(), count, "the count after a history");
    }
}

/// A test-and-write that was accepted.
pub fn test_and_write(request: &[u8]) -> TestAndWrite {
    match Request::from_bytes(request) {
        Some(Request::TestAndWrite(request)) => request,
        other => panic!("accepted as a test-and-write: {other:?}"),
    }
}

/// A test-and-write that was accepted.
struct Accepted {
    request: TestAndWrite,
    /// Where its writes went.
    places: Vec<Range<u64>>,
    /// The size that it left: its writes raise it, and its cut lowers it.
    size: u64,
}

impl Accepted {
    /// On data of the size that the requests before it left. What it names depends on nothing else.
    fn on(size: u64, request: TestAndWrite) -> Accepted {
        let places = place(&request.writes, size).expect("or it was refused");
        let raised = places.iter().fold(size, grow);
        Accepted {
            size: request.cut.map_or(raised, |cut| raised.min(u64::from(cut))),
            places,
            request,
        }
    }
}

/// A fresh container.
pub fn create(length: usize, rng: &mut Rng, checker: &mut Checker) -> Vec<u8> {
    let mut container = rng.bytes(length);
    let answer = checker.create(&mut container, &[7; 20], &[0xEE; 32]);
    assert_eq!(answer.number, 0);
    container
}

/// A case with a request for a well-formed container, now and then a broken one.
pub fn next_request(
    rng: &mut Rng,
    container: Vec<u8>,
    sort: fn(&mut Rng, &Container) -> Request,
) -> Case {
    let parts = Container::from_bytes(&container).expect("well formed");
    let request = sort(rng, &parts);
    let (request, reply) = bytes_for(rng, &request, &parts);
    Case {
        container,
        request,
        reply,
    }
}

/// The bytes of a request for a well-formed container, now and then of a broken one, and reply space for it.
pub fn bytes_for(rng: &mut Rng, request: &Request, container: &Container) -> (Vec<u8>, Vec<u8>) {
    let length = requests::reply_length(request, container);
    let bytes = match rng.below(100) {
        0..95 => requests::encode(request),
        _ => requests::broken(rng, request),
    };
    (bytes, requests::reply_space(rng, length))
}

/// The data after a history, from its accepted test-and-writes alone: a byte is what was written
/// there last, unless a later cut took it.
fn data_of(accepted: &[Accepted]) -> Vec<u8> {
    let size = accepted.last().map_or(0, |last| last.size);
    (0..size)
        .map(|position| byte_at(position, accepted))
        .collect()
}

/// Looks for the byte from the last request back; a request's cut follows its writes.
fn byte_at(position: u64, accepted: &[Accepted]) -> u8 {
    for Accepted {
        places, request, ..
    } in accepted.iter().rev()
    {
        let TestAndWrite { writes, cut, .. } = request;
        if cut.is_some_and(|cut| u64::from(cut) <= position) {
            return 0;
        }
        let mut written = writes.iter().zip(places).rev();
        if let Some((write, place)) = written.find(|(_, place)| place.contains(&position)) {
            return write.data[(position - place.start) as usize];
        }
    }
    0
}

//! Two containers that differ in slack and buffer length alone: each request gets the same answer and reply from both
//! and leaves them differing in these alone, unless one of them meets outcome 11.

use crate::case::Case;
use crate::checker::Checker;
use crate::histories::next_request;
use crate::offsets::{appends, Named};
use crate::rng::Rng;
use crate::slacks::Slack;
use crate::{containers, requests};
use beamsatchel_model::Container;

pub fn run(cases: u64, rng: &mut Rng, checker: &mut Checker) {
    let until = checker.tally.cases + cases;
    let (mut compared, mut no_room) = (0, 0);
    while checker.tally.cases < until {
        let one = containers::any(rng);
        let mut ways = [one.to_bytes(), apart(rng, &one).to_bytes()];
        let shares = ways.each_ref().map(|way| checker.share_in_container(way));
        assert_eq!(shares[0], shares[1]);
        for _ in 0..rng.within(1..=12) {
            // Aimed at the one or at the other.
            let aim = rng.below(2);
            let asked = next_request(rng, ways[aim].clone(), requests::any);
            let before = ways.each_ref().map(|way| parts(way));
            let mut cases = ways.map(|container| Case {
                container,
                ..asked.clone()
            });
            let answers = cases.each_mut().map(|case| checker.apply(case));
            let replies = cases.each_ref().map(|case| &case.reply);
            if answers.iter().any(|answer| answer.number == 11) {
                no_room += 1;
                break;
            }
            compared += 1;
            assert_eq!(answers[0], answers[1]);
            assert_eq!(replies[0], replies[1]);
            let after = cases.each_ref().map(|case| parts(&case.container));
            assert_eq!(but_for_slack(&after[0]), but_for_slack(&after[1]));
            let moved = [0, 1].map(|way| after[way].count() != before[way].count());
            if moved[0] != moved[1] {
                checker.tally.slacks(vec![Slack::MovedInOneAlone]);
            }
            let appended = answers[0].number == 0 && appends(&asked.request);
            if appended && before[0].slack != before[1].slack {
                checker.tally.named([Named::AppendBesideOtherSlack]);
            }
            ways = cases.map(|case| case.container);
        }
    }
    println!("{compared} requests got the same from two containers; {no_room} met \"no room\"");
    assert!(compared >= no_room, "most requests are to be compared");
}

/// The same container with other slack, and another length.
fn apart(rng: &mut Rng, container: &Container) -> Container {
    let used = container.used() as usize - container.slack;
    let slack = containers::slack(rng).min(containers::MAX_LENGTH - used);
    let room = rng.pick(&[0, 1, 92, 200, 1000]);
    Container {
        slack,
        length: (used + slack + room).min(containers::MAX_LENGTH),
        ..container.clone()
    }
}

fn parts(bytes: &[u8]) -> Container {
    Container::from_bytes(bytes).expect("well formed")
}

fn but_for_slack(container: &Container) -> Container {
    Container {
        slack: 0,
        length: 0,
        ..container.clone()
    }
}

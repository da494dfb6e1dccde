//! One request on one container beside one list, of any sort.

use super::aimed;
use super::case::ListedCase;
use super::made;
use super::rows::encode;
use crate::case::Case;
use crate::checker::Checker;
use crate::rng::Rng;
use crate::{containers, requests};

pub fn run(cases: u64, rng: &mut Rng, checker: &mut Checker) {
    for _ in 0..cases {
        let mut case = any(rng);
        match rng.chance(10) {
            true => checker.read_listed(&mut case),
            false => checker.apply_listed(&mut case),
        };
    }
}

fn any(rng: &mut Rng) -> ListedCase {
    let container = made::container(rng);
    let rows = made::rows(rng, &container);
    let request = aimed::any(rng, &container, &rows);
    let length = requests::reply_length(&request, &container);
    ListedCase {
        list: match rng.below(100) {
            0..90 => encode(&rows),
            _ => made::bad_list(rng, &rows, &container),
        },
        case: Case {
            container: match rng.below(100) {
                0..97 => container.to_bytes(),
                97..99 => containers::damaged(rng, &container),
                _ => containers::of_wrong_length(rng, &container),
            },
            request: match rng.below(100) {
                0..94 => requests::encode(&request),
                94..98 => requests::broken(rng, &request),
                _ => requests::unknown(rng),
            },
            reply: requests::reply_space(rng, length),
        },
    }
}

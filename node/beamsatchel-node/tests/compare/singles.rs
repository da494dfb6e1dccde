//! One request on one container, of any sort.

use crate::case::Case;
use crate::checker::Checker;
use crate::rng::Rng;
use crate::{containers, requests};

pub fn run(cases: u64, rng: &mut Rng, checker: &mut Checker) {
    for _ in 0..cases {
        checker.apply(&mut any(rng));
    }
}

fn any(rng: &mut Rng) -> Case {
    let container = containers::any(rng);
    let request = requests::any(rng, &container);
    let length = requests::reply_length(&request, &container);
    Case {
        container: match rng.below(100) {
            0..90 => container.to_bytes(),
            90..95 => containers::damaged(rng, &container),
            95..98 => {
                // Anything may come of a changed byte, a good container as well.
                let mut bytes = container.to_bytes();
                let at = rng.below(bytes.len());
                bytes[at] = rng.byte();
                bytes
            }
            _ => containers::of_wrong_length(rng, &container),
        },
        request: match rng.below(100) {
            0..90 => requests::encode(&request),
            90..96 => requests::broken(rng, &request),
            96..98 => {
                let mut bytes = requests::encode(&request);
                let at = rng.below(bytes.len());
                bytes[at] = rng.byte();
                bytes
            }
            _ => requests::unknown(rng),
        },
        reply: requests::reply_space(rng, length),
    }
}

use super::run_case;
use crate::checker::Checker;
use crate::containers::{self, Sizes};
use crate::requests;
use crate::rng::Rng;
use beamsatchel_model::{Container, Lease, Request};

/// 0 to 64 leases, without and with empty places; each lease request at the first, the last and
/// an unknown lease, with no room, room for one lease but for one byte, and for one, beside slack in
/// which a lease would have room.
pub fn run(rng: &mut Rng, checker: &mut Checker) {
    for count in 0..=64 {
        for (slack, room) in [
            (0, 0),
            (0, 91),
            (0, 92),
            (1, 91),
            (92, 0),
            (92, 91),
            (92, 92),
        ] {
            for emptied in [0, 1, 3, count] {
                let sizes = Sizes {
                    data: 3,
                    slack,
                    extras: 0,
                    room,
                };
                let mut container = containers::with_own_tokens(rng, count, sizes);
                for _ in 0..emptied.min(count) {
                    let slot = rng.below(container.places.len());
                    // The last extra keeps its owner.
                    if slot < 4 || slot + 1 < container.places.len() {
                        container.places[slot] = None;
                    }
                }
                lease_requests(rng, checker, &container);
            }
        }
    }
}

fn lease_requests(rng: &mut Rng, checker: &mut Checker, container: &Container) {
    let bytes = container.to_bytes();
    let mut tokens = vec![(containers::own_token(255), containers::own_token(255))];
    tokens.push(([0; 32], [0; 32]));
    for lease in container.leases().take(1).chain(container.leases().last()) {
        tokens.push((lease.renewal, lease.cancel));
    }
    for (renewal, cancel) in tokens {
        let lease = Lease {
            renewal,
            ..containers::lease(rng)
        };
        for request in [
            Request::Add(lease),
            Request::Renew {
                token: renewal,
                expiry: containers::expiry(rng),
            },
            Request::Cancel { token: cancel },
        ] {
            run_case(checker, &bytes, requests::encode(&request), 3);
        }
    }
}

//! The place of the count, and the slack before it.

use super::{run_case, write};
use crate::case::Case;
use crate::checker::Checker;
use crate::containers::{self, Sizes};
use crate::requests;
use crate::rng::Rng;
use beamsatchel_model::{Container, Request, TestAndWrite};

pub fn run(rng: &mut Rng, checker: &mut Checker) {
    offset_fields(rng, checker);
    far_fields(rng, checker);
    ends_of_data(rng, checker);
}

/// The count at each edge, with its extras behind it: a byte before the data's end, there and behind it, at the last
/// place where they fit and past it. And with slack whose first or last byte is not zero.
fn offset_fields(rng: &mut Rng, checker: &mut Checker) {
    for (data, extras, room) in [
        (0, 0, 0),
        (0, 0, 1),
        (1, 0, 9),
        (5, 1, 0),
        (5, 1, 1),
        (5, 2, 40),
        (60, 3, 100),
        (3, 60, 5),
        (60_000, 0, 5064),
    ] {
        let sizes = Sizes {
            data,
            slack: 0,
            extras,
            room,
        };
        let container = containers::with(rng, sizes, 0);
        let (end, last) = (468 + data, 468 + data + room);
        for offset in (end - 1..=end + 3).chain(last - 1..=last + 4) {
            let bytes = with_count_at(&container, offset);
            let number = look(checker, &bytes);
            assert_eq!(number == 0, (end..=last).contains(&offset));
            if (end + 1..=last).contains(&offset) {
                for at in [end, offset - 1] {
                    let mut bytes = bytes.clone();
                    bytes[at] = rng.not_zero();
                    assert_eq!(look(checker, &bytes), 2);
                }
                // The data's last byte may be anything.
                if data > 0 {
                    let mut bytes = bytes.clone();
                    bytes[end - 1] = rng.not_zero();
                    assert_eq!(look(checker, &bytes), 0);
                }
            }
        }
    }
}

/// Fields where 468+s, or the place behind count and extras, would wrap, beside another that is good.
fn far_fields(rng: &mut Rng, checker: &mut Checker) {
    for (slack, extras) in [(0, 0), (8, 0), (8, 1), (100, 60)] {
        let sizes = Sizes {
            data: 5,
            slack,
            extras,
            room: 20,
        };
        let bytes = containers::with(rng, sizes, 0).to_bytes();
        let end = 4 + 92 * extras as u64;
        for near in [1, 4, 92, end, 468, 472, 473, 473 + slack as u64] {
            for below in near.saturating_sub(2)..=near + 2 {
                for field in [84, 92] {
                    let mut bytes = bytes.clone();
                    let far = 0_u64.wrapping_sub(below.max(1));
                    bytes[field..field + 8].copy_from_slice(&far.to_be_bytes());
                    assert_eq!(look(checker, &bytes), 2);
                }
            }
        }
    }
}

/// Every size at and beside the data's end, the slack's and the buffer's: by a write at the end, past a gap, far past
/// the slack with a cut, and by a cut alone.
fn ends_of_data(rng: &mut Rng, checker: &mut Checker) {
    for (data, slack, extras, room) in [
        (0, 1, 0, 0),
        (5, 1, 0, 3),
        (5, 2, 1, 0),
        (5, 8, 1, 1),
        (5, 8, 2, 200),
        (100, 92, 3, 91),
        (100, 300, 0, 0),
    ] {
        let sizes = Sizes {
            data,
            slack,
            extras,
            room,
        };
        let container = Container {
            enabler: super::ENABLER,
            ..containers::with(rng, sizes, 0)
        };
        let (slack_end, most) = (data + slack, data + slack + room);
        let edges = [0, data, slack_end, most];
        for size in edges
            .iter()
            .flat_map(|edge| edge.saturating_sub(2)..=edge + 2)
        {
            let far = write(most as i32 + 50, b"far".to_vec());
            let mut asked = vec![
                TestAndWrite {
                    cut: Some(size as u32),
                    ..far
                },
                TestAndWrite {
                    cut: Some(size as u32),
                    ..write(0, Vec::new())
                },
            ];
            if size > data {
                asked.push(write(data as i32, rng.letters(size - data)));
                asked.push(write(size as i32 - 1, b"Z".to_vec()));
            }
            for request in asked {
                let mut case = Case {
                    container: container.to_bytes(),
                    request: requests::encode(&Request::TestAndWrite(request)),
                    reply: Vec::new(),
                };
                let number = checker.apply(&mut case).number;
                if number == 11 {
                    assert!(size > most);
                    continue;
                }
                let after = Container::from_bytes(&case.container).expect("well formed");
                let size = after.data.len();
                assert_eq!((number, after.slack), (0, slack_end.max(size) - size));
                assert!(size <= most);
            }
        }
    }
}

/// The bytes of a container without slack whose count, with the extras behind it, is at another place, as far as they
/// fit.
fn with_count_at(container: &Container, offset: usize) -> Vec<u8> {
    let mut bytes = container.to_bytes();
    let (count, used) = (container.count() as usize, container.used() as usize);
    let behind = bytes[count..used].to_vec();
    bytes[count..used].fill(0);
    if let Some(place) = bytes.get_mut(offset..) {
        let there = behind.len().min(place.len());
        place[..there].copy_from_slice(&behind[..there]);
    }
    bytes[92..100].copy_from_slice(&(offset as u64).to_be_bytes());
    bytes
}

/// The outcome of a read of nothing; the check of the container is compared too.
fn look(checker: &mut Checker, bytes: &[u8]) -> u32 {
    checker.share_in_container(bytes);
    run_case(checker, bytes, vec![5, 0, 0, 0], 0)
}

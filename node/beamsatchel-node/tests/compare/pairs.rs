//! Every two outcomes of a request that can apply together: a case with the one flaw gives the
//! one, with the other flaw the other, and with both the lower.

use crate::calls::{Call, Kind};
use crate::case::Case;
use crate::checker::Checker;
use crate::containers::{self, Sizes};
use crate::requests;
use crate::rng::Rng;
use beamsatchel_model::{grow, place, Container, Lease, Read, Request, Test, TestAndWrite, Write};

pub fn run(rounds: u64, rng: &mut Rng, checker: &mut Checker) {
    for kind in Kind::ALL {
        let call = Call::Apply(kind);
        for pair @ (low, high) in call.pairs() {
            for &slack in call.slacks() {
                for round in 0..(rounds / 2).max(10) {
                    let reaching = Reaching::of_round(round);
                    for (flaws, number) in [(&[low][..], low), (&[high], high), (&[low, high], low)]
                    {
                        let has = |flaw: u32| flaws.contains(&flaw);
                        let slack = slack.some(rng);
                        let (container, request) = parts(kind, &has, slack, reaching, rng);
                        let mut case = case(kind, &has, &container, &request, rng);
                        let answer = checker.apply(&mut case);
                        assert_eq!(
                            answer.number, number,
                            "{call:?} with flaws {flaws:?}, {reaching:?}"
                        );
                    }
                    checker.tally.pair(call, slack, pair);
                }
            }
        }
    }
}

/// What of a test-and-write reaches before the start of the data where flaw 4 is wanted.
#[derive(Clone, Copy, Debug)]
pub enum Reaching {
    Test,
    /// It would not on the data that the writes leave.
    TestDespiteGrowth,
    /// A write that meets the data as it is.
    Write,
    /// One behind another that makes the data grow, and not enough.
    WriteDespiteGrowth,
    /// One behind another that would make it grow enough, but is empty.
    WriteBehindEmpty,
}

impl Reaching {
    const ALL: [Reaching; 5] = [
        Reaching::Test,
        Reaching::TestDespiteGrowth,
        Reaching::Write,
        Reaching::WriteDespiteGrowth,
        Reaching::WriteBehindEmpty,
    ];

    /// Each in turn.
    pub fn of_round(round: u64) -> Reaching {
        Reaching::ALL[round as usize % Reaching::ALL.len()]
    }
}

/// A container and a request of a kind with these flaws, each named by its outcome, but for those of their bytes: a
/// broken container, a broken request, too little reply space.
pub fn parts(
    kind: Kind,
    has: &dyn Fn(u32) -> bool,
    slack: usize,
    reaching: Reaching,
    rng: &mut Rng,
) -> (Container, Request) {
    match kind {
        Kind::TestAndWrite => {
            let container = small_container(slack, rng);
            let request = test_and_write(has, &container, reaching, rng);
            (container, Request::TestAndWrite(request))
        }
        Kind::Add => add(has, slack, rng),
        Kind::Renew | Kind::Cancel => renew_or_cancel(kind, has, slack, rng),
        Kind::Read | Kind::Unknown => read(has, slack, rng),
    }
}

/// Their bytes, with the flaws of these.
pub fn case(
    kind: Kind,
    has: &dyn Fn(u32) -> bool,
    container: &Container,
    request: &Request,
    rng: &mut Rng,
) -> Case {
    let needed = requests::reply_length(request, container);
    let space = if has(7) {
        rng.below(needed)
    } else {
        needed + rng.pick(&[0, 0, 1, 50])
    };
    Case {
        reply: rng.bytes(space),
        request: match (kind, has(3)) {
            // An unknown kind breaks the format whether it is asked to or not.
            (Kind::Unknown, _) => requests::unknown(rng),
            (_, true) => requests::broken(rng, request),
            (_, false) => requests::encode(request),
        },
        container: container_bytes(has, container, rng),
    }
}

/// The container's bytes with flaws 1 and 2 where they are wanted; beside slack, 2 is for the slack.
fn container_bytes(has: &dyn Fn(u32) -> bool, container: &Container, rng: &mut Rng) -> Vec<u8> {
    match (has(1), has(2)) {
        (false, false) => container.to_bytes(),
        (false, true) if container.slack > 0 => containers::with_bad_slack(rng, container),
        (false, true) => containers::damaged(rng, container),
        (true, false) => containers::of_wrong_length(rng, container),
        (true, true) => {
            let mut bytes = containers::of_wrong_length(rng, container);
            bytes.iter_mut().take(1).for_each(|byte| *byte ^= 1);
            bytes
        }
    }
}

fn small_container(slack: usize, rng: &mut Rng) -> Container {
    let sizes = Sizes {
        data: rng.below(60),
        slack,
        extras: rng.below(3),
        room: rng.within(30..=100),
    };
    containers::with(rng, sizes, 20)
}

/// A test-and-write for a container, with these flaws.
pub fn test_and_write(
    has: &dyn Fn(u32) -> bool,
    container: &Container,
    reaching: Reaching,
    rng: &mut Rng,
) -> TestAndWrite {
    let size = container.data.len();
    let room = container.slack + container.length - container.used() as usize;
    let mut enabler = container.enabler;
    if has(5) {
        enabler[rng.below(32)] ^= 1 << rng.below(8);
    }
    // A test that holds, whatever its piece, so that there is a reply.
    let at = rng.below(size + 1);
    let mut tests = vec![Test {
        offset: at as i32,
        length: rng.below(20) as u32,
        opcode: 5,
        specimen: Vec::new(),
    }];
    let at = rng.below(size + 1);
    let count = rng.below(10);
    let mut writes = vec![write_at(at as u64, &rng.letters(count))];
    if has(8) {
        tests.push(Test {
            offset: rng.pick(&[0, size as i32, i32::MAX]),
            length: 3,
            opcode: 1,
            specimen: Vec::new(),
        });
    }
    if has(11) {
        let past = rng.pick(&[1, 1, 2, 70_000]);
        writes.push(write_at((size + room + past - 1) as u64, b"Z"));
    }
    if has(4) {
        reach_before_start(reaching, size as u64, &mut tests, &mut writes, rng);
    }
    TestAndWrite {
        enabler,
        tests,
        writes,
        cut: None,
    }
}

/// Adds a test or a write that reaches before the start of the data, whose size before the request is this.
fn reach_before_start(
    reaching: Reaching,
    size: u64,
    tests: &mut Vec<Test>,
    writes: &mut Vec<Write>,
    rng: &mut Rng,
) {
    // What is before the start, but would not be with up to so many bytes more.
    let lacking = |rng: &mut Rng, bytes: usize| -2 - size as i32 - rng.below(bytes) as i32;
    let offset = match reaching {
        Reaching::Test | Reaching::Write => before_start(rng, size),
        Reaching::TestDespiteGrowth => {
            writes.push(write_at(size + 7, b"Y"));
            lacking(rng, 8)
        }
        Reaching::WriteDespiteGrowth => {
            writes.push(write_at(size + 7, b"Y"));
            let places = place(writes, size).expect("none before the start");
            before_start(rng, places.iter().fold(size, grow))
        }
        Reaching::WriteBehindEmpty => {
            writes.insert(0, write_at(size + 20, b""));
            lacking(rng, 20)
        }
    };
    // An entry that would do nothing counts as well.
    let turn = match reaching {
        Reaching::Test | Reaching::TestDespiteGrowth => {
            let test = Test {
                offset,
                length: rng.pick(&[0, 1]),
                opcode: 5,
                specimen: Vec::new(),
            };
            return tests.insert(rng.below(tests.len() + 1), test);
        }
        Reaching::Write => 0,
        Reaching::WriteDespiteGrowth => writes.len(),
        Reaching::WriteBehindEmpty => 1,
    };
    let data = rng.pick(&[&b""[..], b"Z"]).to_vec();
    writes.insert(turn, Write { offset, data });
}

/// An offset that reaches before the start of so much data: by a byte, by more, by as much as it can.
fn before_start(rng: &mut Rng, size: u64) -> i32 {
    let by_a_byte = -2 - size as i32;
    let by_more = by_a_byte - rng.within(1..=60) as i32;
    rng.pick(&[by_a_byte, by_a_byte, by_more, i32::MIN])
}

pub fn write_at(position: u64, data: &[u8]) -> Write {
    Write {
        offset: position as i32,
        data: data.to_vec(),
    }
}

fn add(has: &dyn Fn(u32) -> bool, slack: usize, rng: &mut Rng) -> (Container, Request) {
    // 10 needs all 64 leases; 11 needs all places taken and no room for another extra.
    let leases = match (has(10), has(11)) {
        (true, _) => 64,
        (false, true) => rng.within(4..=63),
        (false, false) => rng.within(0..=63),
    };
    let room = if has(11) {
        rng.below(92)
    } else {
        rng.within(92..=200)
    };
    let container = leased(leases, slack, room, rng);
    let request = Request::Add(Lease {
        renewal: containers::own_token(255),
        ..containers::lease(rng)
    });
    (container, request)
}

/// A container with so many leases, each with tokens of its own.
fn leased(leases: usize, slack: usize, room: usize, rng: &mut Rng) -> Container {
    let sizes = Sizes {
        data: rng.below(60),
        slack,
        extras: 0,
        room,
    };
    containers::with_own_tokens(rng, leases, sizes)
}

fn renew_or_cancel(
    kind: Kind,
    has: &dyn Fn(u32) -> bool,
    slack: usize,
    rng: &mut Rng,
) -> (Container, Request) {
    let leases = rng.within(1..=10);
    let room = rng.below(100);
    let container = leased(leases, slack, room, rng);
    let slot = rng.below(leases);
    let request = match (kind, has(9)) {
        (Kind::Renew, false) => Request::Renew {
            token: containers::own_token(slot),
            expiry: containers::expiry(rng),
        },
        // The other token of a lease does not do.
        (Kind::Renew, true) => Request::Renew {
            token: containers::own_token(100 + slot),
            expiry: containers::expiry(rng),
        },
        (_, false) => Request::Cancel {
            token: containers::own_token(100 + slot),
        },
        (_, true) => Request::Cancel {
            token: containers::own_token(slot),
        },
    };
    (container, request)
}

fn read(has: &dyn Fn(u32) -> bool, slack: usize, rng: &mut Rng) -> (Container, Request) {
    let container = small_container(slack, rng);
    let size = container.data.len();
    let start = rng.below(size + 1);
    // Inside the data or up to its end, and across the end or past it: neither is a flaw.
    let mut reads = vec![Read {
        offset: start as i32,
        length: rng.below(size - start + 1) as u32,
    }];
    if rng.chance(50) {
        let (offset, length) = rng.pick(&[
            (size as i32, 1),
            (size as i32 + 1, 0),
            (0, size as u32 + 1),
            (i32::MAX, u32::MAX),
        ]);
        reads.push(Read { offset, length });
    }
    if has(4) {
        let read = Read {
            offset: before_start(rng, size as u64),
            length: rng.pick(&[0, 1, 2]),
        };
        reads.insert(rng.below(reads.len() + 1), read);
    }
    (container, Request::Read(reads))
}

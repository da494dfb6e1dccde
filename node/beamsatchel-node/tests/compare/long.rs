//! Containers that are longer than a request can be, up to the longest and one byte past it. Each case costs many
//! passes over 16 MiB, so there are few, and each is aimed at an edge.

use crate::case::Case;
use crate::checker::Checker;
use crate::containers;
use crate::histories;
use crate::requests;
use crate::rng::Rng;
use beamsatchel_model::{
    grow, place, Container, Lease, Read, Request, Test, TestAndWrite, Write, LONGEST_REQUEST,
};

/// The most bytes of a container's buffer.
const LONGEST: usize = 16_777_216;

pub fn run(rng: &mut Rng, checker: &mut Checker) {
    let between = rng.within(LONGEST_REQUEST + 2..=LONGEST - 2);
    creates(rng, checker, between);
    for length in [LONGEST_REQUEST + 1, rng.within(1 << 17..=1 << 21), between] {
        for layout in Layout::ALL {
            let container = layout.container(rng, length);
            on_container(rng, checker, &container);
        }
    }
    for layout in Layout::ALL {
        let mut container = layout.container(rng, LONGEST);
        on_container(rng, checker, &container);
        // With a byte less of buffer, and with a byte more.
        if container.used() < LONGEST as u64 {
            container.length = LONGEST - 1;
            fitting(rng, checker, &container);
        }
        container.length = LONGEST + 1;
        too_long(rng, checker, &container);
    }
    history(rng, checker);
}

/// What a long container, or a request on one, was like.
#[derive(Clone, Copy, Debug, PartialEq, Eq, PartialOrd, Ord)]
pub enum Long {
    /// By the buffer's length.
    Between,
    OneLess,
    Longest,
    OneMore,
    /// By what lies in the buffer, where it is well formed: more than a request's length of it.
    Data,
    DataBeforeExtras,
    Slack,
    SlackBeforeExtras,
    Tail,
    /// Refused with 2, for the last byte of the longest buffer alone.
    LastByteNotZero,
    /// The data grew by more than a request's length: count and extras moved.
    FarGrowth,
    FarGrowthOfExtras,
    /// They ended with the longest buffer.
    FarGrowthFits,
    /// In the longest buffer a byte was missing for it.
    FarGrowthLacksAByte,
    /// It grew so inside the slack.
    FarGrowthInSlack,
    /// The size on the way was more than the longest buffer, and the cut took that back.
    FarOnTheWay,
    /// A cut took more than a request's length.
    FarCut,
    FarCutBesideExtras,
    /// Behind data or slack of such a length.
    AddedExtra,
    RenewedExtra,
    CancelledExtra,
    /// A test or a read had a piece of such a length.
    TestPiece,
    ReadPiece,
    /// The test was false.
    FalseTestPiece,
    /// The reply space was too short for it.
    TestPieceLacksSpace,
    ReadPieceLacksSpace,
    /// Such data was looked at from its first byte on, counted from the end, or refused for a byte before.
    TestFromTheEnd,
    ReadFromTheEnd,
    TestBeforeTheStart,
    ReadBeforeTheStart,
    /// The last write of a far growth was an append: up to the end of the longest buffer, or a byte too long.
    AppendFits,
    AppendLacksAByte,
}

impl Long {
    pub const ALL: [Long; 32] = [
        Long::Between,
        Long::OneLess,
        Long::Longest,
        Long::OneMore,
        Long::Data,
        Long::DataBeforeExtras,
        Long::Slack,
        Long::SlackBeforeExtras,
        Long::Tail,
        Long::LastByteNotZero,
        Long::FarGrowth,
        Long::FarGrowthOfExtras,
        Long::FarGrowthFits,
        Long::FarGrowthLacksAByte,
        Long::FarGrowthInSlack,
        Long::FarOnTheWay,
        Long::FarCut,
        Long::FarCutBesideExtras,
        Long::AddedExtra,
        Long::RenewedExtra,
        Long::CancelledExtra,
        Long::TestPiece,
        Long::ReadPiece,
        Long::FalseTestPiece,
        Long::TestPieceLacksSpace,
        Long::ReadPieceLacksSpace,
        Long::TestFromTheEnd,
        Long::ReadFromTheEnd,
        Long::TestBeforeTheStart,
        Long::ReadBeforeTheStart,
        Long::AppendFits,
        Long::AppendLacksAByte,
    ];

    /// What a case met that was answered with this number.
    pub fn of_case(before: &Case, number: u32, after: &Case) -> Vec<Long> {
        let mut met = match before.container.len() {
            ..=LONGEST_REQUEST => return Vec::new(),
            LONGEST => vec![Long::Longest],
            length if length == LONGEST - 1 => vec![Long::OneLess],
            length if length == LONGEST + 1 => vec![Long::OneMore],
            ..LONGEST => vec![Long::Between],
            _ => Vec::new(),
        };
        match Container::from_bytes(&before.container) {
            Some(old) => {
                met.extend(lying_in(&old));
                met.extend(of_request(&old, before, number, after));
            }
            None => met.extend(of_last_byte(&before.container)),
        }
        met
    }
}

fn is_long(count: usize) -> bool {
    count > LONGEST_REQUEST
}

/// What lies in a long container.
fn lying_in(container: &Container) -> Vec<Long> {
    let extras = container.extras() > 0;
    let mut met = Vec::new();
    if is_long(container.data.len()) {
        met.push(Long::Data);
        met.extend(extras.then_some(Long::DataBeforeExtras));
    }
    if is_long(container.slack) {
        met.push(Long::Slack);
        met.extend(extras.then_some(Long::SlackBeforeExtras));
    }
    met.extend(is_long(container.length - container.used() as usize).then_some(Long::Tail));
    met
}

/// What a request did to a long container.
fn of_request(old: &Container, before: &Case, number: u32, after: &Case) -> Vec<Long> {
    let Some(request) = Request::from_bytes(&before.request) else {
        return Vec::new();
    };
    let new = Container::from_bytes(&after.container).expect("well formed");
    let behind_much = is_long(old.data.len() + old.slack);
    let mut met: Vec<Long> = of_pieces(old, &request, number).into_iter().collect();
    met.extend(of_first_byte(old, &request, number));
    match (request, number) {
        (Request::TestAndWrite(asked), 0) => met.extend(of_writes(old, &asked, &new)),
        (Request::TestAndWrite(asked), 11) if old.length == LONGEST => {
            let appended = ends_with_append(&asked);
            if lacks_a_byte(old, before, asked) {
                met.push(Long::FarGrowthLacksAByte);
                met.extend(appended.then_some(Long::AppendLacksAByte));
            }
        }
        (Request::Add(_), 0) if behind_much && new.extras() > old.extras() => {
            met.push(Long::AddedExtra)
        }
        (Request::Renew { .. }, 0) if behind_much && new.places[4..] != old.places[4..] => {
            met.push(Long::RenewedExtra)
        }
        (Request::Cancel { .. }, 0) if behind_much && new.extras() < old.extras() => {
            met.push(Long::CancelledExtra)
        }
        _ => {}
    }
    met
}

/// What a test-and-write that was done made of the data.
fn of_writes(old: &Container, asked: &TestAndWrite, new: &Container) -> Vec<Long> {
    let extras = old.extras() > 0;
    let grown = new.data.len().saturating_sub(old.data.len());
    let cut = old.data.len().saturating_sub(new.data.len());
    let mut met = Vec::new();
    if is_long(grown) && new.count() > old.count() {
        met.push(Long::FarGrowth);
        met.extend(extras.then_some(Long::FarGrowthOfExtras));
        if new.used() == LONGEST as u64 {
            met.push(Long::FarGrowthFits);
            met.extend(ends_with_append(asked).then_some(Long::AppendFits));
        }
    }
    if is_long(grown) && new.count() == old.count() {
        met.push(Long::FarGrowthInSlack);
    }
    if is_long(cut) {
        met.push(Long::FarCut);
        met.extend(extras.then_some(Long::FarCutBesideExtras));
    }
    let size = old.data.len() as u64;
    let places = place(&asked.writes, size).expect("or it was refused");
    let far = places.iter().fold(size, grow) > LONGEST as u64;
    met.extend(far.then_some(Long::FarOnTheWay));
    met
}

/// What became of a piece of more than a request's length.
fn of_pieces(old: &Container, request: &Request, number: u32) -> Option<Long> {
    let size = old.data.len();
    let mut extents = requests::extents(request, size).into_iter();
    let long = extents.any(|(position, length)| {
        let rest = size.saturating_sub(position as usize);
        is_long(rest.min(length as usize))
    });
    let met = match (request, number) {
        (Request::TestAndWrite(_), 0) => Long::TestPiece,
        (Request::TestAndWrite(_), 8) => Long::FalseTestPiece,
        (Request::TestAndWrite(_), 7) => Long::TestPieceLacksSpace,
        (Request::Read(_), 0) => Long::ReadPiece,
        (Request::Read(_), 7) => Long::ReadPieceLacksSpace,
        _ => return None,
    };
    long.then_some(met)
}

/// Whether a lone test or read of long data began at its first byte, counted from the end, or one before it.
fn of_first_byte(old: &Container, request: &Request, number: u32) -> Option<Long> {
    let size = old.data.len();
    let (offset, [from_end, before_start]) = match request {
        Request::TestAndWrite(request) => (
            request.tests.first()?.offset,
            [Long::TestFromTheEnd, Long::TestBeforeTheStart],
        ),
        Request::Read(reads) => (
            reads.first()?.offset,
            [Long::ReadFromTheEnd, Long::ReadBeforeTheStart],
        ),
        _ => return None,
    };
    let first_byte = -1 - size as i32;
    match number {
        0 if offset == first_byte => is_long(size).then_some(from_end),
        4 if offset == first_byte - 1 => is_long(size).then_some(before_start),
        _ => None,
    }
}

fn ends_with_append(asked: &TestAndWrite) -> bool {
    asked.writes.last().is_some_and(|write| write.offset == -1)
}

/// Whether the request would be done, and make the data grow by more than a request's length, without the last byte of
/// its last write.
fn lacks_a_byte(old: &Container, before: &Case, mut asked: TestAndWrite) -> bool {
    asked.writes.last_mut().expect("it grew").data.pop();
    let mut case = before.clone();
    case.request = requests::encode(&Request::TestAndWrite(asked));
    beamsatchel_model::apply(&mut case.container, &case.request, &mut case.reply);
    let new = Container::from_bytes(&case.container).expect("well formed");
    is_long(new.data.len() - old.data.len())
}

fn of_last_byte(container: &[u8]) -> Option<Long> {
    let mut changed = container.to_vec();
    let last = changed.last_mut().filter(|last| **last != 0)?;
    *last = 0;
    let good = container.len() == LONGEST && Container::from_bytes(&changed).is_some();
    good.then_some(Long::LastByteNotZero)
}

/// What fills a long buffer.
#[derive(Clone, Copy)]
enum Layout {
    /// Data, up to all 64 leases at the end.
    Data,
    /// Zeros behind a few extras.
    Tail,
    /// Slack before a few extras.
    Slack,
    /// A third each.
    Each,
}

impl Layout {
    const ALL: [Layout; 4] = [Layout::Data, Layout::Tail, Layout::Slack, Layout::Each];

    fn container(self, rng: &mut Rng, length: usize) -> Container {
        let third = length / 3 - 2000;
        let (extras, data, slack) = match self {
            Layout::Data => (60, length - 472 - 92 * 60, 0),
            Layout::Tail => (2, 5, 0),
            Layout::Slack => (3, 5, length - 472 - 92 * 3 - 200 - 5),
            Layout::Each => (1, third, third),
        };
        let lease = |rng: &mut Rng, place: usize| Lease {
            renewal: containers::own_token(place),
            cancel: containers::own_token(100 + place),
            ..containers::lease(rng)
        };
        Container {
            length,
            node: rng.array(),
            enabler: [0xEE; 32],
            data: rng.letters(data),
            slack,
            places: (0..4 + extras)
                .map(|place| Some(lease(rng, place)))
                .collect(),
        }
    }
}

/// Create at and one past the edge, in zeros and in any bytes, with a node id that is too short and over a container.
fn creates(rng: &mut Rng, checker: &mut Checker, between: usize) {
    for length in [between, LONGEST - 1, LONGEST, LONGEST + 1, LONGEST + 2] {
        for mut buffer in [vec![0; length], rng.bytes(length)] {
            buffer[0] &= 0x7F;
            let too_long = length > LONGEST;
            let number = checker.create(&mut buffer, &[7; 19], &[0xEE; 32]).number;
            assert_eq!(number, if too_long { 1 } else { 3 });
            let number = checker.create(&mut buffer, &[7; 20], &[0xEE; 32]).number;
            assert_eq!(number, u32::from(too_long));
            let number = checker.create(&mut buffer, &[7; 20], &[0xEE; 32]).number;
            assert_eq!(number, if too_long { 1 } else { 12 });
        }
    }
}

/// All that is asked of a well-formed container, and the same container damaged.
fn on_container(rng: &mut Rng, checker: &mut Checker, container: &Container) {
    fitting(rng, checker, container);
    cutting(rng, checker, container);
    leasing(rng, checker, container);
    looking(rng, checker, container);
    for _ in 0..2 {
        let request = requests::any(rng, container);
        run_request(checker, container, &request);
    }
    let mut damaged = vec![containers::damaged(rng, container)];
    if container.used() < container.length as u64 {
        let mut bytes = container.to_bytes();
        *bytes.last_mut().expect("long") = rng.not_zero();
        damaged.push(bytes);
    }
    for bytes in damaged {
        checker.share_in_container(&bytes);
        let number = run_bytes(checker, bytes, vec![5, 0, 0, 0], 0);
        assert_eq!(number, 2);
    }
    checker.share_in_container(&container.to_bytes());
}

/// Growth to the last byte that there is and one past it: by a write past a gap, by a longer one, by an append behind
/// one, by one far past the buffer with a cut.
fn fitting(rng: &mut Rng, checker: &mut Checker, container: &Container) {
    let (size, extras) = (container.data.len(), container.extras());
    let most = container.length - 472 - 92 * extras;
    for (last, number) in [(most, 0), (most + 1, 11)] {
        let start = size.max(last.saturating_sub(60_000));
        let mut asked = vec![TestAndWrite {
            cut: Some(last as u32),
            ..write(i32::MAX - 2, b"far")
        }];
        if size < last {
            asked.push(write(last as i32 - 1, b"Z"));
            asked.push(write(start as i32, &rng.letters(last - start)));
            // The first one ends where the append begins.
            let mut appended = write(start.saturating_sub(1) as i32, b"Y");
            appended
                .writes
                .extend(write(-1, &rng.letters(last - start)).writes);
            asked.push(appended);
        }
        for request in asked {
            assert_eq!(
                run_request(checker, container, &Request::TestAndWrite(request)),
                number
            );
        }
    }
    // Inside the slack, with a gap of all of it but a byte.
    if container.slack > 0 {
        let last = size + container.slack - 1;
        let request = Request::TestAndWrite(write(last as i32, b"Y"));
        assert_eq!(run_request(checker, container, &request), 0);
    }
}

/// Cuts to nothing, to half, and by a byte, alone and with a write across the cut.
fn cutting(rng: &mut Rng, checker: &mut Checker, container: &Container) {
    let size = container.data.len();
    for (new_length, across) in [(0, false), (size / 2, true), (size - 1, false)] {
        let bytes = rng.letters(if across { 60_000.min(size) } else { 0 });
        let start = new_length.saturating_sub(bytes.len() / 2);
        let request = TestAndWrite {
            cut: Some(new_length as u32),
            ..write(start as i32, &bytes)
        };
        assert_eq!(
            run_request(checker, container, &Request::TestAndWrite(request)),
            0
        );
    }
}

/// The last lease renewed and cancelled, and one more added.
fn leasing(rng: &mut Rng, checker: &mut Checker, container: &Container) {
    let last = container.places.len() - 1;
    let renew = Request::Renew {
        token: containers::own_token(last),
        expiry: u32::MAX,
    };
    let cancel = Request::Cancel {
        token: containers::own_token(100 + last),
    };
    let add = Request::Add(Lease {
        renewal: containers::own_token(90),
        ..containers::lease(rng)
    });
    let room = container.length - container.used() as usize;
    let no_place = match container.extras() {
        60 => 10,
        _ if room < 92 => 11,
        _ => 0,
    };
    for (request, number) in [(renew, 0), (cancel, 0), (add, no_place)] {
        assert_eq!(run_request(checker, container, &request), number);
    }
}

/// Pieces that begin at either end of the data, and of all of it; the same counted from the end; tests of all against
/// its first bytes, which hold and do not; and a byte too little space.
fn looking(rng: &mut Rng, checker: &mut Checker, container: &Container) {
    let size = container.data.len();
    let piece = |offset: usize, length: u32| Read {
        offset: offset as i32,
        length,
    };
    let near = vec![
        piece(0, 5),
        piece(size - 3, 10),
        piece(size, 1),
        piece(size / 2, 70_000),
    ];
    let all = Request::Read(vec![piece(rng.below(5), u32::MAX)]);
    for request in [&Request::Read(near), &all] {
        assert_eq!(run_request(checker, container, request), 0);
    }
    assert_eq!(run_with_less_space(checker, container, &all), 7);
    // All of it, from the first byte on, and from a byte before that.
    let first_byte = -1 - size as i32;
    for (offset, number) in [(first_byte, 0), (first_byte - 1, 4)] {
        let length = u32::MAX;
        let read = Request::Read(vec![Read { offset, length }]);
        assert_eq!(run_request(checker, container, &read), number);
        let test = Request::TestAndWrite(TestAndWrite {
            tests: vec![Test {
                offset,
                length,
                opcode: 5,
                specimen: Vec::new(),
            }],
            ..write(-2, b"X")
        });
        assert_eq!(run_request(checker, container, &test), number);
    }
    // The specimen is a prefix, or all of it.
    let specimen = container.data[..size.min(60_000)].to_vec();
    let (holds, fails) = if specimen.len() < size {
        (6, 2)
    } else {
        (3, 4)
    };
    for (opcode, number) in [(holds, 0), (fails, 8)] {
        let request = Request::TestAndWrite(TestAndWrite {
            tests: vec![Test {
                offset: 0,
                length: u32::MAX,
                opcode,
                specimen: specimen.clone(),
            }],
            ..write(size as i32 - 1, b"X")
        });
        assert_eq!(run_request(checker, container, &request), number);
        assert_eq!(run_with_less_space(checker, container, &request), 7);
    }
}

/// Requests one after the other on the longest container, each on what the one before left: samples far apart, appends,
/// cuts, and whatever else.
fn history(rng: &mut Rng, checker: &mut Checker) {
    let mut container = histories::create(LONGEST, rng, checker);
    for turn in 0..24 {
        let parts = Container::from_bytes(&container).expect("well formed");
        let request = match turn % 4 {
            0 => {
                let count = rng.within(1..=200);
                let offset = rng.below(LONGEST - 472 - 92 * 60 - count);
                Request::TestAndWrite(write(offset as i32, &rng.letters(count)))
            }
            1 => {
                let count = rng.within(1..=200);
                Request::TestAndWrite(write(-1, &rng.letters(count)))
            }
            2 => Request::TestAndWrite(TestAndWrite {
                cut: Some(rng.below(parts.data.len() + 1) as u32),
                ..write(0, b"")
            }),
            _ => requests::any(rng, &parts),
        };
        let mut case = Case {
            container,
            reply: vec![0xA5; requests::reply_length(&request, &parts)],
            request: requests::encode(&request),
        };
        checker.apply(&mut case);
        container = case.container;
    }
}

/// Every kind gets 1 from a container that is otherwise good, and so does what would be refused for something else.
fn too_long(rng: &mut Rng, checker: &mut Checker, container: &Container) {
    let good = container.to_bytes();
    let mut damaged = good.clone();
    damaged[rng.below(32)] ^= 1;
    let requests = [
        requests::encode(&Request::TestAndWrite(write(0, b"A"))),
        requests::encode(&requests::any_lease_request(rng, container)),
        vec![5, 0, 0, 0],
        vec![6],
        vec![1; LONGEST_REQUEST + 1],
    ];
    for bytes in [good, damaged] {
        for request in &requests {
            assert_eq!(run_bytes(checker, bytes.clone(), request.clone(), 9), 1);
        }
        assert_eq!(checker.share_in_container(&bytes), 1);
    }
}

/// A test-and-write with one write.
fn write(offset: i32, data: &[u8]) -> TestAndWrite {
    TestAndWrite {
        enabler: [0xEE; 32],
        tests: Vec::new(),
        writes: vec![Write {
            offset,
            data: data.to_vec(),
        }],
        cut: None,
    }
}

/// Compares a request with exactly the reply space that it needs; gives the outcome.
fn run_request(checker: &mut Checker, container: &Container, request: &Request) -> u32 {
    let space = requests::reply_length(request, container);
    run_bytes(
        checker,
        container.to_bytes(),
        requests::encode(request),
        space,
    )
}

/// The same with a byte less of it.
fn run_with_less_space(checker: &mut Checker, container: &Container, request: &Request) -> u32 {
    let space = requests::reply_length(request, container) - 1;
    let bytes = container.to_bytes();
    run_bytes(checker, bytes, requests::encode(request), space)
}

fn run_bytes(checker: &mut Checker, container: Vec<u8>, request: Vec<u8>, space: usize) -> u32 {
    let mut case = Case {
        container,
        request,
        reply: vec![0xA5; space],
    };
    checker.apply(&mut case).number
}

//! Requests with good format that are aimed at a container: most are done, and each refusal
//! occurs.

use crate::containers::{self, expiry, lease, token};
use crate::rng::Rng;
use beamsatchel_model::{grow, resolve, Container, Read, Request, Test, TestAndWrite, Write};

/// A request with good format, aimed at a container.
pub fn any(rng: &mut Rng, container: &Container) -> Request {
    match rng.below(100) {
        0..45 => Request::TestAndWrite(test_and_write(rng, container)),
        45..70 => any_lease_request(rng, container),
        _ => Request::Read(reads(rng, container)),
    }
}

/// A read or a test-and-write.
pub fn any_data_request(rng: &mut Rng, container: &Container) -> Request {
    if rng.chance(65) {
        Request::TestAndWrite(test_and_write(rng, container))
    } else {
        Request::Read(reads(rng, container))
    }
}

/// An add, a renewal or a cancel.
pub fn any_lease_request(rng: &mut Rng, container: &Container) -> Request {
    // Mostly the token of some lease; else one of few that may be there.
    let known = container.leases().count();
    let aimed = (known > 0 && rng.chance(50)).then(|| container.leases().nth(rng.below(known)));
    let aimed = aimed.flatten();
    match rng.below(10) {
        0..5 => Request::Add(lease(rng)),
        5..7 => Request::Renew {
            token: aimed.map_or_else(|| token(rng), |lease| lease.renewal),
            expiry: expiry(rng),
        },
        _ => Request::Cancel {
            token: aimed.map_or_else(|| token(rng), |lease| lease.cancel),
        },
    }
}

fn test_and_write(rng: &mut Rng, container: &Container) -> TestAndWrite {
    let mut enabler = container.enabler;
    if rng.chance(4) {
        enabler[rng.below(32)] ^= 1 << rng.below(8);
    }
    let tests = (0..entries(rng)).map(|_| test(rng, container)).collect();
    let (writes, grown) = writes(rng, container);
    // Of what reaches far past the room, nothing is done without a cut.
    let far = grown > containers::MAX_LENGTH as u64;
    let cut = rng
        .chance(if far { 85 } else { 40 })
        .then(|| cut(rng, container, grown));
    TestAndWrite {
        enabler,
        tests,
        writes,
        cut,
    }
}

/// Few entries mostly, up to 16.
fn entries(rng: &mut Rng) -> usize {
    match rng.below(100) {
        0..30 => 0,
        30..90 => rng.within(1..=3),
        90..98 => rng.within(4..=15),
        _ => 16,
    }
}

/// A test that mostly holds.
fn test(rng: &mut Rng, container: &Container) -> Test {
    let size = container.data.len();
    let (offset, length) = extent(rng, container);
    let start = size.min(position(offset, size as u64));
    let piece = &container.data[start..size.min(start + length as usize)];
    let specimen = specimen(rng, piece);
    let holding: &[u8] = match piece.cmp(&specimen) {
        std::cmp::Ordering::Less => &[1, 2, 4],
        std::cmp::Ordering::Equal => &[2, 3, 5],
        std::cmp::Ordering::Greater => &[4, 5, 6],
    };
    let opcode = if rng.chance(92) {
        rng.pick(holding)
    } else {
        rng.within(1..=6) as u8
    };
    Test {
        offset,
        length,
        opcode,
        specimen,
    }
}

/// The piece itself, a neighbour of it in the order, or any bytes.
fn specimen(rng: &mut Rng, piece: &[u8]) -> Vec<u8> {
    // A test of long data need not have a long specimen.
    let mut specimen = piece[..piece.len().min(500)].to_vec();
    match rng.below(10) {
        0..5 => {}
        5 => specimen.truncate(rng.below(specimen.len() + 1)),
        6 => specimen.push(rng.byte()),
        7 if !specimen.is_empty() => {
            let at = rng.below(specimen.len());
            specimen[at] ^= 1 << rng.below(8);
        }
        8 if !specimen.is_empty() => {
            // Shorter, but greater or less at its last byte: the length alone decides nothing.
            specimen.truncate(rng.within(1..=specimen.len()));
            *specimen.last_mut().expect("not empty") ^= 0x80;
        }
        _ => {
            let count = rng.below(20);
            specimen = rng.letters(count);
        }
    }
    specimen
}

/// Writes, each aimed at the data that those before it give, and the size that they all give.
fn writes(rng: &mut Rng, container: &Container) -> (Vec<Write>, u64) {
    let mut size = container.data.len() as u64;
    let mut writes = Vec::new();
    for number in 0..entries(rng) {
        let mut write = write(rng, container, size);
        if number == 0 && rng.chance(3) {
            // Far enough that the lowest offset names a byte of the data, or just not.
            write.offset = i32::MAX - rng.below(4) as i32;
            write.data.truncate(rng.below(4));
        }
        // What reaches before the start is refused, whatever it would write.
        if let Some(start) = resolve(write.offset, size) {
            size = grow(size, &(start..start + write.data.len() as u64));
        }
        writes.push(write);
    }
    (writes, size)
}

fn write(rng: &mut Rng, container: &Container, met: u64) -> Write {
    let offset = offset(rng, container, met);
    let slack_end = (container.data.len() + container.slack) as i64;
    let room = (container.length - 472 - 92 * container.extras()) as i64;
    let start = position(offset, met) as i64;
    let up_to = |end: i64| (end - start).clamp(0, 2000) as usize;
    let count = match rng.below(100) {
        0..10 => 0,
        10..75 => rng.within(1..=20),
        75..85 => rng.below(200),
        // up to the slack's end, one before it or one past it
        85..95 => up_to(slack_end + rng.pick(&[-1, 0, 1])),
        // up to the very end of the room, or one past it
        _ => up_to(room + rng.pick(&[0, 1])),
    };
    Write {
        offset,
        data: rng.letters(count),
    }
}

fn cut(rng: &mut Rng, container: &Container, grown: u64) -> u32 {
    let size = container.data.len() as u32;
    let grown = grown as u32;
    match rng.below(10) {
        0 => 0,
        1 => grown.saturating_sub(1),
        2 => grown,
        3 => grown + 1,
        4 => rng.pick(&[u32::MAX, 0x7FFF_FFFF, 0x8000_0000]),
        // at the slack's end, or beside it
        5 => (size + container.slack as u32 + rng.pick(&[0, 1, 2])).saturating_sub(1),
        _ => rng.below(size as usize + 20) as u32,
    }
}

fn reads(rng: &mut Rng, container: &Container) -> Vec<Read> {
    let read = |rng: &mut Rng| {
        let (offset, length) = extent(rng, container);
        Read { offset, length }
    };
    (0..entries(rng)).map(|_| read(rng)).collect()
}

/// Where a test or a read looks, and at how many bytes.
fn extent(rng: &mut Rng, container: &Container) -> (i32, u32) {
    let size = container.data.len();
    let offset = offset(rng, container, size as u64);
    (offset, length(rng, size, position(offset, size as u64)))
}

/// The position that an offset names; 0 where it reaches before the start.
fn position(offset: i32, size: u64) -> usize {
    resolve(offset, size).unwrap_or(0) as usize
}

/// An offset inside the data, a little past it, or beside the slack's end; seldom the largest. Now and then it counts
/// from the end of the data that the entry meets.
fn offset(rng: &mut Rng, container: &Container, met: u64) -> i32 {
    let size = container.data.len();
    match rng.below(200) {
        0..96 => rng.below(size + 1) as i32,
        96..140 => (size + rng.below(30)) as i32,
        140..152 => (size + container.slack + rng.below(3)).saturating_sub(1) as i32,
        152..158 => {
            // the last place of the longest data here, the next one, and the same of the longest there is
            let last = containers::MAX_DATA as i32 - 1;
            rng.pick(&[
                i32::MAX,
                i32::MAX - 1,
                last,
                last + 1,
                16_776_743,
                16_776_744,
            ])
        }
        _ => offset_from_end(rng, size, met),
    }
}

/// An offset that counts from the end of so much data: the end, the last byte, the first byte or beside it, any other
/// position of the data that there was before the request; seldom one before the start, or the lowest that there is.
fn offset_from_end(rng: &mut Rng, size: usize, met: u64) -> i32 {
    let first = -1 - met as i64;
    let offset = match rng.below(100) {
        0..35 => -1,
        35..50 => -2,
        50..62 => first + rng.pick(&[0, 0, 1]),
        62..93 => first + rng.below(size + 1) as i64,
        93..96 => first - 1,
        96 => first - 1 - rng.below(40) as i64,
        _ => i64::from(i32::MIN) + rng.pick(&[0, 0, 1]),
    };
    offset.clamp(i64::from(i32::MIN), -1) as i32
}

fn length(rng: &mut Rng, size: usize, position: usize) -> u32 {
    let rest = size.saturating_sub(position);
    match rng.below(10) {
        0 => 0,
        1 => 1,
        2 => rest as u32,
        3 => rest as u32 + 1,
        4 => rng.pick(&[u32::MAX, 0x8000_0000, 0x7FFF_FFFF, 65_536]),
        _ => rng.below(rest + 10) as u32,
    }
}

//! Tests and reads, Writing, Leases and The reply: one request on one container.
//!
//! Each function asks the rows of the table in Outcomes from the lowest number up and answers with
//! the first that applies.

use super::container::used;
use super::offsets::{grow, place, resolve};
use super::request::{Read, Request, Test, TestAndWrite, Write};
use super::{Answer, Container, Lease, LENGTHS};
use std::cmp::Ordering;
use std::ops::Range;

/// Applies a request. Only a done one changes the container; only a done one or one with a false
/// test writes a reply.
pub fn apply(buffer: &mut [u8], request: &[u8], reply: &mut [u8]) -> Answer {
    // 1: no container is so short or so long.
    if !LENGTHS.contains(&buffer.len()) {
        return Answer::refused(1);
    }
    // 2: not well-formed.
    let Some(mut container) = Container::from_bytes(buffer) else {
        return Answer::refused(2);
    };
    // 3: no kind has this format.
    let Some(request) = Request::from_bytes(request) else {
        return Answer::refused(3);
    };
    let answer = match request {
        Request::TestAndWrite(request) => test_and_write(&mut container, &request, reply),
        Request::Add(lease) => add(&mut container, lease),
        Request::Renew { token, expiry } => renew(&mut container, token, expiry),
        Request::Cancel { token } => cancel(&mut container, token),
        Request::Read(reads) => read(&container, &reads, reply),
    };
    if answer.number == 0 {
        buffer.copy_from_slice(&container.to_bytes());
    }
    answer
}

fn test_and_write(container: &mut Container, request: &TestAndWrite, reply: &mut [u8]) -> Answer {
    // 4: an offset before the start of the data, also in an entry that would do nothing. Tests are made before any
    // write; each write meets what those before it give.
    let size = container.data.len() as u64;
    let looks = request.tests.iter().map(|test| (test.offset, test.length));
    let (Some(pieces), Some(places)) =
        (pieces(&container.data, looks), place(&request.writes, size))
    else {
        return Answer::refused(4);
    };
    // 5: another write enabler; the answer names the node that accepted the right one.
    if request.enabler != container.enabler {
        return Answer::enabler_differs(container.node);
    }
    // 7: no space for the reply, which has the pieces as they are before any write.
    let answered = reply_of(&pieces);
    if reply.len() < answered.len() {
        return Answer::refused(7);
    }
    // 8: a false test, of which the reply tells.
    let all_hold = request
        .tests
        .iter()
        .zip(&pieces)
        .all(|(test, piece)| holds(test, piece));
    if !all_hold {
        reply[..answered.len()].copy_from_slice(&answered);
        return Answer::test_false(answered.len());
    }
    // The count stays where it is, unless the final data reaches past it; sizes on the way there do not count.
    let size = final_size(size, &places, request.cut);
    let count = container.count().max(468 + size);
    // 11: no room for that.
    if used(count, container.extras()) > container.length as u64 {
        return Answer::refused(11);
    }
    container.data = written(&container.data, &request.writes, &places, size as usize);
    container.slack = (count - 468 - size) as usize;
    reply[..answered.len()].copy_from_slice(&answered);
    Answer::done(answered.len())
}

/// Tests and reads: the piece for each offset and length; `None` where an offset reaches before the start.
fn pieces(data: &[u8], looks: impl Iterator<Item = (i32, u32)>) -> Option<Vec<&[u8]>> {
    looks
        .map(|(offset, length)| {
            let position = resolve(offset, data.len() as u64)? as usize;
            Some(piece(data, position, length as usize))
        })
        .collect()
}

/// Tests and reads: as much of the data from the position on as there is, up to the length; nothing past the end.
fn piece(data: &[u8], position: usize, length: usize) -> &[u8] {
    let start = data.len().min(position);
    let end = data.len().min(position + length);
    &data[start..end]
}

/// Tests and reads: the piece is the left side and the specimen the right one, in the order of a
/// dictionary, which is that of Rust's byte slices.
fn holds(test: &Test, piece: &[u8]) -> bool {
    let comparison = piece.cmp(&test.specimen);
    match test.opcode {
        1 => comparison == Ordering::Less,
        2 => comparison != Ordering::Greater,
        3 => comparison == Ordering::Equal,
        4 => comparison != Ordering::Equal,
        5 => comparison != Ordering::Less,
        6 => comparison == Ordering::Greater,
        _ => unreachable!("a parsed request has opcodes 1 to 6"),
    }
}

/// The reply: the length of each piece, then each piece.
fn reply_of(pieces: &[&[u8]]) -> Vec<u8> {
    let lengths = pieces
        .iter()
        .flat_map(|piece| (piece.len() as u32).to_be_bytes());
    lengths.chain(pieces.concat()).collect()
}

/// Writing: the data size after the writes and the cut.
fn final_size(size: u64, places: &[Range<u64>], cut: Option<u32>) -> u64 {
    let grown = places.iter().fold(size, grow);
    // The cut comes after all writes, and makes nothing longer.
    cut.map_or(grown, |new_length| grown.min(u64::from(new_length)))
}

/// Writing: the data after the writes, one after the other, and the cut to `size`; what was not
/// written is zero. Bytes beyond the final size are not kept on the way, since a write may reach
/// 2 GiB before the cut.
fn written(data: &[u8], writes: &[Write], places: &[Range<u64>], size: usize) -> Vec<u8> {
    let mut after = data.to_vec();
    after.resize(size, 0);
    for (write, place) in writes.iter().zip(places) {
        for (position, byte) in (place.start as usize..size).zip(&write.data) {
            after[position] = *byte;
        }
    }
    after
}

fn add(container: &mut Container, lease: Lease) -> Answer {
    // A known renewal token: the add is a renewal, and the rest of the record is not looked at.
    if let Some(known) = first(container, |known| known.renewal == lease.renewal) {
        keep_later(known, lease.expiry);
        return Answer::done(container.leases().count());
    }
    // 10: every place that there can be is taken.
    if container.leases().count() == 64 {
        return Answer::refused(10);
    }
    // An empty place is used before a new extra is made; the four are asked first.
    if let Some(place) = container.places.iter_mut().find(|place| place.is_none()) {
        *place = Some(lease);
        return Answer::done(container.leases().count());
    }
    // 11: no room for one more extra.
    container.places.push(Some(lease));
    if container.used() > container.length as u64 {
        return Answer::refused(11);
    }
    Answer::done(container.leases().count())
}

fn renew(container: &mut Container, token: [u8; 32], expiry: u32) -> Answer {
    // 9: nobody has the token.
    let Some(lease) = first(container, |lease| lease.renewal == token) else {
        return Answer::refused(9);
    };
    // Only the first with the token, and never to an earlier time.
    keep_later(lease, expiry);
    Answer::done(container.leases().count())
}

fn cancel(container: &mut Container, token: [u8; 32]) -> Answer {
    // Only the first with the token. An empty place has no token, not even one of zeros.
    let cancelled = container
        .places
        .iter()
        .position(|place| place.as_ref().is_some_and(|lease| lease.cancel == token));
    // 9: nobody has the token.
    let Some(cancelled) = cancelled else {
        return Answer::refused(9);
    };
    container.places[cancelled] = None;
    // The extras end with a lease again; empty ones before it stay.
    while container.places.len() > 4 && container.places.last() == Some(&None) {
        container.places.pop();
    }
    Answer::done(container.leases().count())
}

/// The first lease with a property, in the order of the places.
fn first(container: &mut Container, property: impl Fn(&Lease) -> bool) -> Option<&mut Lease> {
    container
        .places
        .iter_mut()
        .flatten()
        .find(|lease| property(lease))
}

fn keep_later(lease: &mut Lease, expiry: u32) {
    lease.expiry = lease.expiry.max(expiry);
}

fn read(container: &Container, reads: &[Read], reply: &mut [u8]) -> Answer {
    // 4: an offset before the start of the data.
    let looks = reads.iter().map(|read| (read.offset, read.length));
    let Some(pieces) = pieces(&container.data, looks) else {
        return Answer::refused(4);
    };
    // 7: no space for the reply.
    let answered = reply_of(&pieces);
    if reply.len() < answered.len() {
        return Answer::refused(7);
    }
    reply[..answered.len()].copy_from_slice(&answered);
    Answer::done(answered.len())
}

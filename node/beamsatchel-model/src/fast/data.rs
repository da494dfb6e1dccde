//! Kinds 1 and 5.

use super::frame::Frame;
use crate::bytes::u32_at;
use crate::Answer;
use std::cmp::Ordering;

const HEADER: usize = 40;
const TEST: usize = 12;
const WRITE: usize = 8;
const READ: usize = 8;
/// Why no entry that is done reaches before the start.
const JUDGED: &str = "such a request is refused with 4";

pub fn test_and_write(buffer: &mut [u8], frame: Frame, request: &[u8], reply: &mut [u8]) -> Answer {
    let Some(parts) = Parts::find(request) else {
        return Answer::refused(3);
    };
    let data = frame.data(buffer);
    let (Some(reply_length), Some((final_size, last_gap))) = (
        reply_length(data, parts.tests, TEST),
        parts.final_size(frame.size),
    ) else {
        return Answer::refused(4);
    };
    if request[8..40] != buffer[52..84] {
        let mut node = [0; 20];
        node.copy_from_slice(&buffer[32..52]);
        return Answer::enabler_differs(node);
    }
    if reply.len() < reply_length {
        return Answer::refused(7);
    }
    if !parts.all_hold(data) {
        write_reply(data, parts.tests, TEST, reply);
        return Answer::test_false(reply_length);
    }
    let size = match final_size {
        size if size > buffer.len() as u64 => return Answer::refused(11),
        size => size as usize,
    };
    let after = Frame {
        size,
        count: frame.count.max(468 + size),
        ..frame
    };
    if after.used() > buffer.len() {
        return Answer::refused(11);
    }
    write_reply(data, parts.tests, TEST, reply);
    if after.count > frame.count {
        let bare = last_gap.min(final_size) as usize;
        move_count(buffer, frame, after, bare);
    }
    parts.write(frame.size, &mut buffer[468..468 + size]);
    if size < frame.size {
        buffer[468 + size..468 + frame.size].fill(0);
    }
    if size != frame.size {
        buffer[84..92].copy_from_slice(&(size as u64).to_be_bytes());
    }
    Answer::done(reply_length)
}

/// Moves count and extras to the new end of data, with zeros where they uncover bytes below `bare`:
/// the slack is zero already, and the writes fill the others.
fn move_count(buffer: &mut [u8], before: Frame, after: Frame, bare: usize) {
    buffer.copy_within(before.count..before.used(), after.count);
    if before.count < 468 + bare {
        buffer[before.count..468 + bare].fill(0);
    }
    buffer[92..100].copy_from_slice(&(after.count as u64).to_be_bytes());
}

pub fn read(buffer: &[u8], frame: Frame, request: &[u8], reply: &mut [u8]) -> Answer {
    let good = request.len() >= 4
        && request[1] <= 16
        && request[2..4] == [0, 0]
        && request.len() == 4 + READ * usize::from(request[1]);
    if !good {
        return Answer::refused(3);
    }
    let reads = &request[4..];
    let data = frame.data(buffer);
    let Some(reply_length) = reply_length(data, reads, READ) else {
        return Answer::refused(4);
    };
    if reply.len() < reply_length {
        return Answer::refused(7);
    }
    write_reply(data, reads, READ, reply);
    Answer::done(reply_length)
}

/// A kind 1 request with good format.
struct Parts<'a> {
    cut: Option<u32>,
    tests: &'a [u8],
    writes: &'a [u8],
    specimens: &'a [u8],
    data: &'a [u8],
}

impl<'a> Parts<'a> {
    fn find(request: &'a [u8]) -> Option<Parts<'a>> {
        if request.len() < HEADER || request[1] > 16 || request[2] > 16 {
            return None;
        }
        let new_length = u32_at(request, 4);
        let cut = match request[3] {
            0 if new_length == 0 => None,
            1 => Some(new_length),
            _ => return None,
        };
        let (tests, rest) = request[HEADER..].split_at_checked(TEST * usize::from(request[1]))?;
        let (writes, bodies) = rest.split_at_checked(WRITE * usize::from(request[2]))?;
        let mut specimen_length = 0;
        for test in tests.chunks_exact(TEST) {
            if !(1..=6).contains(&test[8]) || test[9] != 0 {
                return None;
            }
            specimen_length += specimen_length_of(test);
        }
        let mut data_length = 0;
        for write in writes.chunks_exact(WRITE) {
            data_length += u64::from(u32_at(write, 4));
        }
        let (specimens, data) = bodies.split_at_checked(specimen_length)?;
        (data.len() as u64 == data_length).then_some(Parts {
            cut,
            tests,
            writes,
            specimens,
            data,
        })
    }

    fn all_hold(&self, data: &[u8]) -> bool {
        let mut specimens = self.specimens;
        self.tests.chunks_exact(TEST).all(|test| {
            let (specimen, rest) = specimens.split_at(specimen_length_of(test));
            specimens = rest;
            let comparison = piece(data, test).expect(JUDGED).cmp(specimen);
            match test[8] {
                1 => comparison == Ordering::Less,
                2 => comparison != Ordering::Greater,
                3 => comparison == Ordering::Equal,
                4 => comparison != Ordering::Equal,
                5 => comparison != Ordering::Less,
                _ => comparison == Ordering::Greater,
            }
        })
    }

    /// The final size, and where the last gap ends that the writes leave on the way; behind it they
    /// fill all that they add. `None` where one reaches before the start of the data.
    fn final_size(&self, size: usize) -> Option<(u64, u64)> {
        let mut grown = size as u64;
        let mut last_gap = grown;
        for write in self.writes.chunks_exact(WRITE) {
            let (start, length) = (position(write, grown)?, u64::from(u32_at(write, 4)));
            if length > 0 && grown < start {
                last_gap = start;
            }
            grown = grow(grown, start, length);
        }
        let final_size = self.cut.map_or(grown, |cut| grown.min(u64::from(cut)));
        Some((final_size, last_gap))
    }

    /// Makes the writes as far as they lie below the final size, in data that had another size before.
    fn write(&self, size_before: usize, data: &mut [u8]) {
        let mut grown = size_before as u64;
        let mut bodies = self.data;
        for write in self.writes.chunks_exact(WRITE) {
            let (body, rest) = bodies.split_at(u32_at(write, 4) as usize);
            bodies = rest;
            let start = position(write, grown).expect(JUDGED);
            grown = grow(grown, start, body.len() as u64);
            if let Some(target) = data.get_mut(start as usize..) {
                let kept = target.len().min(body.len());
                target[..kept].copy_from_slice(&body[..kept]);
            }
        }
    }
}

/// The position that an entry names in data of this size; `None` where it reaches before the start. Every entry of a
/// table begins with its signed offset and its length.
fn position(entry: &[u8], size: u64) -> Option<u64> {
    let offset = u32_at(entry, 0);
    match offset as i32 {
        0.. => Some(u64::from(offset)),
        // -1 is the end, and each step down from it a byte before.
        _ => size.checked_sub(u64::from(!offset)),
    }
}

/// The size after a write of so many bytes there.
fn grow(size: u64, start: u64, length: u64) -> u64 {
    match length {
        0 => size,
        _ => size.max(start + length),
    }
}

fn specimen_length_of(test: &[u8]) -> usize {
    usize::from(u16::from_be_bytes([test[10], test[11]]))
}

/// What an entry looks at; `None` where it reaches before the start.
fn piece<'a>(data: &'a [u8], entry: &[u8]) -> Option<&'a [u8]> {
    let start = position(entry, data.len() as u64)?;
    let rest = data.get(start as usize..).unwrap_or(&[]);
    Some(&rest[..rest.len().min(u32_at(entry, 4) as usize)])
}

/// The length of the reply to a table; `None` where an entry reaches before the start.
fn reply_length(data: &[u8], table: &[u8], entry: usize) -> Option<usize> {
    table
        .chunks_exact(entry)
        .map(|entry| Some(4 + piece(data, entry)?.len()))
        .sum()
}

fn write_reply(data: &[u8], table: &[u8], entry: usize, reply: &mut [u8]) {
    let (lengths, mut pieces) = reply.split_at_mut(4 * (table.len() / entry));
    for (length, entry) in lengths.chunks_exact_mut(4).zip(table.chunks_exact(entry)) {
        let piece = piece(data, entry).expect(JUDGED);
        length.copy_from_slice(&(piece.len() as u32).to_be_bytes());
        let (target, rest) = pieces.split_at_mut(piece.len());
        target.copy_from_slice(piece);
        pieces = rest;
    }
}

//! Kinds 2, 3 and 4.

use super::frame::Frame;
use crate::bytes::u32_at;
use crate::Answer;

/// Where the tokens lie in a record.
const RENEWAL: usize = 8;
const CANCEL: usize = 40;

pub fn add(buffer: &mut [u8], frame: Frame, request: &[u8]) -> Answer {
    if request.len() != 93 || u32_at(request, 1) == 0 {
        return Answer::refused(3);
    }
    let record = &request[1..];
    let leases = count(buffer, frame);
    if let Some(at) = find(buffer, frame, RENEWAL, &record[RENEWAL..][..32]) {
        keep_later(buffer, at, u32_at(record, 4));
        return Answer::done(leases);
    }
    if leases == 64 {
        return Answer::refused(10);
    }
    let empty = (0..frame.places())
        .map(|place| frame.record(place))
        .find(|at| u32_at(buffer, *at) == 0);
    let at = empty.unwrap_or(frame.used());
    if at + 92 > buffer.len() {
        return Answer::refused(11);
    }
    buffer[at..at + 92].copy_from_slice(record);
    if empty.is_none() {
        set_extras(buffer, frame, frame.extras + 1);
    }
    Answer::done(leases + 1)
}

pub fn renew(buffer: &mut [u8], frame: Frame, request: &[u8]) -> Answer {
    if request.len() != 37 {
        return Answer::refused(3);
    }
    let Some(at) = find(buffer, frame, RENEWAL, &request[1..33]) else {
        return Answer::refused(9);
    };
    keep_later(buffer, at, u32_at(request, 33));
    Answer::done(count(buffer, frame))
}

pub fn cancel(buffer: &mut [u8], frame: Frame, request: &[u8]) -> Answer {
    if request.len() != 33 {
        return Answer::refused(3);
    }
    let Some(at) = find(buffer, frame, CANCEL, &request[1..33]) else {
        return Answer::refused(9);
    };
    buffer[at..at + 92].fill(0);
    let leases = count(buffer, frame);
    let mut extras = frame.extras;
    while extras > 0 && u32_at(buffer, frame.record(3 + extras)) == 0 {
        extras -= 1;
    }
    set_extras(buffer, frame, extras);
    Answer::done(leases)
}

/// Where the first lease with a token begins.
fn find(buffer: &[u8], frame: Frame, field: usize, token: &[u8]) -> Option<usize> {
    (0..frame.places())
        .map(|place| frame.record(place))
        .find(|at| buffer[at + field..][..32] == *token && u32_at(buffer, *at) != 0)
}

fn count(buffer: &[u8], frame: Frame) -> usize {
    (0..frame.places())
        .filter(|place| u32_at(buffer, frame.record(*place)) != 0)
        .count()
}

fn keep_later(buffer: &mut [u8], at: usize, expiry: u32) {
    if expiry > u32_at(buffer, at + 4) {
        buffer[at + 4..at + 8].copy_from_slice(&expiry.to_be_bytes());
    }
}

fn set_extras(buffer: &mut [u8], frame: Frame, extras: usize) {
    buffer[frame.count..][..4].copy_from_slice(&(extras as u32).to_be_bytes());
}

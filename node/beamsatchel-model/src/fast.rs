//! The rules once more, written for speed, for the benchmark: in place, without allocation, and
//! with every check of the model. The comparison tests hold it against the model.

mod data;
mod frame;
mod leases;
mod new_share;
mod share;

pub use new_share::write_share;
pub use share::{check_container, check_share};

use super::{Answer, LENGTHS, LONGEST_REQUEST};
use frame::Frame;

/// Applies a request, as the model's `apply` does.
pub fn apply(buffer: &mut [u8], request: &[u8], reply: &mut [u8]) -> Answer {
    if !LENGTHS.contains(&buffer.len()) {
        return Answer::refused(1);
    }
    let Some(frame) = Frame::find(buffer) else {
        return Answer::refused(2);
    };
    if request.len() > LONGEST_REQUEST {
        return Answer::refused(3);
    }
    match request.first() {
        Some(1) => data::test_and_write(buffer, frame, request, reply),
        Some(2) => leases::add(buffer, frame, request),
        Some(3) => leases::renew(buffer, frame, request),
        Some(4) => leases::cancel(buffer, frame, request),
        Some(5) => data::read(buffer, frame, request, reply),
        _ => Answer::refused(3),
    }
}

//! Tests and reads, Writing: which position of the data the offset of an entry names.

use super::request::Write;
use std::ops::Range;

/// The position that an offset names in data of this size; `None` where that would be before byte 0.
pub fn resolve(offset: i32, size: u64) -> Option<u64> {
    if offset >= 0 {
        return Some(offset as u64);
    }
    // From the end: -1 is the end itself, and not the last byte.
    (size + 1).checked_add_signed(i64::from(offset))
}

/// Where each write goes, from the position that it names in the data that the writes before it give; `None` where one
/// would begin before byte 0. An empty write has a position too.
pub fn place(writes: &[Write], size: u64) -> Option<Vec<Range<u64>>> {
    let mut met = size;
    let mut places = Vec::new();
    for write in writes {
        let start = resolve(write.offset, met)?;
        let place = start..start + write.data.len() as u64;
        met = grow(met, &place);
        places.push(place);
    }
    Some(places)
}

/// The size after a write there: the data reaches at least to its end, with zeros in a gap. An empty one does nothing.
pub fn grow(size: u64, place: &Range<u64>) -> u64 {
    match place.is_empty() {
        true => size,
        false => size.max(place.end),
    }
}

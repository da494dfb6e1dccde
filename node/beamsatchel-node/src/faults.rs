//! Why a container is refused, for a person. The library decides; this finds the place.

use crate::container::{judge, places};
use crate::layout::{
    field, COUNT, COUNT_OFFSET, DATA, MAGIC, MAX_EXTRAS, MAX_LENGTH, MIN_LENGTH, RECORD, SIZE,
};
use std::fmt;

/// A clause of "well formed".
///
/// ```
/// use beamsatchel_node::Clause;
///
/// assert_eq!(Clause::LastExtra.to_string(), "the last extra lease has no owner");
/// ```
#[derive(Clone, Copy, Debug, PartialEq, Eq, Hash)]
#[non_exhaustive]
pub enum Clause {
    /// The buffer is 472 to 16,777,216 bytes long. This one has an outcome of its own.
    BufferLength,
    /// The buffer begins with the magic.
    Magic,
    /// The offset field is 468 plus the data size, or more.
    CountOffset,
    /// The extra-lease count and the extra leases end inside the buffer.
    UsedLength,
    /// There are at most 60 extra leases.
    ExtraCount,
    /// Every byte between the data and the extra-lease count is zero.
    Slack,
    /// A record with owner 0 is all zeros.
    EmptyPlace,
    /// The last extra lease has an owner.
    LastExtra,
    /// Every byte after the used end is zero.
    AfterUsedEnd,
}

/// What is wrong where the clause fails.
impl fmt::Display for Clause {
    fn fmt(&self, f: &mut fmt::Formatter<'_>) -> fmt::Result {
        f.write_str(match self {
            Clause::BufferLength => "the buffer is not 472 to 16,777,216 bytes long",
            Clause::Magic => "the magic is not a container's",
            Clause::CountOffset => {
                "the offset of the extra-lease count is below 468 plus the data size at byte 84"
            }
            Clause::UsedLength => "the extra-lease count or an extra lease is outside the buffer",
            Clause::ExtraCount => "the extra-lease count is above 60",
            Clause::Slack => "a byte between data and extra-lease count is not zero",
            Clause::EmptyPlace => "a lease place with owner 0 is not all zeros",
            Clause::LastExtra => "the last extra lease has no owner",
            Clause::AfterUsedEnd => "a byte after the used end is not zero",
        })
    }
}

/// Which clause a refused container breaks, and at which byte.
///
/// ```
/// use beamsatchel_node::{Clause, Container, Fault, NodeId, WriteEnabler};
///
/// # fn main() -> Result<(), beamsatchel_node::Refusal> {
/// let mut buffer = [0; 500];
/// Container::create(&mut buffer, NodeId([7; 20]), WriteEnabler::new([1; 32]))?;
/// assert_eq!(Fault::find(&buffer), None);
///
/// buffer[499] = 1;
/// let fault = Fault::find(&buffer).unwrap();
/// assert_eq!((fault.clause, fault.byte), (Clause::AfterUsedEnd, 499));
/// # Ok(())
/// # }
/// ```
#[derive(Clone, Copy, Debug, PartialEq, Eq)]
#[non_exhaustive]
pub struct Fault {
    /// The first clause that fails.
    pub clause: Clause,
    /// The first byte of the field at fault, or the very byte where one is.
    pub byte: usize,
}

impl Fault {
    /// The first fault of a container that the library refuses; `None` where it is well formed.
    pub fn find(buffer: &[u8]) -> Option<Fault> {
        judge(buffer).err()?;
        let (clause, byte) = explain(buffer)?;
        Some(Fault { clause, byte })
    }
}

impl fmt::Display for Fault {
    fn fmt(&self, f: &mut fmt::Formatter<'_>) -> fmt::Result {
        write!(f, "at byte {}: {}", self.byte, self.clause)
    }
}

fn explain(buffer: &[u8]) -> Option<(Clause, usize)> {
    let length = buffer.len();
    if !(MIN_LENGTH..=MAX_LENGTH).contains(&length) {
        return Some((Clause::BufferLength, length.min(MAX_LENGTH)));
    }
    if let Some(at) = (0..MAGIC.len()).find(|at| buffer[*at] != MAGIC[*at]) {
        return Some((Clause::Magic, at));
    }
    let size = u64::from_be_bytes(field(buffer, SIZE));
    let count_offset = u64::from_be_bytes(field(buffer, COUNT_OFFSET));
    // As numbers: the sum may be above every place that the field could name.
    let data_end = DATA as u128 + u128::from(size);
    if u128::from(count_offset) < data_end {
        return Some((Clause::CountOffset, COUNT_OFFSET));
    }
    if count_offset > (length - COUNT) as u64 {
        return Some((Clause::UsedLength, COUNT_OFFSET));
    }
    let (data_end, count) = (data_end as usize, count_offset as usize);
    let extras = u32::from_be_bytes(field(buffer, count)) as usize;
    if extras > MAX_EXTRAS {
        return Some((Clause::ExtraCount, count));
    }
    let used = count + COUNT + RECORD * extras;
    if used > length {
        return Some((Clause::UsedLength, count));
    }
    if let Some(inside) = first_not_zero(&buffer[data_end..count]) {
        return Some((Clause::Slack, data_end + inside));
    }
    for at in places(count, extras) {
        let record = &buffer[at..at + RECORD];
        if let (true, Some(inside)) = (record[..4] == [0; 4], first_not_zero(record)) {
            return Some((Clause::EmptyPlace, at + inside));
        }
    }
    if extras > 0 && buffer[used - RECORD..][..4] == [0; 4] {
        return Some((Clause::LastExtra, used - RECORD));
    }
    let after = first_not_zero(&buffer[used..])?;
    Some((Clause::AfterUsedEnd, used + after))
}

pub(crate) fn first_not_zero(bytes: &[u8]) -> Option<usize> {
    bytes.iter().position(|byte| *byte != 0)
}

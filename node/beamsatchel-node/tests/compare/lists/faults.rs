//! What is wrong with a list, clause by clause.

use super::rows::decode;
use beamsatchel_model::{Container, LIST_LENGTH};
use beamsatchel_node::ListClause;
use std::ops::Range;

#[derive(Clone, Copy, Debug, PartialEq, Eq, PartialOrd, Ord)]
pub enum Fault {
    NoBytes,
    ByteLess,
    ByteMore,
    OtherLength,
    /// A count of 257.
    RowMore,
    CountFar,
    RowOfNothing,
    /// A row begins where the one before it ends.
    Touching,
    Overlapping,
    /// A row begins before the one before it.
    Falling,
    /// A row ends a byte behind the data, where no slack is.
    ByteOutside,
    IntoTheSlack,
    /// All of it is behind the data.
    InTheSlack,
    Outside,
    /// Start and length add up to 2^32 or more, and modulo that to a place in the data.
    Wrapping,
    /// One byte of a row is not zero.
    OnlyByteNotZero,
    FirstByteNotZero,
    LastByteNotZero,
    OtherByteNotZero,
    BytesNotZero,
    /// Behind the rows one byte is not zero: the first there, the list's last.
    FirstByteBehind,
    LastByteBehind,
    BytesBehind,
}

impl Fault {
    pub const ALL: [Fault; 23] = [
        Fault::NoBytes,
        Fault::ByteLess,
        Fault::ByteMore,
        Fault::OtherLength,
        Fault::RowMore,
        Fault::CountFar,
        Fault::RowOfNothing,
        Fault::Touching,
        Fault::Overlapping,
        Fault::Falling,
        Fault::ByteOutside,
        Fault::IntoTheSlack,
        Fault::InTheSlack,
        Fault::Outside,
        Fault::Wrapping,
        Fault::OnlyByteNotZero,
        Fault::FirstByteNotZero,
        Fault::LastByteNotZero,
        Fault::OtherByteNotZero,
        Fault::BytesNotZero,
        Fault::FirstByteBehind,
        Fault::LastByteBehind,
        Fault::BytesBehind,
    ];

    /// The clause that the crate names for it.
    pub fn clause(self) -> ListClause {
        match self {
            Fault::NoBytes | Fault::ByteLess | Fault::ByteMore | Fault::OtherLength => {
                ListClause::Length
            }
            Fault::RowMore | Fault::CountFar => ListClause::RowCount,
            Fault::RowOfNothing => ListClause::EmptyStretch,
            Fault::Touching | Fault::Overlapping | Fault::Falling => ListClause::Order,
            Fault::ByteOutside
            | Fault::IntoTheSlack
            | Fault::InTheSlack
            | Fault::Outside
            | Fault::Wrapping => ListClause::OutsideData,
            Fault::OnlyByteNotZero
            | Fault::FirstByteNotZero
            | Fault::LastByteNotZero
            | Fault::OtherByteNotZero
            | Fault::BytesNotZero => ListClause::NotZero,
            Fault::FirstByteBehind | Fault::LastByteBehind | Fault::BytesBehind => {
                ListClause::AfterRows
            }
        }
    }

    /// All that is wrong with a list beside a container; nothing where it is good.
    pub fn all_of(list: &[u8], container: &Container) -> Vec<Fault> {
        if let Some(fault) = of_length(list.len()) {
            return vec![fault];
        }
        let rows = decode(list);
        let mut faults = Vec::new();
        match u32::from_be_bytes(list[..4].try_into().expect("four bytes")) {
            0..=256 => {}
            257 => faults.push(Fault::RowMore),
            _ => faults.push(Fault::CountFar),
        }
        for row in &rows {
            faults.extend(of_row(row, container));
        }
        for pair in rows.windows(2) {
            faults.extend(of_order(&pair[0], &pair[1]));
        }
        faults.extend(of_bytes_behind(&list[4 + 8 * rows.len()..]));
        faults
    }
}

fn of_length(length: usize) -> Option<Fault> {
    match length {
        LIST_LENGTH => None,
        0 => Some(Fault::NoBytes),
        _ if length + 1 == LIST_LENGTH => Some(Fault::ByteLess),
        _ if length == LIST_LENGTH + 1 => Some(Fault::ByteMore),
        _ => Some(Fault::OtherLength),
    }
}

fn of_row(row: &Range<u64>, container: &Container) -> Option<Fault> {
    let size = container.data.len() as u64;
    let slack_end = size + container.slack as u64;
    if row.is_empty() {
        return Some(Fault::RowOfNothing);
    }
    if row.end > size {
        return Some(match row.end {
            end if end >= 1 << 32 && end - (1 << 32) <= size => Fault::Wrapping,
            end if end <= slack_end && row.start < size => Fault::IntoTheSlack,
            end if end <= slack_end => Fault::InTheSlack,
            end if end == size + 1 && row.start < size => Fault::ByteOutside,
            _ => Fault::Outside,
        });
    }
    let listed = &container.data[row.start as usize..row.end as usize];
    let mut not_zero = (0..listed.len()).filter(|at| listed[*at] != 0);
    match (not_zero.next()?, not_zero.next()) {
        (_, Some(_)) => Some(Fault::BytesNotZero),
        (0, None) if listed.len() == 1 => Some(Fault::OnlyByteNotZero),
        (0, None) => Some(Fault::FirstByteNotZero),
        (at, None) if at + 1 == listed.len() => Some(Fault::LastByteNotZero),
        _ => Some(Fault::OtherByteNotZero),
    }
}

/// Of a row and the next, where neither is of nothing.
fn of_order(row: &Range<u64>, next: &Range<u64>) -> Option<Fault> {
    match next.start {
        _ if row.is_empty() || next.is_empty() => None,
        start if start < row.start => Some(Fault::Falling),
        start if start < row.end => Some(Fault::Overlapping),
        start if start == row.end => Some(Fault::Touching),
        _ => None,
    }
}

fn of_bytes_behind(behind: &[u8]) -> Option<Fault> {
    let mut not_zero = (0..behind.len()).filter(|at| behind[*at] != 0);
    match (not_zero.next()?, not_zero.next()) {
        (0, None) => Some(Fault::FirstByteBehind),
        (at, None) if at + 1 == behind.len() => Some(Fault::LastByteBehind),
        _ => Some(Fault::BytesBehind),
    }
}

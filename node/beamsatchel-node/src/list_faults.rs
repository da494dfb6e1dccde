//! Why a never-written list is refused, for a person. The library decides; this finds the place.

use crate::answers::Reason;
use crate::container::View;
use crate::faults::first_not_zero;
use crate::layout::field;
use crate::layout::list::{COUNT, LENGTH, MAX_ROWS, ROW, ROWS};
use crate::stretches::judge;
use std::fmt;

/// A clause of what makes a list good.
///
/// ```
/// use beamsatchel_node::ListClause;
///
/// assert_eq!(ListClause::EmptyStretch.to_string(), "a row's length is 0");
/// ```
#[derive(Clone, Copy, Debug, PartialEq, Eq, Hash)]
#[non_exhaustive]
pub enum ListClause {
    /// The list is 2,052 bytes long.
    Length,
    /// There are at most 256 rows.
    RowCount,
    /// No row's length is 0.
    EmptyStretch,
    /// Each row begins above the end of the row before it, so that they neither touch nor overlap.
    Order,
    /// Each row ends inside the data.
    OutsideData,
    /// Every byte after the last row is zero.
    AfterRows,
    /// Every byte of the data that a row names is zero.
    NotZero,
}

/// What is wrong where the clause fails.
impl fmt::Display for ListClause {
    fn fmt(&self, f: &mut fmt::Formatter<'_>) -> fmt::Result {
        f.write_str(match self {
            ListClause::Length => "the list is not 2,052 bytes long",
            ListClause::RowCount => "the number of rows is above 256",
            ListClause::EmptyStretch => "a row's length is 0",
            ListClause::Order => "a row does not begin above the end of the row before it",
            ListClause::OutsideData => "a row reaches behind the end of the data",
            ListClause::AfterRows => "a byte after the last row is not zero",
            ListClause::NotZero => "a row names a byte of the data that is not zero",
        })
    }
}

/// Which clause a refused list breaks, and at which byte.
///
/// ```
/// use beamsatchel_node::{ListClause, ListFault, ListedContainer, NodeId, TestAndWrite, WriteEnabler};
///
/// # fn main() -> Result<(), beamsatchel_node::Error> {
/// let enabler = WriteEnabler::new([1; 32]);
/// let mut slot = ListedContainer::create([0; 500], [0; 2_052], NodeId([7; 20]), enabler)?;
/// let request = TestAndWrite::new(enabler).write(3, b"AB")?;
/// assert!(slot.test_and_write(&request, &mut [])?.is_done());
/// let (buffer, mut list) = slot.into_parts();
/// assert_eq!(ListFault::find(&buffer, &list), None);
///
/// // The one row names four bytes now, and the fourth is an A.
/// list[11] = 4;
/// let fault = ListFault::find(&buffer, &list).unwrap();
/// assert_eq!((fault.clause, fault.byte), (ListClause::NotZero, 4));
/// assert_eq!(fault.position, Some(3));
/// # Ok(())
/// # }
/// ```
#[derive(Clone, Copy, Debug, PartialEq, Eq)]
#[non_exhaustive]
pub struct ListFault {
    /// The first clause that fails: row by row, then behind them, then in the data.
    pub clause: ListClause,
    /// The first byte of the list's field at fault, or the very byte where one is; for [`ListClause::NotZero`] the row
    /// that names it.
    pub byte: usize,
    /// The position in the data of the byte that is not zero, for [`ListClause::NotZero`] only.
    pub position: Option<usize>,
}

impl ListFault {
    /// The first fault of a list that the library refuses; `None` where it is good, and where the container beside it
    /// is refused first, of which [`Fault`](crate::Fault) tells.
    pub fn find(container: &[u8], list: &[u8]) -> Option<ListFault> {
        let refusal = judge(container, list).err()?;
        if refusal.reason != Reason::ListNotGood {
            return None;
        }
        explain(View::open(container).ok()?.data(), list)
    }
}

impl fmt::Display for ListFault {
    fn fmt(&self, f: &mut fmt::Formatter<'_>) -> fmt::Result {
        write!(f, "at byte {} of the list: {}", self.byte, self.clause)?;
        match self.position {
            Some(position) => write!(f, ", at position {position}"),
            None => Ok(()),
        }
    }
}

fn explain(data: &[u8], list: &[u8]) -> Option<ListFault> {
    let fault = |clause, byte| ListFault {
        clause,
        byte,
        position: None,
    };
    if list.len() != LENGTH {
        return Some(fault(ListClause::Length, list.len().min(LENGTH)));
    }
    let count = u32::from_be_bytes(field(list, COUNT)) as usize;
    if count > MAX_ROWS {
        return Some(fault(ListClause::RowCount, COUNT));
    }
    let number = |at| u32::from_be_bytes(field(list, at)) as usize;
    let rows = (0..count).map(|row| ROWS + ROW * row);
    let mut last_end = None;
    for at in rows.clone() {
        let (start, length) = (number(at), number(at + 4));
        if length == 0 {
            return Some(fault(ListClause::EmptyStretch, at + 4));
        }
        if last_end.is_some_and(|end| start <= end) {
            return Some(fault(ListClause::Order, at));
        }
        if start >= data.len() {
            return Some(fault(ListClause::OutsideData, at));
        }
        if start + length > data.len() {
            return Some(fault(ListClause::OutsideData, at + 4));
        }
        last_end = Some(start + length);
    }
    let end = ROWS + ROW * count;
    if let Some(after) = first_not_zero(&list[end..]) {
        return Some(fault(ListClause::AfterRows, end + after));
    }
    rows.into_iter().find_map(|at| {
        let inside = first_not_zero(&data[number(at)..][..number(at + 4)])?;
        let position = Some(number(at) + inside);
        let clause = ListClause::NotZero;
        Some(ListFault {
            clause,
            byte: at,
            position,
        })
    })
}

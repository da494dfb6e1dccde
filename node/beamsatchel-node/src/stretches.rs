//! The never-written stretches of a slot's data, as its list names them.

use crate::answers::{Answer, Refusal};
use crate::ffi;
use crate::layout::field;
use crate::layout::list::{COUNT, ROW, ROWS};
use std::fmt;
use std::iter::Map;
use std::ops::Range;
use std::slice::ChunksExact;

/// A read of nothing, which asks whether container and list are good.
const LOOK: [u8; 4] = [5, 0, 0, 0];

/// The library's judgement of a container and the list beside it.
pub(crate) fn judge(container: &[u8], list: &[u8]) -> Result<(), Refusal> {
    Answer::of_library(ffi::read_listed(container, list, &LOOK, &mut [])).outcome
}

/// The stretches of a slot's data that hold zeros only because nobody wrote there: in rising order, none of them empty,
/// and between any two at least one byte that the list does not name. They are ranges of the data.
///
/// They are all that nobody wrote where the list was kept from the container's creation on. A list may have been begun
/// later, and then what was there before counts as written.
///
/// ```
/// use beamsatchel_node::layout::list::LENGTH;
/// use beamsatchel_node::{ListedContainer, NodeId, TestAndWrite, WriteEnabler};
///
/// # fn main() -> Result<(), beamsatchel_node::Error> {
/// let enabler = WriteEnabler::new([1; 32]);
/// let mut slot = ListedContainer::create([0; 500], [0; LENGTH], NodeId([7; 20]), enabler)?;
/// let request = TestAndWrite::new(enabler).write(3, b"AB")?.write(9, b"\0C")?;
/// assert!(slot.test_and_write(&request, &mut [])?.is_done());
///
/// let stretches = slot.stretches()?;
/// assert_eq!(stretches.iter().collect::<Vec<_>>(), [0..3, 5..9]);
/// assert_eq!((stretches.len(), stretches.byte_count()), (2, 7));
/// // Byte 9 is a zero that somebody wrote.
/// assert!(stretches.contains(8) && !stretches.contains(9));
/// assert!(stretches.meets(9..11).is_none());
/// assert_eq!(stretches.meets(4..7), Some(5..9));
/// for stretch in stretches {
///     println!("nobody wrote {stretch:?}");
/// }
/// # Ok(())
/// # }
/// ```
#[derive(Clone, Copy, PartialEq, Eq)]
pub struct Stretches<'a> {
    rows: &'a [u8],
}

impl<'a> Stretches<'a> {
    /// Looks at the list beside a container, where the library judges both good. Both are borrowed, so that neither
    /// changes while the stretches are looked at.
    pub fn open(container: &'a [u8], list: &'a [u8]) -> Result<Stretches<'a>, Refusal> {
        judge(container, list)?;
        let count = u32::from_be_bytes(field(list, COUNT)) as usize;
        let rows = &list[ROWS..ROWS + ROW * count];
        Ok(Stretches { rows })
    }

    /// The stretches, in rising order.
    pub fn iter(
        &self,
    ) -> impl DoubleEndedIterator<Item = Range<usize>> + ExactSizeIterator + Clone + use<'a> {
        self.into_iter()
    }

    /// How many stretches there are.
    pub fn len(&self) -> usize {
        self.rows.len() / ROW
    }

    /// Whether the list names no byte: as far as it tells, somebody wrote every byte of the data.
    pub fn is_empty(&self) -> bool {
        self.rows.is_empty()
    }

    /// How many bytes they have in all.
    pub fn byte_count(&self) -> usize {
        self.iter().map(|stretch| stretch.len()).sum()
    }

    /// Whether the data has a byte at this position that nobody wrote. Behind the data's end there is none.
    pub fn contains(&self, position: usize) -> bool {
        self.meets(position..position.saturating_add(1)).is_some()
    }

    /// The first stretch that has a byte in common with a range of the data.
    pub fn meets(&self, range: Range<usize>) -> Option<Range<usize>> {
        let mut stretches = self.iter();
        stretches.find(|stretch| stretch.start.max(range.start) < stretch.end.min(range.end))
    }
}

/// The stretches, in rising order.
impl<'a> IntoIterator for Stretches<'a> {
    type Item = Range<usize>;
    type IntoIter = Map<ChunksExact<'a, u8>, fn(&'a [u8]) -> Range<usize>>;

    fn into_iter(self) -> Self::IntoIter {
        self.rows.chunks_exact(ROW).map(stretch)
    }
}

/// The stretches, in rising order.
impl<'a> IntoIterator for &Stretches<'a> {
    type Item = Range<usize>;
    type IntoIter = <Stretches<'a> as IntoIterator>::IntoIter;

    fn into_iter(self) -> Self::IntoIter {
        (*self).into_iter()
    }
}

fn stretch(row: &[u8]) -> Range<usize> {
    let start = u32::from_be_bytes(field(row, 0)) as usize;
    let length = u32::from_be_bytes(field(row, 4)) as usize;
    start..start + length
}

impl fmt::Debug for Stretches<'_> {
    fn fmt(&self, f: &mut fmt::Formatter<'_>) -> fmt::Result {
        f.debug_list().entries(self.iter()).finish()
    }
}

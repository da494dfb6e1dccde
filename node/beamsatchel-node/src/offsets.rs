//! Where in the data a test, a write or a read begins.

use crate::requests::BuildError;

/// A place in the data: counted from its start, or from its end.
///
/// A number alone is a position from the start, so that `write(3, b"AB")` writes at byte 3. Counting from the end has
/// to be said: [`Offset::END`] is behind the last byte, and `Offset::FromEnd(1)` is the last byte. What lies before
/// byte 0 is refused by the library with [`OffsetBeforeStart`](crate::Reason::OffsetBeforeStart), also where nothing
/// would be read or written there.
///
/// Tests and reads count from the end of the data as it is before the request. A write counts from the end that the
/// writes before it in the same request leave, zeros in gaps included; an empty write leaves the end where it is, and a
/// cut comes after them all.
///
/// To append, nobody needs to ask for the size first, and two appends in one request stand one behind the other:
///
/// ```
/// use beamsatchel_node::{Container, NodeId, Offset, ReadData, TestAndWrite, WriteEnabler};
///
/// # fn main() -> Result<(), beamsatchel_node::Error> {
/// let enabler = WriteEnabler::new([1; 32]);
/// let mut slot = Container::create([0; 500], NodeId([7; 20]), enabler)?;
/// let request = TestAndWrite::new(enabler).append(b"VAN1 21C")?.append(b"VAN2 19C")?;
/// assert!(slot.test_and_write(&request, &mut [])?.is_done());
/// assert_eq!(slot.view()?.data(), b"VAN1 21CVAN2 19C");
///
/// // The last eight bytes, whatever stands before them; and nothing, from the end on.
/// let request = ReadData::new().read(Offset::FromEnd(8), 8)?.read(Offset::END, 8)?;
/// let mut space = vec![0; request.reply_bound()];
/// let reply = slot.read(&request, &mut space)?;
/// assert_eq!(reply.pieces().collect::<Vec<_>>(), [&b"VAN2 19C"[..], b""]);
/// # Ok(())
/// # }
/// ```
///
/// Elsewhere -1 often means the last byte. Here it does not compile, so that nobody writes it by mistake:
///
/// ```compile_fail
/// # use beamsatchel_node::{TestAndWrite, WriteEnabler};
/// let request = TestAndWrite::new(WriteEnabler::new([1; 32])).write(-1, b"AB");
/// ```
///
/// Nor does any other signed number, which might be negative:
///
/// ```compile_fail
/// # use beamsatchel_node::{TestAndWrite, WriteEnabler};
/// let request = TestAndWrite::new(WriteEnabler::new([1; 32])).write(1_i32, b"AB");
/// ```
///
/// A `u32` does, and a literal without a sign:
///
/// ```
/// # use beamsatchel_node::{TestAndWrite, WriteEnabler};
/// let request = TestAndWrite::new(WriteEnabler::new([1; 32])).write(1, b"AB");
/// # assert_eq!(request, TestAndWrite::new(WriteEnabler::new([1; 32])).write(1_u32, b"AB"));
/// ```
#[derive(Clone, Copy, Debug, PartialEq, Eq, Hash)]
pub enum Offset {
    /// So many bytes behind the start: 0 is the first byte.
    FromStart(u32),
    /// So many bytes before the end: 0 is behind the last byte, 1 the last byte.
    FromEnd(u32),
}

impl Offset {
    /// Behind the last byte, where an append goes.
    pub const END: Offset = Offset::FromEnd(0);

    /// The signed number in a request's entry: a position, or -1 for the end, -2 for a byte before it, and so on.
    pub(crate) fn field(self) -> Result<i32, BuildError> {
        let (Offset::FromStart(distance) | Offset::FromEnd(distance)) = self;
        let distance = i32::try_from(distance).map_err(|_| BuildError::OffsetTooFar)?;
        Ok(match self {
            Offset::FromStart(_) => distance,
            Offset::FromEnd(_) => -1 - distance,
        })
    }
}

/// From the start.
impl From<u32> for Offset {
    fn from(position: u32) -> Offset {
        Offset::FromStart(position)
    }
}

use crate::rng::Rng;
use beamsatchel_model::{resolve, Container, Request};

/// Where the tests of a test-and-write, or the reads of a read, look in data of this size, and at how many bytes. What
/// reaches before the start looks nowhere.
pub fn extents(request: &Request, size: usize) -> Vec<(u64, u32)> {
    let entries: Vec<(i32, u32)> = match request {
        Request::TestAndWrite(request) => {
            let tests = request.tests.iter();
            tests.map(|test| (test.offset, test.length)).collect()
        }
        Request::Read(reads) => {
            let reads = reads.iter();
            reads.map(|read| (read.offset, read.length)).collect()
        }
        _ => Vec::new(),
    };
    let looks = entries.into_iter().filter_map(|(offset, length)| {
        let position = resolve(offset, size as u64)?;
        Some((position, length))
    });
    looks.collect()
}

/// The reply's length on a well-formed container.
pub fn reply_length(request: &Request, container: &Container) -> usize {
    let size = container.data.len();
    let pieces = extents(request, size)
        .into_iter()
        .map(|(position, length)| {
            let rest = size.saturating_sub(position as usize);
            4 + rest.min(length as usize)
        });
    pieces.sum()
}

/// Reply space for a reply: exactly enough, more, one byte short, or none.
pub fn reply_space(rng: &mut Rng, length: usize) -> Vec<u8> {
    let count = match rng.below(100) {
        0..45 => length,
        45..92 => length + rng.below(40),
        92..97 => length.saturating_sub(1),
        97..99 => rng.below(length + 1),
        _ => 0,
    };
    rng.bytes(count)
}

//! Create: a fresh container.

use super::{Answer, Container, LENGTHS, MAGIC};

/// Create, with the buffer changed on 0 only.
pub fn create(buffer: &mut [u8], node: &[u8], enabler: &[u8]) -> Answer {
    // 1: no container is so short or so long.
    if !LENGTHS.contains(&buffer.len()) {
        return Answer::refused(1);
    }
    // 3: create has no request; here it is about the lengths of its two arguments.
    let (Ok(node), Ok(enabler)) = (node.try_into(), enabler.try_into()) else {
        return Answer::refused(3);
    };
    // 12: only the magic counts, whatever follows it.
    if buffer.starts_with(&MAGIC) {
        return Answer::refused(12);
    }
    // No data, no slack, no leases, no extras, and zeros for the rest.
    let fresh = Container {
        length: buffer.len(),
        node,
        enabler,
        data: Vec::new(),
        slack: 0,
        places: vec![None; 4],
    };
    buffer.copy_from_slice(&fresh.to_bytes());
    Answer::done(0)
}

use crate::bytes::{u32_at, u64_at};
use crate::MAGIC;

/// Where things lie in a well-formed container.
#[derive(Clone, Copy)]
pub struct Frame {
    pub size: usize,
    /// Where the count stands.
    pub count: usize,
    pub extras: usize,
}

impl Frame {
    /// The frame of a container of an allowed length, where it is well formed.
    pub fn find(buffer: &[u8]) -> Option<Frame> {
        if buffer[..32] != MAGIC {
            return None;
        }
        // With the count inside the buffer, and the size below it, no sum can wrap.
        let (size, count) = (u64_at(buffer, 84), u64_at(buffer, 92));
        if count > (buffer.len() - 4) as u64 || size > count || 468 + size > count {
            return None;
        }
        let (size, count) = (size as usize, count as usize);
        let extras = u32_at(buffer, count) as usize;
        if extras > 60 {
            return None;
        }
        let frame = Frame {
            size,
            count,
            extras,
        };
        let used = frame.used();
        if used > buffer.len() || !all_zero(&buffer[468 + size..count]) {
            return None;
        }
        for place in 0..frame.places() {
            let record = &buffer[frame.record(place)..][..92];
            if u32_at(record, 0) == 0 && !all_zero(record) {
                return None;
            }
        }
        if extras > 0 && u32_at(buffer, used - 92) == 0 {
            return None;
        }
        all_zero(&buffer[used..]).then_some(frame)
    }

    pub fn used(&self) -> usize {
        self.count + 4 + 92 * self.extras
    }

    /// The number of places, the four and the extras.
    pub fn places(&self) -> usize {
        4 + self.extras
    }

    /// Where the record of a place begins.
    pub fn record(&self, place: usize) -> usize {
        match place {
            0..4 => 100 + 92 * place,
            _ => self.count + 4 + 92 * (place - 4),
        }
    }

    pub fn data<'a>(&self, buffer: &'a [u8]) -> &'a [u8] {
        &buffer[468..468 + self.size]
    }
}

/// Whole lines without a branch inside, which the compiler turns into wide instructions.
fn all_zero(bytes: &[u8]) -> bool {
    let mut lines = bytes.chunks_exact(64);
    lines.all(|line| line.iter().fold(0, |seen, byte| seen | byte) == 0)
        && bytes[bytes.len() & !63..].iter().all(|byte| *byte == 0)
}

//! The list as the whole history tells it: from its accepted writes and cuts alone, with no rows and no gaps.

use super::rows::encode;
use beamsatchel_model::{grow, place, TestAndWrite};
use std::ops::Range;

/// For each position that the buffer has place for, when an accepted write covered it last, and when an accepted cut
/// was at or below it last. 0 is before the history.
pub struct Told {
    now: u64,
    size: u64,
    written: Vec<u64>,
    cut: Vec<u64>,
}

impl Told {
    /// Before the first request.
    pub fn of_fresh(positions: usize) -> Told {
        Told {
            now: 0,
            size: 0,
            written: vec![0; positions],
            cut: vec![0; positions],
        }
    }

    /// After one more test-and-write, which was accepted. Its cut follows its writes.
    pub fn accept(&mut self, request: &TestAndWrite) {
        let most = self.written.len() as u64;
        let below =
            |place: &Range<u64>| place.start.min(most) as usize..place.end.min(most) as usize;
        self.now += 1;
        for place in place(&request.writes, self.size).expect("or it was refused with 4") {
            self.written[below(&place)].fill(self.now);
            self.size = grow(self.size, &place);
        }
        self.now += 1;
        if let Some(cut) = request.cut.map(u64::from) {
            self.cut[below(&(cut..most.max(cut)))].fill(self.now);
            self.size = self.size.min(cut);
        }
    }

    pub fn size(&self) -> usize {
        self.size as usize
    }

    /// A position is listed when it is below the size and no accepted write has covered it since the last accepted cut
    /// at or below it.
    fn is_listed(&self, position: usize) -> bool {
        position < self.size() && self.written[position] <= self.cut[position]
    }

    /// Whether some listed position was written once, and cut.
    pub fn has_been_cut(&self) -> bool {
        (0..self.size()).any(|position| self.is_listed(position) && self.written[position] > 0)
    }

    /// The list of what is listed; with more than 256 rows it is no list.
    pub fn list(&self) -> Vec<u8> {
        let mut rows: Vec<Range<u64>> = Vec::new();
        let mut open = None;
        for position in 0..=self.size() {
            match (open, self.is_listed(position)) {
                (None, true) => open = Some(position as u64),
                (Some(start), false) => {
                    rows.push(start..position as u64);
                    open = None;
                }
                _ => {}
            }
        }
        encode(&rows)
    }
}

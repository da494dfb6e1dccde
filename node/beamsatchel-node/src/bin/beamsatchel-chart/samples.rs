//! The records in a slot's data, and which of their fields were never written.

use crate::format::{Clock, Format};
use beamsatchel_node::Stretches;
use std::ops::Range;

/// What is known of one record.
pub struct Record {
    /// How many records stand before it.
    pub index: usize,
    /// When it was taken, in seconds; none where the field was never written.
    pub time: Option<i128>,
    /// Its value as it stands there, without the scale; none where the field was never written.
    pub value: Option<i128>,
}

impl Record {
    /// The sample, where nothing of it is missing.
    pub fn point(&self) -> Option<Point> {
        Some(Point {
            index: self.index,
            time: self.time?,
            value: self.value?,
        })
    }
}

/// A record that was written.
#[derive(Clone, Copy)]
pub struct Point {
    pub index: usize,
    pub time: i128,
    pub value: i128,
}

/// The data of a slot as records.
pub struct Samples<'a> {
    data: &'a [u8],
    stretches: Vec<Range<usize>>,
    format: &'a Format,
}

impl<'a> Samples<'a> {
    pub fn new(data: &'a [u8], stretches: Stretches<'_>, format: &'a Format) -> Samples<'a> {
        let stretches = stretches.iter().collect();
        Samples {
            data,
            stretches,
            format,
        }
    }

    pub fn format(&self) -> &'a Format {
        self.format
    }

    /// How many whole records there are.
    pub fn count(&self) -> usize {
        self.data.len() / self.format.record
    }

    /// How many bytes stand behind the last whole record.
    pub fn left_over(&self) -> usize {
        self.data.len() % self.format.record
    }

    /// All records, in their order.
    pub fn records(&self) -> impl Iterator<Item = Record> + '_ {
        let mut passed = 0;
        (0..self.count()).map(move |index| {
            let start = index * self.format.record;
            while self
                .stretches
                .get(passed)
                .is_some_and(|stretch| stretch.end <= start)
            {
                passed += 1;
            }
            self.record(index, &self.stretches[passed..])
        })
    }

    /// When a record was taken, where that is known.
    pub fn time(&self, index: usize) -> Option<i128> {
        self.record(index, &self.stretches).time
    }

    /// A record, of whose bytes those in the stretches were never written.
    fn record(&self, index: usize, stretches: &[Range<usize>]) -> Record {
        let start = index * self.format.record;
        let written = |bytes: &Range<usize>| {
            let mut near = stretches
                .iter()
                .take_while(|stretch| stretch.start < bytes.end);
            !near.any(|stretch| stretch.end > bytes.start)
        };
        let value = &self.format.value;
        let value = Some(value.bytes(start))
            .filter(written)
            .map(|bytes| value.number(&self.data[bytes]));
        let time = match &self.format.clock {
            Clock::Field(field) => Some(field.bytes(start))
                .filter(written)
                .map(|bytes| field.number(&self.data[bytes])),
            Clock::Steps { step, start } => {
                Some(start.unwrap_or(0) + i128::from(*step) * index as i128)
            }
        };
        Record { index, time, value }
    }
}

//! What there is to draw: one pass over the records, before any place in the picture is known.

use crate::samples::{Point, Samples};
use std::ops::Range;

/// A run of records without a point.
pub struct Gap {
    pub records: Range<usize>,
    /// The last point before it, and the first behind it.
    pub before: Option<Point>,
    pub after: Option<Point>,
    /// When its first and its last record were taken, where that is known.
    first_time: Option<i128>,
    last_time: Option<i128>,
}

impl Gap {
    /// Since when there is no sample: the last one before it, or its own beginning.
    pub fn from(&self) -> Option<i128> {
        self.before.map(|point| point.time).or(self.first_time)
    }

    /// Until when there is no sample: the first one behind it, or its own end.
    pub fn to(&self) -> Option<i128> {
        self.after.map(|point| point.time).or(self.last_time)
    }
}

/// The extent of what is drawn, and where it breaks.
#[derive(Default)]
pub struct Survey {
    /// How many records have a point.
    pub points: usize,
    /// The lowest and the highest value, without the scale.
    pub values: Option<(i128, i128)>,
    /// The first and the last time, which are the lowest and the highest unless the time goes back.
    pub times: Option<(i128, i128)>,
    pub gaps: Vec<Gap>,
    /// How often neighbouring samples are too far apart for a line.
    pub breaks: usize,
    /// The first record whose time is before that of an earlier one.
    pub goes_back: Option<usize>,
}

impl Survey {
    pub fn of(samples: &Samples<'_>) -> Survey {
        let mut survey = Survey::default();
        let mut last_point: Option<Point> = None;
        // Whether the last gap still goes on.
        let mut open = false;
        for record in samples.records() {
            if let Some(time) = record.time {
                let (first, last) = survey.times.unwrap_or((time, time));
                if time < last {
                    survey.goes_back.get_or_insert(record.index);
                }
                survey.times = Some((first, time));
            }
            let Some(point) = record.point() else {
                if !open {
                    survey.gaps.push(Gap {
                        records: record.index..record.index,
                        before: last_point,
                        after: None,
                        first_time: record.time,
                        last_time: None,
                    });
                    open = true;
                }
                if let Some(gap) = survey.gaps.last_mut() {
                    gap.records.end = record.index + 1;
                    gap.last_time = record.time;
                }
                continue;
            };
            if let Some(gap) = survey.gaps.last_mut().filter(|_| open) {
                gap.after = Some(point);
                open = false;
            } else if last_point.is_some_and(|last| samples.format().breaks(last.time, point.time))
            {
                survey.breaks += 1;
            }
            survey.points += 1;
            let (low, high) = survey.values.unwrap_or((point.value, point.value));
            survey.values = Some((low.min(point.value), high.max(point.value)));
            last_point = Some(point);
        }
        survey
    }
}

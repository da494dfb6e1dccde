//! The plot: where records and values stand, and the line, thinned to what the pixels can show.

use crate::samples::{Point, Samples};
use crate::survey::{Gap, Survey};
use crate::text::Px;
use crate::ticks::{self, share, Tick, ValueAxis};
use std::ops::Range;

/// The least width of a gap, so that none is lost.
const LEAST_GAP: Px = Px::whole(2);
/// In a gap that is narrower, dots would hide it.
const LEAST_BRIDGE: Px = Px::whole(4);
/// The width of a gap at an end whose time nobody knows.
const UNDATED_GAP: Px = Px::whole(34);
/// About how many pixels stand between two values on the axis.
const VALUE_STEP: i64 = 46;

/// A sample in the picture.
#[derive(Clone, Copy)]
pub struct Dot {
    pub x: Px,
    pub y: Px,
    value: i128,
}

/// The line in the picture.
#[derive(Default)]
pub struct Line {
    pub runs: Vec<Vec<Dot>>,
    /// The numbers of the runs before which nothing is missing: the samples are too far apart.
    pub breaks: Vec<usize>,
}

/// The samples of a column of pixels that are kept.
struct Column {
    low: Dot,
    high: Dot,
    low_is_first: bool,
    last: Dot,
}

pub struct Plot<'a> {
    samples: &'a Samples<'a>,
    survey: &'a Survey,
    pub x: Range<Px>,
    pub y: Range<Px>,
    /// The part of the width in which places are known.
    known: Range<Px>,
    values: Option<ValueAxis>,
    /// The first and the last place: times, or numbers of records where the time goes back.
    places: Option<(i128, i128)>,
}

impl<'a> Plot<'a> {
    /// The axis of values that a plot of so many pixels has.
    pub fn value_axis(samples: &Samples<'_>, survey: &Survey, height: u32) -> Option<ValueAxis> {
        let most_steps = i128::from(i64::from(height) / VALUE_STEP);
        let scale = samples.format().scale;
        Some(ValueAxis::new(survey.values?, scale, most_steps))
    }

    pub fn new(
        samples: &'a Samples<'a>,
        survey: &'a Survey,
        values: Option<ValueAxis>,
        x: Range<Px>,
        y: Range<Px>,
    ) -> Plot<'a> {
        let places = match survey.goes_back {
            Some(_) => Some((0, samples.count() as i128 - 1)),
            None => survey.times,
        };
        let mut known = x.clone();
        if survey.goes_back.is_none() && survey.points > 0 {
            if survey.gaps.first().is_some_and(|gap| gap.from().is_none()) {
                known.start = known.start + UNDATED_GAP;
            }
            if survey.gaps.last().is_some_and(|gap| gap.to().is_none()) {
                known.end = known.end - UNDATED_GAP;
            }
        }
        Plot {
            samples,
            survey,
            x,
            y,
            known,
            values,
            places,
        }
    }

    /// Where a place stands; a single one in the middle.
    pub fn x_of(&self, place: i128) -> Px {
        let length = self.known.end - self.known.start;
        match self.places {
            Some((first, last)) if first < last => {
                self.known.start + Px(share(place - first, last - first, length))
            }
            _ => self.known.start + Px(length.0 / 2),
        }
    }

    pub fn dot(&self, point: Point) -> Dot {
        let place = match self.survey.goes_back {
            Some(_) => point.index as i128,
            None => point.time,
        };
        let height = match &self.values {
            Some(axis) => axis.height(point.value, self.y.end - self.y.start),
            None => Px(0),
        };
        Dot {
            x: self.x_of(place),
            y: self.y.end - height,
            value: point.value,
        }
    }

    /// The round values, each with where it stands.
    pub fn value_ticks(&self) -> Vec<(Px, String)> {
        let ticks = self.values.iter();
        let ticks = ticks.flat_map(|axis| axis.ticks(self.y.end - self.y.start));
        ticks
            .map(|(height, label)| (self.y.end - height, label))
            .collect()
    }

    /// The ticks below the plot.
    pub fn place_ticks(&self, below: impl Fn(usize) -> String) -> Vec<Tick> {
        let length = self.known.end - self.known.start;
        match (self.places, self.survey.goes_back) {
            (None, _) => Vec::new(),
            (_, Some(_)) => ticks::in_order(self.samples.count(), length, below),
            (Some((first, last)), None) => {
                ticks::in_time(first, last, length, self.samples.format().clock.is_dated())
            }
        }
    }

    /// Where a gap is shaded: from the last sample before it to the first behind it.
    pub fn band(&self, gap: &Gap) -> Range<Px> {
        if self.survey.points == 0 {
            return self.x.clone();
        }
        let end = |point: Option<Point>, time: Option<i128>, record: usize, edge: Px| match (
            point,
            self.survey.goes_back,
            time,
        ) {
            (Some(point), ..) => self.dot(point).x,
            (None, Some(_), _) => self.x_of(record as i128),
            (None, None, Some(time)) => self.x_of(time),
            (None, None, None) => edge,
        };
        let start = end(gap.before, gap.from(), gap.records.start, self.x.start);
        let end = end(gap.after, gap.to(), gap.records.end - 1, self.x.end);
        let missing = LEAST_GAP.0 - (end - start).0;
        if missing <= 0 {
            return start..end;
        }
        // Inside the plot also at its edges.
        let start = Px(start.0 - missing / 2)
            .min(self.x.end - LEAST_GAP)
            .max(self.x.start);
        start..start + LEAST_GAP
    }

    /// The smooth line in a gap, as the old code drew: straight from sample to sample.
    pub fn bridge(&self, gap: &Gap) -> Option<(Dot, Dot)> {
        let (from, to) = (self.dot(gap.before?), self.dot(gap.after?));
        (to.x - from.x >= LEAST_BRIDGE).then_some((from, to))
    }

    /// The runs of samples. Of those in one column of pixels the lowest and the highest are kept, and of each run the
    /// first and the last. Samples in one column stay together, however far apart they are in time.
    pub fn line(&self) -> Line {
        let mut line = Line::default();
        let mut run: Vec<Dot> = Vec::new();
        let mut column: Option<Column> = None;
        let mut last_time = None;
        for record in self.samples.records() {
            let Some(point) = record.point() else {
                if let Some(column) = column.take() {
                    line.runs.push(column.end(&mut run));
                }
                continue;
            };
            let dot = self.dot(point);
            let last_time = last_time.replace(point.time).unwrap_or(point.time);
            match &mut column {
                Some(column) if column.last.x.0 / 100 == dot.x.0 / 100 => column.take_in(dot),
                last => {
                    if self.samples.format().breaks(last_time, point.time) {
                        if let Some(column) = last.take() {
                            line.runs.push(column.end(&mut run));
                            line.breaks.push(line.runs.len());
                        }
                    }
                    match last.take() {
                        Some(column) => column.close(&mut run),
                        None => run.push(dot),
                    }
                    *last = Some(Column::new(dot));
                }
            }
        }
        if let Some(column) = column {
            line.runs.push(column.end(&mut run));
        }
        line
    }
}

impl Column {
    fn new(dot: Dot) -> Column {
        Column {
            low: dot,
            high: dot,
            low_is_first: true,
            last: dot,
        }
    }

    fn take_in(&mut self, dot: Dot) {
        if dot.value < self.low.value {
            (self.low, self.low_is_first) = (dot, false);
        }
        if dot.value > self.high.value {
            (self.high, self.low_is_first) = (dot, true);
        }
        self.last = dot;
    }

    /// Adds what is kept, in the order of the records.
    fn close(&self, run: &mut Vec<Dot>) {
        let (first, second) = match self.low_is_first {
            true => (self.low, self.high),
            false => (self.high, self.low),
        };
        push(run, first);
        push(run, second);
    }

    /// The run that ends with this column.
    fn end(&self, run: &mut Vec<Dot>) -> Vec<Dot> {
        self.close(run);
        push(run, self.last);
        std::mem::take(run)
    }
}

fn push(run: &mut Vec<Dot>, dot: Dot) {
    if run
        .last()
        .is_none_or(|last| (last.x, last.y) != (dot.x, dot.y))
    {
        run.push(dot);
    }
}

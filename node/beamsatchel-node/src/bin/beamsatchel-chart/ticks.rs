//! Round values and times for the two axes.

use crate::format::Scale;
use crate::text::{grouped, width, Px};
use crate::times::{self, DAY, HOUR, MINUTE};

/// Values are labelled in millionths, which is what six digits below a scale's fraction ask for.
const MILLION: i128 = 1_000_000;
/// The text size of the labels below the plot.
pub const FONT: i64 = 13;
/// Between two labels.
const BETWEEN: Px = Px::whole(28);

/// The axis of values, from one round value to another.
pub struct ValueAxis {
    scale: Scale,
    low: i128,
    high: i128,
    step: i128,
}

impl ValueAxis {
    /// An axis that reaches over these values of a field, with at most so many steps.
    pub fn new((low, high): (i128, i128), scale: Scale, most_steps: i128) -> ValueAxis {
        let ends = [low, high].map(|value| value * scale.numerator * MILLION);
        let mut low = ends[0].min(ends[1]).div_euclid(scale.denominator);
        let mut high = -(-ends[0].max(ends[1])).div_euclid(scale.denominator);
        if ends[0] == ends[1] {
            // One value stands in the middle, with a unit or a step of the field on either side.
            let beside = MILLION.max(scale.numerator.abs() * MILLION / scale.denominator);
            (low, high) = (low - beside, high + beside);
        }
        let step = round_step(|step| (high - low) / step < most_steps.max(1));
        ValueAxis {
            scale,
            low: low.div_euclid(step) * step,
            high: -(-high).div_euclid(step) * step,
            step,
        }
    }

    /// How far above the lowest end a value of the field stands, where the axis has this length.
    pub fn height(&self, value: i128, length: Px) -> Px {
        let above = value * self.scale.numerator * MILLION - self.low * self.scale.denominator;
        let whole = (self.high - self.low) * self.scale.denominator;
        Px(share(above, whole, length))
    }

    /// The round values, each with its height and its label.
    pub fn ticks(&self, length: Px) -> Vec<(Px, String)> {
        let zeros = (0..6).take_while(|power| self.step % 10_i128.pow(power + 1) == 0);
        let digits = 6 - zeros.count();
        let count = (self.high - self.low) / self.step;
        let ticks = (0..=count).map(|tick| {
            let label = in_digits(self.low + tick * self.step, digits);
            (Px(share(tick, count, length)), label)
        });
        ticks.collect()
    }
}

/// A value of a field as the axis has it, with as many digits as it needs.
pub fn scaled(value: i128, scale: Scale) -> String {
    let millionths = value * scale.numerator * MILLION;
    let rounded = (2 * millionths + scale.denominator).div_euclid(2 * scale.denominator);
    let zeros = (0..6).take_while(|power| rounded % 10_i128.pow(power + 1) == 0);
    in_digits(rounded, 6 - zeros.count())
}

/// Millionths with so many digits behind the point.
fn in_digits(millionths: i128, digits: usize) -> String {
    let sign = if millionths < 0 { "\u{2212}" } else { "" };
    let (before, behind) = (
        millionths.unsigned_abs() / MILLION as u128,
        millionths.unsigned_abs() % MILLION as u128,
    );
    let behind = format!("{behind:06}");
    match digits {
        0 => format!("{sign}{}", grouped(before)),
        _ => format!("{sign}{}.{}", grouped(before), &behind[..digits]),
    }
}

/// The part of a length that stands for a part of a whole, rounded.
pub fn share(part: i128, whole: i128, length: Px) -> i64 {
    ((2 * part * i128::from(length.0) + whole) / (2 * whole)) as i64
}

/// The least of 1, 2, 5, 10, 20, 50 and so on that is large enough.
fn round_step(enough: impl Fn(i128) -> bool) -> i128 {
    let mut power = 1;
    loop {
        for step in [power, 2 * power, 5 * power] {
            if enough(step) {
                return step;
            }
        }
        power *= 10;
    }
}

/// A place on the axis below the plot, with up to two lines under it.
pub struct Tick {
    pub at: i128,
    pub label: String,
    pub below: String,
}

/// A distance of ticks in time.
#[derive(Clone, Copy)]
enum Step {
    /// So many seconds, counted from a time that the ticks include.
    Seconds { step: i128, from: i128 },
    /// So many months of the calendar.
    Months(i128),
}

/// A Monday.
const MONDAY: i128 = 4 * DAY;

impl Step {
    /// All steps that there are for a calendar, or for times since the first record; then there are no more weeks.
    fn all(dated: bool) -> impl Iterator<Item = Step> {
        let seconds = [1, 2, 5, 10, 15, 30].into_iter();
        let minutes = seconds.clone().map(|minutes| minutes * MINUTE);
        let hours = [1, 2, 3, 6, 12].map(|hours| hours * HOUR);
        let short = seconds.chain(minutes).chain(hours);
        let short = short.map(|step| Step::Seconds { step, from: 0 });
        let days = match dated {
            true => vec![(1, 0), (2, 0), (7, MONDAY), (14, MONDAY)],
            false => Vec::new(),
        };
        let days = days.into_iter().map(|(days, from)| Step::Seconds {
            step: days * DAY,
            from,
        });
        let months = [1, 2, 3, 6]
            .into_iter()
            .filter(move |_| dated)
            .map(Step::Months);
        let powers = (0..24).map(|power| 10_i128.pow(power));
        let rounds = powers.flat_map(|power| [power, 2 * power, 5 * power]);
        let long = rounds.map(move |round| match dated {
            true => Step::Months(12 * round),
            false => Step::Seconds {
                step: round * DAY,
                from: 0,
            },
        });
        short.chain(days).chain(months).chain(long)
    }

    /// About how many seconds it has, and never more.
    fn seconds(self) -> i128 {
        match self {
            Step::Seconds { step, .. } => step,
            Step::Months(months) => 28 * DAY * months,
        }
    }

    /// The first tick at or behind a time.
    fn at_or_behind(self, time: i128) -> i128 {
        match self {
            Step::Seconds { step, from } => from - (from - time).div_euclid(step) * step,
            Step::Months(months) => {
                let (year, month, _) = times::date_of(time.div_euclid(DAY));
                let month = (year * 12 + month - 1).div_euclid(months) * months;
                let first = |month: i128| {
                    times::day_of(month.div_euclid(12), month.rem_euclid(12) + 1, 1) * DAY
                };
                match first(month) < time {
                    true => first(month + months),
                    false => first(month),
                }
            }
        }
    }

    fn label(self, time: i128, dated: bool) -> String {
        match self {
            Step::Seconds { step, .. } if !dated => match step {
                ..MINUTE => times::elapsed(time)[2..].to_string(),
                MINUTE..DAY => {
                    let elapsed = times::elapsed(time);
                    elapsed[2..elapsed.len() - 3].to_string()
                }
                _ => format!("{} d", grouped((time / DAY) as u128)),
            },
            Step::Seconds { step, .. } => match step {
                ..MINUTE => times::time_of_day(time),
                MINUTE..DAY => times::time_of_day(time)[..5].to_string(),
                _ => times::date(time),
            },
            Step::Months(months) => {
                let (year, month, _) = times::date_of(time.div_euclid(DAY));
                match months {
                    ..12 => format!("{}-{month:02}", times::year(year)),
                    _ => times::year(year),
                }
            }
        }
    }
}

/// Ticks from one time to another on an axis of this length, in UTC where times are dated.
pub fn in_time(first: i128, last: i128, length: Px, dated: bool) -> Vec<Tick> {
    let apart = |seconds: i128, needed: Px| {
        seconds * i128::from(length.0) >= i128::from(needed.0) * (last - first)
    };
    let room = |step: &Step| {
        apart(
            step.seconds(),
            width(&step.label(last, dated), FONT) + BETWEEN,
        )
    };
    let mut ticks = Vec::new();
    if let Some(step) = Step::all(dated).find(room).filter(|_| first < last) {
        let mut at = step.at_or_behind(first);
        while at <= last {
            ticks.push((at, step.label(at, dated), step.seconds() < DAY));
            at = step.at_or_behind(at + 1);
        }
    }
    if ticks.len() < 2 {
        let second = Step::Seconds { step: 1, from: 0 };
        let ends = [first, last]
            .into_iter()
            .take(if first < last { 2 } else { 1 });
        ticks = ends.map(|at| (at, second.label(at, dated), true)).collect();
    }
    let mut placed: Vec<Tick> = Vec::new();
    let mut date = String::new();
    for (at, label, below) in ticks {
        let new = match below && dated {
            true => times::date(at),
            false => String::new(),
        };
        // Below the times of a day its date stands once, and where two would touch the later one is kept.
        let below = match new == date {
            true => String::new(),
            false => new.clone(),
        };
        let dates = placed.iter_mut().filter(|tick| !tick.below.is_empty());
        if let (Some(tick), false) = (dates.last(), below.is_empty()) {
            if !apart(at - tick.at, width(&below, FONT) + Px::whole(8)) {
                tick.below.clear();
            }
        }
        date = new;
        placed.push(Tick { at, label, below });
    }
    placed
}

/// Ticks at records in their order, on an axis of this length, each with what is to stand below it.
pub fn in_order(count: usize, length: Px, below: impl Fn(usize) -> String) -> Vec<Tick> {
    let last = count.saturating_sub(1) as i128;
    let needed = width(&times::dated(0), FONT) + Px::whole(8);
    let step = round_step(|step| step * i128::from(length.0) >= i128::from(needed.0) * last);
    let ticks = (0..=last).step_by(step as usize).map(|at| Tick {
        at,
        label: grouped(at as u128),
        below: below(at as usize),
    });
    ticks.collect()
}

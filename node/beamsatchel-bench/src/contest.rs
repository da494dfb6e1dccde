//! Timing: interleaved, warm, medians of many samples.

use std::time::{Duration, Instant};

const SAMPLES: usize = 401;
/// Long beside the clock's own cost.
const SAMPLE: Duration = Duration::from_micros(150);
const WARM_UP: u32 = 200;
/// Samples of one call each, which are long.
const LONG_SAMPLES: usize = 101;

/// One of the things that are timed against each other.
pub type Side<'a> = Box<dyn FnMut() + 'a>;

/// Nanoseconds per call, sample by sample.
pub struct Samples(Vec<f64>);

impl Samples {
    /// Nanoseconds per call.
    pub fn median(&self) -> f64 {
        median(self.0.clone())
    }

    /// How many times as long as the other side, taken of samples of one round, so that what slows
    /// the machine for a while slows both.
    pub fn over(&self, other: &Samples) -> f64 {
        median(self.0.iter().zip(&other.0).map(|(a, b)| a / b).collect())
    }
}

/// Times sides against each other. All are called equally often. What `ready` does for a side goes before each of its
/// samples and is not timed.
pub fn contest(sides: &mut [Side], mut ready: impl FnMut(usize)) -> Vec<Samples> {
    let warm = sides.iter_mut().enumerate().map(|(side, called)| {
        ready(side);
        time(called, WARM_UP)
    });
    let slowest = warm.fold(1.0, f64::max);
    let calls = (SAMPLE.as_nanos() as f64 / slowest).ceil() as u32;
    sample(sides, SAMPLES, calls, ready)
}

/// Times sides against each other whose every call needs something done before. A call is to be long beside the clock's
/// own cost, of some 20 ns.
pub fn contest_each(sides: &mut [Side], ready: impl FnMut(usize)) -> Vec<Samples> {
    sample(sides, LONG_SAMPLES, 1, ready)
}

/// Takes so many samples of so many calls from each side.
fn sample(
    sides: &mut [Side],
    samples: usize,
    calls: u32,
    mut ready: impl FnMut(usize),
) -> Vec<Samples> {
    let count = sides.len();
    let mut times = vec![Vec::new(); count];
    for sample in 0..samples {
        // Forward and backward by turns, so that no side always finds the same one's work in the
        // caches.
        for turn in 0..count {
            let place = if sample % 2 == 0 {
                turn
            } else {
                count - 1 - turn
            };
            let side = (sample + place) % count;
            ready(side);
            times[side].push(time(&mut sides[side], calls));
        }
    }
    times.into_iter().map(Samples).collect()
}

/// Nanoseconds per call.
fn time(side: &mut Side, calls: u32) -> f64 {
    let start = Instant::now();
    for _ in 0..calls {
        side();
    }
    start.elapsed().as_nanos() as f64 / f64::from(calls)
}

fn median(mut times: Vec<f64>) -> f64 {
    times.sort_by(f64::total_cmp);
    times[times.len() / 2]
}

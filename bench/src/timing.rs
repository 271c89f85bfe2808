//! The time of one call, on three sides that take turns.

use std::fmt;
use std::time::{Duration, Instant};

/// Each of the three orders is taken as often as the others.
const ROUNDS: usize = 303;

/// A sample is as many calls as take at least this long.
const SAMPLE: Duration = Duration::from_micros(500);

/// Medians of all rounds: the time of a call on each side, in microseconds, and the ratio of two
/// times of one round, the verified or the limit's to the reference's. What else the machine does
/// slows the samples of a round alike, so that their ratio is steadier than they are.
pub struct Times {
    verified: f64,
    reference: f64,
    limit: f64,
    pub ratio: f64,
    limits_ratio: f64,
}

/// The headings of the columns that a `Times` is printed in.
pub const COLUMNS: &str = "   verified us  reference us      limit us   ratio  limit's ratio";

impl fmt::Display for Times {
    fn fmt(&self, out: &mut fmt::Formatter<'_>) -> fmt::Result {
        write!(
            out,
            "{:>14.3}{:>14.3}{:>14.3}{:>8.2}{:>15.2}",
            self.verified, self.reference, self.limit, self.ratio, self.limits_ratio
        )
    }
}

/// The headings of the columns of `Times::per`.
pub const COLUMNS_PER: &str = "      verified     reference         limit";

impl Times {
    /// The times in nanoseconds for each of so many units.
    pub fn per(&self, units: usize) -> String {
        let times = [self.verified, self.reference, self.limit];
        times
            .map(|microseconds| format!("{:>14.3}", microseconds * 1e3 / units as f64))
            .concat()
    }
}

/// Times a call of each side: verified, reference, limit. Each round takes a sample of all; another
/// side goes first in the next.
pub fn compare<F: FnMut()>(calls: [F; 3]) -> Times {
    let mut sides = calls.map(Side::new);
    for round in 0..ROUNDS {
        for turn in 0..3 {
            sides[(round + turn) % 3].sample();
        }
    }
    let [verified, reference, limit] = sides.map(|side| side.samples);
    Times {
        ratio: median(ratios(&verified, &reference)),
        limits_ratio: median(ratios(&limit, &reference)),
        verified: median(verified),
        reference: median(reference),
        limit: median(limit),
    }
}

/// A side and its samples, one for each round.
struct Side<F> {
    call: F,
    calls: u32,
    samples: Vec<f64>,
}

impl<F: FnMut()> Side<F> {
    /// Doubles the number of calls until a sample is long enough.
    fn new(mut call: F) -> Self {
        let mut calls = 1;
        while time(&mut call, calls) < SAMPLE {
            calls *= 2;
        }
        Side {
            call,
            calls,
            samples: Vec::with_capacity(ROUNDS),
        }
    }

    fn sample(&mut self) {
        let elapsed = time(&mut self.call, self.calls);
        self.samples
            .push(elapsed.as_secs_f64() * 1e6 / f64::from(self.calls));
    }
}

fn time(mut call: impl FnMut(), calls: u32) -> Duration {
    let start = Instant::now();
    for _ in 0..calls {
        call();
    }
    start.elapsed()
}

/// The ratio in each round.
fn ratios(times: &[f64], reference: &[f64]) -> Vec<f64> {
    let rounds = times.iter().zip(reference);
    rounds.map(|(time, reference)| time / reference).collect()
}

fn median(mut samples: Vec<f64>) -> f64 {
    samples.sort_by(f64::total_cmp);
    samples[samples.len() / 2]
}

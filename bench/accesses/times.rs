//! Rounds in which every version runs once, and what is told of their times.

use std::fmt;
use std::time::Duration;

/// The seconds of each version, round by round.
pub struct Times(Vec<Vec<f64>>);

/// One round to warm up, which doesn't count, then so many. Each begins with another version.
pub fn rounds(
    versions: usize,
    rounds: usize,
    mut run: impl FnMut(usize) -> Result<Duration, String>,
) -> Result<Times, String> {
    let mut times = Times(vec![Vec::new(); versions]);
    for round in 0..=rounds {
        for turn in 0..versions {
            let version = (round + turn) % versions;
            let took = run(version)?;
            if round != 0 {
                times.0[version].push(took.as_secs_f64());
            }
        }
    }
    Ok(times)
}

impl Times {
    /// What a version took in a round, to what another took in the same round.
    pub fn ratio(&self, version: usize, to: usize) -> Spread {
        Spread::of(self.0[version].iter().zip(&self.0[to]).map(|(took, other)| took / other))
    }

    /// The median for one of so many, in nanoseconds.
    pub fn nanoseconds(&self, version: usize, many: usize) -> f64 {
        Spread::of(self.0[version].iter().map(|took| took * 1e9 / many as f64)).median
    }
}

/// The middle one of some numbers, and the ends of their middle half.
#[derive(Clone, Copy)]
pub struct Spread {
    pub low: f64,
    pub median: f64,
    pub high: f64,
}

impl Spread {
    fn of(numbers: impl Iterator<Item = f64>) -> Spread {
        let mut sorted: Vec<_> = numbers.collect();
        sorted.sort_by(f64::total_cmp);
        Spread { low: quantile(&sorted, 0.25), median: quantile(&sorted, 0.5), high: quantile(&sorted, 0.75) }
    }
}

impl fmt::Display for Spread {
    fn fmt(&self, f: &mut fmt::Formatter) -> fmt::Result {
        let Spread { low, median, high } = self;
        f.pad(&format!("{median:.2} ({low:.2} to {high:.2})"))
    }
}

/// The number below which this part of them lies: between two of them, as far as it falls between.
fn quantile(sorted: &[f64], part: f64) -> f64 {
    let at = part * (sorted.len() - 1) as f64;
    let (below, above) = (sorted[at.floor() as usize], sorted[at.ceil() as usize]);
    below + (above - below) * at.fract()
}

//! Several sides timed in one run on the same inputs.

use std::hint::black_box;
use std::time::{Duration, Instant};

/// A slice of work is at least this long: short, so that most slices aren't
/// broken into by other programs.
const SLICE: Duration = Duration::from_micros(200);
/// In each round each side has so many slices; its best one counts.
const SLICES: usize = 8;

/// Goes through the bundles so often, and gives the time that it took.
pub type Side<'a> = Box<dyn Fn(&[Vec<u8>], usize) -> Duration + 'a>;

/// A side that makes this call for each bundle.
pub fn side<'a>(call: impl Fn(&[u8]) -> u64 + 'a) -> Side<'a> {
    Box::new(move |bundles, repeats| {
        let begin = Instant::now();
        for _ in 0..repeats {
            for bundle in bundles {
                black_box(call(black_box(bundle)));
            }
        }
        begin.elapsed()
    })
}

/// A side that makes this call for each of its own inputs, one for each bundle.
pub fn side_of<'a, T>(inputs: &'a [T], call: impl Fn(&T) -> u64 + 'a) -> Side<'a> {
    Box::new(move |_, repeats| {
        let begin = Instant::now();
        for _ in 0..repeats {
            for input in inputs {
                black_box(call(black_box(input)));
            }
        }
        begin.elapsed()
    })
}

/// Lowest, middle and highest of the rounds.
#[derive(Clone, Copy)]
pub struct Spread {
    pub low: f64,
    pub middle: f64,
    pub high: f64,
}

impl Spread {
    fn of(numbers: impl Iterator<Item = f64>) -> Spread {
        let mut all: Vec<f64> = numbers.collect();
        all.sort_by(f64::total_cmp);
        Spread {
            low: all[0],
            middle: all[all.len() / 2],
            high: all[all.len() - 1],
        }
    }
}

/// Nanoseconds a call of each side, round by round.
pub struct Times(Vec<Vec<f64>>);

impl Times {
    /// The sides in turn, slice by slice.
    pub fn measure(rounds: usize, bundles: &[Vec<u8>], sides: &[Side]) -> Times {
        let repeats: Vec<usize> = sides.iter().map(|side| repeats(side, bundles)).collect();
        let round = |_| {
            let mut best = vec![f64::MAX; sides.len()];
            for _ in 0..SLICES {
                for ((side, &repeats), best) in sides.iter().zip(&repeats).zip(&mut best) {
                    let calls = (repeats * bundles.len()) as f64;
                    *best = best.min(side(bundles, repeats).as_nanos() as f64 / calls);
                }
            }
            best
        };
        Times((0..rounds).map(round).collect())
    }

    /// The median of a side.
    pub fn of(&self, side: usize) -> f64 {
        Spread::of(self.0.iter().map(|round| round[side])).middle
    }

    /// One side divided by another, each round by itself.
    pub fn ratio(&self, side: usize, by: usize) -> Spread {
        Spread::of(self.0.iter().map(|round| round[side] / round[by]))
    }
}

/// How often the bundles are gone through to fill a slice of time.
fn repeats(side: &Side, bundles: &[Vec<u8>]) -> usize {
    let mut repeats = 1;
    while side(bundles, repeats) < SLICE {
        repeats *= 2;
    }
    repeats
}

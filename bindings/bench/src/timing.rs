//! Times of two or more things, each the least of many rounds in which they take turns.

use std::hint::black_box;
use std::sync::OnceLock;
use std::time::Instant;

/// Rounds of a call of some microseconds, and of a replay.
pub const CALL_ROUNDS: usize = 5_001;
pub const REPLAY_ROUNDS: usize = 301;

/// The proved board's nanoseconds, and plain Rust's.
#[derive(Clone, Copy, Debug)]
pub struct Times {
    pub proved: f64,
    pub plain: f64,
}

impl Times {
    pub fn ratio(self) -> f64 {
        self.proved / self.plain
    }

    pub fn least(self, other: Times) -> Times {
        Times { proved: self.proved.min(other.proved), plain: self.plain.min(other.plain) }
    }

    pub fn less(self, other: Times) -> Times {
        Times { proved: self.proved - other.proved, plain: self.plain - other.plain }
    }

    pub fn map(self, change: impl Fn(f64) -> f64) -> Times {
        Times { proved: change(self.proved), plain: change(self.plain) }
    }
}

/// The least that each answers.
pub fn least(rounds: usize, mut proved: impl FnMut() -> f64, mut plain: impl FnMut() -> f64) -> Times {
    let [proved, plain] = least_of(rounds, [&mut proved, &mut plain]);
    Times { proved, plain }
}

pub fn least_of<const N: usize>(rounds: usize, mut runs: [&mut dyn FnMut() -> f64; N]) -> [f64; N] {
    let mut best = [f64::MAX; N];
    for _ in 0..rounds {
        for (best, run) in best.iter_mut().zip(&mut runs) {
            *best = best.min(run());
        }
    }
    best
}

/// Nanoseconds of one run, less what the clock itself takes.
pub fn timed<T>(run: impl FnOnce() -> T) -> f64 {
    (clocked(run) - clock_cost()).max(0.0)
}

fn clocked<T>(run: impl FnOnce() -> T) -> f64 {
    let start = Instant::now();
    black_box(run());
    start.elapsed().as_nanos() as f64
}

fn clock_cost() -> f64 {
    static COST: OnceLock<f64> = OnceLock::new();
    *COST.get_or_init(|| (0..10_000).map(|_| clocked(|| ())).fold(f64::MAX, f64::min))
}

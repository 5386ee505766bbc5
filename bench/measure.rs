//! Times of three ways of doing the same, taken in turns.

use std::hint::black_box;
use std::time::Instant;

/// Rounds of each way; the median of an odd number of them is one of them.
const ROUNDS: usize = 501;

/// A round goes on for about so long: the clock's own time does not count, and most rounds end before
/// another process is given the processor.
const ROUND_SECONDS: f64 = 0.0003;

/// Nanoseconds for one call, each the median of its rounds: the original called as Rust, the
/// original behind a boundary like the port's, the port.
#[derive(Clone, Copy)]
pub struct Times {
    pub original: f64,
    pub bounded: f64,
    pub port: f64,
}

impl Times {
    /// Those of one part of a call that does so many.
    pub fn of_each(self, parts: usize) -> Times {
        let of_one = |time: f64| time / parts as f64;
        Times {
            original: of_one(self.original),
            bounded: of_one(self.bounded),
            port: of_one(self.port),
        }
    }
}

/// Asks each way about every input, again and again, in rounds that take turns.
pub fn compare<I, A, B, C>(
    inputs: &[I],
    original: impl Fn(&I) -> A,
    bounded: impl Fn(&I) -> B,
    port: impl Fn(&I) -> C,
) -> Times {
    let original = || each(inputs, &original);
    let bounded = || each(inputs, &bounded);
    let port = || each(inputs, &port);
    let slowest = seconds(1, &original)
        .max(seconds(1, &bounded))
        .max(seconds(1, &port));
    let repeats = ((ROUND_SECONDS / slowest) as usize).max(1);
    let mut rounds: [Vec<f64>; 3] = Default::default();
    for _ in 0..ROUNDS {
        rounds[0].push(seconds(repeats, &original));
        rounds[1].push(seconds(repeats, &bounded));
        rounds[2].push(seconds(repeats, &port));
    }
    let calls = (repeats * inputs.len()) as f64;
    let [original, bounded, port] = rounds.map(|times| median(times) * 1e9 / calls);
    Times {
        original,
        bounded,
        port,
    }
}

fn each<I, A>(inputs: &[I], ask: &impl Fn(&I) -> A) {
    for input in inputs {
        drop(black_box(ask(black_box(input))));
    }
}

fn seconds(repeats: usize, ask: &impl Fn()) -> f64 {
    let start = Instant::now();
    (0..repeats).for_each(|_| ask());
    start.elapsed().as_secs_f64()
}

/// The middle one of some numbers; of an even number of them the upper middle one.
pub fn median(mut times: Vec<f64>) -> f64 {
    times.sort_by(f64::total_cmp);
    times[times.len() / 2]
}

//! What was compared, what differed, and which listed differences were met.

use std::fmt::Debug;
use std::sync::atomic::{AtomicU64, Ordering};
use std::thread;

/// How many differences of a row are shown.
const SHOWN: usize = 5;

/// The differences that docs/DIFFERENCES.md lists. Each is a rule of the comparison: there the port's
/// answer is held to the number that the list gives it.
#[derive(Clone, Copy)]
pub enum Listed {
    FieldsPanic,
    SumOutside32Bits,
    SumOfNoDate,
    LongText,
    NoDate,
    OutsideTypes,
    NoOperation,
}

pub const LISTED: [(Listed, &str); 7] = [
    (
        Listed::FieldsPanic,
        "E fields with day 32 or more: the Rust panics, here 4",
    ),
    (
        Listed::SumOutside32Bits,
        "a sum outside 32 bits: the Rust panics, here 5",
    ),
    (
        Listed::SumOfNoDate,
        "a sum that is no date's number: the Rust panics, here 6",
    ),
    (
        Listed::LongText,
        "a text over 64 bytes that the Rust reads: here 1",
    ),
    (
        Listed::NoDate,
        "a date handed in that the Rust cannot make: here 4",
    ),
    (
        Listed::OutsideTypes,
        "fields outside the Rust's types: here 4",
    ),
    (
        Listed::NoOperation,
        "a code that is no kind's, or an operation that the kind lacks: here 4",
    ),
];

#[derive(Default)]
pub struct Tally {
    pub compared: u64,
    pub differed: u64,
    pub first: Vec<String>,
    pub listed: [u64; LISTED.len()],
}

impl Tally {
    /// One comparison. `asked` says what was asked, for a difference that is shown.
    #[inline]
    pub fn hold<T: PartialEq + Debug>(
        &mut self,
        right: T,
        port: T,
        asked: impl FnOnce() -> String,
    ) {
        self.compared += 1;
        if right != port {
            self.differ(&right, &port, asked());
        }
    }

    #[cold]
    fn differ<T: Debug>(&mut self, right: &T, port: &T, asked: String) {
        self.differed += 1;
        if self.first.len() < SHOWN {
            self.first
                .push(format!("{asked}: {right:?} is right, {port:?} is answered"));
        }
    }

    /// A listed difference was met; the port's answer is held to the list's by itself.
    pub fn met(&mut self, listed: Listed) {
        self.met_often(listed, 1);
    }

    pub fn met_often(&mut self, listed: Listed, times: u64) {
        self.listed[listed as usize] += times;
    }

    pub fn and(mut self, other: Tally) -> Tally {
        self.compared += other.compared;
        self.differed += other.differed;
        self.first.extend(other.first);
        self.first.truncate(SHOWN);
        for (sum, more) in self.listed.iter_mut().zip(other.listed) {
            *sum += more;
        }
        self
    }
}

/// Does all parts, 0 up to `parts`, over the machine's processors.
pub fn share(parts: u64, part: impl Fn(u64, &mut Tally) + Sync) -> Tally {
    let each = |range: u64, tally: &mut Tally, _: &mut ()| part(range, tally);
    share_with(parts, each).0
}

/// The same, where each processor also keeps something of its own.
pub fn share_with<O: Default + Send>(
    parts: u64,
    part: impl Fn(u64, &mut Tally, &mut O) + Sync,
) -> (Tally, Vec<O>) {
    let next = AtomicU64::new(0);
    let work = || {
        let (mut tally, mut own) = (Tally::default(), O::default());
        loop {
            let place = next.fetch_add(1, Ordering::Relaxed);
            if place >= parts {
                return (tally, own);
            }
            part(place, &mut tally, &mut own);
        }
    };
    let processors = thread::available_parallelism().map_or(1, |number| number.get());
    thread::scope(|scope| {
        let workers: Vec<_> = (0..processors).map(|_| scope.spawn(&work)).collect();
        let mut sum = (Tally::default(), Vec::new());
        for worker in workers {
            let (tally, own) = worker.join().expect("a part ends");
            sum.0 = sum.0.and(tally);
            sum.1.push(own);
        }
        sum
    })
}

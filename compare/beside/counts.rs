//! How many texts were generated, by length, and how many of them each kind accepted.

use crate::report::grouped;
use second_reading::text::LONGEST_TEXT;
use std::ops::RangeInclusive;

/// By length: what is longer than a text may be is not counted here.
type Lengths = [u64; LONGEST_TEXT + 1];

pub struct Counts {
    texts: u64,
    by_length: Lengths,
    accepted: [Lengths; 6],
    accepted_by_some: u64,
}

impl Default for Counts {
    fn default() -> Self {
        Counts {
            texts: 0,
            by_length: [0; LONGEST_TEXT + 1],
            accepted: [[0; LONGEST_TEXT + 1]; 6],
            accepted_by_some: 0,
        }
    }
}

impl Counts {
    /// One text of this length; which kinds accept it, in the order of their codes.
    pub fn add(&mut self, length: usize, accepting: [bool; 6]) {
        self.texts += 1;
        self.by_length[length] += 1;
        for (kind, is_accepted) in self.accepted.iter_mut().zip(accepting) {
            kind[length] += u64::from(is_accepted);
        }
        self.accepted_by_some += u64::from(accepting.contains(&true));
    }

    pub fn and(mut self, more: &Counts) -> Counts {
        self.texts += more.texts;
        self.accepted_by_some += more.accepted_by_some;
        for length in 0..=LONGEST_TEXT {
            self.by_length[length] += more.by_length[length];
            for kind in 0..6 {
                self.accepted[kind][length] += more.accepted[kind][length];
            }
        }
        self
    }

    /// A row for each band of lengths, one for all, and the shares that are accepted. The bands are all
    /// lengths that were generated.
    pub fn table(&self, bands: &[RangeInclusive<usize>]) -> String {
        let mut table =
            String::from("\n| bytes | generated | accepted by R | D | H | U | E | V |\n");
        table.push_str("|---:|---:|---:|---:|---:|---:|---:|---:|\n");
        for band in bands {
            table.push_str(&self.row(&name(band), band));
        }
        let whole = 0..=LONGEST_TEXT;
        table.push_str(&self.row("all", &whole));
        let pairs: u64 = self.accepted.iter().flatten().sum();
        let share = |part: u64, whole: u64| part as f64 * 100.0 / whole as f64;
        table.push_str(&format!(
            "\nOf the generated texts of {} to {} bytes {:.1}% are accepted by some kind; of all pairs of text and kind {:.1}%.\n",
            bands[0].start(),
            bands[bands.len() - 1].end(),
            share(self.accepted_by_some, self.texts),
            share(pairs, self.texts * 6),
        ));
        table
    }

    fn row(&self, name: &str, band: &RangeInclusive<usize>) -> String {
        let sum = |lengths: &Lengths| grouped(lengths[band.clone()].iter().sum());
        let cells = self.accepted.each_ref().map(sum).join(" | ");
        format!("| {name} | {} | {cells} |\n", sum(&self.by_length))
    }
}

fn name(band: &RangeInclusive<usize>) -> String {
    let (least, greatest) = (band.start(), band.end());
    if least == greatest {
        least.to_string()
    } else {
        format!("{least} to {greatest}")
    }
}

//! Generated texts of up to 16 bytes, asked of all six kinds, with counts by kind and length.

use crate::counts::Counts;
use crate::drawn::{self, KINDS};
use crate::original::Coded;
use crate::random::Random;
use crate::report::{Covers, Extent, Report, grouped};
use crate::tally::{Tally, share_with};
use crate::texts::{SHORT, ask};

const PARTS: u64 = 200;

pub fn run(extent: Extent, report: &mut Report) {
    let count: u64 = extent.pick(4_000_000, 100_000_000);
    let (tally, counts) = share_with::<Counts>(PARTS, |part, tally, counts| {
        let mut random = Random::new(part);
        for number in 0..count / PARTS {
            one(tally, counts, &mut random, KINDS[(number % 6) as usize]);
        }
    });
    let count = grouped(count);
    let name = format!("{count} generated texts of 0 to {SHORT} bytes, six kinds");
    report.row(&name, Covers::Sample, tally);
    let bands: Vec<_> = (0..=SHORT).map(|length| length..=length).collect();
    let sum = counts.iter().fold(Counts::default(), Counts::and);
    report.later(&sum.table(&bands));
}

fn one(tally: &mut Tally, counts: &mut Counts, random: &mut Random, kind: char) {
    let draft = loop {
        let draft = drawn::text(random, kind);
        if draft.text().len() <= SHORT {
            break draft;
        }
    };
    let mut accepting = [false; 6];
    for_all_six!(note(tally, draft.text(), &mut accepting));
    counts.add(draft.text().len(), accepting);
}

fn note<K: Coded>(tally: &mut Tally, text: &[u8], accepting: &mut [bool; 6]) {
    accepting[K::CODE as usize - 1] = ask::<K>(tally, text);
}

//! Every 32 bits handed in as a date, with each mark: which are a date, which date they are without the mark,
//! and that the mark changes no order. The original has no marks: the second reading of request #106 says
//! which word with which mark is a date.

use crate::handed_in::REFUSED;
use crate::kinds::Fields;
use crate::original::{self, Coded, gives, refused};
use crate::report::{Covers, Extent, Report};
use crate::tally::{Listed, Tally, share};
use crate::years::years;
use pennyquill::ffi::{self, Number};
use second_reading::kinds::KINDS;
use second_reading::marks::{self, Mark, Marked};

const QUICK_STEP: i16 = 499;

const SAME: Number = Number {
    refusal: 0,
    value: 0,
};

pub fn run(extent: Extent, report: &mut Report) {
    for_all_six!(words(extent, report));
    for_all_six!(unmarked_words(extent, report));
    for_all_six!(guessed_dates(extent, report));
    let mut tally = Tally::default();
    for_all_six!(agreement(&mut tally));
    let name =
        "every word without a mark, whether it is a date: the second reading beside the Rust";
    report.row(name, Covers::All, tally);
}

/// The year plays no part in which dates a kind has.
const YEAR: i16 = 1444;

/// Of every word the date of the kind that it is, with its mark, by the second reading.
pub fn dates<K: Coded>() -> Vec<Option<Marked>> {
    let kind = KINDS[K::CODE as usize - 1];
    let date = |word| marks::handed_in(kind, YEAR, word);
    (0..=u16::MAX).map(date).collect()
}

/// Asks about every 32 bits: the year's sixteen, above a word.
fn each<T: Sync>(
    extent: Extent,
    words: &[T],
    ask: impl Fn(&mut Tally, u32, u32, &T) + Sync,
) -> Tally {
    let years = years(extent, QUICK_STEP);
    share(years.len() as u64, |part, tally| {
        let year = u32::from(years[part as usize] as u16) << 16;
        for (word, said) in (0..).zip(words) {
            ask(tally, year, year | word, said);
        }
    })
}

/// Every 32 bits: a date is in order with itself, and what is no date is 4.
fn words<K: Coded>(extent: Extent, report: &mut Report) {
    let is_date: Vec<bool> = dates::<K>().iter().map(Option::is_some).collect();
    let tally = each(extent, &is_date, |tally, _, bits, &is_date| {
        let right = if is_date { SAME } else { REFUSED };
        let asked = || format!("{} {bits:#010x} handed in", K::LETTER);
        tally.hold(right, ffi::pq_order(K::CODE, bits, bits), asked);
        if !is_date {
            tally.met(Listed::NoDate);
        }
    });
    let name = format!("{}: which of all 32 bits handed in are a date", K::LETTER);
    report.row(&name, extent.covers_all(), tally);
}

/// Every 32 bits: a date without its mark, and what is no date is 4.
fn unmarked_words<K: Coded>(extent: Extent, report: &mut Report) {
    let unmarked = |date: Marked| u32::from(date.without_mark().word());
    let words: Vec<Option<u32>> = dates::<K>()
        .into_iter()
        .map(|date| date.map(unmarked))
        .collect();
    let tally = each(extent, &words, |tally, year, bits, unmarked| {
        let right = match unmarked {
            Some(word) => gives(year | word),
            None => refused(4),
        };
        let asked = || format!("{} {bits:#010x} without its mark", K::LETTER);
        tally.hold(right, ffi::pq_without_mark(K::CODE, bits), asked);
    });
    let name = format!("{}: all 32 bits handed in, without their mark", K::LETTER);
    report.row(&name, extent.covers_all(), tally);
}

/// "Order, equality and all texts disregard it": a guessed date beside itself without the mark.
fn guessed_dates<K: Coded>(extent: Extent, report: &mut Report) {
    let beside_itself = |date: Option<Marked>| date.and_then(beside_itself);
    let guessed: Vec<Option<(u32, i32)>> = dates::<K>().into_iter().map(beside_itself).collect();
    let tally = each(extent, &guessed, |tally, year, bits, said| {
        let &Some((word, order)) = said else {
            return;
        };
        let asked = || format!("{} {bits:#010x} beside itself without the mark", K::LETTER);
        let mut hold = |value, port| tally.hold(Number { refusal: 0, value }, port, asked);
        hold(order, ffi::pq_order(K::CODE, bits, year | word));
        hold(-order, ffi::pq_order(K::CODE, year | word, bits));
    });
    let name = format!(
        "{}: every guessed date, order with itself without the mark",
        K::LETTER
    );
    report.row(&name, extent.covers_all(), tally);
}

/// Of a guessed date its word without the mark, and its order with that.
fn beside_itself(date: Marked) -> Option<(u32, i32)> {
    let other = date.without_mark();
    let order = marks::order(date, other) as i32;
    (date.mark == Mark::Guessed).then(|| (other.word().into(), order))
}

/// Where the original can be asked, it says the same as the second reading.
fn agreement<K: Coded>(tally: &mut Tally) {
    for (word, date) in (0_u32..).zip(dates::<K>()).step_by(4) {
        let (month, day, hour) = (word >> 12, word >> 7 & 31, word >> 2 & 31);
        let fields = Fields::new(YEAR, month as u8, day as u8, hour as u8);
        let is_original = original::with::<K>(fields).is_some();
        let asked = || format!("{} {fields} by the second reading", K::LETTER);
        tally.hold(is_original, date.is_some(), asked);
    }
}

//! The same of guessed dates, at some years: additions, starts of day, differences and orders. The original is
//! asked without the mark, and the second reading of request #106 says which mark its answer has.

use crate::days::{Sums, condition, each_addition, each_pair, is_number};
use crate::kinds::{Counted, Eu5Date, Kind};
use crate::original::{Coded, gives, refused};
use crate::report::{Covers, Extent, Report};
use crate::spellings::each_date_of;
use crate::tally::Tally;
use crate::years::some_years;
use pennyquill::ffi::{self, Number};
use second_reading::marks::Mark;

/// The marks of two dates, of which one is guessed or both are.
const PAIRS: [(Mark, Mark); 3] = [
    (Mark::Guessed, Mark::Declared),
    (Mark::Declared, Mark::Guessed),
    (Mark::Guessed, Mark::Guessed),
];

pub fn run(extent: Extent, report: &mut Report) {
    let years = some_years(extent);
    starts(&years, report);
    for_all_six!(orders(&years, report));
    for_each!(differences(&years, report): Date, Eu5Date, Vic3Date);
    for_each!(additions(&years, report): Date, Eu5Date, Vic3Date);
}

fn row<K: Coded>(years: &[i16], report: &mut Report, what: &str, tally: Tally) {
    let (letter, count) = (K::LETTER, years.len());
    let name = format!("{letter}: guessed dates of {count} years, {what}");
    report.row(&name, Covers::Sample, tally);
}

/// "an addition and E's start of day keep the starting date's mark".
fn starts(years: &[i16], report: &mut Report) {
    let tally = each_date_of::<Eu5Date>(years, |tally, date| {
        let mark = Mark::of_start_of_day(Mark::Guessed);
        let right = gives(date.start_of_day().bits_with(mark));
        let port = ffi::pq_start_of_day(Eu5Date::CODE, date.bits_with(Mark::Guessed));
        tally.hold(right, port, || {
            format!("E {} guessed, at the start of its day", date.fields())
        });
    });
    row::<Eu5Date>(years, report, "the start of day keeps the mark", tally);
}

/// A panic is decided by the condition that those of dates without a mark have shown.
fn additions<K: Coded + Counted>(years: &[i16], report: &mut Report) {
    let tally = each_date_of::<K>(years, |tally, date| {
        each_addition(date, Sums::All, |days, sum| {
            let right = if is_number(sum) {
                gives(date.plus(days).bits_with(Mark::of_sum(Mark::Guessed)))
            } else {
                refused(condition(sum))
            };
            let port = ffi::pq_add_days(K::CODE, date.bits_with(Mark::Guessed), days);
            let asked = || format!("{} {} guessed, plus {days}", K::LETTER, date.fields());
            tally.hold(right, port, asked);
        });
    });
    row::<K>(years, report, "additions keep the mark", tally);
}

/// Every two dates, of which one is guessed or both are: the number is that of the dates without marks.
fn numbers<K: Coded>(
    years: &[i16],
    right: impl Fn(K, K) -> i32 + Sync,
    port: impl Fn(u32, u32) -> Number + Sync,
) -> Tally {
    each_pair::<K>(years, |tally, one, other| {
        let value = right(one, other);
        for (mark, mark_of_other) in PAIRS {
            let (bits, other_bits) = (one.bits_with(mark), other.bits_with(mark_of_other));
            let asked = || format!("{} {bits:#010x} and {other_bits:#010x}", K::LETTER);
            tally.hold(Number { refusal: 0, value }, port(bits, other_bits), asked);
        }
    })
}

fn differences<K: Coded + Counted>(years: &[i16], report: &mut Report) {
    let port = |one, other| ffi::pq_days_until(K::CODE, one, other);
    let tally = numbers::<K>(years, |one, other| one.until(other), port);
    let what = "differences to and from fixed dates, marks on either and both";
    row::<K>(years, report, what, tally);
}

/// "Order, equality and all texts disregard it".
fn orders<K: Coded>(years: &[i16], report: &mut Report) {
    let port = |one, other| ffi::pq_order(K::CODE, one, other);
    let tally = numbers::<K>(years, |one, other| one.cmp(&other) as i32, port);
    let what = "order with fixed dates and itself, marks on either and both";
    row::<K>(years, report, what, tally);
}

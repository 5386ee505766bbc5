//! Additions, differences, orders and starts of day, from every date.

use crate::kinds::{Counted, Eu5Date, Fields, Kind};
use crate::marked_days;
use crate::original::{self, Coded, days, gives, or_panic, refused};
use crate::report::{Covers, Extent, Report};
use crate::tally::{Listed, Tally, share, share_with};
use crate::years::years;
use pennyquill::ffi::{self, Number};

const QUICK_STEP: i16 = 1499;

/// Panics take a hundred times as long as answers. Of V and E they are asked in the first and the last
/// year and in those that this step reaches; in the others they are decided by the condition that D's
/// have, which the asked ones show.
const PANICS_STEP: i16 = 251;

const LEAST_SUM: i64 = -11_960_684;
const GREATEST_SUM: i64 = 11_960_319;
const LEAST_32: i64 = i32::MIN as i64;
const GREATEST_32: i64 = i32::MAX as i64;

const STEPS: [i32; 7] = [0, 1, -1, 364, -364, 365, -365];

/// The sums that are reached from every date, beside each of -366 to 1.
const SUMS: [i64; 8] = [
    LEAST_32 - 1,
    LEAST_32,
    LEAST_SUM - 1,
    LEAST_SUM,
    GREATEST_SUM,
    GREATEST_SUM + 1,
    GREATEST_32,
    GREATEST_32 + 1,
];

/// The dates that every date is compared with, each with its kind's first hour and its last.
const FIXED: [(i16, u8, u8); 7] = [
    (-32768, 1, 1),
    (-32768, 12, 30),
    (-1, 12, 30),
    (0, 1, 1),
    (1, 1, 1),
    (1444, 11, 11),
    (32767, 12, 30),
];

/// What takes longest comes last: of E, which has 23 hours, those between the first and the last.
pub fn run(extent: Extent, report: &mut Report) {
    marked_days::run(extent, report);
    starts(extent, report);
    for_all_six!(orders(extent, report));
    for_each!(differences(extent, report): Date, Eu5Date, Vic3Date);
    for_each!(additions(extent, report, Sums::All, "every date", |_| true): Date, Vic3Date);
    let is_outer = |hour| hour == 0 || hour == 22;
    let is_inner = |hour| !is_outer(hour);
    let (outer, inner) = (
        "every date at hours 0 and 22",
        "every date at hours 1 to 21, but for the landings",
    );
    let landings = "every date at hours 1 to 21, landing on -366 to 1";
    additions::<Eu5Date>(extent, report, Sums::All, outer, is_outer);
    additions::<Eu5Date>(extent, report, Sums::Ends, inner, is_inner);
    additions::<Eu5Date>(extent, report, Sums::Landings, landings, is_inner);
}

pub fn date<K: Coded>(year: i16, (month, day, hour): (u8, u8, u8)) -> K {
    original::with(Fields::new(year, month, day, hour)).expect("a date of the kind")
}

fn additions<K: Coded + Counted>(
    extent: Extent,
    report: &mut Report,
    sums: Sums,
    dates: &str,
    has_hour: impl Fn(u8) -> bool,
) {
    let years = years(extent, QUICK_STEP);
    let mut days = days::<K>();
    days.retain(|&(_, _, hour)| has_hour(hour));
    let (asked, decided) = share_with::<Tally>(years.len() as u64, |part, asked, decided| {
        let year = years[part as usize];
        let asks_panics = K::LETTER == 'D' || asks_panics(year);
        for &day in &days {
            add_all(date::<K>(year, day), sums, asks_panics, asked, decided);
        }
    });
    let decided = decided.into_iter().fold(Tally::default(), Tally::and);
    let which = match decided.compared {
        0 => "additions",
        _ => "additions that give a date, and panics at some years",
    };
    let name = format!("{}: {dates}, {which}", K::LETTER);
    report.row(&name, extent.covers_all(), asked);
    if decided.compared > 0 {
        let name = format!(
            "{}: {dates}, additions whose panic is decided by the sum",
            K::LETTER
        );
        report.row(&name, Covers::Sample, decided);
    }
}

/// Which additions are asked: the steps and the ends of what is a date and of 32 bits, the landings on
/// each of -366 to 1, or all of these.
#[derive(Clone, Copy, PartialEq)]
pub enum Sums {
    All,
    Ends,
    Landings,
}

impl Sums {
    fn has_ends(self) -> bool {
        self != Sums::Landings
    }

    fn has_landings(self) -> bool {
        self != Sums::Ends
    }
}

fn asks_panics(year: i16) -> bool {
    year % PANICS_STEP == 0 || year == i16::MIN || year == i16::MAX
}

fn add_all<K: Coded + Counted>(
    date: K,
    sums: Sums,
    asks_panics: bool,
    asked: &mut Tally,
    decided: &mut Tally,
) {
    each_addition(date, sums, |days, sum| {
        let right = if is_number(sum) {
            gives(date.plus(days).bits())
        } else if asks_panics {
            panicked(asked, || date.plus(days).bits())
        } else {
            return add_one(decided, date, days, refused(condition(sum)));
        };
        add_one(asked, date, days, right);
    });
}

/// The days that are added to a date, each with the sum: of the date's number and the days.
pub fn each_addition<K: Counted>(date: K, sums: Sums, mut add: impl FnMut(i32, i64)) {
    // The days from 0.1.1, as the original counts them.
    let zero = K::make(Fields::new(0, 1, 1, 0)).expect("0.1.1 is a date");
    let number = i64::from(zero.until(date));
    let mut reach = |sum: i64| {
        if let Ok(days) = i32::try_from(sum - number) {
            add(days, sum);
        }
    };
    if sums.has_landings() {
        (-366..=1).for_each(&mut reach);
    }
    if sums.has_ends() {
        SUMS.into_iter().for_each(&mut reach);
        for days in STEPS {
            add(days, number + i64::from(days));
        }
    }
}

/// Whether a sum is a date's number.
pub fn is_number(sum: i64) -> bool {
    (LEAST_SUM..=GREATEST_SUM).contains(&sum)
}

#[inline]
fn add_one<K: Coded>(tally: &mut Tally, date: K, days: i32, right: ffi::Answer) {
    let port = ffi::pq_add_days(K::CODE, date.bits(), days);
    tally.hold(right, port, || {
        format!("{} {} plus {days}", K::LETTER, date.fields())
    });
}

fn panicked(tally: &mut Tally, add: impl FnOnce() -> u32) -> ffi::Answer {
    match or_panic(add) {
        Ok(bits) => gives(bits),
        Err(refusal) => {
            match refusal {
                5 => tally.met(Listed::SumOutside32Bits),
                6 => tally.met(Listed::SumOfNoDate),
                _ => {}
            }
            refused(refusal)
        }
    }
}

/// The refusal of a sum that is no date's number.
pub fn condition(sum: i64) -> u32 {
    match i32::try_from(sum) {
        Ok(_) => 6,
        Err(_) => 5,
    }
}

fn fixed<K: Coded>() -> Vec<K> {
    let days = days::<K>();
    let hours = [days[0].2, days[days.len() - 1].2];
    let dates = FIXED
        .iter()
        .flat_map(|&(year, month, day)| hours.map(|hour| date::<K>(year, (month, day, hour))));
    dates.collect()
}

fn differences<K: Coded + Counted>(extent: Extent, report: &mut Report) {
    let tally = each_pair::<K>(&years(extent, QUICK_STEP), |tally, one, other| {
        let right = Number {
            refusal: 0,
            value: one.until(other),
        };
        let port = ffi::pq_days_until(K::CODE, one.bits(), other.bits());
        let asked = || format!("{} {} until {}", K::LETTER, one.fields(), other.fields());
        tally.hold(right, port, asked);
    });
    let name = format!(
        "{}: every date, differences to and from fixed dates",
        K::LETTER
    );
    report.row(&name, extent.covers_all(), tally);
}

fn orders<K: Coded>(extent: Extent, report: &mut Report) {
    let tally = each_pair::<K>(&years(extent, QUICK_STEP), |tally, one, other| {
        let right = Number {
            refusal: 0,
            value: one.cmp(&other) as i32,
        };
        let port = ffi::pq_order(K::CODE, one.bits(), other.bits());
        let asked = || format!("{} {} beside {}", K::LETTER, one.fields(), other.fields());
        tally.hold(right, port, asked);
    });
    let name = format!(
        "{}: every date, order with fixed dates and itself",
        K::LETTER
    );
    report.row(&name, extent.covers_all(), tally);
}

/// Every date of these years with each fixed one, both ways round, and with itself.
pub fn each_pair<K: Coded>(years: &[i16], ask: impl Fn(&mut Tally, K, K) + Sync) -> Tally {
    let (days, fixed) = (days::<K>(), fixed::<K>());
    share(years.len() as u64, |part, tally| {
        for &day in &days {
            let one = date::<K>(years[part as usize], day);
            for &other in &fixed {
                ask(tally, one, other);
                ask(tally, other, one);
            }
            ask(tally, one, one);
        }
    })
}

fn starts(extent: Extent, report: &mut Report) {
    let (years, days) = (years(extent, QUICK_STEP), days::<Eu5Date>());
    let tally = share(years.len() as u64, |part, tally| {
        for &day in &days {
            let date = date::<Eu5Date>(years[part as usize], day);
            let right = gives(date.start_of_day().bits());
            let port = ffi::pq_start_of_day(Eu5Date::CODE, date.bits());
            tally.hold(right, port, || {
                format!("E {} at the start of its day", date.fields())
            });
        }
    });
    report.row(
        "E: every date at the start of its day",
        extent.covers_all(),
        tally,
    );
}

//! additions.txt: `K a DATE DAYS DATE`, or `refused 4`, `refused 5` or `refused 6` for the second date.

use crate::answers::{Answers, Row};
use crate::dates::{any_date, landmarks};
use crate::kinds::{Counted, Fields};
use crate::marks::{GUESSED, Marked, dates, no_dates, told};
use crate::panics::message_or;
use crate::random::Random;

const SAMPLES_PER_KIND: usize = 150;

const LEAST_SUM: i64 = -11_960_684;
const GREATEST_SUM: i64 = 11_960_319;
const LEAST_32: i64 = i32::MIN as i64;
const GREATEST_32: i64 = i32::MAX as i64;

/// Both sides of every bound on the sum, asked from every landmark.
const SUMS: [i64; 14] = [
    LEAST_32 - 1,
    LEAST_32,
    LEAST_SUM - 1,
    LEAST_SUM,
    -366,
    -365,
    -364,
    -1,
    0,
    1,
    GREATEST_SUM,
    GREATEST_SUM + 1,
    GREATEST_32,
    GREATEST_32 + 1,
];

const STEPS: [i32; 9] = [i32::MIN, -366, -365, -1, 0, 1, 365, 366, i32::MAX];

pub fn ask(answers: &mut Answers) {
    ask_each!(ask_kind(answers): Date, Eu5Date, Vic3Date);
    ask_each!(ask_every_sum_near_zero(answers): Date);
    ask_each!(ask_marked(answers): Date, Eu5Date, Vic3Date);
}

fn ask_kind<K: Counted>(answers: &mut Answers) {
    for date in landmarks::<K>() {
        for days in days_to_sums(date) {
            answers.edge(row(date, days));
        }
        for days in STEPS {
            answers.edge(row(date, days));
        }
    }
    for _ in 0..SAMPLES_PER_KIND {
        let date = any_date::<K>(&mut answers.random);
        let days = some_days(&mut answers.random, date);
        answers.sample(row(date, days));
    }
}

/// Those that fit 32 bits.
fn days_to_sums<K: Counted>(date: K) -> impl Iterator<Item = i32> {
    let days = move |sum| i32::try_from(sum - day_number(date)).ok();
    SUMS.into_iter().filter_map(days)
}

/// "an addition" keeps "the starting date's mark". Where the mark is not allowed, or the date not of the
/// kind, that is refused before any sum.
fn ask_marked<K: Counted>(answers: &mut Answers) {
    let dates = dates::<K>();
    for &fields in &dates {
        for days in [0, 1, -1] {
            answers.edge(marked_row::<K>(Marked::new(fields, GUESSED), days));
        }
    }
    for fields in [dates[1], dates[3]] {
        let date = K::with(fields).expect("a date of the kind");
        for days in days_to_sums(date) {
            answers.edge(marked_row::<K>(Marked::new(fields, GUESSED), days));
        }
        for (mark, days) in [(2, 1), (3, -1), (2, i32::MAX), (3, i32::MIN)] {
            answers.edge(marked_row::<K>(Marked::new(fields, mark), days));
        }
    }
    for fields in no_dates::<K>().into_iter().take(3) {
        for mark in 0..=GUESSED {
            answers.edge(marked_row::<K>(Marked::new(fields, mark), 1));
        }
    }
}

/// The sums from -366 to 1: in and around the year that has two sides.
fn ask_every_sum_near_zero<K: Counted>(answers: &mut Answers) {
    for days in -366..=1 {
        answers.edge(row(zero::<K>(), days));
    }
}

/// 0.1.1, whose day number is 0.
fn zero<K: Counted>() -> K {
    K::with(Fields::new(0, 1, 1, 0)).expect("0.1.1 is a date of every kind that counts days")
}

fn day_number<K: Counted>(date: K) -> i64 {
    zero::<K>().until(date).into()
}

/// Mostly days that reach a date.
fn some_days<K: Counted>(random: &mut Random, date: K) -> i32 {
    let days = match random.index(10) {
        0 => random.between(LEAST_32, GREATEST_32),
        1..=2 => random.between(-15_000_000, 15_000_000),
        3..=4 => random.between(LEAST_SUM, GREATEST_SUM) - day_number(date),
        5..=6 => random.between(-1000, 1000) - day_number(date),
        _ => random.between(-1000, 1000),
    };
    days as i32
}

fn row<K: Counted>(date: K, days: i32) -> Row {
    marked_row::<K>(Marked::unmarked(date), days)
}

fn marked_row<K: Counted>(start: Marked, days: i32) -> Row {
    let answer = match start.date::<K>() {
        Some(date) => sum_told(date, start.mark, days),
        None => "refused 4".to_string(),
    };
    Row::new(format!("{} a {start} {days}", K::LETTER), answer)
}

fn sum_told<K: Counted>(date: K, mark: u8, days: i32) -> String {
    match message_or(|| date.plus(days)) {
        Ok(sum) => told(sum.fields(), mark),
        Err(message) => format!("refused {}", refusal(&message)),
    }
}

fn refusal(message: &str) -> u8 {
    if message.starts_with("adding days overflowed") {
        5
    } else if message.starts_with("year to fit inside signed 16bits") {
        6
    } else {
        panic!("an addition panicked otherwise: {message}")
    }
}

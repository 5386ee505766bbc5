//! fields.txt: `K f YEAR MONTH DAY HOUR DATE`, or `refused 4` for the date.

use crate::answers::{Answers, Row, date_or_refused};
use crate::dates::{YEARS, any_date};
use crate::kinds::{Fields, Kind};
use crate::panics::message_or;
use crate::random::Random;

const SAMPLES_PER_KIND: usize = 200;

const DAYS: [u8; 8] = [0, 1, 28, 29, 30, 31, 32, 255];
const HOURS: [u8; 10] = [0, 1, 6, 12, 18, 22, 23, 24, 25, 255];

pub fn ask(answers: &mut Answers) {
    ask_each!(ask_kind(answers): RawDate, DateHour, Vic3Date);
    ask_each!(ask_hours(answers): RawDate, DateHour, Vic3Date);
    ask_each!(ask_kind(answers): Date, UniformDate, Eu5Date);
}

fn ask_kind<K: Kind>(answers: &mut Answers) {
    let hour = K::hours()[0];
    for month in (0..=13).chain([255]) {
        for day in DAYS {
            answers.edge(row::<K>(Fields::new(1444, month, day, hour)));
        }
    }
    // every other month byte, with the day that every month has
    for month in 14..=254 {
        answers.edge(row::<K>(Fields::new(1444, month, 1, hour)));
    }
    for year in YEARS {
        for (month, day) in [(1, 1), (12, 31)] {
            answers.edge(row::<K>(Fields::new(year, month, day, hour)));
        }
    }
    for _ in 0..SAMPLES_PER_KIND {
        let fields = some_fields::<K>(&mut answers.random);
        answers.sample(row::<K>(fields));
    }
}

/// For the kinds whose constructor takes an hour.
fn ask_hours<K: Kind>(answers: &mut Answers) {
    for hour in (0..=26).chain([31, 32, 63, 64, 128, 255]) {
        answers.edge(row::<K>(Fields::new(1444, 11, 11, hour)));
    }
    for (month, day) in [(0, 1), (13, 1), (2, 28), (2, 29), (12, 31), (12, 32)] {
        for hour in HOURS {
            answers.edge(row::<K>(Fields::new(1836, month, day, hour)));
        }
    }
}

/// Fields of a date; in four of ten cases with one of them out of its place or its range.
fn some_fields<K: Kind>(random: &mut Random) -> Fields {
    let mut fields = any_date::<K>(random).fields();
    if !K::takes_hour() {
        fields.hour = 0;
    }
    match random.index(20) {
        0..=1 => fields.month = random.between(0, 15) as u8,
        2..=3 => fields.day = random.between(0, 40) as u8,
        4..=5 if K::takes_hour() => fields.hour = random.between(0, 32) as u8,
        6 => fields.month = random.byte(),
        7 => fields.day = random.byte(),
        _ => {}
    }
    fields
}

fn row<K: Kind>(fields: Fields) -> Row {
    let answer = date_or_refused(make::<K>(fields), 4);
    Row::new(format!("{} f {fields}", K::LETTER), answer)
}

/// The kind's constructor, which panics for E at day 32 or more.
fn make<K: Kind>(fields: Fields) -> Option<K> {
    match message_or(|| K::make(fields)) {
        Ok(answer) => answer,
        Err(_) if K::LETTER == 'E' && fields.day >= 32 => None,
        Err(message) => panic!("{} {fields}: {message}", K::LETTER),
    }
}

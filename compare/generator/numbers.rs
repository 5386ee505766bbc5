//! numbers.txt: `K b N DATE` (full decoder) and `K g N DATE guessed` (guess), or `refused 3` for the date.

use crate::answers::{Answers, Row, date_or_refused, guess_or_refused};
use crate::dates::{YEARS, any_year};
use crate::kinds::{Decoded, Guessed};
use crate::random::Random;

const SAMPLES_PER_WAY: usize = 150;

const HOURS_PER_YEAR: i32 = 8760;
const LEAST: i32 = -243_247_680;
const GREATEST: i32 = 330_847_679;
const START_OF_1_1_1: i32 = 43_808_760;
const START_OF_1444_11_11: i32 = 56_456_976;

/// The first day of year of each month but January.
const MONTH_STARTS: [i32; 11] = [31, 59, 90, 120, 151, 181, 212, 243, 273, 304, 334];

pub fn ask(answers: &mut Answers) {
    ask_each!(ask_decoder(answers): RawDate, Date, DateHour, Eu5Date, Vic3Date);
    ask_each!(ask_guess(answers): Date, DateHour, Eu5Date, Vic3Date);
}

fn ask_decoder<K: Decoded>(answers: &mut Answers) {
    ask_way(answers, |number| {
        let answer = date_or_refused(K::decode(number), 3);
        Row::new(format!("{} b {number}", K::LETTER), answer)
    });
}

fn ask_guess<K: Guessed>(answers: &mut Answers) {
    ask_way(answers, |number| {
        let answer = guess_or_refused(K::guess(number), 3);
        Row::new(format!("{} g {number}", K::LETTER), answer)
    });
}

fn ask_way(answers: &mut Answers, row: impl Fn(i32) -> Row) {
    for number in edges() {
        answers.edge(row(number));
    }
    for _ in 0..SAMPLES_PER_WAY {
        let number = some_number(&mut answers.random);
        answers.sample(row(number));
    }
}

pub fn edges() -> Vec<i32> {
    let mut edges = vec![i32::MIN, i32::MIN + 1, i32::MAX - 1, i32::MAX];
    edges.extend([LEAST - HOURS_PER_YEAR, LEAST - 24, LEAST - 1, LEAST]);
    edges.extend([LEAST + 1, LEAST + 24, LEAST + HOURS_PER_YEAR]);
    edges.extend([GREATEST - 23, GREATEST - 1, GREATEST, GREATEST + 1]);
    edges.extend([-17520, -8784, -8761, -8760, -8759, -8736, -25, -24, -23, -1]);
    edges.extend([0, 1, 23, 24, 25, 719, 720, 8735, 8736, 8759, 8760, 8761]);
    edges.extend([56_379_360, 60_759_371]);
    for year in YEARS.into_iter().filter(|&year| year > -5000) {
        let start = (i32::from(year) + 5000) * HOURS_PER_YEAR;
        edges.extend([start - 1, start, start + 1]);
    }
    for day in MONTH_STARTS {
        let start = (1836 + 5000) * HOURS_PER_YEAR + day * 24;
        edges.extend([start - 1, start]);
    }
    edges.extend((0..=24).map(|hour| START_OF_1444_11_11 + hour));
    for start in [START_OF_1_1_1, START_OF_1_1_1 - 2 * HOURS_PER_YEAR] {
        edges.extend([6, 18, 23, 24, 31 * 24].map(|hours| start + hours));
    }
    edges
}

/// Mostly a date's number, and mostly at an hour that more than one kind takes.
pub fn some_number(random: &mut Random) -> i32 {
    let number = match random.index(20) {
        0 => random.between(i32::MIN.into(), i32::MAX.into()),
        1 => random.between(LEAST.into(), 0),
        2 => random.between(-28_000, 0) * i64::from(HOURS_PER_YEAR),
        _ => {
            let hour = match random.index(3) {
                0 => 0,
                1 => random.pick(&[6, 12, 18]),
                _ => random.between(0, 23),
            };
            let days = (i64::from(any_year(random)) + 5000) * 365 + random.between(0, 364);
            days * 24 + hour
        }
    };
    number as i32
}

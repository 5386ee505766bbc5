//! orders.txt: `K o DATE DATE N`, N being -1, 0 or 1 where the first is less, equal or greater; or `refused 4`.

use crate::answers::{Answers, Row};
use crate::dates::any_date;
use crate::kinds::{Fields, Kind};
use crate::marks::{self, ALLOWED_PAIRS, Marked};
use crate::random::Random;

const SAMPLES_PER_KIND: usize = 25;

pub fn ask(answers: &mut Answers) {
    ask_all_six!(ask_kind(answers));
    ask_all_six!(ask_marked(answers));
}

fn ask_kind<K: Kind>(answers: &mut Answers) {
    let steps = steps::<K>();
    for &one in &steps {
        for &other in &steps {
            answers.edge(row(one, other));
        }
    }
    for _ in 0..SAMPLES_PER_KIND {
        let one = any_date::<K>(&mut answers.random);
        let other = near(&mut answers.random, one);
        answers.sample(row(one, other));
    }
}

/// Ascending dates in which each field in turn decides, the later fields pulling the other way.
fn steps<K: Kind>() -> Vec<K> {
    let hours = K::hours();
    let (first, last) = (hours[0], hours[hours.len() - 1]);
    let fields = [
        Fields::new(-32768, 12, 30, last),
        Fields::new(-1, 12, 30, last),
        Fields::new(0, 7, 16, first),
        Fields::new(0, 7, 16, last),
        Fields::new(0, 7, 17, first),
        Fields::new(0, 8, 1, first),
        Fields::new(1, 1, 1, first),
        Fields::new(32767, 1, 1, first),
    ];
    fields.into_iter().filter_map(K::with).collect()
}

/// A date that shares some of its leading fields with the given one.
fn near<K: Kind>(random: &mut Random, one: K) -> K {
    let (shared, mut fields) = (random.index(5), any_date::<K>(random).fields());
    if shared >= 1 {
        fields.year = one.year();
    }
    if shared >= 2 {
        fields.month = one.month();
    }
    if shared >= 3 {
        fields.day = one.day();
    }
    if shared >= 4 {
        fields.hour = one.stored_hour();
    }
    K::with(fields).unwrap_or(one)
}

/// "Order, equality" "disregard it": marks on one date and on both, of a date and itself, of it and the next
/// that the kind has, and of it and one of the year before.
fn ask_marked<K: Kind>(answers: &mut Answers) {
    let hours = K::hours();
    let date = Fields::new(0, 7, 16, hours[0]);
    let next = match hours[..] {
        [_, hour, ..] => Fields::new(0, 7, 16, hour),
        _ => Fields::new(0, 7, 17, hours[0]),
    };
    let before = Fields::new(-1, 12, 30, hours[hours.len() - 1]);
    let mut ask = |one, other, (mark, mark_of_other)| {
        let (one, other) = (Marked::new(one, mark), Marked::new(other, mark_of_other));
        answers.edge(marked_row::<K>(one, other));
    };
    for marks in marks::pairs() {
        ask(date, date, marks);
    }
    for other in [next, before] {
        for marks in ALLOWED_PAIRS.into_iter().chain([(2, 0), (0, 3)]) {
            ask(date, other, marks);
            ask(other, date, marks);
        }
    }
    for fields in marks::no_dates::<K>().into_iter().take(2) {
        ask(fields, date, (1, 0));
        ask(date, fields, (1, 0));
    }
}

fn row<K: Kind>(one: K, other: K) -> Row {
    marked_row::<K>(Marked::unmarked(one), Marked::unmarked(other))
}

fn marked_row<K: Kind>(one: Marked, other: Marked) -> Row {
    let answer = match (one.date::<K>(), other.date::<K>()) {
        (Some(one), Some(other)) => (one.cmp(&other) as i8).to_string(),
        _ => "refused 4".to_string(),
    };
    Row::new(format!("{} o {one} {other}", K::LETTER), answer)
}

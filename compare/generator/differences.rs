//! differences.txt: `K d DATE DATE N`, the days from the first date to the second, or `refused 4`.

use crate::answers::{Answers, Row};
use crate::dates::{any_date, landmarks};
use crate::kinds::Counted;
use crate::marks::{self, ALLOWED_PAIRS, Marked};

const SAMPLES_PER_KIND: usize = 110;

pub fn ask(answers: &mut Answers) {
    ask_each!(ask_kind(answers): Date, Eu5Date, Vic3Date);
    ask_each!(ask_marked(answers): Date, Eu5Date, Vic3Date);
}

fn ask_kind<K: Counted>(answers: &mut Answers) {
    let landmarks = landmarks::<K>();
    for &from in &landmarks {
        for &to in &landmarks {
            answers.edge(row(from, to));
        }
    }
    for _ in 0..SAMPLES_PER_KIND {
        let from = any_date::<K>(&mut answers.random);
        let to = any_date::<K>(&mut answers.random);
        answers.sample(row(from, to));
    }
}

/// Marks on one date and on both: from each date to the next those that are allowed, from one to another and
/// to itself all.
fn ask_marked<K: Counted>(answers: &mut Answers) {
    let dates = marks::dates::<K>();
    let mut ask = |(from, to), (mark, other)| {
        let (from, to) = (Marked::new(from, mark), Marked::new(to, other));
        answers.edge(marked_row::<K>(from, to));
    };
    for pair in dates.windows(2) {
        for marks in ALLOWED_PAIRS {
            ask((pair[0], pair[1]), marks);
        }
    }
    for marks in marks::pairs() {
        ask((dates[2], dates[3]), marks);
        ask((dates[3], dates[3]), marks);
    }
    for fields in marks::no_dates::<K>().into_iter().take(2) {
        ask((fields, dates[3]), (1, 0));
        ask((dates[3], fields), (1, 0));
    }
}

fn row<K: Counted>(from: K, to: K) -> Row {
    marked_row::<K>(Marked::unmarked(from), Marked::unmarked(to))
}

fn marked_row<K: Counted>(from: Marked, to: Marked) -> Row {
    let answer = match (from.date::<K>(), to.date::<K>()) {
        (Some(from), Some(to)) => from.until(to).to_string(),
        _ => "refused 4".to_string(),
    };
    Row::new(format!("{} d {from} {to}", K::LETTER), answer)
}

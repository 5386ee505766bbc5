//! What a date is written as.
//! spellings.txt: `K s DATE DOTTED ISO`, for E also the ISO date alone. binaries.txt: `K n DATE N`. `refused 4`
//! stands for each text, and for the number, where there is no such date.

use crate::answers::{Answers, Row};
use crate::dates::{any_date, edge_dates};
use crate::kinds::{Fields, Kind, Written};
use crate::marks::{self, GUESSED, Marked};

const SAMPLES_PER_KIND: usize = 60;
const BINARY_SAMPLES_PER_KIND: usize = 60;

pub fn ask(answers: &mut Answers) {
    ask_all_six!(ask_texts(answers));
    ask_all_six!(ask_marked_texts(answers));
}

pub fn ask_binaries(answers: &mut Answers) {
    ask_each!(ask_numbers(answers): Date, DateHour);
    ask_each!(ask_marked_numbers(answers): Date, DateHour);
}

fn ask_texts<K: Kind>(answers: &mut Answers) {
    for date in edge_dates::<K>() {
        answers.edge(text_row(date));
    }
    for _ in 0..SAMPLES_PER_KIND {
        let date = any_date::<K>(&mut answers.random);
        answers.sample(text_row(date));
    }
}

fn ask_numbers<K: Written>(answers: &mut Answers) {
    for date in edge_dates::<K>() {
        answers.edge(number_row(date));
    }
    for _ in 0..BINARY_SAMPLES_PER_KIND {
        let date = any_date::<K>(&mut answers.random);
        answers.sample(number_row(date));
    }
}

fn ask_marked_texts<K: Kind>(answers: &mut Answers) {
    for date in marked::<K>() {
        answers.edge(marked_text_row::<K>(date));
    }
}

fn ask_marked_numbers<K: Written>(answers: &mut Answers) {
    for date in marked::<K>() {
        answers.edge(marked_number_row::<K>(date));
    }
}

/// Guessed dates; two of them with the marks that are not allowed; and fields that no date of the kind has,
/// without a mark and with one.
fn marked<K: Kind>() -> Vec<Marked> {
    let (dates, no_dates) = (marks::dates::<K>(), marks::no_dates::<K>());
    let with = |fields: &[Fields], mark: u8| -> Vec<Marked> {
        fields
            .iter()
            .map(|&fields| Marked::new(fields, mark))
            .collect()
    };
    [
        with(&dates, GUESSED),
        with(&dates[2..4], 2),
        with(&dates[2..4], 3),
        with(&no_dates[..2], 0),
        with(&no_dates[..2], GUESSED),
    ]
    .concat()
}

fn text_row<K: Kind>(date: K) -> Row {
    marked_text_row::<K>(Marked::unmarked(date))
}

/// "all texts disregard it".
fn marked_text_row<K: Kind>(marked: Marked) -> Row {
    let texts = match marked.date::<K>() {
        Some(date) => texts(date),
        None => vec!["refused 4".to_string(); if K::LETTER == 'E' { 3 } else { 2 }],
    };
    Row::new(format!("{} s {marked}", K::LETTER), texts.join(" "))
}

fn texts<K: Kind>(date: K) -> Vec<String> {
    let mut texts = vec![date.game_fmt().to_string(), date.iso_8601().to_string()];
    texts.extend(date.third_text());
    texts
}

fn number_row<K: Written>(date: K) -> Row {
    marked_number_row::<K>(Marked::unmarked(date))
}

fn marked_number_row<K: Written>(marked: Marked) -> Row {
    let answer = match marked.date::<K>() {
        Some(date) => date.number().to_string(),
        None => "refused 4".to_string(),
    };
    Row::new(format!("{} n {marked}", K::LETTER), answer)
}

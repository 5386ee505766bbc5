//! The rows of one file, each a question and its answer, and how inputs and answers are written in them.

use crate::kinds::{Fields, Kind};
use crate::marks::{GUESSED, told};
use crate::random::Random;
use std::collections::BTreeSet;
use std::fmt::Display;
use std::fs;
use std::path::Path;

/// The program that is asked the questions has room for a text of so many bytes.
const TEXT_ROOM: usize = 96;

/// A question, a space and its answer. Rows are ordered by their bytes.
#[derive(PartialEq, Eq, PartialOrd, Ord)]
pub struct Row {
    text: String,
    question_length: usize,
}

impl Row {
    pub fn new(question: String, answer: impl Display) -> Self {
        Row {
            text: format!("{question} {answer}"),
            question_length: question.len(),
        }
    }

    /// A question that the second reading answers.
    pub fn unanswered(question: String) -> Self {
        Row {
            question_length: question.len(),
            text: question,
        }
    }

    fn question(&self) -> &str {
        &self.text[..self.question_length]
    }
}

/// Edges come first in the file, then samples; each part is sorted by bytes. No row comes twice.
pub struct Answers {
    edges: BTreeSet<Row>,
    samples: BTreeSet<Row>,
    pub random: Random,
}

impl Answers {
    pub fn new(stream: u64) -> Self {
        Answers {
            edges: BTreeSet::new(),
            samples: BTreeSet::new(),
            random: Random::new(stream),
        }
    }

    pub fn edge(&mut self, row: Row) {
        self.edges.insert(row);
    }

    pub fn sample(&mut self, row: Row) {
        self.samples.insert(row);
    }

    /// Writes the rows to `NAME.txt`, and their questions alone, in the same order, to `NAME.questions`. Gives the
    /// number of rows in the two parts.
    pub fn write(&self, folder: &Path, name: &str) -> (usize, usize) {
        self.write_lines(&folder.join(format!("{name}.txt")), |row| &row.text);
        self.write_questions(folder, name)
    }

    /// Writes the questions alone.
    pub fn write_questions(&self, folder: &Path, name: &str) -> (usize, usize) {
        self.write_lines(&folder.join(format!("{name}.questions")), Row::question);
        (self.edges.len(), self.other_samples().count())
    }

    fn write_lines(&self, file: &Path, line: impl Fn(&Row) -> &str) {
        let rows = self.edges.iter().chain(self.other_samples());
        let lines: String = rows.flat_map(|row| [line(row), "\n"]).collect();
        fs::write(file, lines).expect("the file can be written");
    }

    /// The samples that are no edges.
    fn other_samples(&self) -> impl Iterator<Item = &Row> {
        self.samples.difference(&self.edges)
    }
}

/// `year month day hour`, or the refusal. "Guess readers set 1, all others 0".
pub fn date_or_refused<K: Kind>(answer: Option<K>, refusal: u8) -> String {
    told_or_refused(answer.map(K::fields), 0, refusal)
}

/// `year month day hour guessed`, or the refusal.
pub fn guess_or_refused<K: Kind>(answer: Option<K>, refusal: u8) -> String {
    told_or_refused(answer.map(K::fields), GUESSED, refusal)
}

fn told_or_refused(answer: Option<Fields>, mark: u8, refusal: u8) -> String {
    match answer {
        Some(fields) => told(fields, mark),
        None => format!("refused {refusal}"),
    }
}

/// The text between double quotes, without spaces.
pub fn quoted(text: &[u8]) -> String {
    assert!(text.len() <= TEXT_ROOM);
    let mut quoted = String::from("\"");
    for &byte in text {
        let is_plain = (0x21..=0x7e).contains(&byte) && !matches!(byte, b'"' | b'\\');
        if is_plain {
            quoted.push(char::from(byte));
        } else {
            quoted.push_str(&format!("\\x{byte:02x}"));
        }
    }
    quoted.push('"');
    quoted
}

//! The port and the original in one process, every answer of both compared. docs/COMPARISON.md has the
//! results and says what each row is.
//!
//!     beside [--full] [SUBJECT..]     all subjects, or those named

#[allow(dead_code, unused_macros)] // the generator uses more of it
#[path = "../generator/kinds.rs"]
mod kinds;
#[allow(dead_code)]
#[path = "../generator/random.rs"]
mod random;
#[macro_use]
mod original;
mod book_questions;
mod books;
mod counts;
mod days;
mod drawn;
mod fields;
mod gap_books;
mod gap_calls;
mod gap_questions;
mod gaps;
mod generated;
mod handed_in;
mod iso_texts;
mod league_isolation;
mod league_moves;
mod league_questions;
mod leagues;
mod leaves;
mod lines;
mod long_numbers;
mod long_texts;
mod marked_days;
mod moves;
mod numbers;
mod padded;
mod port;
mod report;
mod room_inputs;
mod room_questions;
mod rooms;
mod second_books;
mod second_damage;
mod spellings;
mod table_lookups;
mod table_questions;
mod tables;
mod tally;
mod texts;
mod valid_texts;
mod version_questions;
mod walks;
mod wide_rooms;
mod words;
mod years;

use report::{Extent, Report};
use std::process::ExitCode;

type Subject = fn(Extent, &mut Report);

/// What takes longest comes last.
const SUBJECTS: [(&str, Subject); 17] = [
    ("numbers", numbers::run),
    ("fields", fields::run),
    ("texts", texts::run),
    ("generated", generated::run),
    ("padded", padded::run),
    ("handed_in", handed_in::run),
    ("leaves", leaves::run),
    ("books", books::run),
    ("books2", second_books::run),
    ("gaps", gaps::run),
    ("tables", tables::run),
    ("leagues", leagues::run),
    ("lines", lines::run),
    ("rooms", rooms::run),
    ("iso", iso_texts::run),
    ("spellings", spellings::run),
    ("days", days::run),
];

fn main() -> ExitCode {
    let mut names: Vec<String> = std::env::args().skip(1).collect();
    let is_full = names.iter().any(|name| name == "--full");
    names.retain(|name| name != "--full");
    let is_subject = |name: &String| SUBJECTS.iter().any(|(subject, _)| subject == name);
    if !names.iter().all(is_subject) {
        let subjects = SUBJECTS.map(|(subject, _)| subject).join(" ");
        eprintln!("usage: beside [--full] [SUBJECT..], subjects: {subjects}");
        return ExitCode::from(2);
    }
    let extent = if is_full { Extent::Full } else { Extent::Quick };
    original::hush_asked_panics();
    let mut report = Report::new();
    for (name, subject) in SUBJECTS {
        if names.is_empty() || names.iter().any(|named| named == name) {
            subject(extent, &mut report);
        }
    }
    if report.end() {
        ExitCode::SUCCESS
    } else {
        ExitCode::FAILURE
    }
}

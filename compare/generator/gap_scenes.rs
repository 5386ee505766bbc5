//! The part of book.script that is about the gap report, its last: over books of both versions, as text and as
//! figures. The second reading answers it.

use crate::book_script::{HEAD, RECORD, Script, WORD, YEAR, word};
use crate::dates::any_date;
use crate::gap_damage;
use crate::kinds::{Date, DateHour, Eu5Date, RawDate, UniformDate, Vic3Date};
use crate::random::Random;
use crate::version_script::{DATES, start_2};

/// Every report fits the first, and every report of one kind the second.
pub const ROOM: usize = 306;
pub const ROOM_OF_ONE: usize = 84;

/// How many figures there are.
pub const FIGURES: usize = 36;

/// Too few, exact, one more, and more.
const FIGURE_ROOMS: [usize; 5] = [0, FIGURES - 1, FIGURES, FIGURES + 1, 64];

/// A record: the letter of its kind, its year and its word with the mark.
type Record = (char, i16, u16);

/// The request's example, and how long its report is.
const EXAMPLE: [Record; 6] = [
    ('V', 1836, word(2, 3, 6)),
    ('D', YEAR, WORD),
    ('U', YEAR, word(2, 30, 0)),
    ('D', -1, word(1, 1, 0)),
    ('D', YEAR, word(11, 1, 0)),
    ('E', YEAR, word(11, 11, 3)),
];
const EXAMPLE_LENGTH: usize = 137;

const NEW_YEAR: u16 = word(1, 1, 0);
const LAST_DAY: u16 = word(12, 31, 0);

/// Each kind's least date and its greatest, and the day with the least number; and how long that report is.
const ENDS: [Record; 15] = [
    ('D', i16::MIN, NEW_YEAR),
    ('E', i16::MAX, word(12, 31, 22)),
    ('V', i16::MIN, LAST_DAY),
    ('R', i16::MAX, word(12, 31, 24)),
    ('H', i16::MIN, word(1, 1, 1)),
    ('U', i16::MAX, word(12, 30, 0)),
    ('D', i16::MAX, LAST_DAY),
    ('E', i16::MIN, NEW_YEAR),
    ('V', i16::MAX, word(12, 31, 18)),
    ('R', i16::MIN, NEW_YEAR),
    ('H', i16::MAX, word(12, 31, 24)),
    ('U', i16::MIN, NEW_YEAR),
    ('D', i16::MIN, LAST_DAY),
    ('E', i16::MIN, word(12, 31, 22)),
    ('V', i16::MIN, NEW_YEAR),
];
const ENDS_LENGTH: usize = 230;

/// Small books, each with what it is about.
const SMALL: [(&str, &[Record]); 12] = [
    (
        "ascending",
        &[('D', 1, NEW_YEAR), ('D', 1, word(1, 8, 0)), ('D', 3, WORD)],
    ),
    (
        "descending",
        &[('V', 3, WORD), ('V', 1, word(1, 8, 0)), ('V', 1, NEW_YEAR)],
    ),
    (
        "there and back",
        &[('E', 5, NEW_YEAR), ('E', 6, NEW_YEAR), ('E', 5, NEW_YEAR)],
    ),
    (
        "equal longest steps, other kinds between",
        &[
            ('D', 1, NEW_YEAR),
            ('R', 1, NEW_YEAR),
            ('D', 1, word(1, 2, 0)),
            ('U', 1, NEW_YEAR),
            ('D', 1, word(1, 12, 0)),
            ('H', 1, word(1, 1, 1)),
            ('D', 1, word(1, 2, 0)),
        ],
    ),
    (
        "all steps 0, and hours",
        &[
            ('R', 1, NEW_YEAR),
            ('E', YEAR, word(11, 11, 3)),
            ('E', YEAR, word(11, 11, 22)),
            ('V', YEAR, word(11, 11, 18)),
            ('E', YEAR, WORD),
            ('V', YEAR, word(11, 11, 6)),
            ('D', YEAR, WORD),
            ('D', YEAR, WORD),
        ],
    ),
    (
        "from the last hour of a day to the next day",
        &[
            ('V', 1836, word(1, 1, 18)),
            ('V', 1836, word(1, 2, 0)),
            ('E', 1, word(1, 31, 22)),
            ('E', 1, word(2, 1, 0)),
        ],
    ),
    (
        "a year before 0",
        &[('D', -1, NEW_YEAR), ('D', -1, LAST_DAY)],
    ),
    ("into year 0", &[('D', -1, LAST_DAY), ('D', 0, NEW_YEAR)]),
    (
        "through year 0",
        &[
            ('E', 1, NEW_YEAR),
            ('E', -1, NEW_YEAR),
            ('E', 0, LAST_DAY),
            ('V', -2, LAST_DAY),
            ('V', 0, NEW_YEAR),
            ('V', -1, word(1, 2, 0)),
        ],
    ),
    (
        "the longest step of all and back",
        &[
            ('D', i16::MAX, LAST_DAY),
            ('D', i16::MIN, LAST_DAY),
            ('D', i16::MAX, LAST_DAY),
        ],
    ),
    (
        "the longest sum, downward and upward",
        &[
            ('E', i16::MAX, LAST_DAY),
            ('V', i16::MIN, LAST_DAY),
            ('E', i16::MIN, LAST_DAY),
            ('V', i16::MAX, LAST_DAY),
        ],
    ),
    (
        "the order: year, month, day, hour",
        &[
            ('R', 1, word(2, 1, 0)),
            ('R', 1, word(1, 31, 24)),
            ('R', 1, word(1, 31, 9)),
            ('R', 0, word(12, 31, 24)),
            ('H', -2, word(12, 31, 24)),
            ('H', -1, word(1, 1, 2)),
            ('H', -1, word(1, 1, 10)),
            ('U', -9, word(12, 30, 0)),
            ('U', -10, NEW_YEAR),
        ],
    ),
];

pub fn all(stream: u64) -> String {
    let mut script = Script::default();
    let mut random = Random::new(stream);
    empty_books(&mut script);
    example(&mut script);
    DATES
        .iter()
        .for_each(|&(_, letter, word)| kind(&mut script, letter, word));
    small_books(&mut script);
    ends_of_kinds(&mut script);
    guessed_dates(&mut script);
    random_dates(&mut script, &mut random);
    gap_damage::all(&mut script);
    script.text
}

/// The text into each room, and the figures into each of theirs.
fn into_rooms(script: &mut Script, rooms: &[usize]) {
    rooms.iter().for_each(|&room| script.report(room));
    FIGURE_ROOMS
        .iter()
        .for_each(|&numbers| script.figures(numbers));
}

/// A book of version 1. A move makes it one of version 2.
fn book_of(script: &mut Script, records: &[Record]) {
    script.buffer(HEAD + records.len() * RECORD);
    script.line("new");
    for &(letter, year, word) in records {
        script.append(letter, year, word);
    }
}

fn empty_books(script: &mut Script) {
    script.remark("the report of an empty book of each version");
    script.buffer(HEAD + 1);
    script.line("new");
    into_rooms(script, &[0, 23, 24, 25, ROOM, 400]);
    script.line("second new");
    into_rooms(script, &[0, 23, 24, 25]);
}

fn example(script: &mut Script) {
    script.remark("the report that the request shows");
    book_of(script, &EXAMPLE);
    let rooms = [0, EXAMPLE_LENGTH - 1, EXAMPLE_LENGTH, EXAMPLE_LENGTH + 1];
    into_rooms(script, &rooms);
    script.report(ROOM);
    script.to(2, start_2(EXAMPLE.len()) + 3);
    into_rooms(script, &rooms);
}

/// One record, two and three of a kind alone; of version 2 of a field each, two of them guessed.
fn kind(script: &mut Script, letter: char, word: u16) {
    script.remark(&format!("the report of kind {letter} alone"));
    script.buffer(HEAD + 3 * RECORD);
    script.line("new");
    for year in [YEAR, -1, 32767] {
        script.append(letter, year, word);
        script.report_and_figures(ROOM_OF_ONE);
    }
    script.buffer(start_2(3));
    script.line("second new");
    for (field, year, mark) in [(0, -5001, 1), (500, 10_000, 0), (65_535, 0, 1)] {
        script.second_append(letter, field, year, word + mark);
        script.report_and_figures(ROOM_OF_ONE);
    }
}

fn small_books(script: &mut Script) {
    for (about, records) in SMALL {
        script.remark(&format!("the report: {about}"));
        book_of(script, records);
        script.report_and_figures(2 * ROOM_OF_ONE);
        script.to(2, start_2(records.len()));
        script.report_and_figures(2 * ROOM_OF_ONE);
    }
}

fn ends_of_kinds(script: &mut Script) {
    script.remark("the report of each kind's least date and its greatest");
    book_of(script, &ENDS);
    let rooms = [ENDS_LENGTH - 1, ENDS_LENGTH, ENDS_LENGTH + 1, ROOM];
    into_rooms(script, &rooms);
    script.to(2, start_2(ENDS.len()));
    into_rooms(script, &rooms);
}

/// Dates that differ in the mark alone are equal, as earliest, as latest and between; none of the figures has a
/// mark.
fn guessed_dates(script: &mut Script) {
    for (about, marks) in [
        ("before", [1, 0, 1, 0]),
        ("after", [0, 1, 0, 1]),
        ("all", [1; 4]),
    ] {
        script.remark(&format!("the report: guessed dates, {about}"));
        let same_days = [NEW_YEAR, NEW_YEAR, word(1, 2, 0), word(1, 2, 0)];
        script.buffer(start_2(3 * same_days.len()));
        script.line("second new");
        for (day, mark) in same_days.into_iter().zip(marks) {
            script.second_append('D', mark, 1, day + mark);
            script.second_append('R', 1, -1, day + word(0, 0, 7) + mark);
            script.second_append('V', 0, 9, day + word(0, 0, 6) + mark);
        }
        script.report_and_figures(2 * ROOM_OF_ONE);
    }
}

fn random_dates(script: &mut Script, random: &mut Random) {
    const OF_EACH: usize = 4;
    script.remark("the report of dates of all kinds");
    script.buffer(HEAD + 6 * OF_EACH * RECORD);
    script.line("new");
    for _ in 0..OF_EACH {
        script.append_date(any_date::<Vic3Date>(random));
        script.append_date(any_date::<Eu5Date>(random));
        script.append_date(any_date::<RawDate>(random));
        script.append_date(any_date::<Date>(random));
        script.append_date(any_date::<UniformDate>(random));
        script.append_date(any_date::<DateHour>(random));
    }
    script.report_and_figures(ROOM);
    script.to(2, start_2(6 * OF_EACH));
    script.report_and_figures(ROOM);
}

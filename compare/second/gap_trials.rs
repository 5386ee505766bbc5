//! What request #108 of document 02 says of the report, tried on this reading.

use crate::book::{self, Record};
use crate::exchange::dotted_text;
use crate::gaps::{self, NUMBERS, OF_KIND};
use crate::kinds::{Fields, KINDS, Kind};
use crate::second_book::{self, FieldRecord};

/// What the lent bytes and numbers hold before.
const FILLER: u8 = 0xEE;
const NUMBER: i64 = -7;

/// Books by their records, each with the lines of the kinds that it has.
const REPORTS: [(&str, &str); 20] = [
    // The request's example.
    (
        "V 1836.2.3.6, D 1444.11.11, U 1444.2.30, D -1.1.1, D 1444.11.1, E 1444.11.11.3",
        "D 3 -1.1.1 1444.11.11 527739 1 -10, U 1 1444.02.30 1444.02.30, \
         E 1 1444.11.11.3 1444.11.11.3 0 5 0, V 1 1836.2.3.6 1836.2.3.6 0 0 0",
    ),
    // "A kind with no record prints its letter and 0".
    ("", ""),
    // "with one, step 0 and sum 0, place that record".
    (
        "R 1.2.31.24, D 1.1.1",
        "R 1 1.2.31.24 1.2.31.24, D 1 1.1.1 1.1.1 0 1 0",
    ),
    (
        "H 1.1.1.24, U 1.2.30, V 1.1.1.6",
        "H 1 1.1.1.24 1.1.1.24, U 1 1.02.30 1.02.30, V 1 1.1.1.6 1.1.1.6 0 2 0",
    ),
    // All steps 0, with hours: the kind's first record.
    (
        "R 1.1.1, E 1444.11.11.3, E 1444.11.11.22, E 1444.11.11",
        "R 1 1.1.1 1.1.1, E 3 1444.11.11 1444.11.11.22 0 1 0",
    ),
    // Hours are ignored: 18 hours on is the next day, and six hours on the same.
    (
        "V 1836.1.1.18, V 1836.1.2, V 1836.1.2.6",
        "V 3 1836.1.1.18 1836.1.2.6 1 0 1",
    ),
    ("E 1.1.1.22, E 1.1.3", "E 2 1.1.1.22 1.1.3 2 0 2"),
    // Equal longest steps, up and down: where it first occurs. The place is that among all records of the book.
    (
        "D 1444.1.1, V 1.1.1, D 1444.1.11, D 1444.1.1, D 1444.1.11",
        "D 4 1444.1.1 1444.1.11 10 0 10, V 1 1.1.1 1.1.1 0 1 0",
    ),
    (
        "H 1.1.1.1, D 1.1.1, D 1.1.2, R 1.1.1, D 1.1.12, U 1.1.1, D 1.1.2",
        "R 1 1.1.1 1.1.1, D 4 1.1.1 1.1.12 10 2 1, H 1 1.1.1.1 1.1.1.1, U 1 1.01.01 1.01.01",
    ),
    // Down, then up: of the two, not the earlier date but the one that stands first.
    (
        "D 1444.1.11, D 1444.1.1, D 1444.1.6",
        "D 3 1444.1.1 1444.1.11 10 0 -5",
    ),
    (
        "D 1444.1.6, D 1444.1.1, D 1444.1.11",
        "D 3 1444.1.1 1444.1.11 10 1 5",
    ),
    // Before year 0 the days run backward, and the order of dates does not.
    ("D -1.1.1, D -1.12.31", "D 2 -1.1.1 -1.12.31 364 0 -364"),
    ("D -1.12.31, D 0.1.1", "D 2 -1.12.31 0.1.1 729 0 729"),
    ("D -1.1.1, D 0.1.1", "D 2 -1.1.1 0.1.1 365 0 365"),
    ("V 0.12.31, V -1.1.1", "V 2 -1.1.1 0.12.31 729 0 -729"),
    // The least day number and the greatest.
    (
        "D -32768.12.31, D 32767.12.31",
        "D 2 -32768.12.31 32767.12.31 23921003 0 23921003",
    ),
    (
        "E 32767.12.31.22, E -32768.12.31",
        "E 2 -32768.12.31 32767.12.31.22 23921003 0 -23921003",
    ),
    // A sum of 0, and kinds that stand between each other's records.
    (
        "D 5.1.1, E 7.1.1, D 6.1.1, E 7.1.1.1, D 5.1.1",
        "D 3 5.1.1 6.1.1 365 0 0, E 2 7.1.1 7.1.1.1 0 1 0",
    ),
    // The order is by the year, then by the word: month, day, hour.
    (
        "R 1.2.1, R 1.1.31.24, R 1.1.31.9, R 0.12.31.24",
        "R 4 0.12.31.24 1.2.1",
    ),
    (
        "H -2.1.1.1, H -1.1.1.24, H -1.1.1.2, U -9.12.30, U -10.1.1",
        "H 3 -2.1.1.1 -1.1.1.24, U 2 -10.01.01 -9.12.30",
    ),
];

/// The same of guessed dates, which version 1 has none of: "/1" is the mark, which is seen nowhere.
const GUESSED: [(&str, &str); 4] = [
    ("D 1.1.1/1", "D 1 1.1.1 1.1.1 0 0 0"),
    (
        "D 1.1.2, D 1.1.2/1, D 1.1.1/1, D 1.1.1",
        "D 4 1.1.1 1.1.2 1 1 -1",
    ),
    (
        "D 1.1.1/1, D 1.1.1, D 1.1.2/1, D 1.1.2",
        "D 4 1.1.1 1.1.2 1 1 1",
    ),
    (
        "R 1.1.1.5/1, R 1.1.1.5, U 1.2.30/1, V 1.1.1.6/1, V 1.1.1.12/1",
        "R 2 1.1.1.5 1.1.1.5, U 1 1.02.30 1.02.30, V 2 1.1.1.6 1.1.1.12 0 3 0",
    ),
];

pub fn try_all() {
    for (records, lines) in REPORTS {
        let records = read(records);
        try_report(&book_of(1, &records), lines);
        try_report(&book_of(2, &records), lines);
    }
    for (records, lines) in GUESSED {
        try_report(&book_of(2, &read(records)), lines);
    }
    try_sums();
    try_room();
    try_refusals();
}

/// Records such as `D 1444.11.11, E 1444.11.11.3/1`. Each comes from another field, which is seen nowhere.
fn read(records: &str) -> Vec<FieldRecord> {
    let records = records.split(", ").filter(|record| !record.is_empty());
    records.zip(500..).map(field_record).collect()
}

fn field_record((record, field): (&str, u16)) -> FieldRecord {
    let (letter, date) = record.split_once(' ').expect("a letter and a date");
    let (date, mark) = date.split_once('/').unwrap_or((date, "0"));
    let part = |part: &str| part.parse::<i16>().expect("a number");
    let [year, month, day, ref hour @ ..] = date.split('.').map(part).collect::<Vec<_>>()[..]
    else {
        panic!("a year, a month and a day: {date}");
    };
    let fields = Fields {
        year,
        month: month as u16,
        day: day as u16,
        hour: hour.first().map_or(0, |&hour| hour as u16),
    };
    let record = Record {
        kind: Kind::from_letter(letter).expect("a kind's letter"),
        year,
        word: fields.word() + part(mark) as u16,
    };
    FieldRecord { record, field }
}

fn book_of(version: u8, records: &[FieldRecord]) -> Vec<u8> {
    if version == 2 {
        let mut buffer = vec![FILLER; second_book::room(records.len())];
        second_book::write(&mut buffer, records);
        return buffer;
    }
    let mut buffer = vec![FILLER; book::room(records.len())];
    let without_field: Vec<Record> = records.iter().map(|record| record.record).collect();
    book::write(&mut buffer, &without_field);
    buffer
}

/// The report has these lines, and `K 0` for each other kind; its numbers are what the lines say.
fn try_report(buffer: &[u8], lines: &str) {
    let line = |kind: Kind| {
        let is_kind = |line: &&str| line.starts_with(kind.letter());
        match lines.split(", ").find(is_kind) {
            Some(line) => format!("{line}\n"),
            None => format!("{} 0\n", kind.letter()),
        }
    };
    let text: String = KINDS.into_iter().map(line).collect();
    assert_eq!(gaps::printed(buffer), text);
    let mut figures = [NUMBER; NUMBERS];
    assert!(gaps::figures(buffer, &mut figures).is_ok_and(|count| count == NUMBERS));
    for ((line, row), kind) in text.lines().zip(figures.chunks(OF_KIND)).zip(KINDS) {
        assert_eq!(told_row(kind, row), line);
    }
}

/// The numbers of a kind as its line. Those that no line shows are 0, and the mark of a date is too.
fn told_row(kind: Kind, row: &[i64]) -> String {
    let &[count, earliest, latest, ref days @ ..] = row else {
        panic!("six numbers");
    };
    let letter = kind.letter();
    if count == 0 {
        assert_eq!(row, [0; OF_KIND]);
        return format!("{letter} 0");
    }
    let dotted = |bits: i64| {
        let date = Fields::from_word((bits >> 16) as i16, bits as u16);
        assert_eq!(gaps::bits(date), bits);
        dotted_text(kind, date)
    };
    let ends = format!("{letter} {count} {} {}", dotted(earliest), dotted(latest));
    match (kind, days) {
        (Kind::D | Kind::E | Kind::V, [step, place, sum]) => {
            format!("{ends} {step} {place} {sum}")
        }
        _ => {
            assert_eq!(days, [0; 3]);
            ends
        }
    }
}

/// "That sum is proved equal to the difference from the first to the last record of the kind."
fn try_sums() {
    for (records, _) in REPORTS {
        let records = read(records);
        let mut figures = [NUMBER; NUMBERS];
        assert!(gaps::figures(&book_of(2, &records), &mut figures).is_ok());
        for (row, kind) in figures.chunks(OF_KIND).zip(KINDS) {
            let of_kind = || records.iter().filter(|record| record.record.kind == kind);
            let number = |record: &FieldRecord| {
                gaps::day_number(Fields::from_word(record.record.year, record.record.word))
            };
            let ends = (of_kind().next(), of_kind().next_back());
            if let (Kind::D | Kind::E | Kind::V, (Some(first), Some(last))) = (kind, ends) {
                assert_eq!(row[5], number(last) - number(first));
            }
        }
    }
}

/// 7, "buffer shorter than the text": then nothing is written, and else nothing after it.
fn try_room() {
    for (records, _) in REPORTS {
        let buffer = book_of(1, &read(records));
        let text = gaps::printed(&buffer).into_bytes();
        for room in 0..text.len() + 3 {
            let mut out = vec![FILLER; room];
            let answer = gaps::report(&buffer, &mut out).map_err(book::told_refusal);
            if room < text.len() {
                assert_eq!(answer, Err("refused 7".to_string()));
                assert_eq!(out, vec![FILLER; room]);
            } else {
                assert_eq!(answer, Ok(text.len()));
                let after = vec![FILLER; room - text.len()];
                assert_eq!(out, [text.clone(), after].concat());
            }
        }
        for room in 0..NUMBERS + 3 {
            let mut out = vec![NUMBER; room];
            let answer = gaps::figures(&buffer, &mut out).map_err(book::told_refusal);
            let right = if room < NUMBERS { 0 } else { NUMBERS };
            assert_eq!(answer.unwrap_or(0), right);
            assert!(out[right..].iter().all(|&left| left == NUMBER));
        }
    }
}

/// "9, 10, 11 as for the book": what the program prints, and that 7 comes after them.
fn try_refusals() {
    let second = book_of(2, &read("D 1.1.1, D 1.1.2/1, D 1.1.3"));
    let first = book_of(1, &read("D 1.1.1, D 1.1.2, D 1.1.3"));
    let change = |book: &[u8], place: usize, byte: u8| {
        let mut book = book.to_vec();
        book[place] = byte;
        book
    };
    for (buffer, printed) in [
        (vec![], "refused 9\n"),
        (first[..4].to_vec(), "refused 9\n"),
        (first[..19].to_vec(), "refused 9\n"),
        (change(&first, 3, 0), "refused 9\n"),
        (change(&first, 3, 15), "refused 9\n"),
        (change(&second, 3, 21), "refused 9\n"),
        (change(&first, 4, 3), "refused 10\n"),
        (change(&first, 4, 2), "refused 9\n"),
        (change(&second, 4, 1), "refused 9\n"),
        (change(&first, 5, 7), "refused 11 0\n"),
        (change(&first, 14, 1 + 128), "refused 11 1\n"),
        (change(&second, 25, 130), "refused 11 2\n"),
    ] {
        assert_eq!(gaps::printed(&buffer), printed);
        for room in [0, 306] {
            let mut out = vec![FILLER; room];
            let refused = gaps::report(&buffer, &mut out).map_err(book::told_refusal);
            assert_eq!(refused, Err(printed.trim_end().to_string()));
            assert_eq!(out, vec![FILLER; room]);
            let mut out = vec![NUMBER; room];
            let refused = gaps::figures(&buffer, &mut out).map_err(book::told_refusal);
            assert_eq!(refused, Err(printed.trim_end().to_string()));
            assert_eq!(out, vec![NUMBER; room]);
        }
    }
}

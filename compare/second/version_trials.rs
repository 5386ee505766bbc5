//! What request #107 of document 02 says of version 2, of both versions and of moves, tried on this reading.

use crate::book::{self, Refusal};
use crate::{both_books, moves, second_book};

/// D 1444.11.11, of no field and with no mark, in version 1 and in version 2.
const PLAIN: [u8; 5] = [2, 0x05, 0xA4, 0xB5, 0x80];
const PLAIN_2: [u8; 7] = [2, 0, 0, 0x05, 0xA4, 0xB5, 0x80];

/// The same of field 500; guessed; of field 500 and guessed; with the mark 2; and of no kind.
const FIELD: [u8; 7] = [2, 0x01, 0xF4, 0x05, 0xA4, 0xB5, 0x80];
const GUESSED: [u8; 7] = [2, 0, 0, 0x05, 0xA4, 0xB5, 0x81];
const EXAMPLE: [u8; 7] = [2, 0x01, 0xF4, 0x05, 0xA4, 0xB5, 0x81];
const MARK_2: [u8; 7] = [2, 0, 0, 0x05, 0xA4, 0xB5, 0x82];
const NO_KIND: [u8; 7] = [7, 0, 0, 0x05, 0xA4, 0xB5, 0x80];

const DATE: u32 = 0x05A4_B580;

/// What a target holds before a move.
const FILLER: u8 = 0xEE;

pub fn try_all() {
    try_example();
    try_lengths();
    try_appends();
    try_moves_back();
    try_round_trips();
    try_walk();
}

/// The refusal as a number, and its place or 0; no refusal is 0.
fn told<T>(answer: Result<T, Refusal>) -> (u8, usize) {
    match answer {
        Ok(_) => (0, 0),
        Err(Refusal::Number(number)) => (number, 0),
        Err(Refusal::Record(place)) => (11, place),
        Err(Refusal::FieldOrMark(place)) => (21, place),
    }
}

fn book_of<const SIZE: usize>(version: u8, records: &[[u8; SIZE]]) -> Vec<u8> {
    let length = 1 + records.len() * SIZE;
    let head = (length as u32).to_be_bytes();
    [&head[..], &[version], &records.concat()].concat()
}

/// "field 500, D 1444.11.11 guessed: `00 00 00 08 02 02 01 F4 05 A4 B5 81`."
fn try_example() {
    let mut buffer = [0xFF; 12];
    assert!(second_book::new(&mut buffer).is_ok());
    assert!(matches!(
        second_book::append(&mut buffer, 2, 500, DATE + 1),
        Ok(0)
    ));
    let bytes = [0, 0, 0, 8, 2, 2, 0x01, 0xF4, 0x05, 0xA4, 0xB5, 0x81];
    assert_eq!(buffer, bytes);
    for record in [
        second_book::record(&buffer, 0),
        both_books::record(&buffer, 0),
    ] {
        let Ok(record) = record else {
            panic!("the example has a record");
        };
        assert!(record.field == 500 && record.record.word == DATE as u16 + 1);
    }
    assert_eq!(told(book::check(&buffer)), (10, 0));
}

/// "A version 1 reader still answers 10, or 9 where the length is over 20,481." "for version 2, 9 counts sevens
/// up to 28,673". "A call that takes both versions uses the length limit of its version byte, version 1's for any
/// other byte." For each length, what the three checks refuse at version byte 1, at 2 and at others.
fn try_lengths() {
    for (length, at_1, at_2, at_others) in [
        (20_481, [0, 10, 0], [10, 9, 9], [10, 10, 10]),
        (20_482, [9, 10, 9], [9, 9, 9], [9, 10, 9]),
        (20_483, [9, 10, 9], [9, 0, 0], [9, 10, 9]),
        (28_673, [9, 10, 9], [9, 0, 0], [9, 10, 9]),
        (28_674, [9; 3], [9; 3], [9; 3]),
        (28_680, [9; 3], [9; 3], [9; 3]),
    ] {
        let in_first = |version| book_of(version, &[PLAIN; 5740]);
        refuse(in_first(1), length, at_1);
        refuse(book_of(2, &[PLAIN_2; 4098]), length, at_2);
        for version in [0, 3, 255] {
            refuse(in_first(version), length, at_others);
        }
    }
}

/// With this length: the checks of version 1, of version 2 and of both.
fn refuse(mut buffer: Vec<u8>, length: u32, refusals: [u8; 3]) {
    buffer[..4].copy_from_slice(&length.to_be_bytes());
    let answers = [
        book::check(&buffer),
        second_book::check(&buffer),
        both_books::check(&buffer),
    ];
    let numbers = answers.map(|answer| told(answer).0);
    assert_eq!(numbers, refusals, "length {length}, version {}", buffer[4]);
}

/// "4 first", then the book's, then 12, which "needs seven bytes"; a guessed date is taken. A refusal changes no
/// byte.
fn try_appends() {
    let room = [book_of(2, &[PLAIN_2]), vec![FILLER; 7]].concat();
    let short = room[..room.len() - 1].to_vec();
    let full = [book_of(2, &[EXAMPLE; 4096]), vec![FILLER; 7]].concat();
    let last = [book_of(2, &[EXAMPLE; 4095]), vec![FILLER; 7]].concat();
    let bad = [book_of(2, &[MARK_2]), vec![FILLER; 6]].concat();
    let (mut odd, mut version) = (room.clone(), room.clone());
    odd[3] += 1;
    version[4] = 1;
    for (book, refusal) in [
        (&room[..4], 9),
        (&odd, 9),
        (&version, 10),
        (&bad, 11),
        (&short, 12),
        (&full, 12),
        (&last, 0),
        (&room, 0),
    ] {
        for (code, field, date, refusal) in [
            (2, 0, DATE, refusal),
            (4, 65_535, DATE + 1, refusal),
            (2, 65_536, DATE, 4),
            (2, 0, DATE + 2, 4),
            (2, 0, DATE + 3, 4),
            (0, 0, DATE, 4),
            (7, 0, DATE, 4),
            (258, 0, DATE, 4),
            (3, 0, DATE, 4),
        ] {
            let mut buffer = book.to_vec();
            let answer = second_book::append(&mut buffer, code, field, date);
            assert_eq!(told(answer), (refusal, 0));
            assert!(refusal == 0 || buffer == book);
        }
    }
}

/// "21 when moving back a record with a field number or a mark, with its place, after 11; 12 last, for a short
/// target"; and nothing is written then.
fn try_moves_back() {
    let short = book::room(3) - 1;
    for (records, refusal) in [
        ([PLAIN_2, PLAIN_2, PLAIN_2], (12, 0)),
        ([FIELD, PLAIN_2, PLAIN_2], (21, 0)),
        ([PLAIN_2, GUESSED, FIELD], (21, 1)),
        ([PLAIN_2, PLAIN_2, EXAMPLE], (21, 2)),
        ([FIELD, GUESSED, NO_KIND], (11, 2)),
        ([PLAIN_2, MARK_2, NO_KIND], (11, 1)),
    ] {
        let book = book_of(2, &records);
        let is_short_alone = refusal == (12, 0);
        for room in [0, short, short + 1] {
            let mut target = vec![FILLER; room];
            let answer = told(moves::to_1(&book, &mut target));
            if is_short_alone && room > short {
                assert_eq!(answer, (0, 0));
            } else {
                assert_eq!(answer, refusal);
                assert_eq!(target, vec![FILLER; room]);
            }
        }
        // "never a copy".
        assert_eq!(told(moves::to_2(&book, &mut [FILLER; 40])), (10, 0));
    }
    let first = book_of(1, &[PLAIN]);
    assert_eq!(told(moves::to_1(&first, &mut [FILLER; 40])), (10, 0));
}

/// "Version 1 to 2 and back gives the same bytes; 2 to 1 and back too, where not refused." "A target's later bytes
/// stay."
fn try_round_trips() {
    for records in [0, 1, 3, 4096] {
        let first = book_of(1, &vec![PLAIN; records]);
        let second = book_of(2, &vec![PLAIN_2; records]);
        for after in [0, 3] {
            let mut target = vec![FILLER; second.len() + after];
            assert!(matches!(moves::to_2(&first, &mut target), Ok(moved) if moved == records));
            assert_eq!(target, [second.clone(), vec![FILLER; after]].concat());
            let mut target = vec![FILLER; first.len() + after];
            assert!(matches!(moves::to_1(&second, &mut target), Ok(moved) if moved == records));
            assert_eq!(target, [first.clone(), vec![FILLER; after]].concat());
        }
        let mut target = vec![FILLER; second.len() - 1];
        assert_eq!(told(moves::to_2(&first, &mut target)), (12, 0));
        assert_eq!(target, vec![FILLER; second.len() - 1]);
    }
}

/// Of two records from the second on, in room for 0 to 9 numbers; and of a book that is refused, nothing.
fn try_walk() {
    for (book, field) in [
        (book_of(1, &[PLAIN, PLAIN]), 0),
        (book_of(2, &[PLAIN_2, FIELD]), 500),
    ] {
        for room in 0..10 {
            let mut out = vec![7; room];
            let written = both_books::walk(&book, 1, &mut out);
            assert!(written.is_ok_and(|written| written == (room / 4).min(1)));
            let right = [0, 2, DATE, field, 7, 7, 7, 7, 7, 7];
            let seen = if room < 4 { &[7; 10] } else { &right };
            assert_eq!(out, seen[..room]);
            assert!(both_books::walk(&book, 2, &mut out).is_ok_and(|written| written == 0));
        }
    }
    let mut out = [7; 8];
    let bad = book_of(2, &[FIELD, MARK_2]);
    assert_eq!(told(both_books::walk(&bad, 0, &mut out)), (11, 1));
    assert_eq!(out, [7; 8]);
}

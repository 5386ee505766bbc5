//! Moves of a book into a second buffer, both ways. Where a move is done, the target is the buffer from then on.

use crate::book_script::{GREATEST_LENGTH, HEAD, MOST_RECORDS, RECORD, Script, YEAR};
use crate::dates::any_date;
use crate::kinds::{Date, DateHour, Eu5Date, RawDate, UniformDate, Vic3Date};
use crate::random::Random;
use crate::version_script::{
    DATES, FIELD, FIELD_AT, GREATEST_LENGTH_2, MARK_AT, UNMARKED, start_2,
};

fn start(place: usize) -> usize {
    HEAD + place * RECORD
}

pub fn all(script: &mut Script, random: &mut Random) {
    small_targets(script);
    every_kind(script);
    later_bytes(script);
    three_records(script);
    bad_records_of_version_1(script);
    other_versions(script);
    round_trips(script, random);
    full_books(script);
    fields_and_marks_of_full_books(script);
}

/// Every target that is too short, then the one that is not: to version 2 and back.
fn small_targets(script: &mut Script) {
    for records in 0..=2 {
        script.remark(&format!("moves of {records} records into every target"));
        script.book(records, start(records));
        for room in 0..=start_2(records) {
            script.to(2, room);
        }
        script.checks();
        for room in 0..=start(records) {
            script.to(1, room);
        }
        script.checks();
    }
}

/// A date of each kind; a record with a field and one with a mark of each kind are not moved.
fn every_kind(script: &mut Script) {
    script.remark("moves of a date of each kind");
    script.buffer(start(DATES.len()));
    script.line("new");
    for (_, letter, word) in DATES {
        script.append(letter, -YEAR, word);
    }
    script.to(2, start_2(DATES.len()));
    script.walk(0, 64);
    script.to(1, start(DATES.len()));
    script.checks();
    for (_, letter, word) in DATES {
        for (field, mark) in [(1, 0), (256, 0), (65535, 0), (0, 1), (0, 0)] {
            script.second_book(0, 7);
            script.second_append(letter, field, YEAR, word + mark);
            script.to(1, 10);
        }
    }
}

/// They stay, and the next record takes them; bytes after the book that is moved are not moved.
fn later_bytes(script: &mut Script) {
    script.remark("a target's later bytes");
    for after in [1, 6, 7, 9] {
        script.book(1, start(1) + 4);
        script.to(2, start_2(1) + after);
        script.try_second();
        script.second_book(1, 4);
        script.to(1, start(1) + after);
        script.try_all();
    }
}

/// What stands in a record of version 2 at a place: its kind, the low byte of its field, and its last byte.
type Parts = (u8, u8, u8);

/// A bad record, one with a mark, one with a field, and one that can be moved.
const PARTS: [Parts; 4] = [
    (7, 244, UNMARKED + 1),
    (2, 0, UNMARKED + 1),
    (2, 244, UNMARKED),
    (2, 0, UNMARKED),
];

fn set_parts(script: &mut Script, place: usize, (kind, field, last): Parts) {
    script.set(start_2(place), kind);
    script.set(start_2(place) + FIELD_AT + 1, field);
    script.set(start_2(place) + MARK_AT, last);
}

/// Each of the four at each of three places, with room and without: 11 and the first bad one, then 21 and the
/// first that cannot be moved, then 12. The last of all, which is moved, has nothing but good ones.
fn three_records(script: &mut Script) {
    script.remark(
        "moves back of three records: bad, with a mark, with a field, or good, at each place",
    );
    script.second_book(3, 0);
    for first in PARTS {
        set_parts(script, 0, first);
        for second in PARTS {
            set_parts(script, 1, second);
            for third in PARTS {
                set_parts(script, 2, third);
                script.to(1, start(3) - 1);
                script.to(1, start(3));
            }
        }
    }
    script.checks();
}

/// 11 before 12.
fn bad_records_of_version_1(script: &mut Script) {
    script.remark("moves to version 2 of three records, bad or with a mark");
    for (place, byte) in [
        (0, 7),
        (4, UNMARKED + 1),
        (5, 0),
        (14, UNMARKED + 1),
        (14, UNMARKED + 2),
    ] {
        script.book(3, start(3));
        script.set(HEAD + place, byte);
        script.to(2, start_2(3) - 1);
        script.to(2, start_2(3));
    }
    script.book(3, start(3));
    script.set_all(HEAD + 5, &[7, 0, 0, 0, 0, 7]);
    script.to(2, start_2(3));
}

/// Only version 1 is moved to 2, and only 2 to 1; every other version is 10, also of an empty book, and never a
/// copy. The length is a book's of the version that could be moved.
fn other_versions(script: &mut Script) {
    for (to, records, length) in [(2, 0, 1), (2, 2, 11), (1, 0, 1), (1, 2, 15)] {
        script.remark(&format!(
            "moves to version {to} of other versions, {records} records"
        ));
        for version in [0, 1, 2, 3, 255] {
            if to == 2 {
                script.book(records, start(records) + 4);
            } else {
                script.second_book(records, 0);
            }
            script.set(4, version);
            script.set(3, length + 1);
            script.to(to, 40);
            script.set(3, length);
            script.to(to, 4);
            script.to(to, 40);
            script.line("any check");
        }
    }
}

/// Dates of all kinds: version 1 to 2 and back, and 2 to 1 and back.
fn round_trips(script: &mut Script, random: &mut Random) {
    const RECORDS: usize = 12;
    for after in [0, 2] {
        script.remark(&format!("to version 2 and back, {after} bytes after"));
        script.buffer(start(RECORDS));
        script.line("new");
        for _ in 0..RECORDS / 6 {
            script.append_date(any_date::<RawDate>(random));
            script.append_date(any_date::<Date>(random));
            script.append_date(any_date::<DateHour>(random));
            script.append_date(any_date::<UniformDate>(random));
            script.append_date(any_date::<Eu5Date>(random));
            script.append_date(any_date::<Vic3Date>(random));
        }
        script.to(2, start_2(RECORDS) + after);
        script.walk(0, 64);
        script.to(1, start(RECORDS) + after);
        script.walk(0, 64);
        script.to(2, start_2(RECORDS) + after);
        script.second_append_d();
        script.to(1, start(RECORDS) + RECORD);
    }
}

/// One byte short, exact, and more; then back.
fn full_books(script: &mut Script) {
    script.remark("moves of 4,096 records and of 4,095");
    for records in [MOST_RECORDS, MOST_RECORDS - 1] {
        script.book(records, 4 + GREATEST_LENGTH);
        script.to(2, start_2(records) - 1);
        script.to(2, start_2(records));
        script.checks();
        script.second_record(records - 1);
        script.to(1, start(records) - 1);
        script.to(1, start(records));
        script.checks();
        script.to(2, 4 + GREATEST_LENGTH_2 + 7);
        script.second_append('D', 0, YEAR, 4224);
        script.to(1, 65_536);
        script.append_d();
    }
}

/// The first place is told; 11 comes before 21, also at a later place, and 21 before 12.
fn fields_and_marks_of_full_books(script: &mut Script) {
    let last = MOST_RECORDS - 1;
    let room = 4 + GREATEST_LENGTH;
    script.second_book(MOST_RECORDS, 0);
    script.remark(
        "moves back of 4,096 records: a field at the last, a mark before it, a bad one, all good",
    );
    script.set_all(start_2(last) + FIELD_AT, &FIELD.to_be_bytes());
    script.to(1, room);
    script.set(start_2(2000) + MARK_AT, UNMARKED + 1);
    script.to(1, room);
    script.to(1, room - 1);
    script.set(start_2(3000), 7);
    script.to(1, room);
    script.set(start_2(3000), 6);
    script.set(start_2(2000) + MARK_AT, UNMARKED);
    script.set(start_2(last) + FIELD_AT + 1, 0);
    script.to(1, room);
    script.set(start_2(last) + FIELD_AT, 0);
    script.to(1, room - 1);
    script.to(1, room);
    script.record(3000);
}

//! What is tried with marks, which request #106 of document 02 puts into the packed word's two low bits: "20
//! when a guessed date is appended to a version 1 book, after 12; 11 for any mark in one."

use crate::book_damage::one_record;
use crate::book_script::{D_RECORD, GREATEST_LENGTH, HEAD, MOST_RECORDS, RECORD, Script};
use crate::book_script::{WORD, YEAR, word};

/// A date of each kind, by the number that the kind has in a book.
const DATES: [(u8, char, u16); 6] = [
    (1, 'R', word(2, 31, 24)),
    (2, 'D', WORD),
    (3, 'H', word(11, 11, 1)),
    (4, 'U', word(2, 30, 0)),
    (5, 'E', word(12, 31, 22)),
    (6, 'V', word(1, 1, 18)),
];

/// The last byte of a record, which has the mark.
const LAST: usize = RECORD - 1;

/// A date of D with each mark, 0 last, so that the others find the book as it was.
fn append_with_each_mark(script: &mut Script) {
    for mark in [1, 2, 3, 0] {
        script.append('D', YEAR, WORD + mark);
    }
}

/// Of each kind: no room, room, and the same date as a record; with each mark.
pub fn every_kind(script: &mut Script) {
    for (number, letter, word) in DATES {
        script.remark(&format!("dates of kind {letter} with each mark"));
        for after in [RECORD - 1, RECORD] {
            script.book(1, HEAD + RECORD + after);
            for mark in [1, 2, 3, 0] {
                script.append(letter, YEAR, word + mark);
            }
            script.line("check");
            script.record(1);
        }
        for mark in 0..=3 {
            script.book(0, HEAD + 2 * RECORD);
            one_record(script, number, word + mark);
            script.append('D', YEAR, WORD + 1);
        }
    }
}

/// 4 for marks 2 and 3 before 9, 10 and 11, and these and 12 before 20: no book, and a book with room that is
/// sound, of length 0, past its buffer, of version 2, of an odd length, with a bad record, or two of these.
pub fn order_of_refusals(script: &mut Script) {
    script.remark("dates with each mark: no book");
    for length in [0, 4, 5] {
        script.buffer(length);
        append_with_each_mark(script);
    }
    script.remark("dates with each mark: an empty book and 0 to 6 bytes after it");
    for after in 0..=6 {
        script.book(0, HEAD + after);
        append_with_each_mark(script);
    }
    for (length, version, kind) in [
        (6, 1, 2),
        (0, 1, 2),
        (16, 1, 2),
        (6, 2, 2),
        (7, 1, 2),
        (6, 1, 7),
        (0, 2, 2),
        (7, 2, 7),
        (7, 1, 7),
    ] {
        for after in [RECORD - 1, RECORD] {
            script.remark(&format!(
                "dates with each mark: length {length}, version {version}, kind {kind}, {after} bytes after"
            ));
            script.book(1, HEAD + RECORD + after);
            script.set_all(3, &[length, version, kind]);
            append_with_each_mark(script);
        }
    }
}

/// 12 before 20 in a full book; and 20 before the last record is there.
pub fn full_books(script: &mut Script) {
    for after in [0, 4, 5] {
        script.remark(&format!(
            "dates with each mark: 4,095 records, then 4,096 and {after} bytes after"
        ));
        script.book(MOST_RECORDS - 1, 4 + GREATEST_LENGTH + after);
        append_with_each_mark(script);
        script.line("check");
        append_with_each_mark(script);
        script.record(MOST_RECORDS - 1);
    }
}

/// One of three records has a mark, at each place; then one of them a mark and the next a kind that is none.
pub fn marked_records(script: &mut Script) {
    for place in 0..3 {
        script.remark(&format!("a mark in the record at place {place} of three"));
        for mark in 1..=3 {
            script.book(3, HEAD + 4 * RECORD);
            mark_record(script, place, mark);
            script.try_all();
            script.record(2);
            script.record(3);
            append_with_each_mark(script);
        }
    }
    script.remark("a mark and a kind that is none, the one before the other");
    for (marked, bad) in [(0, 1), (1, 0), (1, 2), (2, 1)] {
        script.book(3, HEAD + 4 * RECORD);
        mark_record(script, marked, 1);
        script.set(HEAD + bad * RECORD, 7);
        script.try_all();
    }
    script.remark("a mark in what stands after the book");
    script.book(2, HEAD + 3 * RECORD);
    mark_record(script, 2, 1);
    script.try_all();
}

pub fn marked_records_of_full_books(script: &mut Script) {
    script.book(MOST_RECORDS, 4 + GREATEST_LENGTH + RECORD);
    for place in [0, MOST_RECORDS / 2, MOST_RECORDS - 1] {
        script.remark(&format!("a mark in the record at place {place} of 4,096"));
        for mark in 1..=3 {
            mark_record(script, place, mark);
            script.try_all();
            script.record(place);
            script.append('D', YEAR, WORD + 1);
        }
        mark_record(script, place, 0);
    }
    script.remark("none of them marked");
    script.try_all();
}

fn mark_record(script: &mut Script, place: usize, mark: u8) {
    script.set(HEAD + place * RECORD + LAST, D_RECORD[LAST] + mark);
}

//! The linear walk: books of both versions and books that are none, from each place, into too little room and
//! into more than enough.

use crate::book_script::{GREATEST_LENGTH, HEAD, MOST_RECORDS, RECORD, Script, WORD, YEAR};
use crate::version_script::{DATES, start_2};

/// Room for none, for one, for two, for all but one, for all, and for more: whole fours and others.
const NUMBERS: [usize; 10] = [0, 3, 4, 5, 8, 23, 24, 25, 28, 64];

/// The last is more than there can be.
const PLACES: [usize; 6] = [0, 2, 5, 6, 7, u32::MAX as usize];

pub fn all(script: &mut Script) {
    script.remark("a walk over a book of version 1");
    script.buffer(HEAD + DATES.len() * RECORD + 3);
    script.line("new");
    for (_, letter, word) in DATES {
        script.append(letter, -YEAR, word);
    }
    every_walk(script);
    script.remark("a walk over a book of version 2");
    script.buffer(start_2(DATES.len()) + 3);
    script.line("second new");
    for (number, letter, word) in DATES {
        let field = u16::from(number) * 10_000;
        script.second_append(letter, field, -YEAR, word + u16::from(number) % 2);
    }
    every_walk(script);
    refused_books(script);
    full_books(script);
}

fn every_walk(script: &mut Script) {
    for place in PLACES {
        for numbers in NUMBERS {
            script.walk(place, numbers);
        }
    }
}

/// 9, 10, 9's last case and 11 of both versions: nothing is written. The last record is the bad one, which a walk
/// into less room would not reach.
fn refused_books(script: &mut Script) {
    for version in [1, 2] {
        script.remark(&format!(
            "a walk over books of version {version} that are none"
        ));
        for (place, byte) in [(3, 0), (3, 30), (4, 3), (3, 7), (4, 3 - version), (0, 1)] {
            three_records(script, version);
            script.set(place, byte);
            script.walk(0, 8);
            script.walk(9, 4);
        }
        three_records(script, version);
        let last = if version == 1 {
            HEAD + 2 * RECORD
        } else {
            start_2(2)
        };
        script.set(last, 7);
        for (place, numbers) in [(0, 0), (0, 4), (0, 64), (2, 4), (3, 4)] {
            script.walk(place, numbers);
        }
    }
    script.remark("a walk over no book");
    for length in [0, 4] {
        script.buffer(length);
        script.walk(0, 4);
    }
}

fn three_records(script: &mut Script, version: u8) {
    if version == 1 {
        script.book(3, HEAD + 3 * RECORD);
    } else {
        script.second_book(3, 0);
    }
}

fn full_books(script: &mut Script) {
    script.remark("a walk over 4,096 records of each version");
    let last = MOST_RECORDS - 1;
    script.book(last, 4 + GREATEST_LENGTH);
    script.append('V', -1, WORD);
    last_records(script);
    script.second_book(last, 7);
    script.second_append('V', 65535, -1, WORD + 1);
    last_records(script);
}

fn last_records(script: &mut Script) {
    for place in [
        0,
        MOST_RECORDS - 16,
        MOST_RECORDS - 3,
        MOST_RECORDS - 1,
        MOST_RECORDS,
    ] {
        script.walk(place, 64);
    }
    script.walk(MOST_RECORDS - 1, 3);
    script.any_record(MOST_RECORDS - 1);
    script.any_record(MOST_RECORDS);
}

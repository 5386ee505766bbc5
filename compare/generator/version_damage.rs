//! What is tried on books of version 2 that are none, and on dates that are none: lengths, versions, bytes and
//! the order of refusals.

use crate::book_damage::WORDS;
use crate::book_script::{MOST_RECORDS, Script, WORD, YEAR, word};
use crate::version_script::{
    DATES, FIELD, FIELD_AT, MARK_AT, RECORD_2, UNMARKED, WORD_AT, start_2,
};

/// Those that are a version, and others.
const VERSIONS: [u8; 5] = [0, 1, 3, 255, 2];

pub fn all(script: &mut Script) {
    damaged_bytes(script);
    short_lengths(script);
    long_lengths(script);
    recorded_words(script);
    order_of_refusals(script);
    dates_of_no_kind(script);
    bad_records(script);
}

/// Two records, of field 257 and of field 500 guessed, then one byte changed. The target has no room for any of
/// these books, so that the next byte finds the same.
fn damaged_bytes(script: &mut Script) {
    let book = [
        0, 0, 0, 15, 2, 2, 1, 1, 5, 164, 181, 128, 5, 1, 244, 255, 255, 207, 217,
    ];
    script.remark("version 2: another byte at each place");
    script.buffer(book.len() + RECORD_2);
    script.set_all(0, &book);
    script.checks();
    for (place, &right) in book.iter().enumerate() {
        for byte in [0, 1, 2, 7, 255] {
            if byte == right {
                continue;
            }
            script.set(place, byte);
            script.line("second check");
            script.line("any check");
            script.second_record(1);
            script.to(1, 4);
        }
        script.set(place, right);
    }
    script.try_second();
}

/// At this length, each version: the three checks, and both moves into a target that is too short for any.
fn each_version(script: &mut Script, length: u32) {
    script.set_length(length);
    for version in VERSIONS {
        script.set(4, version);
        script.checks();
        script.to(2, 4);
        script.to(1, 4);
    }
}

/// In room for two records and three bytes.
fn short_lengths(script: &mut Script) {
    script.remark("lengths in 22 bytes, each version");
    script.second_book(2, 3);
    for length in [0, 1, 2, 6, 8, 11, 15, 16, 18, 19] {
        each_version(script, length);
    }
    for length in [(1 << 16) + 8, (1 << 31) + 8, u32::MAX] {
        each_version(script, length);
    }
}

/// Where there are bytes for more than 4,096 records. 2,925 records of version 2 have 20,476 bytes, one more has
/// 20,483: the last that a version 1 reader calls 10, and the first that it calls 9.
fn long_lengths(script: &mut Script) {
    script.remark("lengths in bytes for 4,098 records of version 2, each version");
    script.second_book(MOST_RECORDS, 2 * RECORD_2);
    let copied = 2 * RECORD_2;
    script.line(format!("copy 5 {copied} {}", start_2(MOST_RECORDS)));
    for length in [
        20_476, 20_481, 20_482, 20_483, 20_486, 28_666, 28_672, 28_673, 28_674, 28_680,
    ] {
        each_version(script, length);
    }
    for length in [20_483, 28_673, 28_680] {
        script.set_length(length);
        script.second_record(MOST_RECORDS - 1);
        script.any_record(2_925);
        script.second_append_d();
        script.walk(2_925, 4);
    }
}

/// Each word of each kind as a record, and numbers that are no kind.
fn recorded_words(script: &mut Script) {
    script.second_book(1, 0);
    script.set_all(start_2(0) + FIELD_AT, &FIELD.to_be_bytes());
    for (number, letter, _) in DATES {
        script.remark(&format!("version 2: recorded words of kind {letter}"));
        script.set(start_2(0), number);
        for word in WORDS {
            script.set_all(start_2(0) + WORD_AT, &word.to_be_bytes());
            script.line("second check");
        }
    }
    script.remark("version 2: numbers that are no kind");
    script.set_all(start_2(0) + WORD_AT, &WORD.to_be_bytes());
    for number in [0, 1, 6, 7, 8, 255] {
        script.set(start_2(0), number);
        script.second_record(0);
    }
}

/// 9, 10, 9's last case, 11, then 12 or 13; and 4 before all: of a sound book, and of one or two of these.
fn order_of_refusals(script: &mut Script) {
    for (length, version, kind) in [
        (8, 2, 2),
        (0, 2, 2),
        (19, 2, 2),
        (8, 1, 2),
        (9, 2, 2),
        (8, 2, 7),
        (0, 1, 7),
        (9, 1, 2),
        (9, 1, 7),
        (9, 2, 7),
        (8, 3, 2),
        (9, 3, 7),
    ] {
        for after in [RECORD_2 - 1, RECORD_2] {
            script.remark(&format!(
                "version 2: length {length}, version {version}, kind {kind}, {after} bytes after"
            ));
            script.second_book(1, after);
            script.set_all(3, &[length, version, kind]);
            script.second_record(1);
            script.any_record(1);
            for mark in [2, 3, 1, 0] {
                script.second_append('D', FIELD, YEAR, WORD + mark);
            }
        }
    }
}

/// 4 comes first, whatever the book is.
fn dates_of_no_kind(script: &mut Script) {
    script.remark("version 2: dates of no kind: no book, no room, a book of version 1");
    let no_dates = [
        ('R', word(13, 1, 0)),
        ('D', word(2, 29, 0)),
        ('H', word(11, 11, 0)),
        ('U', word(1, 31, 1)),
        ('E', word(11, 11, 23)),
        ('V', word(11, 11, 7)),
    ];
    let append_all = |script: &mut Script| {
        for (letter, word) in no_dates {
            script.second_append(letter, FIELD, YEAR, word);
        }
        script.second_append_d();
    };
    script.buffer(4);
    append_all(script);
    script.second_book(0, 6);
    append_all(script);
    script.book(1, 20);
    append_all(script);
    script.second_book(0, 7);
    append_all(script);
}

/// Of a full book: a bad record, and one with mark 2 or 3; and the first of two. One with a mark is no bad one.
fn bad_records(script: &mut Script) {
    let last = MOST_RECORDS - 1;
    script.second_book(MOST_RECORDS, RECORD_2);
    for bad in [vec![0], vec![1, last], vec![last]] {
        script.remark(&format!("version 2: bad records at places {bad:?}"));
        for mark in [2, 3] {
            for place in &bad {
                script.set(start_2(*place) + MARK_AT, UNMARKED + mark);
            }
            script.line("any check");
            script.try_second();
        }
        for place in &bad {
            script.set(start_2(*place) + MARK_AT, UNMARKED);
            script.set(start_2(*place), 0);
        }
        script.second_record(MOST_RECORDS);
        script.walk(0, 4);
        script.to(1, 4);
        for place in &bad {
            script.set(start_2(*place), 2);
        }
    }
    script.remark("version 2: all of them good again, and guessed ones among them");
    script.try_second();
    script.set(start_2(last) + MARK_AT, UNMARKED + 1);
    script.second_record(last);
    script.to(1, 4);
}

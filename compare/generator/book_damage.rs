//! What is tried on books that are none, and on dates that are none.

use crate::book_script::{D_RECORD, GREATEST_LENGTH, HEAD, MOST_RECORDS, RECORD, Script};
use crate::book_script::{WORD, YEAR, word};

/// Words at both sides of every bound on month, day and hour, and words with each mark.
pub const WORDS: [u16; 30] = [
    word(0, 1, 0),
    word(1, 1, 0),
    word(1, 31, 0),
    word(2, 28, 0),
    word(2, 29, 0),
    word(2, 30, 0),
    word(2, 31, 0),
    word(4, 30, 0),
    word(4, 31, 0),
    word(12, 31, 0),
    word(13, 1, 0),
    word(15, 31, 0),
    word(11, 0, 0),
    word(11, 0, 6),
    word(11, 11, 1),
    word(11, 11, 5),
    word(11, 11, 6),
    word(11, 11, 7),
    word(11, 11, 12),
    word(11, 11, 18),
    word(11, 11, 22),
    word(11, 11, 23),
    word(11, 11, 24),
    word(11, 11, 25),
    word(11, 11, 31),
    WORD + 1,
    WORD + 2,
    WORD + 3,
    0,
    u16::MAX,
];

/// Two records and room for one more, then one byte changed.
pub fn damaged_bytes(script: &mut Script) {
    for place in 0..HEAD + RECORD {
        script.remark(&format!("another byte at {place}"));
        for byte in [0, 1, 5, 6, 7, 255] {
            script.book(1, 21);
            script.append('E', -1, word(12, 31, 22));
            script.set(place, byte);
            script.try_all();
        }
    }
}

/// In a short buffer and in one with bytes for more than 4,096 records.
pub fn lengths(script: &mut Script) {
    let mut lengths: Vec<u32> = (0..6).map(|less| u32::MAX - less).collect();
    lengths.extend([0, 1, 2, 5, 6, 7, 10, 11, 12, 15, 16, 17, 20, 21]);
    lengths.extend([
        20_476, 20_477, 20_480, 20_481, 20_482, 20_485, 20_486, 20_487,
    ]);
    lengths.extend([
        65_537,
        65_542,
        1 << 24,
        (1 << 24) + 6,
        1 << 31,
        (1 << 31) + 6,
    ]);
    for size in [20, HEAD + (MOST_RECORDS + 2) * RECORD] {
        for version in [1, 2] {
            script.remark(&format!("lengths in {size} bytes, version {version}"));
            let records = (size - HEAD) / RECORD;
            script.book(records, size);
            script.set(4, version);
            for &length in &lengths {
                script.set_length(length);
                script.try_all();
            }
        }
    }
}

/// 9 but for its last case comes before 10, and 10 before that case and before 11.
pub fn versions(script: &mut Script) {
    script
        .remark("versions of a good book, of one with an odd length, and of one with a bad record");
    for version in [0, 1, 2, 128, 255] {
        for (length, kind) in [(6, 2), (1, 2), (7, 2), (0, 2), (17, 2), (6, 0), (7, 0)] {
            script.book(1, 20);
            script.set_length(length);
            script.set_all(4, &[version, kind]);
            script.try_all();
        }
    }
}

/// Each word of each kind, handed in and then recorded; and numbers that are no kind.
pub fn recorded_words(script: &mut Script) {
    for (number, letter) in (1..).zip(['R', 'D', 'H', 'U', 'E', 'V']) {
        script.remark(&format!("words of kind {letter}"));
        for word in WORDS {
            script.book(0, 15);
            script.append(letter, YEAR, word);
            one_record(script, number, word);
        }
    }
    script.remark("numbers that are no kind");
    for number in [0, 7, 8, 255] {
        script.book(0, 15);
        one_record(script, number, WORD);
    }
}

pub fn one_record(script: &mut Script, kind: u8, word: u16) {
    let [year_high, year_low] = YEAR.to_be_bytes();
    let [high, low] = word.to_be_bytes();
    script.set_length(6);
    script.set_all(HEAD, &[kind, year_high, year_low, high, low]);
    script.try_all();
}

pub fn bad_records(script: &mut Script) {
    let last = MOST_RECORDS - 1;
    script.book(MOST_RECORDS, 4 + GREATEST_LENGTH + RECORD);
    for bad in [vec![0], vec![1], vec![last], vec![1, last], vec![0, 1, 2]] {
        script.remark(&format!("bad records at places {bad:?}"));
        for place in &bad {
            script.set(HEAD + place * RECORD, 0);
        }
        script.try_all();
        script.record(last);
        script.record(MOST_RECORDS);
        for place in &bad {
            script.set_all(HEAD + place * RECORD, &D_RECORD);
        }
    }
    script.remark("all of them good again");
    script.try_all();
}

/// 4 comes first, whatever the book is.
pub fn dates_of_no_kind(script: &mut Script) {
    let no_dates = [
        ('R', word(13, 1, 0)),
        ('R', word(11, 11, 25)),
        ('D', word(2, 29, 0)),
        ('D', word(11, 11, 1)),
        ('H', word(11, 11, 0)),
        ('U', word(1, 31, 0)),
        ('E', word(11, 11, 23)),
        ('E', word(11, 11, 24)),
        ('V', word(11, 11, 1)),
        ('V', WORD + 2),
    ];
    script.remark(
        "dates of no kind: no book, a good one, length 0, odd length, version 2, bad record",
    );
    for length in [0, 4, 5, 20] {
        script.buffer(length);
        for (letter, word) in no_dates {
            script.append(letter, YEAR, word);
        }
        script.append_d();
    }
    for (place, byte) in [(4, 1), (3, 0), (3, 7), (4, 2), (5, 7)] {
        script.book(1, 20);
        script.set(place, byte);
        for (letter, word) in no_dates {
            script.append(letter, YEAR, word);
        }
        script.append_d();
    }
}

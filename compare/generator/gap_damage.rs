//! The gap report of books that are none, and of long ones, whose counts and places have four digits.

use crate::book_script::{GREATEST_LENGTH, HEAD, MOST_RECORDS, RECORD, Script, WORD, YEAR, word};
use crate::gap_scenes::{FIGURES, ROOM, ROOM_OF_ONE};
use crate::version_script::{MARK_AT, RECORD_2, UNMARKED, start_2};

/// The report of three records of D on one day.
const THREE_LENGTH: usize = 52;

pub fn all(script: &mut Script) {
    no_books(script);
    refused_books(script);
    full_books(script);
    thousand_records(script);
    long_report(script);
}

/// Into room for nothing, into a byte or a number too little, and into enough: the book's refusal, each time.
fn refused(script: &mut Script) {
    script.report(0);
    script.report(THREE_LENGTH - 1);
    script.report(THREE_LENGTH);
    script.figures(FIGURES - 1);
    script.figures(FIGURES);
}

fn no_books(script: &mut Script) {
    script.remark("the report of no book");
    for length in [0, 4] {
        script.buffer(length);
        refused(script);
    }
}

fn refused_books(script: &mut Script) {
    script.remark("the report of books of version 1 that are none");
    script.book(3, HEAD + 3 * RECORD);
    damaged(script, 1, 16, HEAD + 2 * RECORD);
    script.remark("the report of books of version 2 that are none");
    script.second_book(3, 0);
    damaged(script, 2, 22, HEAD + 2 * RECORD_2);
}

/// Of three records, with this version, this length and the last one there: 9, 10, 9's last case and 11, alone and
/// two at once, by one byte or two that are other than in the sound book, and sound again afterwards.
fn damaged(script: &mut Script, version: u8, length: u8, last: usize) {
    let sound = [(0, 0), (3, length), (4, version), (HEAD, 2), (last, 2)];
    for changed in [
        vec![(3, 0)],
        vec![(3, length + 1)],
        vec![(0, 1)],
        vec![(4, 0)],
        vec![(4, 3)],
        vec![(4, 3 - version)],
        vec![(3, length - 1)],
        vec![(HEAD, 7)],
        vec![(last, 0)],
        vec![(last, 3), (HEAD, 0)],
        vec![(3, length - 1), (4, 3)],
        vec![(4, 3), (HEAD, 7)],
        vec![(3, length - 1), (HEAD, 7)],
    ] {
        changed.iter().for_each(|&(at, byte)| script.set(at, byte));
        refused(script);
        let is_changed = |&(at, _): &(usize, u8)| changed.iter().any(|&(other, _)| other == at);
        for (at, byte) in sound.into_iter().filter(is_changed) {
            script.set(at, byte);
        }
    }
    // The second record's mark: 1 is a guessed date in version 2 alone.
    for byte in [UNMARKED + 1, UNMARKED + 2, UNMARKED] {
        script.set(last - 1, byte);
        refused(script);
    }
}

/// D, E and V in turn, then one more D, of version 1.
fn in_turn(script: &mut Script) {
    script.buffer(4 + GREATEST_LENGTH);
    script.line("new");
    script.append('D', -10_000, word(10, 10, 0));
    script.append('E', -11_111, word(11, 11, 11));
    script.append('V', -12_121, word(12, 12, 12));
    repeat_last(script, 3, MOST_RECORDS / 3, 0);
    script.append('D', -10_000, word(10, 10, 0));
}

/// Of a full book the year of three records is changed: of the last but one of each kind, so that the longest
/// step comes right before it and is met again right after. Then a record that is none, the last.
fn full_books(script: &mut Script) {
    script.remark("the report of 4,096 records: D, E and V in turn");
    in_turn(script);
    script.report_and_figures(ROOM);
    for place in MOST_RECORDS - 6..MOST_RECORDS - 3 {
        script.set_all(HEAD + place * RECORD + 1, &[0x7F, 0xFF]);
    }
    script.report_and_figures(ROOM);
    script.to(2, start_2(MOST_RECORDS));
    script.report_and_figures(ROOM);
    let last = start_2(MOST_RECORDS - 1);
    script.set(last, 0);
    script.report_and_figures(ROOM);
    script.set(last, 2);
    script.set_low_length(1 + (MOST_RECORDS - 1) * RECORD_2);
    script.report_and_figures(ROOM);
    script.set_low_length(1 + MOST_RECORDS * RECORD_2 + 7);
    script.report_and_figures(ROOM);
    script.remark("the report of 4,096 records of D: all on one day, then one of another");
    script.second_book(MOST_RECORDS, 0);
    script.report_and_figures(ROOM_OF_ONE);
    script.set(last + MARK_AT - 1, 0xB0);
    script.report_and_figures(ROOM_OF_ONE);
    script.set(start_2(1) + MARK_AT - 1, 0xB0);
    script.report_and_figures(ROOM_OF_ONE);
    script.set(start_2(999), 1);
    script.report_and_figures(ROOM_OF_ONE + 40);
}

/// Both sides of the counts and places that have four digits.
fn thousand_records(script: &mut Script) {
    script.remark("the report of 999 records of D, then three more");
    script.book(999, HEAD + 1002 * RECORD);
    script.report_and_figures(ROOM_OF_ONE);
    for year in [YEAR, 0, YEAR + 2] {
        script.append('D', year, WORD);
        script.report_and_figures(ROOM_OF_ONE);
    }
}

/// The longest dates, steps and sums, and places of four digits. Of 4,096 records three kinds have counts of four
/// digits and the others of three; where four kinds have four, the others have two, which is a digit less in all.
fn long_report(script: &mut Script) {
    const LENGTH: usize = 288;
    const OF_THREE: usize = 900;
    const OF_SIX: usize = 100;
    script.remark("the longest report, of 3,303 records of all kinds");
    script.buffer(4 + GREATEST_LENGTH);
    script.line("new");
    script.append('R', i16::MIN, word(12, 31, 24));
    script.append('H', i16::MIN, word(12, 31, 24));
    script.append('E', i16::MAX, word(12, 31, 22));
    repeat_last(script, 3, OF_THREE, 0);
    script.append('R', i16::MIN, word(12, 31, 24));
    script.append('H', i16::MIN, word(12, 31, 24));
    script.append('U', i16::MIN, word(12, 30, 0));
    script.append('D', i16::MAX, word(12, 31, 0));
    script.append('E', i16::MAX, word(12, 31, 22));
    script.append('V', i16::MAX, word(12, 31, 18));
    repeat_last(script, 6, OF_SIX, 3 * OF_THREE);
    script.append('D', i16::MIN, word(12, 31, 0));
    script.append('E', i16::MIN, word(12, 31, 22));
    script.append('V', i16::MIN, word(12, 31, 18));
    for room in [LENGTH - 1, LENGTH, ROOM] {
        script.report_and_figures(room);
    }
    script.to(2, start_2(MOST_RECORDS));
    script.report_and_figures(LENGTH);
}

/// Of a book of version 1 that ends in these records, from a place on: so many times, the first time among them.
fn repeat_last(script: &mut Script, records: usize, times: usize, place: usize) {
    let (start, bytes) = (HEAD + place * RECORD, records * RECORD);
    let copied = (times - 1) * bytes;
    script.line(format!("copy {start} {copied} {}", start + bytes));
    script.set_low_length(1 + (place + records * times) * RECORD);
}

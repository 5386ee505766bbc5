//! The part of book.script that is about books of version 2, about both versions and about moves. The second
//! reading answers it.

use crate::book_script::{HEAD, MOST_RECORDS, Script, WORD, YEAR};
use crate::dates::any_date;
use crate::kinds::{Date, DateHour, Eu5Date, RawDate, UniformDate, Vic3Date};
use crate::random::Random;
use crate::version_script::{DATES, FIELD, start_2};
use crate::{move_scenes, version_damage, walk_scenes};

/// None, the first, both sides of a byte, the one that the request shows, and the last.
const FIELDS: [u16; 6] = [0, 1, 255, 256, FIELD, 65535];

/// A year for each of these fields.
const YEARS: [i16; 6] = [-32768, -1, 0, 1444, 1836, 32767];

const MIXED_RECORDS: usize = 18;

/// Seven times these places is one short of 32 bits, and past them.
pub const FAR_PLACES: [usize; 3] = [613_566_756, 613_566_757, u32::MAX as usize];

pub fn all(stream: u64) -> String {
    let mut script = Script::default();
    let mut random = Random::new(stream);
    small_buffers(&mut script);
    shown_bytes(&mut script);
    new_over_books(&mut script);
    DATES
        .iter()
        .for_each(|&(_, letter, word)| kind(&mut script, letter, word));
    mixed_kinds(&mut script, &mut random);
    ends_of_buffers(&mut script);
    full_books(&mut script);
    version_damage::all(&mut script);
    walk_scenes::all(&mut script);
    move_scenes::all(&mut script, &mut random);
    script.text
}

fn small_buffers(script: &mut Script) {
    script.remark("version 2 in buffers of 0 to 12 bytes");
    for length in 0..=12 {
        script.buffer(length);
        script.checks();
        script.walk(0, 4);
        script.line("second new");
        script.checks();
        script.second_append_d();
        script.checks();
        script.second_record(0);
        script.any_record(0);
        script.walk(0, 4);
        script.second_append_d();
    }
}

/// Field 500, D 1444.11.11 guessed; and what a version 1 reader says of it.
fn shown_bytes(script: &mut Script) {
    script.remark("the bytes that the request shows");
    for length in [12, 18, 19] {
        script.buffer(length);
        script.line("second new");
        script.second_append_d();
        script.checks();
        (0..=1).for_each(|place| script.second_record(place));
        (0..=1).for_each(|place| script.any_record(place));
        script.record(0);
        script.append_d();
        script.to(1, 10);
        script.to(2, 12);
    }
}

fn new_over_books(script: &mut Script) {
    script.remark("new over a book of the other version");
    script.book(2, 20);
    script.checks();
    script.any_record(1);
    script.second_record(1);
    script.second_append_d();
    script.line("second new");
    script.checks();
    script.second_append_d();
    script.line("second new");
    script.checks();
    script.second_append_d();
    script.line("new");
    script.checks();
    script.append_d();
    script.any_record(0);
    script.line("table check");
}

/// Of one kind: each field, declared and guessed, and marks that are not allowed.
fn kind(script: &mut Script, letter: char, word: u16) {
    script.remark(&format!(
        "version 2: dates of kind {letter}, each field and each mark"
    ));
    let records = 2 * FIELDS.len();
    script.buffer(start_2(records) + 6);
    script.line("second new");
    for (field, year) in FIELDS.into_iter().zip(YEARS) {
        for mark in [0, 1] {
            script.second_append(letter, field, year, word + mark);
        }
    }
    for mark in [2, 3, 1, 0] {
        script.second_append(letter, FIELD, YEAR, word + mark);
    }
    script.line("second check");
    (0..=records).for_each(|place| script.second_record(place));
    script.any_record(records - 1);
    script.walk(0, 64);
}

fn mixed_kinds(script: &mut Script, random: &mut Random) {
    script.remark("version 2: dates of all kinds in one book, each place and one past");
    script.buffer(start_2(MIXED_RECORDS));
    script.line("second new");
    for place in 0..MIXED_RECORDS {
        let field = random.word() as u16;
        let mark = random.index(2) as u16;
        match place % 6 {
            0 => script.second_append_date(field, mark, any_date::<Vic3Date>(random)),
            1 => script.second_append_date(field, mark, any_date::<UniformDate>(random)),
            2 => script.second_append_date(field, mark, any_date::<DateHour>(random)),
            3 => script.second_append_date(field, mark, any_date::<RawDate>(random)),
            4 => script.second_append_date(field, mark, any_date::<Eu5Date>(random)),
            _ => script.second_append_date(field, mark, any_date::<Date>(random)),
        }
    }
    script.checks();
    for place in (0..=MIXED_RECORDS).chain(FAR_PLACES) {
        script.second_record(place);
    }
    FAR_PLACES
        .iter()
        .for_each(|&place| script.any_record(place));
    script.second_append_d();
}

/// 12 where there are no seven bytes, then a record that takes them.
fn ends_of_buffers(script: &mut Script) {
    script.remark("a book of version 2 that ends 0 to 8 bytes before its buffer");
    for records in [0, 1, 3] {
        for after in 0..=8 {
            script.second_book(records, after);
            script.try_second();
            script.second_record(records);
        }
    }
}

/// The last record is appended, and one more refused, with and without bytes for it.
fn full_books(script: &mut Script) {
    let last = MOST_RECORDS - 1;
    for after in [0, 6, 7] {
        script.remark(&format!(
            "version 2: 4,095 records, then 4,096 and {after} bytes after"
        ));
        script.second_book(last, 7 + after);
        script.checks();
        script.second_record(last);
        script.second_append('U', 65535, -32768, WORD + 1);
        script.checks();
        for place in [last - 1, last, MOST_RECORDS] {
            script.second_record(place);
            script.any_record(place);
        }
        script.second_append_d();
        script.second_append('D', FIELD, YEAR, WORD + 2);
        script.record(0);
        script.append_d();
    }
    script.remark("version 2: 4,095 records and no seven bytes after");
    script.second_book(last, HEAD + 1);
    script.second_append_d();
    script.set_low_length(1 + MOST_RECORDS * 7);
    script.checks();
}

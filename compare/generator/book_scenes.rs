//! The part of book.script that is about books, its first. The second reading answers it.

use crate::book_script::{GREATEST_LENGTH, HEAD, MOST_RECORDS, RECORD, Script, YEAR, word};
use crate::dates::{any_date, landmarks};
use crate::kinds::{Date, DateHour, Eu5Date, Fields, Kind, RawDate, UniformDate, Vic3Date};
use crate::random::Random;
use crate::{book_damage, book_marks};

const SAMPLES_PER_KIND: usize = 10;
const MIXED_RECORDS: usize = 40;

/// 29 February, which D has not.
const NO_DATE: u16 = word(2, 29, 0);

pub fn all(stream: u64) -> String {
    let mut script = Script::default();
    let mut random = Random::new(stream);
    small_buffers(&mut script);
    new_over_a_book(&mut script);
    every_kind(&mut script, &mut random);
    mixed_kinds(&mut script, &mut random);
    book_damage::damaged_bytes(&mut script);
    book_damage::lengths(&mut script);
    book_damage::versions(&mut script);
    book_damage::recorded_words(&mut script);
    ends_of_buffers(&mut script);
    full_books(&mut script);
    book_damage::bad_records(&mut script);
    book_damage::dates_of_no_kind(&mut script);
    book_marks::every_kind(&mut script);
    book_marks::order_of_refusals(&mut script);
    book_marks::full_books(&mut script);
    book_marks::marked_records(&mut script);
    book_marks::marked_records_of_full_books(&mut script);
    script.text
}

fn small_buffers(script: &mut Script) {
    script.remark("buffers of 0 to 16 bytes");
    for length in 0..=16 {
        script.buffer(length);
        script.line("check");
        script.line("new");
        script.try_all();
        script.try_all();
    }
}

fn new_over_a_book(script: &mut Script) {
    script.remark("new over a book of two records");
    script.book(2, 20);
    script.line("new");
    script.try_all();
    script.try_all();
}

fn every_kind(script: &mut Script, random: &mut Random) {
    kind::<RawDate>(script, random);
    kind::<Date>(script, random);
    kind::<DateHour>(script, random);
    kind::<UniformDate>(script, random);
    kind::<Eu5Date>(script, random);
    kind::<Vic3Date>(script, random);
}

/// Every hour of the kind, the ends of every month, landmarks and samples; and the days past the
/// ends of months, which are refused.
fn kind<K: Kind>(script: &mut Script, random: &mut Random) {
    let hours = K::hours();
    let month_ends: Vec<Fields> = (1..=12)
        .flat_map(|month| (28..=31).map(move |day| (month, day)))
        .map(|(month, day)| Fields::new(-YEAR, month, day, hours[0]))
        .collect();
    let at_hour = |&hour: &u8| K::with(Fields::new(YEAR, 11, 11, hour));
    let mut dates = landmarks::<K>();
    dates.extend(hours.iter().filter_map(at_hour));
    dates.extend(month_ends.iter().copied().filter_map(K::with));
    dates.extend((0..SAMPLES_PER_KIND).map(|_| any_date::<K>(random)));

    let letter = K::LETTER;
    script.remark(&format!("dates of kind {letter}, each place and one past"));
    script.buffer(HEAD + dates.len() * RECORD + 3);
    script.line("new");
    for &fields in month_ends.iter().filter(|&&end| K::with(end).is_none()) {
        script.append_fields(letter, fields);
    }
    for date in &dates {
        script.append_fields(letter, date.fields());
    }
    script.line("check");
    (0..=dates.len()).for_each(|place| script.record(place));
}

fn mixed_kinds(script: &mut Script, random: &mut Random) {
    script.remark("dates of all kinds in one book, each place and one past");
    script.buffer(HEAD + MIXED_RECORDS * RECORD);
    script.line("new");
    for place in 0..MIXED_RECORDS {
        match place % 6 {
            0 => script.append_date(any_date::<RawDate>(random)),
            1 => script.append_date(any_date::<Vic3Date>(random)),
            2 => script.append_date(any_date::<Date>(random)),
            3 => script.append_date(any_date::<Eu5Date>(random)),
            4 => script.append_date(any_date::<DateHour>(random)),
            _ => script.append_date(any_date::<UniformDate>(random)),
        }
    }
    script.line("check");
    (0..=MIXED_RECORDS).for_each(|place| script.record(place));
    // Five times these places is past 32 bits, or one short of it.
    for place in [858_993_459, 858_993_460, u32::MAX as usize] {
        script.record(place);
    }
    script.append_d();
}

fn ends_of_buffers(script: &mut Script) {
    script.remark("a book that ends 0 to 6 bytes before its buffer");
    for records in [0, 1, 2, 5] {
        for after in 0..=6 {
            script.book(records, HEAD + records * RECORD + after);
            script.try_all();
        }
    }
}

/// The last record is appended, and one more refused, with and without bytes for it.
fn full_books(script: &mut Script) {
    for after in [0, 4, 5, 10] {
        script.remark(&format!("4,096 records and {after} bytes after"));
        script.book(MOST_RECORDS - 1, 4 + GREATEST_LENGTH + after);
        script.line("check");
        script.record(MOST_RECORDS - 1);
        script.append('V', -32768, word(12, 31, 18));
        script.try_all();
        for place in [MOST_RECORDS - 1, MOST_RECORDS, MOST_RECORDS + 1] {
            script.record(place);
        }
        script.append('D', YEAR, NO_DATE);
    }
    script.remark("a length for 4,096 records and a buffer one byte shorter");
    script.book(MOST_RECORDS - 1, 4 + GREATEST_LENGTH - 1);
    script.set_length(GREATEST_LENGTH as u32);
    script.try_all();
}

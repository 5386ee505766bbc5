//! Of the tasks: books of both versions. The original has none.

use crate::inputs::{book, book2};
use crate::measure::compare;
use crate::plain_book;
use crate::tasks::Show;
use pennyquill::ffi::{self, Answer, Record};
use std::cell::RefCell;
use std::hint::black_box;

/// As many as a book may have.
const MOST: u32 = 4096;

pub fn all(show: Show) {
    check(show);
    let sizes = [(64, "64"), (1024, "1,024")];
    for (records, told) in sizes {
        walk_by_record(show, told, &book(records));
    }
    for (records, told) in sizes.into_iter().chain([(MOST, "4,096")]) {
        walk(show, &format!("{told} records"), &book(records));
    }
    walk(show, "4,096 records of version 2", &book2(MOST));
}

/// Here the second readings of the two documents stand for the original.
fn check(show: Show) {
    type Checker = unsafe extern "C" fn(*const u8, usize) -> Answer;
    // SAFETY: the pointer and the length are those of a slice.
    let by = |checker: Checker| move |book: &Vec<u8>| unsafe { checker(book.as_ptr(), book.len()) };
    let second = |book: &Vec<u8>| second_reading::book::check(book);
    show(
        "check a book of 4,096 records *",
        compare(&[book(MOST)], second, second, by(ffi::pq_book_check)),
    );
    let second = |book: &Vec<u8>| second_reading::second_book::check(book);
    show(
        "check a book of version 2, of 4,096 records *",
        compare(&[book2(MOST)], second, second, by(ffi::pq_book2_check)),
    );
}

/// The number of its records.
pub fn count(book: &[u8]) -> usize {
    let size = if book[4] == 2 { 7 } else { 5 };
    (book.len() - 5) / size
}

const EMPTY: Record = Record {
    refusal: 0,
    kind: 0,
    value: 0,
    field: 0,
};

/// All records into room that is lent, by one call. Here a loop that takes the bytes apart stands for the original.
fn walk(show: Show, name: &str, book: &[u8]) {
    let count = count(book);
    let room = RefCell::new(vec![EMPTY; count]);
    let plain = |_: &()| {
        let mut out = room.borrow_mut();
        plain_book::walk(book, &mut out);
        black_box(&*out);
    };
    let bounded = |_: &()| {
        let mut out = room.borrow_mut();
        plain_book::walk_all(book.as_ptr(), book.len(), out.as_mut_ptr(), count);
    };
    let port = |_: &()| {
        let mut out = room.borrow_mut();
        let (numbers, length) = (out.as_mut_ptr().cast(), 4 * count);
        // SAFETY: the pointers and the lengths are those of slices, the second one's structs being four numbers each.
        unsafe { ffi::pq_any_book_records(book.as_ptr(), book.len(), 0, numbers, length) }
    };
    bounded(&());
    let plain_records = room.replace(vec![EMPTY; count]);
    port(&());
    assert!(*room.borrow() == plain_records, "the walks differ");
    show(
        &format!("walk over {name} by one call, a record §"),
        compare(&[()], plain, bounded, port).of_each(count),
    );
}

/// All records, each by a call of its own, which checks the whole book.
fn walk_by_record(show: Show, told: &str, book: &[u8]) {
    let places: Vec<usize> = (0..count(book)).collect();
    let plain = |&place: &usize| plain_book::record(book, place);
    let bounded = |&place: &usize| plain_book::record_at(book.as_ptr(), book.len(), place);
    // SAFETY: the pointer and the length are those of a slice.
    let port = |&place: &usize| unsafe { ffi::pq_book_record(book.as_ptr(), book.len(), place) };
    for place in &places {
        assert_eq!(port(place), bounded(place));
    }
    show(
        &format!("walk over {told} records one by one, a record §"),
        compare(&places, plain, bounded, port),
    );
}

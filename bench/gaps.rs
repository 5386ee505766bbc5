//! Of the tasks: the gap report of a book. The original has none.

use crate::books::count;
use crate::inputs::{book, book2};
use crate::measure::compare;
use crate::plain_gaps::{self, Figures};
use crate::tasks::Show;
use pennyquill::ffi;
use pennyquill::gaps::ROOM;
use std::cell::RefCell;
use std::hint::black_box;

/// As many as a book may have.
const MOST: u32 = 4096;

pub fn all(show: Show) {
    for (records, told) in [(512, "512"), (2048, "2,048"), (MOST, "4,096")] {
        report(show, &format!("{told} records"), &book(records));
    }
    report(show, "4,096 records of version 2", &book2(MOST));
    figures(show, "4,096 records", &book(MOST));
    figures(show, "4,096 records of version 2", &book2(MOST));
}

/// Here a loop that takes the bytes apart and a formatter stand for the original.
fn report(show: Show, name: &str, book: &[u8]) {
    let room = RefCell::new([0; ROOM]);
    let plain = |_: &()| plain_gaps::report(book, &mut *room.borrow_mut());
    let bounded = |_: &()| {
        let mut out = room.borrow_mut();
        plain_gaps::report_at(book.as_ptr(), book.len(), out.as_mut_ptr(), ROOM)
    };
    let port = |_: &()| {
        let mut out = room.borrow_mut();
        // SAFETY: the pointers and the lengths are those of slices, of which the second is ours alone.
        unsafe { ffi::pq_gap_report(book.as_ptr(), book.len(), out.as_mut_ptr(), ROOM) }
    };
    let plain_answer = bounded(&());
    let plain_text = room.replace([0; ROOM]);
    assert_eq!(port(&()), plain_answer);
    assert_eq!(*room.borrow(), plain_text, "the reports differ");
    let times = compare(&[()], plain, bounded, port);
    show(&format!("gap report of {name} ¶"), times);
    let of_each = times.of_each(count(book));
    show(&format!("gap report of {name}, a record ¶"), of_each);
}

/// The numbers alone.
fn figures(show: Show, name: &str, book: &[u8]) {
    let room = RefCell::new(Figures::default());
    let plain = |_: &()| {
        let mut out = room.borrow_mut();
        *out = plain_gaps::figures(book);
        black_box(&*out);
    };
    let bounded = |_: &()| {
        let mut out = room.borrow_mut();
        plain_gaps::figures_at(book.as_ptr(), book.len(), &mut *out);
    };
    let port = |_: &()| {
        let mut out = room.borrow_mut();
        let numbers = out.as_flattened_mut();
        let (start, length) = (numbers.as_mut_ptr(), numbers.len());
        // SAFETY: the pointers and the lengths are those of slices, of which the second is ours alone.
        unsafe { ffi::pq_gap_figures(book.as_ptr(), book.len(), start, length) }
    };
    bounded(&());
    let plain_figures = room.replace(Figures::default());
    port(&());
    assert_eq!(*room.borrow(), plain_figures, "the figures differ");
    let times = compare(&[()], plain, bounded, port);
    show(&format!("gap figures of {name} ¶"), times);
    let of_each = times.of_each(count(book));
    show(&format!("gap figures of {name}, a record ¶"), of_each);
}

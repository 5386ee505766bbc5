//! Of the subject `books2`: books of both versions that are none, or that cannot be moved.

use crate::book_questions;
use crate::report::{Covers, Extent, Report};
use crate::second_books::book_of;
use crate::second_books::{D_DATE, FIRST, HEAD, MOST_RECORDS, PLAIN, RECORD, RECORD_2, SOURCED};
use crate::tally::{Tally, share};
use crate::version_questions::{To, any_check, any_record, append, ask_all, move_both, moved};
use crate::version_questions::{new, record};

pub fn run(extent: Extent, report: &mut Report) {
    let name = "both versions: books with one byte changed to each of 256, all cuts";
    report.row(name, Covers::All, damaged());
    let name = "both versions: lengths 0 to 70,000 with some versions";
    report.row(name, Covers::Sample, lengths(extent.pick(7, 1)));
    let name = "both versions: every version byte with lengths at the bounds";
    report.row(name, Covers::All, versions());
    let name = "version 2, full books: a bad record, a mark and a field at each place";
    report.row(name, extent.covers_all(), full_books(extent.pick(64, 1)));
}

fn all_operations(tally: &mut Tally, buffer: &[u8]) {
    for place in [0, 1, 2, 3, 1 << 32, usize::MAX, usize::MAX / 7 + 1] {
        record(tally, buffer, place);
        any_record(tally, buffer, place);
    }
    ask_all(tally, buffer, 1, 9);
    for room in [14, 15, 18, 19, 24] {
        move_both(tally, buffer, room);
    }
    for mark in 0..=3 {
        append(tally, buffer, (2, 500, D_DATE + mark));
    }
    new(tally, buffer);
}

fn damaged() -> Tally {
    let wholes = [
        book_of(2, &SOURCED, 8),
        book_of(2, &PLAIN, 8),
        book_of(1, &FIRST, 8),
    ];
    let places = wholes[0].len();
    share((3 * places) as u64, |part, tally| {
        let (whole, place) = (&wholes[part as usize / places], part as usize % places);
        if place >= whole.len() {
            return;
        }
        for byte in 0..=255 {
            let mut book = whole.clone();
            book[place] = byte;
            all_operations(tally, &book);
            for end in [place, place + 1] {
                all_operations(tally, &book[..end]);
            }
        }
    })
}

/// A book's bytes with room for more than 4,096 records, by its version byte.
fn long_book(version: u8) -> Vec<u8> {
    match version {
        2 => book_of(version, &[PLAIN[0]; MOST_RECORDS + 2], 0),
        _ => book_of(version, &[FIRST[0]; 5740], 0),
    }
}

/// The three checks, a record, and both moves into a target that is too short for most.
fn at_length(tally: &mut Tally, book: &mut [u8], length: u32) {
    let head = book.len().min(4);
    book[..head].copy_from_slice(&length.to_be_bytes()[..head]);
    book_questions::check(tally, book);
    ask_all(tally, book, 2_925, 5);
}

fn lengths(step: usize) -> Tally {
    let far = [1 << 24, (1 << 24) + 8, 1 << 31, (1 << 31) + 8];
    let lengths: Vec<u32> = (0..=70_000)
        .step_by(step)
        .chain((0..8).map(|less| u32::MAX - less))
        .chain(far)
        .collect();
    const PARTS: u64 = 200;
    share(PARTS, |part, tally| {
        for version in [0, 1, 2, 3, 255] {
            let long = long_book(version);
            for size in [0, 4, 5, 26, long.len()] {
                let mut book = long[..size].to_vec();
                for &length in lengths.iter().skip(part as usize).step_by(PARTS as usize) {
                    at_length(tally, &mut book, length);
                }
            }
        }
    })
}

fn versions() -> Tally {
    let mut lengths: Vec<u32> = (0..20).collect();
    lengths.extend([20_476, 20_480, 20_481, 20_482, 20_483, 20_486]);
    lengths.extend([28_666, 28_667, 28_672, 28_673, 28_674, 28_680, 28_681]);
    share(256, |version, tally| {
        let mut book = long_book(version as u8);
        for &length in &lengths {
            at_length(tally, &mut book, length);
        }
    })
}

/// At each place a bad record, each mark and a field, alone and before the same at the last place.
fn full_books(step: usize) -> Tally {
    let whole = book_of(2, &[PLAIN[0]; MOST_RECORDS], RECORD_2);
    let target = HEAD + MOST_RECORDS * RECORD;
    share((MOST_RECORDS / step) as u64, |part, tally| {
        let place = part as usize * step;
        let start = HEAD + place * RECORD_2;
        for (at, byte) in [(0, 7), (1, 1), (2, 1), (6, 0x81), (6, 0x82), (6, 0x83)] {
            let mut book = whole.clone();
            book[start + at] = byte;
            ask_all(tally, &book, place, 4);
            moved(tally, To::One, &book, target);
            book[HEAD + (MOST_RECORDS - 1) * RECORD_2] = 7;
            any_check(tally, &book);
            moved(tally, To::One, &book, target);
            append(tally, &book, (2, 1, D_DATE));
        }
        let book = book_of(2, &vec![SOURCED[1]; place], part as usize % 9);
        append(tally, &book, (4, 65_535, D_DATE + 1));
        ask_all(tally, &book, place, 8);
    })
}

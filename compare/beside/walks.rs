//! Of the subject `books2`: the walk that checks a book once, over books of both versions.

use crate::random::Random;
use crate::report::{Covers, Extent, Report};
use crate::second_books::{HEAD, MOST_RECORDS, RECORD, RECORD_2};
use crate::second_books::{book_of, of_version_1, sound_record, without_field};
use crate::tally::{Tally, share};
use crate::version_questions::{walk, walk_and_ask};

pub fn run(extent: Extent, report: &mut Report) {
    let name = "walks over up to 16 records of each version, from every place into all room up to 70 numbers";
    report.row(name, Covers::All, small_walks());
    let name =
        "walks over books with one byte changed to each of 256: what is refused writes nothing";
    report.row(name, Covers::All, damaged());
    let name = "walks over 4,096 records of each version, from every place, each record asked by itself too";
    report.row(name, extent.covers_all(), full_walks(extent.pick(256, 1)));
}

/// A sound book of so many records.
fn book(version: u8, records: usize) -> Vec<u8> {
    let mut random = Random::new(records as u64);
    let records: Vec<[u8; RECORD_2]> = (0..records).map(|_| sound_record(&mut random)).collect();
    if version == 2 {
        return book_of(2, &records, 3);
    }
    let plain = records.into_iter().map(without_field).map(of_version_1);
    book_of(1, &plain.collect::<Vec<_>>(), 3)
}

fn small_walks() -> Tally {
    share(34, |part, tally| {
        let (version, records) = (part as u8 % 2 + 1, part as usize / 2);
        let book = book(version, records);
        let far = [usize::MAX, usize::MAX / 7 + 1, usize::MAX / 5 + 1, 1 << 32];
        for place in (0..=records + 2).chain(far) {
            for room in 0..=70 {
                walk_and_ask(tally, &book, place, room);
            }
        }
    })
}

fn damaged() -> Tally {
    share(2 * 40, |part, tally| {
        let (version, place) = (part as u8 % 2 + 1, part as usize / 2);
        let whole = book(version, 3);
        for byte in 0..=255 {
            let mut book = whole.clone();
            let Some(changed) = book.get_mut(place) else {
                return;
            };
            *changed = byte;
            for (place, room) in [(0, 0), (0, 4), (0, 12), (1, 9), (3, 4)] {
                walk_and_ask(tally, &book, place, room);
            }
        }
    })
}

fn full_walks(step: usize) -> Tally {
    let books = [book(1, MOST_RECORDS), book(2, MOST_RECORDS)];
    share((MOST_RECORDS / step) as u64, |part, tally| {
        let place = part as usize * step;
        for book in &books {
            walk(tally, book, place, 4 * MOST_RECORDS + 3);
            walk_and_ask(tally, book, place, 8);
            let (mut bad, last) = (book.clone(), book.len() - 3);
            let size = if book[HEAD - 1] == 1 {
                RECORD
            } else {
                RECORD_2
            };
            bad[last - size] = 0;
            walk(tally, &bad, place, 8);
        }
    })
}

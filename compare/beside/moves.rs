//! Of the subject `books2`: moves into a second buffer, both ways and there and back.

use crate::random::Random;
use crate::report::{Covers, Extent, Report};
use crate::second_books::{FIRST, HEAD, MOST_RECORDS, PLAIN, RECORD, RECORD_2, SOURCED};
use crate::second_books::{book_of, of_version_1, sound_record, without_field};
use crate::tally::{Tally, share};
use crate::version_questions::{To, move_both, moved};

pub fn run(extent: Extent, report: &mut Report) {
    let name = "moves of up to 40 records into every target up to 12 bytes too long";
    report.row(name, Covers::All, targets());
    let name = "moves of up to 4,096 records: a byte short, exact, longer";
    report.row(name, extent.covers_all(), counts(extent.pick(97, 1)));
    let name = "moves back of up to four records, each good, with a field, with a mark, or bad";
    report.row(name, Covers::All, arrangements());
    let name = "there and back, sound books of every kind";
    let count = extent.pick(20_000, 1_000_000);
    report.row(name, Covers::Sample, round_trips(count));
}

fn targets() -> Tally {
    share(41, |records, tally| {
        let records = records as usize;
        let first = book_of(1, &vec![FIRST[1]; records], 3);
        let second = book_of(2, &vec![PLAIN[1]; records], 3);
        for room in 0..=HEAD + records * RECORD_2 + 12 {
            move_both(tally, &first, room);
            move_both(tally, &second, room);
        }
    })
}

fn counts(step: usize) -> Tally {
    let counts: Vec<usize> = (0..MOST_RECORDS)
        .step_by(step)
        .chain([MOST_RECORDS - 1, MOST_RECORDS])
        .collect();
    share(counts.len() as u64, |part, tally| {
        let records = counts[part as usize];
        let first = book_of(1, &vec![FIRST[0]; records], 0);
        let second = book_of(2, &vec![PLAIN[0]; records], 0);
        for after in [-1, 0, 5] {
            let room = |book: &[u8]| book.len().wrapping_add_signed(after);
            let there = moved(tally, To::Two, &first, room(&second));
            hold_book(tally, there, &second);
            let back = moved(tally, To::One, &second, room(&first));
            hold_book(tally, back, &first);
        }
    })
}

/// What a move has written, where it was done, is this book and then what stood there.
fn hold_book(tally: &mut Tally, target: Option<Vec<u8>>, book: &[u8]) {
    if let Some(target) = target {
        let is_book = target[..book.len()] == *book;
        tally.hold(true, is_book, || {
            format!("the bytes of a book of {} bytes moved", book.len())
        });
    }
}

/// Good, with a field, with a mark, with both, with a mark that is not allowed, of no kind.
const RECORDS: [[u8; RECORD_2]; 6] = [
    PLAIN[0],
    [2, 0, 1, 0x05, 0xA4, 0xB5, 0x80],
    [2, 0, 0, 0x05, 0xA4, 0xB5, 0x81],
    SOURCED[0],
    [2, 1, 0, 0x05, 0xA4, 0xB5, 0x82],
    [0, 0, 0, 0x05, 0xA4, 0xB5, 0x80],
];

fn arrangements() -> Tally {
    share(5, |count, tally| {
        let count = count as u32;
        for number in 0..RECORDS.len().pow(count) {
            let at = |place: u32| RECORDS[number / RECORDS.len().pow(place) % RECORDS.len()];
            let records: Vec<[u8; RECORD_2]> = (0..count).map(at).collect();
            let book = book_of(2, &records, 0);
            let room = HEAD + records.len() * RECORD;
            for room in [0, room - 1, room, room + 1] {
                move_both(tally, &book, room);
            }
        }
    })
}

/// "Version 1 to 2 and back gives the same bytes; 2 to 1 and back too": by the boundary alone, with what is after
/// the target kept each time.
fn round_trips(count: u64) -> Tally {
    const PARTS: u64 = 100;
    share(PARTS, |part, tally| {
        let mut random = Random::new(part);
        for _ in 0..count / PARTS {
            let second: Vec<[u8; RECORD_2]> = (0..random.index(30))
                .map(|_| without_field(sound_record(&mut random)))
                .collect();
            let first: Vec<[u8; RECORD]> = second.iter().copied().map(of_version_1).collect();
            let (first, second) = (book_of(1, &first, 0), book_of(2, &second, 0));
            let after = random.index(9);
            there_and_back(tally, To::Two, &first, &second, after);
            there_and_back(tally, To::One, &second, &first, after);
        }
    })
}

fn there_and_back(tally: &mut Tally, to: To, here: &[u8], there: &[u8], after: usize) {
    let back = if to == To::One { To::Two } else { To::One };
    let target = moved(tally, to, here, there.len() + after);
    let asked = || format!("{here:02x?} there and back");
    tally.hold(true, target.is_some(), asked);
    let Some(target) = target else { return };
    tally.hold(there, &target[..there.len()], asked);
    let target = moved(tally, back, &target, here.len() + after);
    tally.hold(
        Some(here),
        target.as_deref().map(|book| &book[..here.len()]),
        asked,
    );
}

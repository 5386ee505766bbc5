//! The gap report, which the original lacks: held against the second reading of request #108.

use crate::gap_books::{DAYS, Day, damage, hours, of_version, record, sound};
use crate::gap_questions::{FIGURES, Met, ROOM, around, both, figures, length, report as ask};
use crate::random::Random;
use crate::report::{Covers, Extent, Report};
use crate::second_books::{HEAD, MOST_RECORDS, RECORD, RECORD_2};
use crate::tally::{Tally, share, share_with};
use crate::{gap_calls, lines};
use second_reading::gaps;
use second_reading::kinds::{KINDS, Kind};

/// The words of the command that runs the program; without it what it prints is not compared.
const COMMAND: &str = "GAPS";

const PARTS: u64 = 100;

pub fn run(extent: Extent, report: &mut Report) {
    let mut met = Met::default();
    let mut row = |name: &str, covers: Covers, (tally, parts): (Tally, Vec<Met>)| {
        parts.iter().for_each(|part| met.add(part));
        report.row(name, covers, tally);
    };
    let name = "gap reports of one record and of two of a kind: every pair of 18 days, first hour and last, marks on either";
    row(name, Covers::All, pairs());
    let name = "gap reports of three records of D, E or V: every three of 18 days";
    row(name, Covers::All, threes());
    let name = "gap reports and figures into all room up to 320 bytes and 50 numbers, 40 books";
    row(name, Covers::All, rooms());
    let name = "gap reports of books with one byte changed to each of 256, all cuts";
    row(name, Covers::All, damaged());
    let name = "gap reports: every version byte with lengths at the bounds";
    row(name, Covers::All, versions());
    let name = "gap reports of 4,096 records: another day at each place, then a bad record there";
    row(name, extent.covers_all(), one_other(extent.pick(64, 1)));
    let name = "gap reports of random books of 4,096 records";
    row(name, Covers::Sample, full_books(extent.pick(300, 20_000)));
    let name = "gap reports of random books of up to 60 records, some damaged, into some room";
    let count = extent.pick(400_000, 20_000_000);
    row(name, Covers::Sample, random_books(count));
    let name = "gap reports beside single calls: walk, order, difference and text, random books";
    let tally = single_calls(extent.pick(20_000, 2_000_000));
    report.row(name, Covers::Sample, tally);
    printed(extent, report);
    report.later(&met.table());
}

/// The days, each at the kind's first hour and at its last.
fn dates(kind: Kind) -> Vec<(Day, u16)> {
    let hours = hours(kind);
    let (first, last) = (hours[0], hours[hours.len() - 1]);
    let mut dates: Vec<(Day, u16)> = DAYS.map(|day| (day, first)).to_vec();
    if last > first {
        dates.extend(DAYS.map(|day| (day, last)));
    }
    dates
}

/// Of version 1 too where there is no mark.
fn pairs() -> (Tally, Vec<Met>) {
    share_with(KINDS.len() as u64, |part, tally, met| {
        let kind = KINDS[part as usize];
        let dates = dates(kind);
        for &(day, hour) in &dates {
            let single = |mark| [record(kind, day, hour, mark)];
            both(tally, met, &of_version(1, &single(0), 0));
            both(tally, met, &of_version(2, &single(1), 0));
            for &(next, later) in &dates {
                let pair = |(mark, other)| {
                    [
                        record(kind, day, hour, mark),
                        record(kind, next, later, other),
                    ]
                };
                both(tally, met, &of_version(1, &pair((0, 0)), 0));
                for marks in [(0, 0), (0, 1), (1, 0), (1, 1)] {
                    both(tally, met, &of_version(2, &pair(marks), 0));
                }
            }
        }
    })
}

fn threes() -> (Tally, Vec<Met>) {
    let kinds = [Kind::D, Kind::E, Kind::V];
    share_with((kinds.len() * DAYS.len()) as u64, |part, tally, met| {
        let kind = kinds[part as usize % kinds.len()];
        let first = DAYS[part as usize / kinds.len()];
        for second in DAYS {
            for third in DAYS {
                let records = [first, second, third].map(|day| record(kind, day, 0, 0));
                both(tally, met, &of_version(1, &records, 0));
                both(tally, met, &of_version(2, &records, 0));
            }
        }
    })
}

fn rooms() -> (Tally, Vec<Met>) {
    share_with(40, |part, tally, met| {
        let mut random = Random::new(part);
        let records = random.index(60);
        let book = sound(&mut random, records);
        (0..=320).for_each(|room| ask(tally, met, &book, room));
        (0..=50).for_each(|room| figures(tally, met, &book, room));
    })
}

/// Three records of each version, one of them guessed in version 2, and three bytes after them.
fn damaged() -> (Tally, Vec<Met>) {
    let records = [
        record(Kind::D, (1444, 11, 11), 0, 0),
        record(Kind::V, (-1, 12, 31), 18, 1),
        record(Kind::D, (0, 1, 1), 0, 0),
    ];
    let books = [1, 2].map(|version| of_version(version, &records, 3));
    let places = books[1].len();
    share_with(2 * places as u64, |part, tally, met| {
        let (book, place) = (&books[part as usize / places], part as usize % places);
        if place >= book.len() {
            return;
        }
        for byte in 0..=255 {
            let mut book = book.clone();
            book[place] = byte;
            around(tally, met, &book);
            both(tally, met, &book[..place]);
            both(tally, met, &book[..place + 1]);
        }
    })
}

fn versions() -> (Tally, Vec<Met>) {
    let mut lengths: Vec<u32> = (0..20).collect();
    lengths.extend([20_476, 20_480, 20_481, 20_482, 20_483, 20_486, 28_666]);
    lengths.extend([28_672, 28_673, 28_674, 28_680, 1 << 24, 1 << 31, u32::MAX]);
    share_with(256, |version, tally, met| {
        let version = version as u8;
        let day = record(Kind::E, (-1, 12, 31), 22, 0);
        // Bytes for more records than a book may have.
        let mut book = match version {
            2 => of_version(2, &vec![day; MOST_RECORDS + 2], 0),
            _ => of_version(1, &vec![day; 5740], 0),
        };
        book[HEAD - 1] = version;
        for length in &lengths {
            book[..4].copy_from_slice(&length.to_be_bytes());
            both(tally, met, &book);
        }
    })
}

/// The longest step goes to the record at the place, and is met again behind it.
fn one_other(step: usize) -> (Tally, Vec<Met>) {
    let counted = [Kind::D, Kind::E, Kind::V, Kind::E];
    let in_turn = |place: usize| record(counted[place % counted.len()], (1444, 11, 11), 0, 0);
    let whole: Vec<[u8; RECORD_2]> = (0..MOST_RECORDS).map(in_turn).collect();
    share_with((MOST_RECORDS / step) as u64, |part, tally, met| {
        let place = part as usize * step;
        let mut records = whole.clone();
        records[place][3..5].copy_from_slice(&[0x80, 0]);
        for (version, size) in [(1, RECORD), (2, RECORD_2)] {
            let mut book = of_version(version, &records, 0);
            both(tally, met, &book);
            book[HEAD + place * size] = 7;
            both(tally, met, &book);
        }
    })
}

fn full_books(count: u64) -> (Tally, Vec<Met>) {
    share_with(count, |part, tally, met| {
        let mut random = Random::new(part);
        let mut book = sound(&mut random, MOST_RECORDS);
        around(tally, met, &book);
        damage(&mut random, &mut book);
        both(tally, met, &book);
    })
}

fn random_books(count: u64) -> (Tally, Vec<Met>) {
    share_with(PARTS, |part, tally, met| {
        let mut random = Random::new(part);
        for _ in 0..count / PARTS {
            let records = random.index(61);
            let mut book = sound(&mut random, records);
            damage(&mut random, &mut book);
            let length = length(&book);
            let any = random.index(ROOM + 10);
            let room = random.pick(&[0, length - 1, length, length + 1, ROOM, any]);
            ask(tally, met, &book, room);
            let room = random.pick(&[0, FIGURES - 1, FIGURES, FIGURES, FIGURES + 1, 64]);
            figures(tally, met, &book, room);
        }
    })
}

fn single_calls(count: u64) -> Tally {
    share(PARTS, |part, tally| {
        let mut random = Random::new(part);
        for _ in 0..count / PARTS {
            let records = random.index(61);
            gap_calls::compare(tally, &sound(&mut random, records));
        }
    })
}

/// What the program prints, of sound books and of others.
fn printed(extent: Extent, report: &mut Report) {
    let command = std::env::var(COMMAND).unwrap_or_default();
    if command.is_empty() {
        eprintln!("gaps: {COMMAND} names no program, so what it prints is not compared");
        return;
    }
    let mut tally = Tally::default();
    for number in 0..extent.pick(30, 300) {
        let mut random = Random::new(number);
        let records = random.pick(&[0, 1, 3, 60, MOST_RECORDS]);
        let mut book = sound(&mut random, records);
        damage(&mut random, &mut book);
        let told = lines::output(&command, &book);
        let told = String::from_utf8_lossy(&told);
        tally.hold(gaps::printed(&book), told.into(), || {
            format!("book {number}")
        });
    }
    let name = "what `gaps` prints, by the second reading";
    report.row(name, Covers::Sample, tally);
}

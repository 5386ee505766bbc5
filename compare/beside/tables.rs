//! Field tables, which the original lacks: held against the second reading of request #101.

use crate::random::Random;
use crate::report::{Covers, Extent, Report};
use crate::table_lookups::{self, some_field, some_number};
use crate::table_questions::{check, declare, entry, lookup, new, remove};
use crate::tally::{Tally, share};

const HEAD: usize = 5;
const ENTRY: usize = 3;
pub const MOST_ENTRIES: usize = 2048;

/// 1836.1.1, a date of every kind, by its guess too; and its hour 23.
const NUMBER: i32 = 59_883_360;
const LATE: i32 = NUMBER + 23;

/// Codes that are allowed, those beside them, and those that would be one after a cut.
pub const CODES: [u32; 14] = [0, 1, 2, 3, 4, 5, 6, 7, 8, 255, 258, 259, 65_538, u32::MAX];
pub const DECLARED: [u32; 5] = [1, 2, 3, 5, 6];
pub const GAMES: [u32; 4] = [2, 3, 5, 6];

/// Fields past those that are allowed.
pub const FAR_FIELDS: [u32; 5] = [65_536, 65_537, 65_546, 1 << 31, u32::MAX];

pub type Bytes = [u8; ENTRY];

pub fn run(extent: Extent, report: &mut Report) {
    let name = "tables of up to two entries, fields 0 to 10 and codes 0 to 7, every operation";
    report.row(name, Covers::All, small_tables());
    let name = "tables of three such entries";
    report.row(name, extent.covers_all(), three_entries(extent.pick(5, 1)));
    let name = "every field, declared, looked up and removed";
    report.row(name, extent.covers_all(), fields(extent.pick(7, 1)));
    let name = "tables with one byte changed to each of 256, all cuts";
    report.row(name, Covers::All, damaged());
    let name = "lengths 0 to 10,000 of tables, and versions";
    report.row(name, Covers::Sample, lengths());
    let name = "full tables: a bad entry, a new field and an old one at each place";
    report.row(name, extent.covers_all(), full_tables(extent.pick(8, 1)));
    let name = "random tables: steps, now and then a byte changed";
    let count = extent.pick(4_000_000, 100_000_000);
    report.row(name, Covers::Sample, random_steps(count));
    table_lookups::run(extent, report);
}

pub fn bytes_of(field: u32, code: u32) -> Bytes {
    let [high, low] = (field as u16).to_be_bytes();
    [high, low, code as u8]
}

pub fn table_of(entries: &[Bytes], after: usize) -> Vec<u8> {
    let length = 1 + entries.len() * ENTRY;
    let mut bytes = (length as u32).to_be_bytes().to_vec();
    bytes.push(1);
    entries.iter().for_each(|entry| bytes.extend(entry));
    bytes.extend(vec![0xA5; after]);
    bytes
}

/// Every operation on the buffer as it is, each with some calls.
fn all_operations(tally: &mut Tally, buffer: &[u8]) {
    check(tally, buffer);
    for place in [0, 1, 2, 3, 2047, 2048, usize::MAX, usize::MAX / 3 + 1] {
        entry(tally, buffer, place);
    }
    for (field, code) in [(0, 2), (1, 2), (258, 6), (300, 5), (65_535, 1), (258, 4)] {
        declare(tally, &mut buffer.to_vec(), field, code);
        remove(tally, &mut buffer.to_vec(), field);
        lookup(tally, buffer, field, 2, LATE);
        lookup(tally, buffer, field, code, NUMBER);
    }
    new(tally, &mut buffer.to_vec());
}

/// The bytes of an entry by its number below 88: a field of 0 to 10 and a code of 0 to 7.
const SMALL: u64 = 88;

fn small_entry(number: u64) -> Bytes {
    bytes_of((number / 8) as u32, (number % 8) as u32)
}

fn small_tables() -> Tally {
    share(1 + SMALL + SMALL * SMALL, |part, tally| {
        let entries = match part {
            0 => vec![],
            1..=SMALL => vec![small_entry(part - 1)],
            _ => {
                let pair = part - 1 - SMALL;
                vec![small_entry(pair / SMALL), small_entry(pair % SMALL)]
            }
        };
        for after in [0, 2, 3] {
            every_small_call(tally, &table_of(&entries, after));
        }
    })
}

fn every_small_call(tally: &mut Tally, buffer: &[u8]) {
    check(tally, buffer);
    (0..=3).for_each(|place| entry(tally, buffer, place));
    for field in 0..=11 {
        for code in 0..=8 {
            declare(tally, &mut buffer.to_vec(), field, code);
            lookup(tally, buffer, field, code, NUMBER);
        }
        remove(tally, &mut buffer.to_vec(), field);
        lookup(tally, buffer, field, 5, LATE);
    }
}

fn three_entries(step: usize) -> Tally {
    share(SMALL, |first, tally| {
        for rest in (0..SMALL * SMALL).step_by(step) {
            let entries = [first, rest / SMALL, rest % SMALL].map(small_entry);
            let buffer = table_of(&entries, 3);
            check(tally, &buffer);
            let field = (rest % 12) as u32;
            declare(tally, &mut buffer.clone(), field, 6);
            remove(tally, &mut buffer.clone(), field);
            lookup(tally, &buffer, field, 2, LATE);
        }
    })
}

fn fields(step: usize) -> Tally {
    const PART: u32 = 1024;
    let entries = [bytes_of(1, 1), bytes_of(300, 3), bytes_of(65_535, 6)];
    let table = table_of(&entries, 3);
    share(65, |part, tally| {
        let first = part as u32 * PART;
        let some = (first..first + PART).step_by(step);
        let far: &[u32] = if part == 0 { &FAR_FIELDS } else { &[] };
        for field in some.chain(far.iter().copied()) {
            for code in CODES {
                declare(tally, &mut table.clone(), field, code);
                lookup(tally, &table, field, code, NUMBER);
            }
            let mut buffer = table.clone();
            remove(tally, &mut buffer, field);
            declare(tally, &mut buffer, field, 5);
            lookup(tally, &buffer, field, 2, LATE);
            remove(tally, &mut buffer, field);
        }
    })
}

fn damaged() -> Tally {
    let entries = [bytes_of(258, 2), bytes_of(300, 3), bytes_of(515, 6)];
    let whole = table_of(&entries, 4);
    share(whole.len() as u64, |place, tally| {
        for byte in 0..=255 {
            let mut table = whole.clone();
            table[place as usize] = byte;
            all_operations(tally, &table);
            for end in [place as usize, place as usize + 1] {
                all_operations(tally, &table[..end]);
            }
        }
    })
}

/// Even fields from 2 on, of each kind in turn.
pub fn ascending(count: usize) -> Vec<Bytes> {
    (1..=count as u32)
        .map(|number| bytes_of(number * 2, DECLARED[number as usize % 5]))
        .collect()
}

fn lengths() -> Tally {
    let long = table_of(&ascending(MOST_ENTRIES + 2), 0);
    let far = (0..6).map(|less| u32::MAX - less);
    let more = [65_537, 1 << 24, (1 << 24) + 4, 1 << 31, (1 << 31) + 4];
    let lengths: Vec<u32> = (0..10_000).chain(far).chain(more).collect();
    share(lengths.len() as u64, |part, tally| {
        for (size, version) in [
            (0, 1),
            (4, 1),
            (5, 1),
            (17, 1),
            (17, 2),
            (long.len(), 1),
            (long.len(), 2),
        ] {
            let mut table = long[..size].to_vec();
            let length = lengths[part as usize].to_be_bytes();
            let head = size.min(4);
            table[..head].copy_from_slice(&length[..head]);
            if let Some(byte) = table.get_mut(4) {
                *byte = version;
            }
            check(tally, &table);
            lookup(tally, &table, 4, 3, NUMBER);
        }
    })
}

/// Fields are even in these tables, so that an odd one is new at its place.
fn full_tables(step: usize) -> Tally {
    let full = table_of(&ascending(MOST_ENTRIES), ENTRY);
    let less_one = table_of(&ascending(MOST_ENTRIES - 1), 2 * ENTRY);
    share((MOST_ENTRIES / step) as u64, |part, tally| {
        let place = part as usize * step;
        let field = 2 * place as u32 + 2;
        entry(tally, &full, place);
        declare(tally, &mut full.clone(), field - 1, 2);
        declare(tally, &mut full.clone(), field, 6);
        let mut table = less_one.clone();
        declare(tally, &mut table, field - 1, 2);
        lookup(tally, &table, field, 2, NUMBER);
        remove(tally, &mut table, field);
        declare(tally, &mut table, field + 1, 6);
        for (at, byte) in [(0, 255), (1, 0), (2, 4)] {
            let mut table = full.clone();
            table[HEAD + place * ENTRY + at] = byte;
            check(tally, &table);
            declare(tally, &mut table.clone(), field, 3);
            remove(tally, &mut table, field);
        }
        let table = table_of(&ascending(place), part as usize % 5);
        all_operations(tally, &table);
    })
}

/// One table after the other, each with a few steps of which most are allowed.
fn random_steps(count: u64) -> Tally {
    const PARTS: u64 = 100;
    const STEPS: u64 = 40;
    share(PARTS, |part, tally| {
        let mut random = Random::new(part);
        for _ in 0..count / PARTS / STEPS {
            let room = random.index(8) * ENTRY + random.index(ENTRY);
            let mut buffer = vec![random.byte(); HEAD + room];
            new(tally, &mut buffer);
            for _ in 0..STEPS {
                random_step(tally, &mut random, &mut buffer);
            }
            check(tally, &buffer);
        }
    })
}

fn random_step(tally: &mut Tally, random: &mut Random, buffer: &mut [u8]) {
    let field = some_field(random);
    match random.index(20) {
        0..=6 => declare(tally, buffer, field, random.pick(&DECLARED)),
        7 => declare(tally, buffer, field, random.pick(&CODES)),
        8..=12 => remove(tally, buffer, field),
        13 => entry(tally, buffer, random.index(9)),
        14..=17 => lookup(
            tally,
            buffer,
            field,
            random.pick(&GAMES),
            some_number(random),
        ),
        18 => lookup(
            tally,
            buffer,
            field,
            random.pick(&CODES),
            some_number(random),
        ),
        _ if random.chance(10) => {
            let place = random.index(buffer.len());
            buffer[place] = random.byte();
        }
        _ => check(tally, buffer),
    }
}

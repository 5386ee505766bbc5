//! What is looked up in tables: numbers by every kind and its guess, and many questions in one call.

use crate::random::Random;
use crate::report::{Covers, Extent, Report};
use crate::table_questions::{Questions, lookup, lookup_all};
use crate::tables::{Bytes, CODES, DECLARED, FAR_FIELDS, GAMES, MOST_ENTRIES};
use crate::tables::{ascending, bytes_of, table_of};
use crate::tally::{Tally, share};

/// Both sides of what decoders and guesses read.
const ENDS: [i32; 12] = [
    i32::MIN,
    -243_256_440,
    -243_247_680,
    -8760,
    0,
    42_924_000,
    43_791_240,
    43_808_760,
    58_700_760,
    59_568_000,
    330_847_679,
    i32::MAX,
];
const NEAR: i64 = 9000;

/// The field of each kind is ten times its code.
const ABSENT: u32 = 25;

pub fn run(extent: Extent, report: &mut Report) {
    let name = "numbers looked up, declared as each kind and under each game kind";
    report.row(name, Covers::Sample, numbers(extent.pick(4001, 61)));
    let name = "numbers near the ends, looked up likewise";
    report.row(name, Covers::Sample, near_ends());
    let name = "many lookups in one call";
    let count = extent.pick(40_000, 2_000_000);
    report.row(name, Covers::Sample, lookups_at_once(count));
    let name = "every field looked up in one call, in a full table";
    report.row(name, extent.covers_all(), fields_at_once(extent.pick(9, 1)));
}

fn five() -> Vec<u8> {
    let entries = DECLARED.map(|code| bytes_of(10 * code, code));
    table_of(&entries, 0)
}

fn numbers(step: usize) -> Tally {
    const PARTS: u64 = 1 << 12;
    const PART: u32 = 1 << 20;
    let table = five();
    share(PARTS, |part, tally| {
        let first = part as u32 * PART;
        for number in (first..=first + (PART - 1)).step_by(step) {
            every_way(tally, &table, number as i32);
        }
    })
}

fn near_ends() -> Tally {
    let table = five();
    share(ENDS.len() as u64, |part, tally| {
        let end = i64::from(ENDS[part as usize]);
        let near = end - NEAR..=end + NEAR;
        for number in near.filter_map(|number| i32::try_from(number).ok()) {
            every_way(tally, &table, number);
        }
    })
}

/// The full decoding of the five kinds, each under one of the game kinds, and the four guesses.
fn every_way(tally: &mut Tally, table: &[u8], number: i32) {
    for (place, code) in DECLARED.into_iter().enumerate() {
        let game = GAMES[(place + number as usize) % GAMES.len()];
        lookup(tally, table, 10 * code, game, number);
    }
    for game in GAMES {
        lookup(tally, table, ABSENT, game, number);
    }
}

/// Fields, numbers and room for answers are as many, or nearly; some tables and game kinds are bad.
fn lookups_at_once(count: u64) -> Tally {
    const PARTS: u64 = 100;
    share(PARTS, |part, tally| {
        let mut random = Random::new(part);
        for _ in 0..count / PARTS {
            let table = some_table(&mut random);
            let questions = random.index(40);
            let mut count = || questions + random.index(3);
            let (fields, numbers, room) = (count(), count(), 4 * count());
            let fields: Vec<u32> = (0..fields).map(|_| some_field(&mut random)).collect();
            let numbers: Vec<i32> = (0..numbers).map(|_| some_number(&mut random)).collect();
            let game = if random.chance(90) {
                random.pick(&GAMES)
            } else {
                random.pick(&CODES)
            };
            let questions = Questions {
                game,
                fields: &fields,
                numbers: &numbers,
                room: room + random.index(4),
            };
            lookup_all(tally, &table, &questions);
        }
    })
}

fn fields_at_once(step: usize) -> Tally {
    let table = table_of(&ascending(MOST_ENTRIES), 0);
    let fields: Vec<u32> = (0..=65_537).step_by(step).collect();
    share(GAMES.len() as u64, |part, tally| {
        let mut random = Random::new(part);
        let numbers: Vec<i32> = fields.iter().map(|_| some_number(&mut random)).collect();
        let questions = Questions {
            game: GAMES[part as usize],
            fields: &fields,
            numbers: &numbers,
            room: 4 * fields.len(),
        };
        lookup_all(tally, &table, &questions);
    })
}

/// A few fields of 1 to 20, ascending; now and then a byte of the table is another.
fn some_table(random: &mut Random) -> Vec<u8> {
    let mut entries: Vec<Bytes> = Vec::new();
    for field in 1..=20 {
        if random.chance(40) {
            entries.push(bytes_of(field, random.pick(&DECLARED)));
        }
    }
    let mut table = table_of(&entries, random.index(4));
    if random.chance(10) {
        let place = random.index(table.len());
        table[place] = random.byte();
    }
    table
}

pub fn some_field(random: &mut Random) -> u32 {
    match random.index(20) {
        0 => random.pick(&FAR_FIELDS),
        1 => random.between(0, 65_535) as u32,
        2..=5 => random.between(0, 21) as u32,
        _ => random.between(1, 10) as u32,
    }
}

/// Mostly at an hour that more than one kind takes.
pub fn some_number(random: &mut Random) -> i32 {
    let number = match random.index(10) {
        0 => random.between(i32::MIN.into(), i32::MAX.into()),
        1 => random.between(-28_000, 0) * 8760,
        _ => {
            let hour = random.pick(&[0, 0, 6, 12, 18, 7, 22, 23]);
            random.between(0, 13_785_319) * 24 + hour
        }
    };
    number as i32
}

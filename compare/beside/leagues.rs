//! Tables of two leagues, which the original lacks: held against the second reading of request #109.

use crate::league_isolation;
use crate::league_moves;
use crate::league_questions::{Call, ask, new, try_on};
use crate::random::Random;
use crate::report::{Covers, Extent, Report};
use crate::table_lookups::{some_field, some_number};
use crate::tables::{CODES, DECLARED, FAR_FIELDS, GAMES};
use crate::tally::{Tally, share};

pub const HEAD: usize = 5;
pub const ENTRY: usize = 4;
pub const SHARE: usize = 1024;

/// 1836.1.1, a date of every kind, by its guess too; and its hour 23.
pub const NUMBER: i32 = 59_883_360;
const LATE: i32 = NUMBER + 23;

/// The two, those beside them, and those that would be one after a cut.
const LEAGUES: [u32; 8] = [0, 1, 2, 3, 257, 258, 65_537, u32::MAX];

pub type Bytes = [u8; ENTRY];

pub fn run(extent: Extent, report: &mut Report) {
    let name =
        "tables of two leagues of up to two entries, leagues, fields and codes at each bound";
    report.row(name, Covers::All, small_tables());
    let name = "tables of three such entries, of two leagues";
    report.row(name, extent.covers_all(), three_entries(extent.pick(29, 1)));
    let name = "every field, declared, looked up and removed by each league";
    report.row(name, extent.covers_all(), fields(extent.pick(29, 1)));
    let name = "tables of two leagues with one byte changed to each of 256, all cuts";
    report.row(name, Covers::All, damaged());
    let name = "lengths 0 to 10,000 of tables of two leagues, and versions";
    report.row(name, Covers::Sample, lengths(extent.pick(7, 1)));
    let name = "full shares: a bad entry, a new field and an old one at each place";
    report.row(name, extent.covers_all(), full_shares(extent.pick(32, 1)));
    let name =
        "shares at 1,023 to 1,026 of one league, beside none, one and all that fit of the other";
    report.row(name, Covers::All, about_a_share());
    let name = "random tables of two leagues: steps, now and then a byte changed";
    let count = extent.pick(1_000_000, 30_000_000);
    report.row(name, Covers::Sample, random_steps(count));
    league_moves::run(extent, report);
    league_isolation::run(extent, report);
}

pub fn bytes_of(league: u8, field: u32, code: u32) -> Bytes {
    let [high, low] = (field as u16).to_be_bytes();
    [league, high, low, code as u8]
}

pub fn table_of(entries: &[Bytes], after: usize) -> Vec<u8> {
    let length = 1 + entries.len() * ENTRY;
    let mut bytes = (length as u32).to_be_bytes().to_vec();
    bytes.push(2);
    bytes.extend(entries.concat());
    bytes.extend(vec![0xA5; after]);
    bytes
}

/// Even fields from 2 on, of each kind in turn: so many of each league.
pub fn shares(counts: [usize; 2]) -> Vec<Bytes> {
    let own = |league: u8, count: usize| {
        (1..=count as u32).map(move |number| {
            let code = DECLARED[number as usize % DECLARED.len()];
            bytes_of(league, 2 * number, code)
        })
    };
    own(1, counts[0]).chain(own(2, counts[1])).collect()
}

/// The bytes of an entry by its number below 64: a league of 0 to 3, one of four fields, one of four codes.
const SMALL: u64 = 64;
const SMALL_FIELDS: [u32; 4] = [0, 1, 2, 65_535];

fn small_entry(number: u64) -> Bytes {
    let field = SMALL_FIELDS[(number / 4 % 4) as usize];
    let code = [0, 2, 4, 6][(number % 4) as usize];
    bytes_of((number / 16) as u8, field, code)
}

fn small_tables() -> Tally {
    share(1 + SMALL + SMALL * SMALL, |part, tally| {
        let entries = match part {
            0 => vec![],
            1..=SMALL => vec![small_entry(part - 1)],
            _ => {
                let pair = part - 1 - SMALL;
                vec![small_entry(pair / SMALL), small_entry(pair % SMALL)]
            }
        };
        for after in [3, 4] {
            all_calls(tally, &table_of(&entries, after));
        }
    })
}

/// Every call on the buffer as it is, with arguments at both sides of each bound.
fn all_calls(tally: &mut Tally, buffer: &[u8]) {
    for league in [0, 1, 2, 3, 257] {
        try_on(tally, buffer, league, Call::Check);
        for place in [0, 1, 2, usize::MAX / ENTRY + 1] {
            try_on(tally, buffer, league, Call::Entry { place });
        }
        for (field, code) in [(0, 2), (1, 6), (2, 4), (2, 1), (65_535, 3), (65_536, 2)] {
            every_change(tally, buffer, league, field, code);
        }
    }
    new(tally, &mut buffer.to_vec());
}

/// A field declared, removed and looked up, each on the buffer as it is.
fn every_change(tally: &mut Tally, buffer: &[u8], league: u32, field: u32, code: u32) {
    let lookup = |game: u32, number: i32| Call::Lookup {
        field,
        game,
        number,
    };
    try_on(tally, buffer, league, Call::Declare { field, code });
    try_on(tally, buffer, league, Call::Remove { field });
    try_on(tally, buffer, league, lookup(2, LATE));
    try_on(tally, buffer, league, lookup(code, NUMBER));
}

fn three_entries(step: usize) -> Tally {
    share(SMALL, |first, tally| {
        for rest in (0..SMALL * SMALL).step_by(step) {
            let entries = [first, rest / SMALL, rest % SMALL].map(small_entry);
            let buffer = table_of(&entries, 4);
            let league = 1 + (rest % 2) as u32;
            try_on(tally, &buffer, league, Call::Check);
            every_change(tally, &buffer, league, 2, 6);
        }
    })
}

fn fields(step: usize) -> Tally {
    const PART: u32 = 1024;
    let entries = [
        bytes_of(1, 1, 1),
        bytes_of(1, 300, 3),
        bytes_of(2, 300, 5),
        bytes_of(2, 65_535, 6),
    ];
    let table = table_of(&entries, 4);
    share(65, |part, tally| {
        let first = part as u32 * PART;
        let some = (first..first + PART).step_by(step);
        let far: &[u32] = if part == 0 { &FAR_FIELDS } else { &[] };
        for field in some.chain(far.iter().copied()) {
            for league in LEAGUES {
                every_change(tally, &table, league, field, 5);
            }
            for code in CODES {
                every_change(tally, &table, 2, field, code);
            }
        }
    })
}

fn damaged() -> Tally {
    let entries = [bytes_of(1, 258, 2), bytes_of(2, 1, 3), bytes_of(2, 515, 6)];
    let whole = table_of(&entries, 4);
    share(whole.len() as u64, |place, tally| {
        for byte in 0..=255 {
            let mut table = whole.clone();
            table[place as usize] = byte;
            all_calls(tally, &table);
        }
        all_calls(tally, &whole[..place as usize]);
    })
}

fn lengths(step: usize) -> Tally {
    let long = table_of(&shares([SHARE, SHARE + 1]), 3);
    let near = [1, 5, 6_145, 6_149, 8_189, 8_192, 8_193, 8_194, 8_195, 8_197];
    let far = (0..6).map(|less| u32::MAX - less);
    let more = [65_537, 1 << 24, (1 << 24) + 5, 1 << 31, (1 << 31) + 5];
    let all = (0..10_000).step_by(step);
    let lengths: Vec<u32> = all.chain(near).chain(far).chain(more).collect();
    share(lengths.len() as u64, |part, tally| {
        for (size, version) in [
            (4, 2),
            (5, 2),
            (21, 1),
            (21, 2),
            (long.len(), 2),
            (long.len(), 3),
        ] {
            let mut table = long[..size].to_vec();
            table[..4].copy_from_slice(&lengths[part as usize].to_be_bytes());
            if let Some(byte) = table.get_mut(4) {
                *byte = version;
            }
            every_change(tally, &table, 1, 4, 3);
        }
    })
}

/// Fields are even in these tables, so that an odd one is new at its place.
fn full_shares(step: usize) -> Tally {
    let full = shares([SHARE, SHARE]);
    let table = table_of(&full, ENTRY);
    share((2 * SHARE / step) as u64, |part, tally| {
        let place = part as usize * step;
        let (league, own) = (1 + (place / SHARE) as u32, place % SHARE);
        let field = 2 * own as u32 + 2;
        try_on(tally, &table, league, Call::Entry { place: own });
        for other in [league, 3 - league] {
            every_change(tally, &table, other, field, 6);
            every_change(tally, &table, other, field - 1, 2);
        }
        let mut less_one = full.clone();
        less_one.remove(place);
        let mut less_one = table_of(&less_one, ENTRY);
        for field in [field + 1, field] {
            let call = Call::Declare { field, code: 2 };
            ask(tally, &mut less_one, league, call);
        }
        for (at, byte) in [(0, 3), (0, 3 - league as u8), (1, 255), (2, 0), (3, 4)] {
            let mut table = table.clone();
            table[HEAD + place * ENTRY + at] = byte;
            every_change(tally, &table, league, field, 3);
        }
        let counts = [own, SHARE - own];
        all_calls(tally, &table_of(&shares(counts), part as usize % 6));
    })
}

/// "14 also for [..] a table with over 1,024 of one league", however many both have.
fn about_a_share() -> Tally {
    share(4, |part, tally| {
        let own = SHARE - 1 + part as usize;
        for other in [0, 1, 2 * SHARE - own - 1, 2 * SHARE - own] {
            for counts in [[own, other], [other, own]] {
                all_calls(tally, &table_of(&shares(counts), ENTRY));
            }
        }
    })
}

/// One table after the other, each with a few steps of which most are allowed.
fn random_steps(count: u64) -> Tally {
    const PARTS: u64 = 100;
    const STEPS: u64 = 40;
    share(PARTS, |part, tally| {
        let mut random = Random::new(part);
        for _ in 0..count / PARTS / STEPS {
            let room = random.index(9) * ENTRY + random.index(ENTRY);
            let mut buffer = vec![random.byte(); HEAD + room];
            new(tally, &mut buffer);
            for _ in 0..STEPS {
                let league = random.between(1, 2) as u32;
                let any = random.pick(&LEAGUES);
                let league = if random.chance(4) { any } else { league };
                let call = some_call(&mut random, 9);
                ask(tally, &mut buffer, league, call);
                if random.chance(1) {
                    let place = random.index(buffer.len());
                    buffer[place] = random.byte();
                }
            }
        }
    })
}

/// A call of which most are allowed, at a place below `places`.
pub fn some_call(random: &mut Random, places: usize) -> Call {
    let field = some_field(random);
    match random.index(20) {
        0..=6 => Call::Declare {
            field,
            code: random.pick(&DECLARED),
        },
        7 => Call::Declare {
            field,
            code: random.pick(&CODES),
        },
        8..=12 => Call::Remove { field },
        13 => Call::Check,
        14..=15 => Call::Entry {
            place: random.index(places),
        },
        _ => {
            let codes: &[u32] = if random.chance(80) { &GAMES } else { &CODES };
            Call::Lookup {
                field,
                game: random.pick(codes),
                number: some_number(random),
            }
        }
    }
}

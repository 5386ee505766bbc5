//! What request #109 of document 02 says of a table of two leagues, tried on this reading.

use crate::league_table::{self, MOST_OF_ONE};
use crate::table::{self, Answer, Entry};

/// 500 as D of league 1, the same of league 2, and 3 as V of each.
const D_1: [u8; 4] = [1, 0x01, 0xF4, 2];
const D_2: [u8; 4] = [2, 0x01, 0xF4, 2];
const V_1: [u8; 4] = [1, 0, 3, 6];
const V_2: [u8; 4] = [2, 0, 3, 6];

/// What a buffer holds after its table.
const FILLER: u8 = 0xEE;

/// 1836.1.1, a date of every kind, by its guess too; -1 is one of no kind.
const NUMBER: i32 = 59_883_360;
const NO_DATE: i32 = -1;

pub fn try_all() {
    try_bytes();
    try_lengths();
    try_entries();
    try_leagues();
    try_calls();
    try_shares();
    try_moves();
    try_isolation();
}

/// The number of the refusal, or 0.
fn refusal<T>(answer: Answer<T>) -> u8 {
    answer.map_or_else(|refusal| refusal, |_| 0)
}

fn table_of<const SIZE: usize>(version: u8, entries: &[[u8; SIZE]], after: usize) -> Vec<u8> {
    let length = 1 + entries.len() * SIZE;
    let head = (length as u32).to_be_bytes();
    let after = vec![FILLER; after];
    [&head[..], &[version], &entries.concat(), &after].concat()
}

/// Fields from 1 on, all of D.
fn fields(league: u8, count: usize) -> Vec<[u8; 4]> {
    let entry = |field: u16| [league, (field >> 8) as u8, field as u8, 2];
    (1..=count as u16).map(entry).collect()
}

/// "entries ascend by league, then field", "Both may declare the same field", and "A removal zeroes the
/// four bytes freed."
fn try_bytes() {
    let mut buffer = vec![FILLER; 22];
    assert_eq!(league_table::new(&mut buffer), Ok(()));
    assert_eq!(buffer, table_of::<4>(2, &[], 17));
    for (league, field, code, own, entries) in [
        (2, 500, 2, 1, &[D_2][..]),
        (1, 500, 2, 1, &[D_1, D_2]),
        (2, 3, 6, 2, &[D_1, V_2, D_2]),
        (1, 3, 6, 2, &[V_1, D_1, V_2, D_2]),
        (1, 500, 5, 2, &[V_1, [1, 0x01, 0xF4, 5], V_2, D_2]),
        (1, 500, 2, 2, &[V_1, D_1, V_2, D_2]),
    ] {
        let answer = league_table::declare(&mut buffer, league, field, code);
        assert_eq!(answer, Ok(own));
        assert_eq!(buffer, table_of(2, entries, 17 - 4 * entries.len()));
    }
    assert_eq!(league_table::remove(&mut buffer, 1, 500), Ok(1));
    let rest = table_of(2, &[V_1, V_2, D_2], 0);
    assert_eq!(buffer, [&rest[..], &[0, 0, 0, 0, FILLER]].concat());
    assert_eq!(refusal(league_table::remove(&mut buffer, 1, 500)), 16);
    assert_eq!(league_table::check(&buffer, 1), Ok(1));
    assert_eq!(league_table::check(&buffer, 2), Ok(2));
}

/// "9 counts fours up to 8,193"; a version 1 call answers 10 to version 2, or 9 where the length is over
/// 6,145. For each length, what both versions refuse at version byte 1 and at 2: of all entries the
/// first bytes are those of two good ones, of which the second comes again, so that 14 is in order.
fn try_lengths() {
    for (length, at_1, at_2) in [
        (0, [9, 9], [9, 9]),
        (1, [0, 10], [10, 0]),
        (4, [14, 10], [10, 9]),
        (5, [9, 10], [10, 0]),
        (9, [9, 10], [10, 0]),
        (13, [14, 10], [10, 14]),
        (6_145, [14, 10], [10, 14]),
        (6_146, [9, 10], [9, 9]),
        (6_149, [9, 10], [9, 14]),
        (8_193, [9, 10], [9, 14]),
        (8_194, [9, 9], [9, 9]),
        (8_197, [9, 9], [9, 9]),
    ] {
        for (version, refusals) in [(1, at_1), (2, at_2)] {
            let mut entries = vec![D_2; 2050];
            entries[0] = D_1;
            let mut buffer = table_of(version, &entries, 0);
            buffer[..4].copy_from_slice(&u32::to_be_bytes(length));
            let told = [
                refusal(table::check(&buffer)),
                refusal(league_table::check(&buffer, 1)),
            ];
            assert_eq!(told, refusals, "length {length}, version {version}");
        }
    }
}

/// "14 also for a league byte other than 1 or 2", and as #101 has it for each entry and their order.
fn try_entries() {
    for (entries, right) in [
        (&[D_1, D_2][..], 0),
        (&[V_1, D_1, V_2, D_2], 0),
        (&[[1, 0xFF, 0xFF, 1], [2, 0, 1, 1]], 0),
        (&[D_2, D_1], 14),
        (&[D_1, D_1], 14),
        (&[D_1, V_1], 14),
        (&[V_2, V_1], 14),
        (&[[0, 0, 3, 6]], 14),
        (&[[3, 0, 3, 6]], 14),
        (&[D_1, [255, 0, 3, 6]], 14),
        (&[[1, 0, 0, 2]], 14),
        (&[D_1, [2, 0, 0, 2]], 14),
        (&[[1, 0, 3, 0]], 14),
        (&[[1, 0, 3, 4]], 14),
        (&[[2, 0, 3, 7]], 14),
    ] {
        let buffer = table_of(2, entries, 4);
        for league in [1, 2] {
            let told = refusal(league_table::check(&buffer, league));
            assert_eq!(told, right, "{entries:?}");
        }
    }
}

/// One entry of each league, and a byte less than another needs.
fn short() -> Vec<u8> {
    table_of(2, &[V_1, D_2], 3)
}

/// A league that is none is 14 before all else that a call is refused for; 257 is not cut.
fn try_leagues() {
    let short = short();
    for league in [0, 3, 257, 258, 65_537, u32::MAX] {
        let mut changed = short.clone();
        let told = [
            refusal(league_table::check(&short, league)),
            refusal(league_table::entry(&short, league, 9)),
            refusal(league_table::declare(&mut changed, league, 9, 6)),
            refusal(league_table::remove(&mut changed, league, 9)),
            refusal(league_table::lookup(&short, league, 3, 2, NO_DATE)),
        ];
        assert_eq!(told, [14; 5], "league {league}");
        assert_eq!(changed, short);
    }
    let is_guessed = |league: u32| {
        let looked = league_table::lookup(&short, league, 3, 2, NUMBER);
        looked.map(|looked| looked.is_guessed)
    };
    assert_eq!((is_guessed(1), is_guessed(2)), (Ok(false), Ok(true)));
}

/// 14 of the call, then 15, 16, 3 and 13.
fn try_calls() {
    let short = short();
    for (field, code, right) in [
        (0, 2, 14),
        (65_536, 2, 14),
        (9, 4, 14),
        (3, 7, 14),
        (9, 2, 15),
        (3, 2, 0),
    ] {
        let told = refusal(league_table::declare(&mut short.clone(), 1, field, code));
        assert_eq!(told, right, "{field} as {code}");
    }
    for (field, right) in [(0, 14), (65_539, 14), (500, 16), (3, 0)] {
        let told = refusal(league_table::remove(&mut short.clone(), 1, field));
        assert_eq!(told, right, "{field} removed");
    }
    for (field, game, number, right) in [
        (0, 2, NO_DATE, 14),
        (3, 1, NO_DATE, 14),
        (3, 2, NO_DATE, 3),
        (500, 2, NO_DATE, 3),
        (3, 2, NUMBER, 0),
    ] {
        let told = refusal(league_table::lookup(&short, 1, field, game, number));
        assert_eq!(told, right, "{number} of {field}");
    }
    for (place, right) in [(0, 0), (1, 13), (usize::MAX, 13)] {
        assert_eq!(refusal(league_table::entry(&short, 1, place)), right);
    }
}

/// "15 now at 1,024 of one's own", of a new field alone and whatever the other has; 14 for "a table with
/// over 1,024 of one league".
fn try_shares() {
    for (own, other, room, right) in [
        (1023, 0, 4, 0),
        (1024, 0, 4, 15),
        (1023, 1024, 4, 0),
        (1024, 1024, 4, 15),
        (1023, 1024, 3, 15),
        (1025, 0, 4, 14),
        (0, 1025, 4, 14),
    ] {
        for (league, counts) in [(1, [own, other]), (2, [other, own])] {
            let entries = [fields(1, counts[0]), fields(2, counts[1])].concat();
            let mut buffer = table_of(2, &entries, room);
            let told = refusal(league_table::declare(&mut buffer, league, 65_535, 6));
            assert_eq!(told, right, "{own} of {league} and {other}");
            let there = refusal(league_table::declare(&mut buffer, league, 1, 6));
            let right = if own.max(other) > MOST_OF_ONE { 14 } else { 0 };
            assert_eq!(there, right);
        }
    }
}

/// "A version 1 table of at most 1,024 entries moves into a second buffer as a table of league 1 alone":
/// what it says of each field is the same.
fn try_moves() {
    let without_league = |entry: [u8; 4]| [entry[1], entry[2], entry[3]];
    for count in [0, 1, 2, 1024, 1025] {
        let entries = fields(1, count);
        let old: Vec<[u8; 3]> = entries.iter().copied().map(without_league).collect();
        let from = table_of(1, &old, 2);
        let bytes = table_of(2, &entries, 0);
        for room in [0, 4, bytes.len() - 1, bytes.len(), bytes.len() + 3] {
            let mut to = vec![FILLER; room];
            let answer = league_table::from_table(&from, &mut to);
            if count > MOST_OF_ONE || room < bytes.len() {
                assert_eq!(answer, Err(15));
                assert_eq!(to, vec![FILLER; room]);
                continue;
            }
            assert_eq!(answer, Ok(count));
            assert_eq!(to, table_of(2, &entries, room - bytes.len()));
            for field in [1, 2, 1024, 1025, 65_535] {
                let old = table::lookup(&from, field, 3, NUMBER).map(|looked| looked.kind);
                let new = league_table::lookup(&to, 1, field, 3, NUMBER);
                assert!(old == new.map(|looked| looked.kind));
            }
        }
    }
    let mut to = [FILLER; 4];
    for (from, right) in [
        (vec![0, 0, 0, 1], 9),
        (table_of(2, &[D_1], 0), 10),
        (table_of(1, &[[0, 3, 4]], 0), 14),
        (table_of(1, &[[0, 3, 2]], 0), 15),
    ] {
        assert_eq!(refusal(league_table::from_table(&from, &mut to)), right);
    }
}

/// "a league's lookups, additions, removals and their refusals depend only on its own entries and its
/// call": the same answers, whatever the other has, and of the other nothing is touched.
fn try_isolation() {
    let own = |buffer: &[u8], league| league_table::own(buffer, league).unwrap_or_default();
    let same = |one: &[Entry], other: &[Entry]| one == other;
    for (others, mine) in [(0, 3), (1, 3), (1024, 3), (1024, 1023), (1024, 1024)] {
        let table = |others| {
            let entries = [fields(1, mine), fields(2, others)].concat();
            table_of(2, &entries, 8_192 - 4 * entries.len())
        };
        let (mut shared, mut apart) = (table(others), table(0));
        let before = own(&shared, 2);
        for (field, code) in [(2, 5), (3000, 6), (3001, 4), (3002, 1), (0, 2), (2, 1)] {
            let answers = [&mut shared, &mut apart].map(|buffer| {
                let declared = league_table::declare(buffer, 1, field, code);
                let found = league_table::lookup(buffer, 1, field, 3, NUMBER);
                let removed = league_table::remove(buffer, 1, field + 1);
                let found = found.map(|looked| (looked.is_guessed, looked.kind.letter()));
                (declared, found, removed)
            });
            assert_eq!(answers[0], answers[1], "{field} as {code}");
            assert!(same(&own(&shared, 1), &own(&apart, 1)));
            assert!(same(&own(&shared, 2), &before));
        }
    }
}

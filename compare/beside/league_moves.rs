//! Of the subject `leagues`: moves of a version 1 table into a second buffer, and the calls of the other version.

use crate::league_questions::{Call, ask, moved, try_on};
use crate::leagues::{self, NUMBER, SHARE};
use crate::port;
use crate::report::{Covers, Extent, Report};
use crate::table_questions;
use crate::tables::{GAMES, MOST_ENTRIES, ascending, bytes_of, table_of};
use crate::tally::{Tally, share};

pub fn run(extent: Extent, report: &mut Report) {
    let name = "moves of up to 40 entries into every target up to 12 bytes too long";
    report.row(name, Covers::All, targets());
    let name = "moves of up to 2,048 entries: a byte short, exact, longer";
    report.row(name, extent.covers_all(), counts(extent.pick(31, 1)));
    let name = "moved tables with one byte changed to each of 256, all cuts";
    report.row(name, Covers::All, damaged());
    let name = "calls of either version on tables of the other";
    report.row(name, Covers::Sample, versions());
}

fn room(entries: usize) -> usize {
    leagues::HEAD + entries * leagues::ENTRY
}

fn targets() -> Tally {
    share(41, |entries, tally| {
        let entries = entries as usize;
        let from = table_of(&ascending(entries), entries % 4);
        for room in 0..=room(entries) + 12 {
            moved(tally, &from, room);
        }
    })
}

/// Where a move is done, league 1 is told of each field what the version 1 table told, and league 2 has none.
fn counts(step: usize) -> Tally {
    let near = [0, 1, SHARE - 1, SHARE, SHARE + 1, MOST_ENTRIES];
    let counts: Vec<usize> = (0..MOST_ENTRIES).step_by(step).chain(near).collect();
    share(counts.len() as u64, |part, tally| {
        let entries = counts[part as usize];
        let from = table_of(&ascending(entries), 0);
        for room in [4, 5, room(entries) - 1, room(entries), room(entries) + 7] {
            let is_moved = entries <= SHARE && room >= self::room(entries);
            let target = moved(tally, &from, room);
            let asked = || format!("{entries} entries moved into {room} bytes");
            tally.hold(is_moved, target.is_some(), asked);
            if let Some(mut target) = target {
                same_lookups(tally, &from, &mut target, entries);
                ask(tally, &mut target, 2, Call::Check);
                ask(tally, &mut target, 2, Call::Declare { field: 2, code: 3 });
                ask(tally, &mut target, 1, Call::Declare { field: 3, code: 3 });
            }
        }
    })
}

/// "its lookups are those of the version 1 table": by the boundary alone.
fn same_lookups(tally: &mut Tally, from: &[u8], target: &mut [u8], entries: usize) {
    let last = 2 * entries as u32;
    for field in [0, 1, 2, 3, last, last + 1, last + 2, 65_535, 65_536] {
        for (game, number) in GAMES.into_iter().zip([NUMBER, NUMBER + 23, -1, NUMBER + 6]) {
            let old = port::table_lookup(from, field, game, number);
            let new = port::leagues_lookup(target, 1, field, game, number);
            let asked =
                || format!("{number} of field {field} under {game}, before and after a move");
            tally.hold(old, new, asked);
        }
    }
}

fn damaged() -> Tally {
    let whole = table_of(&[bytes_of(258, 2), bytes_of(300, 3), bytes_of(515, 6)], 2);
    share(whole.len() as u64, |place, tally| {
        let place = place as usize;
        for byte in 0..=255 {
            let mut from = whole.clone();
            from[place] = byte;
            for room in [0, 4, 5, room(3) - 1, room(3), room(3) + 1] {
                moved(tally, &from, room);
            }
        }
        moved(tally, &whole[..place], room(3));
    })
}

/// Of lengths around 6,145 and 8,193 too: "10 to a version 2 table (9 over 6,145)".
fn versions() -> Tally {
    share(2 * SHARE as u64 + 1, |entries, tally| {
        let entries = entries as usize;
        let counts = [entries.min(SHARE), entries.saturating_sub(SHARE)];
        let shared = leagues::table_of(&leagues::shares(counts), 3);
        table_questions::check(tally, &shared);
        table_questions::lookup(tally, &shared, 2, 3, NUMBER);
        moved(tally, &shared, room(entries));
        let refusal = if entries <= 1536 { 10 } else { 9 };
        let asked = || format!("version 1's check of {entries} entries of version 2");
        tally.hold(refusal, port::table_check(&shared).refusal, asked);
        let old = table_of(&ascending(entries), 0);
        try_on(tally, &old, 1, Call::Check);
        let asked = || format!("version 2's check of {entries} entries of version 1");
        tally.hold(10, port::leagues_check(&mut old.clone(), 2).refusal, asked);
    })
}

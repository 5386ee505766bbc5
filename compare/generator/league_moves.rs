//! Moves of a version 1 table into a second buffer. Where a move is done, the target is the buffer from then
//! on.

use crate::book_script::{HEAD, Script};
use crate::league_script::{FIVE, RUN, SHARE, start};
use crate::table_script::{DECLARED, ENTRY, NO_DATE, NUMBER};

pub fn all(script: &mut Script) {
    small_targets(script);
    every_kind(script);
    full_shares(script);
    refused(script);
}

/// A version 1 table of so many fields of D, in one run, and so many bytes after it.
fn old_table(script: &mut Script, entries: usize, after: usize) {
    script.buffer(HEAD + entries * ENTRY + after);
    script.set_length((1 + entries * ENTRY) as u32);
    script.set(4, 1);
    script.entries(0, RUN, entries, 2);
}

/// Every target that is too short, then the one that is not; and one that is longer.
fn small_targets(script: &mut Script) {
    for entries in 0..=2 {
        script.remark(&format!("a table of {entries} into every target"));
        old_table(script, entries, 1);
        (0..=start(entries)).for_each(|room| script.from_table(room));
        script.check_both();
        old_table(script, entries, 0);
        script.from_table(start(entries) + 5);
        script.declare_own(2, RUN, 3);
        script.declare_own(1, RUN + 9, 3);
    }
}

/// The lookups of the version 1 table, and then league 1's; league 2 has none of them.
fn every_kind(script: &mut Script) {
    script.remark("a field of each kind, looked up before the move and after it");
    old_table(script, DECLARED.len(), 0);
    for (place, code) in DECLARED.into_iter().enumerate() {
        script.entries(place, 10 * code, 1, code as u8);
    }
    for number in [NUMBER + 23, NO_DATE, NUMBER] {
        for field in [9, 10, 20, 30, 50, 60, 65_535] {
            script.line(format!("table lookup {field} 5 {number}"));
        }
    }
    script.from_table(start(DECLARED.len()));
    for number in [NUMBER + 23, NO_DATE, NUMBER] {
        for field in [9, 10, 20, 30, 50, 60, 65_535] {
            script.lookup_own(1, field, 5, number);
        }
    }
    script.lookup_own(2, 10, 5, NUMBER);
    script.check_both();
    (0..=DECLARED.len()).for_each(|place| script.entry_own(1, place));
}

/// 1,023, 1,024 and 1,025 entries, and all that version 1 has: a byte short, exact and longer.
fn full_shares(script: &mut Script) {
    for entries in [SHARE - 1, SHARE, SHARE + 1, 2 * SHARE] {
        script.remark(&format!("a table of {entries} moved"));
        for room in [HEAD, start(entries) - 1, start(entries), start(entries) + 4] {
            old_table(script, entries, 0);
            script.from_table(room);
            script.check_both();
            script.declare_own(1, 7, 2);
            script.declare_own(2, 7, 2);
        }
    }
}

/// 9, 10 and 14 of the source, each into no room, into too little and into enough; and before 15.
fn refused(script: &mut Script) {
    for (length, version, code) in [
        (4, 1, 2),
        (4, 1, 4),
        (4, 2, 2),
        (4, 2, 4),
        (5, 1, 4),
        (5, 2, 4),
        (0, 2, 2),
        (9, 1, 2),
        (9, 2, 4),
    ] {
        script.remark(&format!(
            "length {length}, version {version}, an entry of code {code}, moved"
        ));
        for room in [0, 4, start(1) - 1, start(1)] {
            old_table(script, 1, 0);
            script.entries(0, 500, 1, code);
            script.set(3, length);
            script.set(4, version);
            script.from_table(room);
        }
    }
    script.remark("1,025 entries, the last one bad, and a table of version 2");
    old_table(script, SHARE + 1, 0);
    script.from_table(start(SHARE + 1));
    script.entries(SHARE, RUN, 1, 2);
    script.from_table(start(SHARE + 1));
    script.leagues(&FIVE, 0);
    script.from_table(start(5));
}

//! What is tried on tables of two leagues that are none, and the order of what is refused.

use crate::book_script::{HEAD, Script};
use crate::league_script::{FIVE, RUN, SHARE, SIZE, start};
use crate::table_script::{NO_DATE, NUMBER};

pub fn all(script: &mut Script) {
    damaged_bytes(script);
    damaged_entries(script);
    damaged_full_table(script);
    lengths(script);
    versions(script);
    order_of_refusals(script);
}

/// One entry of each league and room for one more, then one byte changed.
fn damaged_bytes(script: &mut Script) {
    for place in 0..start(2) {
        script.remark(&format!("another byte of a table at {place}"));
        for byte in [0, 1, 2, 3, 4, 255] {
            script.leagues(&[(1, 258, 1, 2), (2, 515, 1, 6)], SIZE);
            script.set(place, byte);
            script.check_both();
            script.lookup_own(1, 258, 2, NUMBER);
            script.declare_own(1, 7, 2);
            script.remove_own(2, 515);
        }
    }
}

/// One entry of five is another: out of order by its league or its field, with a league, a field or a code
/// that is not allowed. Some of these are good at the place where they stand.
fn damaged_entries(script: &mut Script) {
    let others = [
        (1, 10, 1, 2),
        (1, 15, 1, 2),
        (1, 20, 1, 2),
        (1, 65_535, 1, 2),
        (2, 1, 1, 2),
        (2, 20, 1, 2),
        (2, 25, 1, 2),
        (0, 15, 1, 2),
        (3, 65_535, 1, 2),
        (2, 0, 1, 2),
        (1, 15, 1, 0),
        (2, 25, 1, 4),
    ];
    for place in [0, 1, 2, 4] {
        for other in others {
            script.remark(&format!("{other:?} at place {place}"));
            script.leagues(&FIVE, SIZE);
            script.share(place, other);
            script.check_both();
            script.entry_own(2, 0);
            script.declare_own(1, 12, 3);
        }
    }
}

/// The league, the field or the code of one entry of 2,048.
fn damaged_full_table(script: &mut Script) {
    let last = 2 * SHARE - 1;
    script.full_leagues([SHARE, SHARE], SIZE);
    for place in [0, 1, SHARE - 1, SHARE, last] {
        script.remark(&format!("a bad entry at place {place} of 2,048"));
        let league = 1 + (place / SHARE) as u8;
        let field = RUN + (place % SHARE) as u32;
        for bad in [
            (3 - league, field, 1, 2),
            (3, field, 1, 2),
            (league, 0, 1, 2),
            (league, field, 1, 4),
        ] {
            script.share(place, bad);
            script.check_both();
            script.declare_own(1, RUN, 3);
        }
        script.share(place, (league, field, 1, 2));
    }
    script.remark("all of them good again");
    script.check_both();
    script.declare_own(1, RUN, 3);
}

/// In a short buffer and in one with bytes for more than 2,048 entries, by both versions' checks.
fn lengths(script: &mut Script) {
    let mut lengths = vec![0, 1, 2, 3, 4, 5, 6, 7, 8, 9, 10, 13, 16, 17, 18, 20, 21];
    lengths.extend([
        6_145, 6_146, 6_149, 8_189, 8_192, 8_193, 8_194, 8_195, 8_197, 8_198,
    ]);
    lengths.extend([65_537, 1 << 24, (1 << 24) + 5, (1 << 31) + 5, u32::MAX]);
    for full in [false, true] {
        for version in [0, 1, 2, 3] {
            script.remark(&format!("lengths, version {version}"));
            if full {
                script.full_leagues([SHARE, SHARE + 1], 1);
            } else {
                script.leagues(&FIVE[..4], 0);
            }
            script.set(4, version);
            for &length in &lengths {
                script.set_length(length);
                script.check_own(1);
                script.line("table check");
            }
        }
    }
}

/// "A version 1 call answers 10 to a version 2 table, a version 2 call 10 to a version 1 table".
fn versions(script: &mut Script) {
    script.remark("calls of the other version");
    script.leagues(&FIVE, 0);
    script.line("table check");
    script.line(format!("table lookup 20 2 {NUMBER}"));
    script.set(4, 1);
    refused_calls(script);
    script.buffer(HEAD + 3);
    script.line("new");
    script.set(3, 4);
    script.set(4, 1);
    script.entries(0, 500, 1, 2);
    script.line("table check");
    script.line(format!("table lookup 500 3 {NUMBER}"));
    refused_calls(script);
}

/// 9 but for its last case, 10, that case, 14 of the table, 14 of the call, and then 13, 15, 16 or 3: of two
/// neighbours, each time both.
fn order_of_refusals(script: &mut Script) {
    for (length, version, league, code) in [
        (5, 2, 1, 2),
        (5, 2, 1, 4),
        (5, 2, 3, 2),
        (6, 2, 1, 2),
        (6, 2, 3, 4),
        (5, 1, 1, 2),
        (5, 1, 3, 4),
        (6, 1, 3, 4),
        (0, 2, 1, 2),
        (0, 1, 3, 4),
        (11, 2, 1, 2),
        (11, 1, 3, 4),
    ] {
        script.remark(&format!(
            "length {length}, version {version}, an entry of league {league} and code {code}, one byte after"
        ));
        script.leagues(&[(league, 500, 1, code)], 1);
        script.set(3, length);
        script.set(4, version);
        refused_calls(script);
    }
}

/// Calls that a sound table of 500 refuses, too, but for the first.
fn refused_calls(script: &mut Script) {
    script.check_own(1);
    script.check_own(3);
    script.entry_own(1, 1);
    script.entry_own(257, 1);
    script.declare_own(1, 7, 2);
    script.declare_own(2, 500, 2);
    script.declare_own(1, 7, 4);
    script.declare_own(1, 0, 2);
    script.declare_own(257, 500, 2);
    script.remove_own(2, 500);
    script.remove_own(1, 0);
    script.remove_own(0, 500);
    script.lookup_own(1, 500, 2, NO_DATE);
    script.lookup_own(2, 500, 2, NO_DATE);
    script.lookup_own(1, 500, 1, NO_DATE);
    script.lookup_own(1, 65_536, 2, NO_DATE);
    script.lookup_own(3, 500, 2, NO_DATE);
}

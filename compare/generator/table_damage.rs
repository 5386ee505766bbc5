//! What is tried on tables that are none, and the order of what is refused.

use crate::book_script::{HEAD, Script};
use crate::table_script::{ENTRY, FIRST_RUN, FIVE, MOST_ENTRIES, NO_DATE, NUMBER, RUN, SECOND_RUN};

/// Two entries and room for one more, then one byte changed.
pub fn damaged_bytes(script: &mut Script) {
    for place in 0..HEAD + 2 * ENTRY {
        script.remark(&format!("another byte of a table at {place}"));
        for byte in [0, 1, 2, 4, 255] {
            script.table(&[(258, 2), (515, 6)], 3);
            script.set(place, byte);
            script.check_table();
            script.entry(1);
            script.lookup(258, 2, NUMBER);
            script.declare(7, 2);
            script.remove(515);
        }
    }
}

/// One entry of five is another: field 0, as the one before, less, as the one after, greater, or a
/// code that is not allowed. At the first place and the last some of these are good.
pub fn damaged_entries(script: &mut Script) {
    for place in [0, 2, 4] {
        let (field, _) = FIVE[place];
        let mut fields = vec![0, field - 10, field.saturating_sub(11)];
        fields.extend([field + 10, field + 11]);
        fields.dedup();
        let others = fields.into_iter().map(|other| (other, 2));
        let codes = [0, 4, 7, 255].map(|code| (field, code));
        for (field, code) in others.chain(codes) {
            script.remark(&format!("field {field} of code {code} at place {place}"));
            script.table(&FIVE, 3);
            script.entries(place, field, 1, code);
            script.check_table();
            script.entry(0);
            script.entry(4);
            script.lookup(20, 2, NUMBER);
            script.lookup(35, 2, NUMBER);
            script.remove(35);
            script.remove(20);
            script.declare(40, 3);
            script.declare(35, 2);
        }
    }
}

/// The code of one entry of 2,048, and then its field: as the one before, and the first one's 0.
pub fn damaged_full_table(script: &mut Script) {
    let last = MOST_ENTRIES - 1;
    script.long_table(MOST_ENTRIES, ENTRY);
    for place in [0, 1, RUN - 1, RUN, last - 1, last] {
        script.remark(&format!("a bad entry at place {place} of 2,048"));
        let before = place.checked_sub(1).map_or(0, field_at);
        for (field, code) in [(field_at(place), 4), (before, 2)] {
            script.entries(place, field, 1, code);
            script.check_table();
            script.lookup(FIRST_RUN, 2, NUMBER);
            script.declare(FIRST_RUN, 3);
        }
        script.entries(place, field_at(place), 1, 2);
    }
    script.remark("all of them good again");
    script.check_table();
    script.lookup(field_at(last), 3, NUMBER);
    script.declare(FIRST_RUN, 3);
}

fn field_at(place: usize) -> u32 {
    match place.checked_sub(RUN) {
        None => FIRST_RUN + place as u32,
        Some(place) => SECOND_RUN + place as u32,
    }
}

/// In a short buffer and in one with bytes for more than 2,048 entries.
pub fn lengths(script: &mut Script) {
    let mut lengths: Vec<u32> = (0..6).map(|less| u32::MAX - less).collect();
    lengths.extend([0, 1, 2, 3, 4, 5, 6, 7, 9, 10, 12, 13, 14]);
    lengths.extend([6142, 6143, 6144, 6145, 6146, 6147, 6148]);
    lengths.extend([65_537, 65_540, 1 << 24, (1 << 24) + 4, (1 << 31) + 4]);
    for (entries, after) in [(4, 0), (MOST_ENTRIES + 2, 0)] {
        for version in [1, 2] {
            script.remark(&format!("lengths of {entries} entries, version {version}"));
            if entries == 4 {
                script.table(&FIVE[..entries], after);
            } else {
                script.long_table(entries, after);
            }
            script.set(4, version);
            for &length in &lengths {
                script.set_length(length);
                script.check_table();
                script.lookup(40, 5, NUMBER);
            }
        }
    }
}

/// 9 but for its last case, 10, that case, 14 of the table, 14 of the call, and then 13, 15, 16 or
/// 3: of two neighbours, each time both.
pub fn order_of_refusals(script: &mut Script) {
    for (length, version, code) in [
        (4, 1, 2),
        (4, 1, 4),
        (5, 1, 2),
        (5, 1, 4),
        (4, 2, 2),
        (4, 2, 4),
        (5, 2, 4),
        (0, 1, 2),
        (0, 2, 2),
        (9, 1, 2),
        (9, 2, 4),
    ] {
        script.remark(&format!(
            "length {length}, version {version}, an entry of code {code}, one byte after"
        ));
        script.table(&[(500, code)], 1);
        script.set(3, length);
        script.set(4, version);
        refused_calls(script);
    }
}

/// Calls that a sound table refuses, too, but for the first.
fn refused_calls(script: &mut Script) {
    script.check_table();
    script.entry(1);
    script.declare(7, 2);
    script.declare(7, 4);
    script.declare(0, 2);
    script.declare(500, 4);
    script.remove(7);
    script.remove(0);
    script.lookup(7, 2, NO_DATE);
    script.lookup(500, 2, NO_DATE);
    script.lookup(500, 1, NO_DATE);
    script.lookup(0, 2, NO_DATE);
    script.lookup(65_536, 4, NO_DATE);
}

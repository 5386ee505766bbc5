//! The part of book.script that is about tables. The second reading answers it.

use crate::book_script::Script;
use crate::numbers::some_number;
use crate::random::Random;
use crate::table_script::{DECLARED, FIRST_RUN, FIVE, GAMES, MOST_ENTRIES, NO_DATE, NUMBER};
use crate::table_script::{GREATEST_TABLE_LENGTH, RUN, SECOND_RUN};
use crate::{table_damage, table_lookups};

/// Both sides of the bounds on fields, and of those on what would be left of a field cut to 16 bits.
const FIELDS: [u32; 13] = [
    0,
    1,
    2,
    499,
    500,
    501,
    65_534,
    65_535,
    65_536,
    65_537,
    65_536 + 500,
    1 << 31,
    u32::MAX,
];

/// Every code, and codes that would be one if they were cut to 8 or 16 bits.
const CODES: [u32; 14] = [0, 1, 2, 3, 4, 5, 6, 7, 8, 255, 258, 259, 65_538, u32::MAX];

const RANDOM_STEPS: usize = 300;

pub fn all(stream: u64) -> String {
    let mut script = Script::default();
    let mut random = Random::new(stream);
    small_buffers(&mut script);
    shown_bytes(&mut script);
    new_over_a_table(&mut script);
    fields(&mut script);
    codes(&mut script);
    game_kinds(&mut script);
    ends_of_buffers(&mut script);
    full_tables(&mut script);
    no_three_bytes_left(&mut script);
    removals(&mut script);
    removals_of_all(&mut script);
    table_damage::damaged_bytes(&mut script);
    table_damage::damaged_entries(&mut script);
    table_damage::damaged_full_table(&mut script);
    table_damage::lengths(&mut script);
    table_damage::order_of_refusals(&mut script);
    table_lookups::numbers(&mut script);
    table_lookups::every_pair(&mut script);
    table_lookups::no_date_of_the_declared_kind(&mut script);
    table_lookups::declared_and_removed(&mut script);
    random_steps(&mut script, &mut random);
    script.text
}

fn small_buffers(script: &mut Script) {
    script.remark("tables in buffers of 0 to 11 bytes");
    for length in 0..=11 {
        script.buffer(length);
        script.check_table();
        script.line("table new");
        script.check_table();
        script.declare(500, 2);
        script.entry(0);
        script.lookup(500, 3, NUMBER);
        script.remove(500);
    }
}

fn shown_bytes(script: &mut Script) {
    script.remark("500 as D, then 3 as V, and 3 removed");
    for length in [8, 11, 12] {
        script.buffer(length);
        script.line("table new");
        script.declare(500, 2);
        script.declare(3, 6);
        script.check_table();
        (0..=2).for_each(|place| script.entry(place));
        script.remove(3);
        script.check_table();
        (0..=1).for_each(|place| script.entry(place));
    }
}

fn new_over_a_table(script: &mut Script) {
    script.remark("new over a table, a book over a table, and a table over a book");
    script.table(&FIVE, 3);
    script.line("table new");
    script.check_table();
    script.declare(30, 2);
    script.table(&FIVE, 3);
    script.line("check");
    script.record(0);
    script.line("new");
    script.check_table();
    script.book(3, 20);
    script.check_table();
    script.entry(0);
    script.declare(7, 2);
    script.line("table new");
    script.line("check");
}

fn fields(script: &mut Script) {
    script.remark("fields at both sides of each bound");
    for field in FIELDS {
        script.table(&[(500, 2)], 6);
        script.lookup(field, 5, NUMBER);
        script.declare(field, 6);
        script.entry(1);
        script.lookup(field, 5, NUMBER);
        script.remove(field);
        script.remove(field);
    }
}

fn codes(script: &mut Script) {
    script.remark("codes, of a field that is there and of one that is not");
    for code in CODES {
        script.table(&[(500, 2)], 3);
        script.declare(500, code);
        script.lookup(500, 2, NUMBER + 1);
        script.declare(501, code);
        script.lookup(501, 2, NUMBER + 1);
    }
}

fn game_kinds(script: &mut Script) {
    script.remark("game kinds, of a field that is there and of one that is not");
    script.table(&[(500, 1)], 0);
    for game in CODES {
        for number in [NUMBER, NO_DATE] {
            script.lookup(500, game, number);
            script.lookup(501, game, number);
        }
    }
}

fn ends_of_buffers(script: &mut Script) {
    script.remark("a table that ends 0 to 4 bytes before its buffer");
    for entries in [0, 1, 2, 5] {
        for after in 0..=4 {
            script.table(&FIVE[..entries], after);
            script.check_table();
            script.declare(10, 6);
            script.declare(5, 3);
            script.declare(60, 5);
            script.remove(10);
            script.declare(25, 1);
            script.entry(entries);
        }
    }
}

/// The last entry is declared, before all, between the two runs and after all; then one more is
/// refused, with and without bytes for it, and a field that is there is not.
fn full_tables(script: &mut Script) {
    for (after, field) in [
        (0, 7),
        (1, 1500),
        (2, 65_535),
        (3, 7),
        (3, 1500),
        (3, 65_535),
        (6, 1500),
    ] {
        script.remark(&format!(
            "2,048 entries and {after} bytes after, {field} the last"
        ));
        script.long_table(MOST_ENTRIES - 1, 3 + after);
        script.entry(MOST_ENTRIES - 1);
        script.declare(field, 6);
        script.check_table();
        for place in [0, RUN, MOST_ENTRIES - 1, MOST_ENTRIES] {
            script.entry(place);
        }
        script.declare(8, 2);
        script.declare(8, 4);
        script.declare(FIRST_RUN, 5);
        script.lookup(field, 2, NUMBER + 6);
        script.lookup(8, 2, NUMBER + 6);
        script.remove(8);
        script.remove(SECOND_RUN);
        script.declare(8, 2);
        script.declare(SECOND_RUN, 2);
    }
}

fn no_three_bytes_left(script: &mut Script) {
    script.remark("2,047 entries and no three bytes after");
    for after in 0..=2 {
        script.long_table(MOST_ENTRIES - 1, after);
        script.declare(7, 2);
        script.declare(FIRST_RUN, 3);
        script.check_table();
    }
    script.remark("a length for 2,048 entries and a buffer one byte shorter");
    script.set_length(GREATEST_TABLE_LENGTH as u32);
    script.check_table();
    script.declare(FIRST_RUN, 2);
}

/// Each of five, and the only one; then the room is used again.
fn removals(script: &mut Script) {
    for (place, (field, _)) in FIVE.into_iter().enumerate() {
        script.remark(&format!("the entry at place {place} removed"));
        script.table(&FIVE, 2);
        script.remove(field);
        script.check_table();
        (0..=4).for_each(|place| script.entry(place));
        script.remove(field);
        script.lookup(field, 2, NUMBER);
        script.declare(field + 15, 2);
        script.declare(field, 5);
        script.entry(place);
    }
    script.remark("the only entry removed");
    script.table(&[(500, 3)], 0);
    script.remove(500);
    script.check_table();
    script.entry(0);
    script.remove(500);
    script.declare(65_535, 1);
    script.declare(1, 1);
}

/// One after the other, and all of them declared again.
fn removals_of_all(script: &mut Script) {
    script.remark("all entries removed, and declared again");
    for order in [[0, 1, 2, 3, 4], [4, 3, 2, 1, 0], [2, 0, 4, 1, 3]] {
        script.table(&FIVE, 1);
        for place in order {
            script.remove(FIVE[place].0);
        }
        script.remove(10);
        for place in order {
            script.declare(FIVE[place].0, DECLARED[4 - place]);
        }
        script.declare(60, 2);
    }
}

/// Declarations, removals and lookups of a few fields, most of them allowed.
fn random_steps(script: &mut Script, random: &mut Random) {
    for room in [4, 8, 12] {
        script.remark(&format!("random steps on a table of at most {room}"));
        script.buffer(5 + 3 * room + 2);
        script.line("table new");
        for _ in 0..RANDOM_STEPS / 3 {
            random_step(script, random);
        }
    }
}

fn random_step(script: &mut Script, random: &mut Random) {
    let field = if random.chance(5) {
        random.pick(&FIELDS)
    } else {
        random.between(1, 14) as u32
    };
    match random.index(10) {
        0..=3 if random.chance(10) => script.declare(field, random.pick(&CODES)),
        0..=3 => script.declare(field, random.pick(&DECLARED)),
        4..=5 => script.remove(field),
        6 => script.entry(random.index(14)),
        _ => {
            let number = some_number(random);
            script.lookup(field, random.pick(&GAMES), number);
        }
    }
}

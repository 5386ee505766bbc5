//! What is looked up in tables: numbers at the bounds of each kind's decoding and of its guess.

use crate::book_script::Script;
use crate::table_script::{DECLARED, FIVE, GAMES, NO_DATE, NUMBER};

/// A field that stands between those of `FIVE` and is not declared.
const ABSENT: u32 = 25;

/// Both sides of each bound.
const NUMBERS: [i32; 68] = [
    // of 32 bits, and of the years
    i32::MIN,
    -243_256_440,
    -243_247_681,
    -243_247_680,
    -243_247_679,
    -243_238_920,
    330_847_655,
    330_847_656,
    330_847_674,
    330_847_678,
    330_847_679,
    330_847_680,
    i32::MAX,
    // below 0 a number is read only at multiples of 8760
    -17_520,
    -8784,
    -8761,
    -8760,
    -8759,
    -8736,
    -24,
    -1,
    0,
    1,
    5,
    6,
    7,
    12,
    18,
    22,
    23,
    24,
    8759,
    8760,
    // "year above -100"
    42_923_999,
    42_924_000,
    42_932_736,
    42_932_759,
    42_932_760,
    42_932_761,
    42_932_762,
    // "1 January hour 1 of year 1 or -1", "1.1.1 with hour 0", and year 0 between
    43_791_239,
    43_791_240,
    43_791_241,
    43_800_000,
    43_808_759,
    43_808_760,
    43_808_761,
    43_808_766,
    43_808_784,
    // "year above 1700"
    58_692_000,
    58_700_754,
    58_700_760,
    58_700_761,
    58_700_766,
    // "year 1800 or more"
    59_567_999,
    59_568_000,
    59_568_001,
    // 1436.1.1, hours of 1444.11.11, and a number of 1936
    56_379_360,
    56_456_976,
    56_456_977,
    56_456_982,
    56_456_988,
    56_456_994,
    56_456_997,
    56_456_998,
    56_456_999,
    56_457_000,
    60_759_371,
];

/// Each number by each declared kind, under a game kind that changes with the number, and by the
/// guess of each game kind.
pub fn numbers(script: &mut Script) {
    script.remark("numbers, looked up by each kind: declared, and guessed");
    script.table(&FIVE, 0);
    for (turn, number) in NUMBERS.into_iter().enumerate() {
        for (place, (field, _)) in FIVE.into_iter().enumerate() {
            script.lookup(field, GAMES[(turn + place) % GAMES.len()], number);
        }
        for game in GAMES {
            script.lookup(ABSENT, game, number);
        }
    }
}

/// Each declared kind under every game kind, with numbers that these two take otherwise.
pub fn every_pair(script: &mut Script) {
    script.remark("each declared kind under each game kind");
    script.table(&FIVE, 0);
    for number in [NUMBER + 23, NUMBER + 6, 56_456_976] {
        for (field, _) in FIVE {
            for game in GAMES {
                script.lookup(field, game, number);
            }
        }
    }
}

/// V has four hours. At others a number of a field that is declared as V is no date, though a game
/// kind would guess it: the same number is looked up for a field that is absent.
pub fn no_date_of_the_declared_kind(script: &mut Script) {
    script.remark("hours that V lacks and game kinds guess");
    script.table(&[(50, 6)], 0);
    for hour in [1, 2, 22, 23] {
        for game in GAMES {
            script.lookup(50, game, NUMBER + hour);
            script.lookup(ABSENT, game, NUMBER + hour);
        }
    }
}

/// The same number before a field is declared, while it is, as another kind, and after that.
pub fn declared_and_removed(script: &mut Script) {
    for (code, other) in DECLARED.into_iter().zip([6, 1, 2, 3, 5]) {
        script.remark(&format!("a field as {code}, as {other}, and removed"));
        script.table(&[(499, 2), (501, 6)], 3);
        for number in [NUMBER + 12, 0, NO_DATE] {
            script.lookup(500, 5, number);
            script.declare(500, code);
            script.lookup(500, 5, number);
            script.declare(500, other);
            script.lookup(500, 5, number);
            script.remove(500);
            script.lookup(500, 5, number);
        }
    }
}

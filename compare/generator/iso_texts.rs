//! isos.questions: `K i "TEXT"`. The original reads no ISO text, so these are questions alone, which the
//! second reading answers. Each edge is asked of all six kinds.

use crate::answers::{Answers, Row, quoted};
use crate::dates::any_date;
use crate::kinds::Kind;
use crate::padded::{SIDES, filled, followed};
use crate::random::Random;
use crate::text_edges::{SHORT, with_byte, words};
use std::collections::BTreeSet;

const SAMPLES_PER_KIND: usize = 60;

/// A day that every kind has: R, D and U without an hour, and R, H, V and E at this one.
const DAY: &str = "1444-11-11";
const HOUR: &str = "1444-11-11T12";

/// Spellings that the request takes and refuses, that of the exchange text too, and those of the page's
/// example.
const EXAMPLES: &str = "
    -005-01-01 -5-01-01 -0005-01-01 +005-01-01 0005-1-1 00005-01-01 -000-01-01 -0999-01-01
    -00005-01-01 0001-01-01T00 1444-02-30 -5001-01-01 1444-11-11T19";

/// Both sides of every bound on years and of every width that they are written in; and years that a
/// cut to 16 or 32 bits would make good.
const YEARS: [i64; 30] = [
    -64092, -32769, -32768, -10000, -9999, -1000, -999, -100, -99, -10, -9, -5, -1, 0, 1, 5, 9, 10,
    99, 100, 999, 1000, 1444, 9999, 10000, 32767, 32768, 65536, 66980, 4294968740,
];

/// What stands in the place of a year.
const NO_YEARS: &str = "
    - + -- ++ -0 -00 -0000 +0000 +000 00000 0 144 -14 --005 -+005 +1444 +10000 +32767 14-4";

/// Months, days and hours have two digits.
const WIDTHS: &str = "
    1444 1444- 1444-11 1444-11- 1444-1-11 1444-011-11 1444-11-1 1444-11-011 1444-1-1 1444--11-11
    1444-11-+1 1444-11-T12 1444-1-11T12 1444-11-1T12 1444-11-11T 1444-11-11T0 1444-11-11T9
    1444-11-11T012 1444-11-11T120 1444-11-11T-1";

/// Nothing may follow.
const MORE: &str = "
    1444-11-11Z 1444-11-11- 1444-11-110 1444-11-11-11 1444-11-11T12Z 1444-11-11T12:00
    1444-11-11T12T12 1444-11-11T12+01";

/// A part alone, and texts of other readers or without a mark.
const OTHERS: &str = "
    - + T T12 -11-11 1444.11.11 1444.11.11.12 43808760 43808761 14441111 144411-11 1444-1111
    1444-W46-3";

/// At and past the longest ISO text, which has 15 bytes: that is 2 as any other text is. Years past 63 and
/// 64 bits.
const LENGTHS: &str = "
    -32768-12-31T23 -32768-12-31T230 -32768-12-31T2300 -032768-12-31T23 -0032768-12-31T23
    0001444-11-11T12 00001444-11-11T12 0000001444-11-11 00000001444-11-11 1444-11-11T12:00:
    0000000000000000 00000000000000000 9999999999-01-01 99999999999-01-01 ----------------
    ----------------- 9999999999999999 9223372036854775808 9223372036854777252-11-11
    18446744073709553060-11-11T12";

/// Zeros before their years up to both sides of the limit of texts: over it 1 comes first, whatever else
/// the text is.
const FILLED: &str = "
    1444-11-11 1444-11-11T12 -005-01-01 0000-01-01 0 9223372036854775808-11-11
    18446744073709553060-11-11 18446744073709553060-11-11T12";

pub fn ask(questions: &mut Answers) {
    ask_all_six!(ask_kind(questions));
}

fn ask_kind<K: Kind>(questions: &mut Answers) {
    for text in edges() {
        questions.edge(row::<K>(&text));
    }
    for _ in 0..SAMPLES_PER_KIND {
        let text = some_text::<K>(&mut questions.random);
        questions.sample(row::<K>(&text));
    }
}

fn row<K: Kind>(text: &[u8]) -> Row {
    Row::unanswered(format!("{} i {}", K::LETTER, quoted(text)))
}

fn edges() -> BTreeSet<Vec<u8>> {
    let mut texts = BTreeSet::from([vec![]]);
    for list in [EXAMPLES, WIDTHS, MORE, OTHERS, LENGTHS] {
        texts.extend(words(list).map(|text| text.as_bytes().to_vec()));
    }
    texts.extend(words(NO_YEARS).map(|year| format!("{year}-01-01").into_bytes()));
    add_years(&mut texts);
    add_months_and_days(&mut texts);
    add_hours(&mut texts);
    add_marks(&mut texts);
    add_odd_bytes(&mut texts);
    add_long(&mut texts);
    texts
}

/// Each year as it is written, with a zero more, and with one fewer where it has one; with an hour
/// and without where it is right, else in turn.
fn add_years(texts: &mut BTreeSet<Vec<u8>>) {
    let rests = ["-01-01", "-01-01T12"];
    for (place, year) in YEARS.into_iter().enumerate() {
        let (sign, size) = (if year < 0 { "-" } else { "" }, year.unsigned_abs());
        let filled = 4 - sign.len();
        let digits = format!("{size:0filled$}");
        for rest in rests {
            texts.insert(format!("{sign}{digits}{rest}").into_bytes());
        }
        let (rest, other) = (rests[place % 2], rests[(place + 1) % 2]);
        texts.insert(format!("{sign}0{digits}{rest}").into_bytes());
        if let Some(fewer) = digits.strip_prefix('0') {
            texts.insert(format!("{sign}{fewer}{other}").into_bytes());
        }
    }
}

/// The bounds of months and days, with an hour and without.
fn add_months_and_days(texts: &mut BTreeSet<Vec<u8>>) {
    let months = [0, 1, 12, 13, 99].map(|month| (month, 1));
    let days = [0, 1, 28, 29, 30, 31, 32].map(|day| (2, day));
    let others = [(4, 30), (4, 31), (11, 31), (12, 31), (12, 32), (12, 99)];
    for (month, day) in months.into_iter().chain(days).chain(others) {
        for rest in ["", "T12"] {
            texts.insert(format!("1444-{month:02}-{day:02}{rest}").into_bytes());
        }
    }
}

fn add_hours(texts: &mut BTreeSet<Vec<u8>>) {
    for hour in (0..=25).chain([99]) {
        texts.insert(format!("{DAY}T{hour:02}").into_bytes());
    }
}

/// Each mark missing, or another one.
fn add_marks(texts: &mut BTreeSet<Vec<u8>>) {
    for place in [4, 7, 10] {
        let (before, after) = (&HOUR[..place], &HOUR[place + 1..]);
        for mark in ["", ".", "/", ":", "t", " "] {
            texts.insert(format!("{before}{mark}{after}").into_bytes());
        }
    }
    for mark in [b'.', b'/'] {
        texts.insert(with_byte(DAY, 4, mark));
        texts.insert(with_byte(DAY, 7, mark));
    }
}

/// The bytes beside the digits at places of digits; right bytes with the highest bit set; some
/// bytes before and after.
fn add_odd_bytes(texts: &mut BTreeSet<Vec<u8>>) {
    for place in [0, 5, 6, 8, 9, 11, 12] {
        for byte in [0x2f, 0x3a] {
            texts.insert(with_byte(HOUR, place, byte));
        }
    }
    for place in [0, 4, 10, 12] {
        texts.insert(with_byte(HOUR, place, HOUR.as_bytes()[place] | 0x80));
    }
    for byte in [0x00, 0x0a, 0x20, 0x22, 0x5c, 0xff] {
        texts.insert([HOUR.as_bytes(), &[byte]].concat());
        texts.insert([&[byte], DAY.as_bytes()].concat());
    }
}

/// At both sides of the limit: padded years, no year, and right texts with something after them.
fn add_long(texts: &mut BTreeSet<Vec<u8>>) {
    for length in SIDES {
        texts.extend(words(FILLED).map(|text| filled(text, length).into_bytes()));
        texts.insert(vec![b'-'; length]);
        texts.insert(followed(DAY, b' ', length));
        texts.insert(followed(HOUR, b'0', length));
    }
}

/// A date of the kind as the original writes it, or such a text with a byte replaced, added or taken
/// out.
fn some_text<K: Kind>(random: &mut Random) -> Vec<u8> {
    let date = any_date::<K>(random);
    let mut text = date.iso_8601().to_string().into_bytes();
    let place = random.index(text.len());
    match random.index(9) {
        0 => text[place] = random.pick(ALPHABET),
        1 => text.insert(place, random.pick(ALPHABET)),
        2 => drop(text.remove(place)),
        _ => {}
    }
    assert!(text.len() <= SHORT);
    text
}

const ALPHABET: &[u8] = b"0123456789-+T.";

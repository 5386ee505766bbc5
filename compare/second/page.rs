//! What document 01 itself shows, and what requests #101, #102 and #104 do, held against this reading.

use crate::book::{self, Record};
use crate::kinds::{Fields, Kind};
use crate::{exchange, iso, listing, table};

const EXAMPLE_INPUT: &str = "\
D t 1444.11.11
E t 1444.11.11.23
V b 43808760
H b 43808760
U t 1444.2.30
U b 0
D t +1444.1.1
D b -8760
";

const EXAMPLE_OUTPUT: &str = "\
D 1444.11.11 1444-11-11
E 1444.11.11.22 1444-11-11T19
V 1.1.1 0001-01-01T00
H 1.1.1.1 0001-01-01T00
U 1444.02.30 1444-02-30
? refused 8
D refused 2
D -5001.1.1 -5001-01-01
";

/// ISO texts of document 01's example and of request #102, each with its kind and what is read.
const READ: [(Kind, &str, &str); 20] = [
    (Kind::D, "1444-11-11", "1444 11 11 0"),
    (Kind::E, "1444-11-11T19", "1444 11 11 22"),
    (Kind::V, "0001-01-01T00", "1 1 1 0"),
    (Kind::H, "0001-01-01T00", "1 1 1 1"),
    (Kind::U, "1444-02-30", "1444 2 30 0"),
    (Kind::D, "-5001-01-01", "-5001 1 1 0"),
    (Kind::R, "1444-11-11", "1444 11 11 0"),
    (Kind::R, "1444-11-11T00", "1444 11 11 1"),
    (Kind::R, "1444-11-11T23", "1444 11 11 24"),
    (Kind::H, "1444-11-11T23", "1444 11 11 24"),
    (Kind::V, "1444-11-11T18", "1444 11 11 18"),
    (Kind::E, "1444-11-11T08", "1444 11 11 0"),
    (Kind::E, "1444-11-11T09", "1444 11 11 2"),
    (Kind::D, "-005-01-01", "-5 1 1 0"),
    (Kind::D, "0000-01-01", "0 1 1 0"),
    (Kind::D, "10000-01-01", "10000 1 1 0"),
    (Kind::D, "32767-01-01", "32767 1 1 0"),
    (Kind::D, "-999-01-01", "-999 1 1 0"),
    (Kind::D, "-1000-01-01", "-1000 1 1 0"),
    (Kind::D, "-32768-01-01", "-32768 1 1 0"),
];

/// Texts that are no ISO text of the kind: 2. "H, V and E demand the hour; D and U refuse one."
const NOT_READ: [(Kind, &str); 23] = [
    (Kind::H, "1444-11-11"),
    (Kind::V, "1444-11-11"),
    (Kind::E, "1444-11-11"),
    (Kind::D, "1444-11-11T00"),
    (Kind::U, "1444-11-11T00"),
    (Kind::V, "1444-11-11T07"),
    (Kind::E, "1444-11-11T07"),
    (Kind::E, "1444-11-11T20"),
    (Kind::H, "1444-11-11T24"),
    (Kind::R, "1444-11-11T24"),
    (Kind::D, "-5-01-01"),
    (Kind::D, "-0005-01-01"),
    (Kind::D, "+005-01-01"),
    (Kind::D, "0005-1-1"),
    (Kind::D, "00005-01-01"),
    (Kind::D, "-000-01-01"),
    (Kind::D, "-0999-01-01"),
    (Kind::D, "010000-01-01"),
    (Kind::D, "-01000-01-01"),
    (Kind::D, "32768-01-01"),
    (Kind::D, "-32769-01-01"),
    (Kind::D, "1444.11.11"),
    (Kind::D, "1444-11-11Z"),
];

/// The input of the page's example, once every example of the page is met.
pub fn example() -> &'static str {
    let output = listing::output(EXAMPLE_INPUT.as_bytes());
    assert_eq!(String::from_utf8_lossy(&output), EXAMPLE_OUTPUT);
    try_years();
    try_small_book();
    try_small_table();
    try_iso_texts();
    try_padded_years();
    EXAMPLE_INPUT
}

/// "-5 is `-005`" in the ISO text; and in the exchange text the years of #105, "`-00005`, `+10000`,
/// `-32768`", with those at its bounds.
fn try_years() {
    let new_year = |year| Fields {
        year,
        month: 1,
        day: 1,
        hour: 0,
    };
    assert_eq!(exchange::iso_text(Kind::D, new_year(-5)), "-005-01-01");
    for (year, text) in [
        (-32768, "-32768-01-01"),
        (-9999, "-09999-01-01"),
        (-5, "-00005-01-01"),
        (0, "0000-01-01"),
        (9999, "9999-01-01"),
        (10000, "+10000-01-01"),
        (32767, "+32767-01-01"),
    ] {
        assert_eq!(exchange::exchange_text(Kind::D, new_year(year)), text);
    }
}

/// "D 1444.11.11 alone: 00 00 00 06 01 02 05 A4 B5 80."
fn try_small_book() {
    let date = Record {
        kind: Kind::D,
        year: 1444,
        word: 11 * 4096 + 11 * 128,
    };
    let mut buffer = [0xFF; 10];
    assert!(book::new(&mut buffer).is_ok());
    assert!(matches!(book::append(&mut buffer, date), Ok(0)));
    let bytes = [0x00, 0x00, 0x00, 0x06, 0x01, 0x02, 0x05, 0xA4, 0xB5, 0x80];
    assert_eq!(buffer, bytes);
    assert!(book::record(&buffer, 0).is_ok_and(|recorded| recorded == date));
}

/// New, then 500 as D: 00 00 00 04 01 01 F4 02. Then 3 as V, and 3 removed: three bytes of 0 after
/// these, later bytes as they were.
fn try_small_table() {
    let mut buffer = [0xFF; 12];
    assert_eq!(table::new(&mut buffer), Ok(()));
    assert_eq!(table::declare(&mut buffer, 500, 2), Ok(1));
    let bytes = [0x00, 0x00, 0x00, 0x04, 0x01, 0x01, 0xF4, 0x02];
    assert_eq!(buffer[..8], bytes);
    assert_eq!(buffer[8..], [0xFF; 4]);
    assert_eq!(table::declare(&mut buffer, 3, 6), Ok(2));
    assert_eq!(table::remove(&mut buffer, 3), Ok(1));
    assert_eq!(buffer[..8], bytes);
    assert_eq!(buffer[8..], [0x00, 0x00, 0x00, 0xFF]);
}

/// "Read the ISO text of all six kinds, only in the spelling that document 01 writes." "E comes back
/// with the even component of that in-game hour, so component 3 comes back as 2." A text over 64
/// bytes is 1, whatever else it is.
fn try_iso_texts() {
    for (kind, text, date) in READ {
        let read = iso::read(kind, text.as_bytes());
        let read = read.map(|date| date.to_string());
        assert_eq!(read.as_deref(), Ok(date), "{} {text}", kind.letter());
    }
    for (kind, text) in NOT_READ {
        let is_refused = iso::read(kind, text.as_bytes()) == Err(2);
        assert!(is_refused, "{} {text}", kind.letter());
    }
    let date = Fields {
        year: 1444,
        month: 11,
        day: 11,
        hour: 3,
    };
    let text = exchange::iso_text(Kind::E, date);
    assert_eq!(text, "1444-11-11T09");
    assert!(iso::read(Kind::E, text.as_bytes()) == Ok(Fields { hour: 2, ..date }));
    assert!(iso::read(Kind::D, &padded(54, "1444-01-01")) == Err(2));
    assert!(iso::read(Kind::D, &padded(55, "1444-01-01")) == Err(1));
}

/// The leading number's true decimal value decides: 2^64 + 1444 before `.1.1` is 2. 56 zeros before
/// `1444.1.1` or `43808760` make 64 bytes, 57 make 65: 1. "D still takes 12 at most."
fn try_padded_years() {
    let lines = [
        ("R", 56, "1444.1.1", "R 1444.1.1 1444-01-01"),
        ("R", 57, "1444.1.1", "R refused 1"),
        ("R", 0, "18446744073709553060.1.1", "R refused 2"),
        ("U", 56, "43808760", "U 1.01.01 0001-01-01"),
        ("U", 57, "43808760", "U refused 1"),
        ("D", 4, "1444.1.1", "D 1444.1.1 1444-01-01"),
        ("D", 5, "1444.1.1", "D refused 2"),
        ("D", 56, "1444.1.1", "D refused 2"),
        ("D", 57, "1444.1.1", "D refused 1"),
        ("D", 56, "43808760", "D refused 2"),
        ("D", 57, "43808760", "D refused 1"),
    ];
    for (letter, zeros, text, told) in lines {
        let line = [format!("{letter} t ").into_bytes(), padded(zeros, text)].concat();
        let output = listing::output(&line);
        assert_eq!(
            output,
            format!("{told}\n").into_bytes(),
            "{letter} {zeros} {text}"
        );
    }
}

fn padded(zeros: usize, text: &str) -> Vec<u8> {
    [&vec![b'0'; zeros], text.as_bytes()].concat()
}

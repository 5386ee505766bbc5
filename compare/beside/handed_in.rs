//! Dates handed in: all of them (`words.rs`); then those that are none, codes that are no kind's, and
//! operations that a kind lacks.

use crate::kinds::{Date, DateHour, Eu5Date, Fields, RawDate, UniformDate, Vic3Date};
use crate::original::{self, Coded, refused};
use crate::port::{self, Writer};
use crate::report::{Covers, Extent, Report};
use crate::tally::{Listed, Tally, share};
use crate::words;
use crate::years::years;
use pennyquill::ffi::{self, Answer, Number};

const OPERATIONS_STEP: i16 = 9000;
const FILL: u8 = 0xA5;
pub const REFUSED: Number = Number {
    refusal: 4,
    value: 0,
};

const WRITERS: [Writer; 4] = [
    ffi::pq_write_dotted,
    ffi::pq_write_iso,
    ffi::pq_write_iso_date,
    ffi::pq_write_exchange,
];

pub fn run(extent: Extent, report: &mut Report) {
    words::run(extent, report);
    let tally = share(6, |part, tally| match part {
        0 => operations::<RawDate>(tally),
        1 => operations::<Date>(tally),
        2 => operations::<DateHour>(tally),
        3 => operations::<UniformDate>(tally),
        4 => operations::<Eu5Date>(tally),
        _ => operations::<Vic3Date>(tally),
    });
    report.row(
        "every word that is no date, each operation, at some years",
        Covers::Sample,
        tally,
    );
    let mut tally = Tally::default();
    for_all_six!(lacking(&mut tally));
    lacking_numbers(&mut tally);
    report.row(
        "operations that a kind lacks, on declared and guessed dates",
        Covers::Sample,
        tally,
    );
    report.row(
        "codes that are no kind's, each operation",
        Covers::Sample,
        codes(),
    );
}

fn operations<K: Coded>(tally: &mut Tally) {
    let dates = words::dates::<K>();
    let first = dates.iter().position(Option::is_some);
    let good = u32::from(first.expect("a kind has dates") as u16);
    for year in years(Extent::Quick, OPERATIONS_STEP) {
        let year = u32::from(year as u16) << 16;
        for word in (0..=u16::MAX).filter(|&word| dates[usize::from(word)].is_none()) {
            tally.met(Listed::NoDate);
            all_refused(tally, K::CODE, year | u32::from(word), year | good);
        }
    }
}

/// Every operation on this date is 4, and changes no byte; `good` is a date where the kind is one.
fn all_refused(tally: &mut Tally, kind: u32, date: u32, good: u32) {
    let asked = |what: &str| format!("kind {kind}, {date:#010x}: {what}");
    let mut hold = |answer: Answer, what: &str| tally.hold(refused(4), answer, || asked(what));
    hold(ffi::pq_without_mark(kind, date), "without its mark");
    hold(ffi::pq_add_days(kind, date, 1), "plus 1");
    hold(ffi::pq_start_of_day(kind, date), "start of day");
    let mut hold = |number: Number, what: &str| tally.hold(REFUSED, number, || asked(what));
    hold(ffi::pq_to_number(kind, date), "to number");
    hold(ffi::pq_days_until(kind, date, good), "days until");
    hold(ffi::pq_days_until(kind, good, date), "days until it");
    hold(ffi::pq_order(kind, date, good), "order");
    hold(ffi::pq_order(kind, good, date), "order with it");
    for writer in WRITERS {
        for room in [0, 20] {
            let mut out = [FILL; 20];
            let answer = port::write(writer, kind, date, &mut out[..room]);
            tally.hold((refused(4), [FILL; 20]), (answer, out), || asked("written"));
        }
    }
    let mut book = [0, 0, 0, 1, 1, FILL, FILL, FILL, FILL, FILL];
    let before = book;
    let answer = port::book_append(&mut book, kind, date);
    tally.hold((refused(4), before), (answer, book), || asked("appended"));
    let answer = port::book_append(&mut book[..3], kind, date);
    tally.hold((refused(4), before), (answer, book), || {
        asked("appended to no book")
    });
}

/// Every day of a kind at some years, declared and guessed, by each operation that the kind lacks. That of the
/// ISO date alone is asked where texts are written.
fn lacking<K: Coded>(tally: &mut Tally) {
    for year in years(Extent::Quick, OPERATIONS_STEP) {
        for (month, day, hour) in original::days::<K>() {
            let date = original::bits(Fields::new(year, month, day, hour));
            lacking_of::<K>(tally, date);
            lacking_of::<K>(tally, date | GUESSED);
        }
    }
}

/// The mark of a guessed date.
const GUESSED: u32 = 1;

fn lacking_of<K: Coded>(tally: &mut Tally, date: u32) {
    let (writes_numbers, counts_days) = (
        matches!(K::LETTER, 'D' | 'H'),
        matches!(K::LETTER, 'D' | 'E' | 'V'),
    );
    let asked = || format!("{} {date:#010x}: an operation it lacks", K::LETTER);
    let mut date_refused = |answer: Answer| {
        tally.met(Listed::NoOperation);
        tally.hold(refused(4), answer, asked);
    };
    if K::LETTER != 'E' {
        date_refused(ffi::pq_start_of_day(K::CODE, date));
    }
    if !counts_days {
        date_refused(ffi::pq_add_days(K::CODE, date, 1));
    }
    let mut number_refused = |number: Number| {
        tally.met(Listed::NoOperation);
        tally.hold(REFUSED, number, asked);
    };
    if !counts_days {
        number_refused(ffi::pq_days_until(K::CODE, date, date));
    }
    if !writes_numbers {
        number_refused(ffi::pq_to_number(K::CODE, date));
    }
}

/// U reads no number, and R guesses at none.
fn lacking_numbers(tally: &mut Tally) {
    for number in (i32::MIN..=i32::MAX).step_by(10_007) {
        let answers = [
            ffi::pq_read_number(4, number),
            ffi::pq_guess_number(4, number),
            ffi::pq_guess_number(1, number),
        ];
        for answer in answers {
            tally.met(Listed::NoOperation);
            tally.hold(refused(4), answer, || format!("U or R: number {number}"));
        }
    }
}

/// D 1444.11.11.
const PLAIN: u32 = 1444 << 16 | 11 << 12 | 11 << 7;

/// Among them those whose lowest bits are a kind's.
fn codes() -> Tally {
    let below = (7..1 << 16).chain([0]);
    let above = (16..32).flat_map(|shift| (0..=7).map(move |low| 1_u32 << shift | low));
    let mut tally = Tally::default();
    for kind in below
        .chain(above)
        .chain([u32::MAX, u32::MAX - 253, 1 << 31])
    {
        tally.met(Listed::NoOperation);
        all_refused(&mut tally, kind, PLAIN, PLAIN);
        let asked = || format!("kind {kind}");
        tally.hold(refused(4), ffi::pq_read_number(kind, 43_808_760), asked);
        tally.hold(refused(4), ffi::pq_guess_number(kind, 43_808_760), asked);
        tally.hold(
            refused(4),
            ffi::pq_from_fields(kind, 1444, 11, 11, 6),
            asked,
        );
        for text in [b"1444.11.11".as_slice(), b"", b"00000000001444.11.11"] {
            tally.hold(refused(4), port::read(kind, text), asked);
        }
        for text in [b"1444-11-11".as_slice(), b"", b"1444-11-11T00:00:00"] {
            tally.hold(refused(4), port::read_iso(kind, text), asked);
        }
    }
    tally
}

//! What is timed.

use crate::books;
use crate::bounded;
use crate::gaps;
use crate::inputs::{
    Day, all_days, days, declared, dotted, dotted_at_noon, dotted_padded, iso, numbers, questions,
    steps, table, texts, uniform,
};
use crate::leagues;
use crate::listings;
use crate::measure::{Times, compare};
use crate::plain_table::{self, Kind};
use eu5save::Eu5Date;
use jomini::common::{Date, DateHour, PdsDate, PdsDateFormatter, RawDate, UniformDate};
use pennyquill::ffi::{self, Answer, Lookup, Number};
use std::cell::RefCell;
use std::hint::black_box;
use vic3save::Vic3Date;

const R: u32 = 1;
const D: u32 = 2;
const H: u32 = 3;
const U: u32 = 4;
const E: u32 = 5;
const V: u32 = 6;

/// Shows each task as it is done.
pub type Show<'a> = &'a mut dyn FnMut(&str, Times);

pub fn all(show: Show) {
    reading(show);
    reading_iso(show);
    numbers_read(show);
    writing(show);
    counting(show);
    books::all(show);
    gaps::all(show);
    look_up_each(show);
    look_up_all(show);
    leagues::all(show);
    listings::all(show);
}

fn reading(show: Show) {
    reading_dates(show);
    let at_noon = || texts(all_days(), dotted_at_noon);
    read(show, "R", R, at_noon(), |text| RawDate::parse(text));
    read(show, "H", H, at_noon(), |text| DateHour::parse(text));
    read(show, "E", E, at_noon(), |text| Eu5Date::parse(text));
    read(show, "V", V, at_noon(), |text| Vic3Date::parse(text));
    let uniform = texts(all_days(), |day| dotted_padded(uniform(day)));
    read(show, "U", U, uniform, |text| UniformDate::parse(text));
    reading_padded(show);
}

/// Zeros before the year, or before a number, up to the longest text.
fn reading_padded(show: Show) {
    let padded = |text: String| format!("{text:0>64}");
    let raw = texts(all_days(), |day| padded(dotted_at_noon(day)));
    let name = "R in 64 bytes";
    read(show, name, R, raw, |text| RawDate::parse(text));
    let number_text = |number: i32| padded(number.to_string()).into_bytes();
    let numbers = numbers(12).into_iter().map(number_text).collect();
    let name = "H number in 64 bytes";
    read(show, name, H, numbers, |text| DateHour::parse(text));
}

/// D's four fast shapes, all of them mixed, a text in none of them, and the text of a number. A closure
/// for each, so that the compiler may put the original's reader into each loop.
fn reading_dates(show: Show) {
    let is_short = |number: u8| number < 10;
    let shaped = |short_month: bool, short_day: bool| {
        let month = move |day: Day| is_short(day.month) == short_month;
        let fits = |day: Day| month(day) && is_short(day.day) == short_day;
        texts(days(fits), dotted)
    };
    let short = shaped(true, true);
    read(show, "D `YYYY.M.D`", D, short, |text| Date::parse(text));
    let long_month = shaped(false, true);
    read(show, "D `YYYY.MM.D`", D, long_month, |text| {
        Date::parse(text)
    });
    let long_day = shaped(true, false);
    read(show, "D `YYYY.M.DD`", D, long_day, |text| Date::parse(text));
    let long = shaped(false, false);
    read(show, "D `YYYY.MM.DD`", D, long, |text| Date::parse(text));
    let mixed = texts(all_days(), dotted);
    let name = "D in all four shapes";
    read(show, name, D, mixed, |text| Date::parse(text));
    let plain = texts(all_days(), |day| format!("-{}", dotted(day)));
    let name = "D in no fast shape, `-YYYY.M.D`";
    read(show, name, D, plain, |text| Date::parse(text));
    let number_text = |number: i32| number.to_string().into_bytes();
    let numbers = numbers(0).into_iter().map(number_text).collect();
    read(show, "D number", D, numbers, |text| Date::parse(text));
}

fn read<A>(show: Show, name: &str, kind: u32, texts: Vec<Vec<u8>>, parse: impl Fn(&[u8]) -> A) {
    let bounded = |text: &Vec<u8>| bounded::read_text(kind, text.as_ptr(), text.len());
    // SAFETY: the pointer and the length are those of a slice.
    let port = |text: &Vec<u8>| unsafe { ffi::pq_read_text(kind, text.as_ptr(), text.len()) };
    let times = compare(&texts, |text| parse(text), bounded, port);
    show(&format!("read text, {name}"), times);
}

/// The dates of the dotted texts above; D's are those in all four shapes. The stored hour 12 is written
/// as T11 by R and H, as T14 by E.
fn reading_iso(show: Show) {
    let iso_at = |hour: u8| move |day: Day| format!("{}T{hour:02}", iso(day));
    let noon = dotted_at_noon;
    read_iso(show, "D", D, dotted, iso, |text| Date::parse(text));
    read_iso(show, "R", R, noon, iso_at(11), |text| RawDate::parse(text));
    read_iso(show, "H", H, noon, iso_at(11), |text| DateHour::parse(text));
    read_iso(show, "E", E, noon, iso_at(14), |text| Eu5Date::parse(text));
    read_iso(show, "V", V, noon, iso_at(12), |text| Vic3Date::parse(text));
    let dotted = |day| dotted_padded(uniform(day));
    let iso = |day| iso(uniform(day));
    read_iso(show, "U", U, dotted, iso, |text| UniformDate::parse(text));
}

/// The original reads no ISO text: here its reader of the same date's dotted text stands for that.
fn read_iso<A>(
    show: Show,
    name: &str,
    kind: u32,
    dotted: impl Fn(Day) -> String,
    iso: impl Fn(Day) -> String,
    parse: impl Fn(&[u8]) -> A,
) {
    type Spelled = (Vec<u8>, Vec<u8>);
    let (dotted, iso) = (texts(all_days(), dotted), texts(all_days(), iso));
    let dates: Vec<Spelled> = dotted.into_iter().zip(iso).collect();
    let original = |(dotted, _): &Spelled| parse(dotted);
    let bounded = |(dotted, _): &Spelled| bounded::read_text(kind, dotted.as_ptr(), dotted.len());
    // SAFETY: the pointer and the length are those of a slice.
    let port = |(_, iso): &Spelled| unsafe { ffi::pq_read_iso(kind, iso.as_ptr(), iso.len()) };
    for date in &dates {
        assert_eq!(port(date), bounded(date));
    }
    show(
        &format!("read ISO text, {name}, beside the dotted text ‡"),
        compare(&dates, original, bounded, port),
    );
}

fn numbers_read(show: Show) {
    let (days, hours) = (numbers(0), numbers(12));
    decode(show, "R", R, &hours, RawDate::from_binary);
    decode(show, "D", D, &days, Date::from_binary);
    decode(show, "H", H, &hours, DateHour::from_binary);
    decode(show, "E", E, &hours, Eu5Date::from_binary);
    decode(show, "V", V, &hours, Vic3Date::from_binary);
    guess(show, "D", D, &days, Date::from_binary_heuristic);
    guess(show, "H", H, &hours, DateHour::from_binary_heuristic);
    guess(show, "E", E, &hours, Eu5Date::from_binary_heuristic);
    guess(show, "V", V, &hours, Vic3Date::from_binary_heuristic);
    // What a converter asks most: a plain number, which is no date.
    let plain: Vec<i32> = (0..512).map(|number| number * 7 + 1).collect();
    guess(show, "D, refused", D, &plain, Date::from_binary_heuristic);
    guess(
        show,
        "H, refused",
        H,
        &plain,
        DateHour::from_binary_heuristic,
    );
    guess(
        show,
        "E, refused",
        E,
        &plain,
        Eu5Date::from_binary_heuristic,
    );
    guess(
        show,
        "V, refused",
        V,
        &plain,
        Vic3Date::from_binary_heuristic,
    );
}

fn decode<A>(show: Show, name: &str, kind: u32, numbers: &[i32], decode: impl Fn(i32) -> A) {
    let bounded = |&number: &i32| bounded::read_number(kind, number);
    let port = |&number: &i32| ffi::pq_read_number(kind, number);
    let times = compare(numbers, |&number| decode(number), bounded, port);
    show(&format!("decode a number, {name}"), times);
}

fn guess<A>(show: Show, name: &str, kind: u32, numbers: &[i32], guess: impl Fn(i32) -> A) {
    let bounded = |&number: &i32| bounded::guess_number(kind, number);
    let port = |&number: &i32| ffi::pq_guess_number(kind, number);
    let times = compare(numbers, |&number| guess(number), bounded, port);
    show(&format!("guess at a number, {name}"), times);
}

/// Dates of the original, each with its bits.
fn dates<K>(hour: u32, make: impl Fn(Day) -> K) -> Vec<(K, u32)> {
    let bits = |day: Day| {
        let word = u32::from(day.month) << 12 | u32::from(day.day) << 7 | hour << 2;
        u32::from(day.year as u16) << 16 | word
    };
    all_days()
        .into_iter()
        .map(|day| (make(day), bits(day)))
        .collect()
}

fn plain_dates() -> Vec<(Date, u32)> {
    dates(0, |day| Date::from_ymd(day.year, day.month, day.day))
}

fn hourly_dates() -> Vec<(DateHour, u32)> {
    dates(12, |day| {
        DateHour::from_ymdh(day.year, day.month, day.day, 12)
    })
}

fn vic3_dates() -> Vec<(Vic3Date, u32)> {
    dates(12, |day| {
        Vic3Date::from_ymdh(day.year, day.month, day.day, 12)
    })
}

fn eu5_dates() -> Vec<(Eu5Date, u32)> {
    let date = |day: Day| Eu5Date::parse(dotted_at_noon(day));
    dates(12, |day| date(day).expect("12 is an hour of E"))
}

type Writer = unsafe extern "C" fn(u32, u32, *mut u8, usize) -> Answer;

fn writing(show: Show) {
    let put: [Writer; 2] = [bounded::write_dotted, ffi::pq_write_dotted];
    let text = "dotted text";
    write(show, text, "D", D, plain_dates(), Date::game_fmt, put);
    write(show, text, "H", H, hourly_dates(), DateHour::game_fmt, put);
    write(show, text, "V", V, vic3_dates(), Vic3Date::game_fmt, put);
    let put: [Writer; 2] = [bounded::write_iso, ffi::pq_write_iso];
    let text = "ISO text";
    write(show, text, "D", D, plain_dates(), Date::iso_8601, put);
    write(show, text, "H", H, hourly_dates(), DateHour::iso_8601, put);
    write(show, text, "V", V, vic3_dates(), Vic3Date::iso_8601, put);
}

fn write<K>(
    show: Show,
    name: &str,
    letter: &str,
    kind: u32,
    dates: Vec<(K, u32)>,
    text: fn(&K) -> PdsDateFormatter,
    [bounded, port]: [Writer; 2],
) {
    let original = |(date, _): &(K, u32)| {
        let mut out = [0; 16];
        let answer = bounded::put(text(date), &mut out);
        (out, answer)
    };
    let by = |writer: Writer| {
        move |&(_, bits): &(K, u32)| {
            let mut out = [0; 16];
            // SAFETY: the pointer and the length are those of an array that is ours.
            let answer = unsafe { writer(kind, bits, out.as_mut_ptr(), out.len()) };
            (out, answer)
        }
    };
    show(
        &format!("write {name}, {letter}"),
        compare(&dates, original, by(bounded), by(port)),
    );
}

fn counting(show: Show) {
    add(show, "D", D, plain_dates(), |date, days| {
        date.add_days(days)
    });
    add(show, "E", E, eu5_dates(), |date, days| date.add_days(days));
    add(show, "V", V, vic3_dates(), |date, days| date.add_days(days));
    subtract(show, "D", D, plain_dates(), |one, other| {
        one.days_until(other)
    });
    subtract(show, "E", E, eu5_dates(), |one, other| {
        one.days_until(other)
    });
    subtract(show, "V", V, vic3_dates(), |one, other| {
        one.days_until(other)
    });
}

fn add<K>(show: Show, name: &str, kind: u32, dates: Vec<(K, u32)>, add: impl Fn(&K, i32) -> K) {
    let inputs: Vec<((K, u32), i32)> = dates.into_iter().zip(steps()).collect();
    let bounded = |((_, bits), days): &((K, u32), i32)| bounded::add_days(kind, *bits, *days);
    let port = |((_, bits), days): &((K, u32), i32)| ffi::pq_add_days(kind, *bits, *days);
    let times = compare(&inputs, |((date, _), days)| add(date, *days), bounded, port);
    show(&format!("add days, {name}"), times);
}

fn subtract<K: Copy>(
    show: Show,
    name: &str,
    kind: u32,
    dates: Vec<(K, u32)>,
    until: impl Fn(K, &K) -> i32,
) {
    type Pair<K> = ((K, u32), (K, u32));
    let others = dates.clone().into_iter().rev();
    let pairs: Vec<Pair<K>> = dates.into_iter().zip(others).collect();
    let bounded = |(one, other): &Pair<K>| -> Number { bounded::days_until(kind, one.1, other.1) };
    let port = |(one, other): &Pair<K>| ffi::pq_days_until(kind, one.1, other.1);
    let times = compare(&pairs, |(one, other)| until(one.0, &other.0), bounded, port);
    show(&format!("difference of days, {name}"), times);
}

type Question = (u32, i32);

/// The original has no field table: here a plain search and the original's readers stand for it.
fn look_up_each(show: Show) {
    let declared = declared();
    let table = table(&declared);
    let fields = &declared;
    let plain = |&(field, number): &Question| {
        // The compiler knows the game's kind, as a program for one game would have it.
        plain_table::lookup(fields, field, Kind::D, number)
    };
    let bounded = |&(field, number): &Question| {
        plain_table::lookup_one(fields.as_ptr(), fields.len(), field, D, number)
    };
    let port = |&(field, number): &Question| {
        // SAFETY: the pointer and the length are those of a slice.
        unsafe { ffi::pq_table_lookup(table.as_ptr(), table.len(), field, D, number) }
    };
    show(
        "look up among 2,048 fields, one by one, beside a plain search †",
        compare(&questions(&declared), plain, bounded, port),
    );
}

/// The same questions in one call, into room that is lent.
fn look_up_all(show: Show) {
    let declared = declared();
    let table = table(&declared);
    let (fields, numbers): (Vec<u32>, Vec<i32>) = questions(&declared).into_iter().unzip();
    let count = fields.len();
    let dates = RefCell::new(Vec::from_iter(fields.iter().map(|_| None)));
    let plain = |_: &()| {
        let mut out = dates.borrow_mut();
        for ((out, &field), &number) in out.iter_mut().zip(&fields).zip(&numbers) {
            *out = plain_table::lookup(&declared, field, Kind::D, number);
        }
        black_box(&*out);
    };
    let empty = Lookup {
        refusal: 0,
        kind: 0,
        value: 0,
        guessed: 0,
    };
    let answers = RefCell::new(vec![empty; count]);
    let bounded = |_: &()| {
        let mut out = answers.borrow_mut();
        plain_table::lookup_all(
            declared.as_ptr(),
            declared.len(),
            D,
            fields.as_ptr(),
            numbers.as_ptr(),
            out.as_mut_ptr(),
            count,
        );
    };
    let port = |_: &()| {
        let mut out = answers.borrow_mut();
        // SAFETY: the pointers and the lengths are those of slices, the last one's structs being four numbers each.
        unsafe {
            ffi::pq_table_lookup_all(
                table.as_ptr(),
                table.len(),
                D,
                fields.as_ptr(),
                count,
                numbers.as_ptr(),
                count,
                out.as_mut_ptr().cast(),
                4 * count,
            )
        }
    };
    bounded(&());
    let bounded_answers = answers.borrow().clone();
    port(&());
    assert_eq!(*answers.borrow(), bounded_answers);
    show(
        "look up among 2,048 fields, as one of 512 in a call, beside a plain search †",
        compare(&[()], plain, bounded, port).of_each(count),
    );
}

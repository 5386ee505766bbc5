//! What stands for the original where it has no gap report: one loop over the records as they stand in the bytes, and a
//! text that is put into a lent buffer piece by piece. It checks nothing but the bounds of its slices.

use crate::bounded;
use crate::plain_book::{HEAD, taken_apart};
use pennyquill::ffi::Answer;
use std::fmt;
use std::slice;

/// Of each kind, in the order of the codes: count, earliest, latest, step, place, sum.
pub type Figures = [[i64; 6]; 6];

const LETTERS: [char; 6] = ['R', 'D', 'H', 'U', 'E', 'V'];

/// Which of them count days.
const HAS_DAYS: [bool; 6] = [false, true, false, false, true, true];

/// The days of the year before each month, by its number.
const BEFORE: [i64; 16] = [
    0, 0, 31, 59, 90, 120, 151, 181, 212, 243, 273, 304, 334, 0, 0, 0,
];

/// Year, month, day and hour.
fn fields(date: i64) -> [i64; 4] {
    let year = (date >> 16) as i16;
    [year.into(), date >> 12 & 15, date >> 7 & 31, date >> 2 & 31]
}

/// Before year 0 the days of a year run backward.
fn day_number(date: i64) -> i64 {
    let [year, month, day, _] = fields(date);
    let day_of_year = BEFORE[month as usize] + day - 1;
    365 * year + day_of_year * if year < 0 { -1 } else { 1 }
}

/// A number that is less where the date is earlier.
fn order(date: i64) -> i64 {
    date ^ (1 << 31)
}

/// The last record of a kind.
#[derive(Clone, Copy, Default)]
struct Last {
    days: i64,
    place: i64,
}

#[inline(always)]
fn count(row: &mut [i64; 6], last: &mut Last, date: i64, place: i64) {
    let days = day_number(date);
    let [count, earliest, latest, longest, from, sum] = row;
    if *count == 0 {
        (*earliest, *latest, *from) = (date, date, place);
    } else {
        let step = days - last.days;
        *sum += step;
        if step.abs() > *longest {
            (*longest, *from) = (step.abs(), last.place);
        }
    }
    *count += 1;
    if order(date) < order(*earliest) {
        *earliest = date;
    }
    if order(date) > order(*latest) {
        *latest = date;
    }
    *last = Last { days, place };
}

#[inline(always)]
fn counted<'a>(records: impl Iterator<Item = &'a [u8]>) -> Figures {
    let mut rows = Figures::default();
    let mut last = [Last::default(); 6];
    for (place, record) in records.map(taken_apart).enumerate() {
        let row = record.kind as usize - 1;
        let date = i64::from(record.value & !3);
        count(&mut rows[row], &mut last[row], date, place as i64);
    }
    for (row, has_days) in rows.iter_mut().zip(HAS_DAYS) {
        if !has_days {
            row[3..].fill(0);
        }
    }
    rows
}

#[inline(always)]
pub fn figures(book: &[u8]) -> Figures {
    let records = |size| book[HEAD..].chunks_exact(size);
    // A loop for each version, so that the compiler knows the size of a record.
    match book[4] {
        2 => counted(records(7)),
        _ => counted(records(5)),
    }
}

/// A date's dotted text; with or without two digits for month and day.
struct Dotted(i64, bool);

impl fmt::Display for Dotted {
    fn fmt(&self, f: &mut fmt::Formatter) -> fmt::Result {
        let &Dotted(date, is_padded) = self;
        let [year, month, day, hour] = fields(date);
        match (is_padded, hour) {
            (true, _) => write!(f, "{year}.{month:02}.{day:02}"),
            (false, 0) => write!(f, "{year}.{month}.{day}"),
            (false, _) => write!(f, "{year}.{month}.{day}.{hour}"),
        }
    }
}

struct Report(Figures);

impl fmt::Display for Report {
    fn fmt(&self, f: &mut fmt::Formatter) -> fmt::Result {
        for ((row, letter), has_days) in self.0.iter().zip(LETTERS).zip(HAS_DAYS) {
            let &[count, earliest, latest, longest, place, sum] = row;
            write!(f, "{letter} {count}")?;
            if count > 0 {
                let dotted = |date| Dotted(date, letter == 'U');
                write!(f, " {} {}", dotted(earliest), dotted(latest))?;
            }
            if count > 0 && has_days {
                write!(f, " {longest} {place} {sum}")?;
            }
            writeln!(f)?;
        }
        Ok(())
    }
}

#[inline(always)]
pub fn report(book: &[u8], out: &mut [u8]) -> Answer {
    bounded::put(Report(figures(book)), out)
}

/// The same behind a function of the boundary's shape.
#[inline(never)]
pub extern "C" fn report_at(book: *const u8, len: usize, out: *mut u8, room: usize) -> Answer {
    // SAFETY: the caller hands over the parts of slices, of which the second is its alone.
    let (book, out) = unsafe {
        (
            slice::from_raw_parts(book, len),
            slice::from_raw_parts_mut(out, room),
        )
    };
    report(book, out)
}

/// The figures behind a function of the boundary's shape.
#[inline(never)]
pub extern "C" fn figures_at(book: *const u8, len: usize, out: *mut Figures) {
    // SAFETY: the caller hands over the parts of a slice, and figures that are its alone.
    unsafe { *out = figures(slice::from_raw_parts(book, len)) }
}

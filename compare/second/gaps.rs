//! "#108 Exact gap report" of document 02: over a book of either version, a line for each kind, and the same as
//! numbers.

use crate::book::{self, Refusal, refused};
use crate::both_books;
use crate::exchange::dotted_text;
use crate::kinds::{Fields, KINDS, Kind, MONTH_LENGTHS};
use crate::second_book::FieldRecord;

/// "count, earliest and latest date", "then step, place, sum".
pub const OF_KIND: usize = 6;

/// These of each kind, one kind after the other.
pub const NUMBERS: usize = OF_KIND * KINDS.len();

/// A record of a kind: its date, without the mark, and its place among all records of the book.
#[derive(Clone, Copy)]
struct Placed {
    date: Fields,
    place: usize,
}

/// "the longest step in days", the place where it first occurs, "and the sum of all signed steps".
struct Steps {
    longest: i64,
    place: usize,
    sum: i64,
}

/// What is told of a kind that has a record.
struct Gaps {
    count: usize,
    earliest: Fields,
    latest: Fields,
    /// "For D, E and V also".
    steps: Option<Steps>,
}

impl Gaps {
    /// None is "A kind with no record".
    fn of(kind: Kind, book: &[FieldRecord]) -> Option<Gaps> {
        let records = of_kind(kind, book);
        // "Order: year, then packed word." The word of fields has no mark.
        let order = |date: &Fields| (date.year, date.word());
        let dates = || records.iter().map(|record| record.date);
        Some(Gaps {
            count: records.len(),
            earliest: dates().min_by_key(order)?,
            latest: dates().max_by_key(order)?,
            steps: counts_days(kind).then(|| Steps::between(&records)),
        })
    }
}

/// The records of a kind, in the order that they have in the book.
fn of_kind(kind: Kind, book: &[FieldRecord]) -> Vec<Placed> {
    let mut records = Vec::new();
    for (place, FieldRecord { record, .. }) in book.iter().enumerate() {
        if record.kind == kind {
            let date = Fields::from_word(record.year, record.word);
            records.push(Placed { date, place });
        }
    }
    records
}

fn counts_days(kind: Kind) -> bool {
    matches!(kind, Kind::D | Kind::E | Kind::V)
}

impl Steps {
    /// "largest absolute difference between one record and the next of that kind, with the place of the earlier
    /// record where it first occurs": of the two, the one that stands first in the book. "with one, step 0 and sum
    /// 0, place that record"; so it is where every step is 0.
    fn between(records: &[Placed]) -> Steps {
        let mut steps = Steps {
            longest: 0,
            place: records[0].place,
            sum: 0,
        };
        for pair in records.windows(2) {
            let step = day_number(pair[1].date) - day_number(pair[0].date);
            if step.abs() > steps.longest {
                steps.longest = step.abs();
                steps.place = pair[0].place;
            }
            steps.sum += step;
        }
        steps
    }
}

/// "365 × year + day of year for years from 0, and 365 × year - day of year before." "E and V differences ignore
/// hours."
pub fn day_number(date: Fields) -> i64 {
    let year = i64::from(date.year);
    if year >= 0 {
        365 * year + day_of_year(date)
    } else {
        365 * year - day_of_year(date)
    }
}

/// "Day of year runs from 0": the days of the year before this one.
fn day_of_year(date: Fields) -> i64 {
    let months = &MONTH_LENGTHS[..usize::from(date.month) - 1];
    i64::from(months.iter().sum::<u16>() + date.day - 1)
}

/// "One line per kind in code order"; each ends in byte 10.
pub fn text(buffer: &[u8]) -> Result<String, Refusal> {
    let records = both_books::records(buffer)?;
    let line = |kind| line(kind, Gaps::of(kind, &records)) + "\n";
    Ok(KINDS.into_iter().map(line).collect())
}

/// "single spaces: letter, count, dotted earliest and latest, then step, place, sum. A kind with no record prints
/// its letter and 0".
fn line(kind: Kind, gaps: Option<Gaps>) -> String {
    let letter = kind.letter();
    let Some(gaps) = gaps else {
        return format!("{letter} 0");
    };
    let (earliest, latest) = (
        dotted_text(kind, gaps.earliest),
        dotted_text(kind, gaps.latest),
    );
    let ends = format!("{letter} {} {earliest} {latest}", gaps.count);
    match gaps.steps {
        Some(Steps {
            longest,
            place,
            sum,
        }) => format!("{ends} {longest} {place} {sum}"),
        None => ends,
    }
}

/// What the program prints: "A refused book prints only the word refused, the number and 11's place."
pub fn printed(buffer: &[u8]) -> String {
    match text(buffer) {
        Ok(text) => text,
        Err(refusal) => book::told_refusal(refusal) + "\n",
    }
}

/// The report at the front of a buffer; it gives its length. 7, "buffer shorter than the text", comes last.
pub fn report(buffer: &[u8], out: &mut [u8]) -> Result<usize, Refusal> {
    let text = text(buffer)?;
    let Some(front) = out.get_mut(..text.len()) else {
        return refused(7);
    };
    front.copy_from_slice(text.as_bytes());
    Ok(text.len())
}

/// The same as numbers, at the front of `out`; it gives how many. 7, last, where there is no room for all.
pub fn figures(buffer: &[u8], out: &mut [i64]) -> Result<usize, Refusal> {
    let records = both_books::records(buffer)?;
    let Some(front) = out.get_mut(..NUMBERS) else {
        return refused(7);
    };
    for (row, kind) in front.chunks_exact_mut(OF_KIND).zip(KINDS) {
        row.copy_from_slice(&numbers(Gaps::of(kind, &records)));
    }
    Ok(NUMBERS)
}

/// What a line tells, and 0 for each number that it lacks.
fn numbers(gaps: Option<Gaps>) -> [i64; OF_KIND] {
    let Some(gaps) = gaps else {
        return [0; OF_KIND];
    };
    let (earliest, latest) = (bits(gaps.earliest), bits(gaps.latest));
    let [step, place, sum] = match gaps.steps {
        Some(steps) => [steps.longest, steps.place as i64, steps.sum],
        None => [0; 3],
    };
    [gaps.count as i64, earliest, latest, step, place, sum]
}

/// A date as one number: its year's sixteen bits above its packed word, with the mark 0.
pub fn bits(date: Fields) -> i64 {
    i64::from(date.year as u16) << 16 | i64::from(date.word())
}

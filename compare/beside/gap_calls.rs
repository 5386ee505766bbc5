//! The gap report beside the boundary's own single calls: the walk over a book's records, the order of two dates, the
//! days from one to the other, and the dotted text. What they give, put together, is the report.

use crate::book_questions::shown;
use crate::gap_questions::{FIGURES, given};
use crate::port;
use crate::second_books::MOST_RECORDS;
use crate::tally::Tally;
use pennyquill::ffi;

const LETTERS: [char; 6] = ['R', 'D', 'H', 'U', 'E', 'V'];

/// Those that count days.
const DAYS: [u32; 3] = [2, 5, 6];

/// The numbers of a record that is walked over, and those of a kind in the figures.
const MEMBERS: usize = 4;
const OF_KIND: usize = 6;

/// A record of a kind: its place in the book, and its date without the mark.
type Placed = (usize, u32);

/// The figures and the text of a sound book.
pub fn compare(tally: &mut Tally, book: &[u8]) {
    let (answer, text, figures) = given(book);
    let asked = || format!("by single calls: {}", shown(book));
    tally.hold(0, answer.refusal, asked);
    let (mut right_text, mut right_figures) = (String::new(), Vec::with_capacity(FIGURES));
    let records = walked(book);
    for kind in 1..=6 {
        let of_kind: Vec<Placed> = (0..)
            .zip(&records)
            .filter(|(_, (code, _))| *code == kind)
            .map(|(place, &(_, date))| (place, ffi::pq_without_mark(kind, date).value))
            .collect();
        let row = row(kind, &of_kind);
        right_text.push_str(&line(kind, row));
        right_figures.extend(row);
    }
    tally.hold(&right_figures, &figures, asked);
    tally.hold(right_text, String::from_utf8_lossy(&text).into(), asked);
}

/// The kind's code and the date of each record.
fn walked(book: &[u8]) -> Vec<(u32, u32)> {
    let mut out = vec![0; MEMBERS * MOST_RECORDS];
    let answer = port::any_book_records(book, 0, &mut out);
    let fours = out.chunks(MEMBERS).take(answer.value as usize);
    fours.map(|four| (four[1], four[2])).collect()
}

fn days(kind: u32, from: u32, to: u32) -> i64 {
    ffi::pq_days_until(kind, from, to).value.into()
}

fn row(kind: u32, records: &[Placed]) -> [i64; OF_KIND] {
    let (Some(&(first_place, first)), Some(&(_, last))) = (records.first(), records.last()) else {
        return [0; OF_KIND];
    };
    let (mut earliest, mut latest) = (first, first);
    for &(_, date) in records {
        if ffi::pq_order(kind, date, earliest).value < 0 {
            earliest = date;
        }
        if ffi::pq_order(kind, date, latest).value > 0 {
            latest = date;
        }
    }
    let count = records.len() as i64;
    let ends = [earliest, latest].map(i64::from);
    if !DAYS.contains(&kind) {
        return [count, ends[0], ends[1], 0, 0, 0];
    }
    let (mut longest, mut place) = (0, first_place);
    for pair in records.windows(2) {
        let step = days(kind, pair[0].1, pair[1].1).abs();
        if step > longest {
            (longest, place) = (step, pair[0].0);
        }
    }
    // The sum is the difference from the first record to the last: this is held here, and not added up again.
    let sum = days(kind, first, last);
    [count, ends[0], ends[1], longest, place as i64, sum]
}

fn line(kind: u32, [count, earliest, latest, longest, place, sum]: [i64; OF_KIND]) -> String {
    let letter = LETTERS[kind as usize - 1];
    if count == 0 {
        return format!("{letter} 0\n");
    }
    let (earliest, latest) = (dotted(kind, earliest as u32), dotted(kind, latest as u32));
    let ends = format!("{letter} {count} {earliest} {latest}");
    if DAYS.contains(&kind) {
        format!("{ends} {longest} {place} {sum}\n")
    } else {
        format!("{ends}\n")
    }
}

fn dotted(kind: u32, date: u32) -> String {
    let mut text = [0; 15];
    let answer = port::write(ffi::pq_write_dotted, kind, date, &mut text);
    String::from_utf8_lossy(&text[..answer.value as usize]).into()
}

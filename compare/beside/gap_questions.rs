//! One question about the gap report, asked of the boundary and of the second reading: the answer, and everything
//! that was lent, afterwards.

use crate::book_questions::{shown, told};
use crate::port;
use crate::report::grouped;
use crate::tally::Tally;
use crate::version_questions::hold_bytes;
use pennyquill::ffi::Answer;
use second_reading::gaps;

/// Room that every report fits.
pub const ROOM: usize = 306;

pub const FIGURES: usize = gaps::NUMBERS;

/// What stands in the numbers before.
const FILLER: i64 = 0x5A5A_A5A5_5A5A_A5A5;

/// Bytes or numbers before and after what is lent, which are not. Three bytes before leave it unaligned.
pub const BEFORE: usize = 3;
const AFTER: usize = 9;

/// The greatest refusal of these two calls.
const LAST_REFUSAL: usize = 11;

/// How often the second reading gave each answer: by the refusal, 0 where there was none.
#[derive(Default)]
pub struct Met {
    reports: [u64; LAST_REFUSAL + 1],
    figures: [u64; LAST_REFUSAL + 1],
}

impl Met {
    pub fn add(&mut self, more: &Met) {
        let add = |sums: &mut [u64], more: &[u64]| {
            sums.iter_mut()
                .zip(more)
                .for_each(|(sum, more)| *sum += more);
        };
        add(&mut self.reports, &more.reports);
        add(&mut self.figures, &more.figures);
    }

    /// A row for each answer.
    pub fn table(&self) -> String {
        let mut table = String::from("\n| gap report | of texts | of figures |\n|---|---:|---:|\n");
        for (refusal, name) in [
            (0, "given"),
            (7, "7: no room"),
            (9, "9: the length"),
            (10, "10: the version"),
            (11, "11: a bad record"),
        ] {
            let (texts, figures) = (self.reports[refusal], self.figures[refusal]);
            let (texts, figures) = (grouped(texts), grouped(figures));
            table.push_str(&format!("| {name} | {texts} | {figures} |\n"));
        }
        table
    }
}

fn count(number: usize) -> u32 {
    number as u32
}

/// Bytes that differ from place to place.
pub fn lent(room: usize) -> Vec<u8> {
    let length = BEFORE + room + AFTER;
    (0..length).map(|place| place as u8 ^ 0xA5).collect()
}

/// The answer, every byte that is lent, those before and after, and those of the book.
pub fn report(tally: &mut Tally, met: &mut Met, book: &[u8], room: usize) {
    let (mut right_out, mut port_out, mut port_book) = (lent(room), lent(room), book.to_vec());
    let given = BEFORE..BEFORE + room;
    let right = told(gaps::report(book, &mut right_out[given.clone()]), count);
    let port = port::gap_report(&mut port_book, &mut port_out[given]);
    met.reports[right.refusal as usize] += 1;
    let asked = || format!("report into {room} bytes of {}", shown(book));
    tally.hold(right, port, asked);
    hold_bytes(tally, &right_out, &port_out, asked);
    hold_bytes(tally, book, &port_book, asked);
}

/// The same of the figures.
pub fn figures(tally: &mut Tally, met: &mut Met, book: &[u8], room: usize) {
    let all = BEFORE + room + AFTER;
    let (mut right_out, mut port_out) = (vec![FILLER; all], vec![FILLER; all]);
    let mut port_book = book.to_vec();
    let given = BEFORE..BEFORE + room;
    let right = told(gaps::figures(book, &mut right_out[given.clone()]), count);
    let port = port::gap_figures(&mut port_book, &mut port_out[given]);
    met.figures[right.refusal as usize] += 1;
    let asked = || format!("figures into {room} numbers of {}", shown(book));
    tally.hold(right, port, asked);
    let differs = |place: &usize| right_out[*place] != port_out[*place];
    let place = (0..all).find(differs);
    let at = |numbers: &[i64]| place.map(|place| (place as i64 - BEFORE as i64, numbers[place]));
    tally.hold(at(&right_out), at(&port_out), asked);
    hold_bytes(tally, book, &port_book, asked);
}

/// Both, into room that is enough.
pub fn both(tally: &mut Tally, met: &mut Met, book: &[u8]) {
    report(tally, met, book, ROOM);
    figures(tally, met, book, FIGURES);
}

/// Both, into none, into a byte and a number too little, and into what is just enough.
pub fn around(tally: &mut Tally, met: &mut Met, book: &[u8]) {
    let length = length(book);
    for room in [0, length.saturating_sub(1), length, ROOM] {
        report(tally, met, book, room);
    }
    for room in [0, FIGURES - 1, FIGURES, FIGURES + 1] {
        figures(tally, met, book, room);
    }
}

/// How long the report is; of a refused book, as long as may be.
pub fn length(book: &[u8]) -> usize {
    gaps::text(book).map_or(ROOM, |text| text.len())
}

/// What the boundary answers into room that is enough: of a sound book, its text and its numbers.
pub fn given(book: &[u8]) -> (Answer, Vec<u8>, Vec<i64>) {
    let (mut text, mut numbers, mut book) = (vec![0; ROOM], vec![0; FIGURES], book.to_vec());
    let answer = port::gap_report(&mut book, &mut text);
    port::gap_figures(&mut book, &mut numbers);
    text.truncate(answer.value as usize);
    (answer, text, numbers)
}

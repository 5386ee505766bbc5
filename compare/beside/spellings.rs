//! Every date of every kind: its dotted and ISO text byte for byte, both read back, its number; and the same
//! texts and numbers of guessed dates. The exchange text is held against the second reading.

use crate::kinds::{Fields, Written};
use crate::original::{self, Coded, days, gives, read, refused};
use crate::port::{self, Writer};
use crate::report::{Covers, Extent, Report};
use crate::tally::{Listed, Tally, share};
use crate::years::{some_years, years};
use pennyquill::ffi::{self, Number};
use second_reading::marks::Mark;
use std::fmt::{self, Write};

const QUICK_STEP: i16 = 211;

/// No text is as long as this, and none has this byte.
pub const ROOM: usize = 20;
const FILL: u8 = 0xA5;

pub fn run(extent: Extent, report: &mut Report) {
    for_all_six!(texts(extent, report));
    for_each!(numbers(extent, report): Date, DateHour);
    let years = some_years(extent);
    for_all_six!(guessed_texts(&years, report));
    for_each!(guessed_numbers(&years, report): Date, DateHour);
}

/// Goes through the dates of a kind.
pub fn each_date<K: Coded>(extent: Extent, ask: impl Fn(&mut Tally, K) + Sync) -> Tally {
    each_date_of(&years(extent, QUICK_STEP), ask)
}

/// Those of these years.
pub fn each_date_of<K: Coded>(years: &[i16], ask: impl Fn(&mut Tally, K) + Sync) -> Tally {
    let days = days::<K>();
    share(years.len() as u64, |part, tally| {
        let year = years[part as usize];
        for &(month, day, hour) in &days {
            let date = original::with::<K>(Fields::new(year, month, day, hour));
            ask(tally, date.expect("a kind has the same days in every year"));
        }
    })
}

fn texts<K: Coded>(extent: Extent, report: &mut Report) {
    let tally = each_date::<K>(extent, |tally, date: K| {
        let texts = spell(tally, date, Mark::Declared);
        for text in texts.each_ref().map(Line::text) {
            let asked = || format!("{} t {}", K::LETTER, text.escape_ascii());
            tally.hold(read::<K>(text), port::read(K::CODE, text), asked);
        }
    });
    let name = format!("{}: every date, its texts and both read back", K::LETTER);
    report.row(&name, extent.covers_all(), tally);
}

/// "all texts disregard it".
fn guessed_texts<K: Coded>(years: &[i16], report: &mut Report) {
    let tally = each_date_of::<K>(years, |tally, date: K| {
        spell(tally, date, Mark::Guessed);
    });
    let count = years.len();
    let name = format!(
        "{}: guessed dates of {count} years, the same texts",
        K::LETTER
    );
    report.row(&name, Covers::Sample, tally);
}

/// Gives the dotted text and the ISO text.
fn spell<K: Coded>(tally: &mut Tally, date: K, mark: Mark) -> [Line; 2] {
    let (dotted, iso) = (Line::of(date.game_fmt()), Line::of(date.iso_8601()));
    let mut hold =
        |writer: Writer, text: &[u8]| hold_written::<K>(tally, writer, (date, mark), text);
    hold(ffi::pq_write_dotted, dotted.text());
    hold(ffi::pq_write_iso, iso.text());
    hold(ffi::pq_write_exchange, exchange(date).as_bytes());
    match date.third_text() {
        Some(text) => hold(ffi::pq_write_iso_date, text.as_bytes()),
        None => {
            tally.met(Listed::NoOperation);
            let none = (refused(4), b"".as_slice());
            hold_room::<K>(tally, ffi::pq_write_iso_date, (date, mark), none, ROOM);
        }
    }
    [dotted, iso]
}

/// In a buffer longer than the text, in one as long, and in one a byte shorter.
fn hold_written<K: Coded>(tally: &mut Tally, writer: Writer, date: (K, Mark), text: &[u8]) {
    let given = (gives(text.len() as u32), text);
    hold_room::<K>(tally, writer, date, given, ROOM);
    hold_room::<K>(tally, writer, date, given, text.len());
    hold_room::<K>(tally, writer, date, (refused(7), b""), text.len() - 1);
}

/// The answer, and every byte: those written, those after the text, and those after the room.
fn hold_room<K: Coded>(
    tally: &mut Tally,
    writer: Writer,
    (date, mark): (K, Mark),
    (answer, text): (ffi::Answer, &[u8]),
    room: usize,
) {
    let (mut right, mut out) = ([FILL; ROOM], [FILL; ROOM]);
    right[..text.len()].copy_from_slice(text);
    let bits = date.bits_with(mark);
    let port = port::write(writer, K::CODE, bits, &mut out[..room]);
    let asked = || format!("{} {bits:#010x} written, room {room}", K::LETTER);
    tally.hold((answer, right), (port, out), asked);
}

fn exchange<K: Coded>(date: K) -> String {
    use second_reading::{exchange::exchange_text, kinds};
    let kind = kinds::KINDS[K::CODE as usize - 1];
    let Fields {
        year,
        month,
        day,
        hour,
    } = date.fields();
    let (month, day, hour) = (month.into(), day.into(), hour.into());
    exchange_text(
        kind,
        kinds::Fields {
            year,
            month,
            day,
            hour,
        },
    )
}

/// The dates of D and H as numbers; those of other kinds have none.
fn numbers<K: Coded + Written>(extent: Extent, report: &mut Report) {
    let tally = each_date::<K>(extent, |tally, date: K| number(tally, date, Mark::Declared));
    report.row(
        &format!("{}: every date as a number", K::LETTER),
        extent.covers_all(),
        tally,
    );
}

fn guessed_numbers<K: Coded + Written>(years: &[i16], report: &mut Report) {
    let tally = each_date_of::<K>(years, |tally, date: K| number(tally, date, Mark::Guessed));
    let count = years.len();
    let name = format!(
        "{}: guessed dates of {count} years, the same number",
        K::LETTER
    );
    report.row(&name, Covers::Sample, tally);
}

fn number<K: Coded + Written>(tally: &mut Tally, date: K, mark: Mark) {
    let right = Number {
        refusal: 0,
        value: date.number(),
    };
    let bits = date.bits_with(mark);
    let asked = || format!("{} {bits:#010x} as a number", K::LETTER);
    tally.hold(right, ffi::pq_to_number(K::CODE, bits), asked);
}

/// What the original writes, without an allocation.
struct Line {
    bytes: [u8; ROOM],
    length: usize,
}

impl Line {
    fn of(text: impl fmt::Display) -> Line {
        let mut line = Line {
            bytes: [0; ROOM],
            length: 0,
        };
        write!(line, "{text}").expect("a text fits");
        line
    }

    fn text(&self) -> &[u8] {
        &self.bytes[..self.length]
    }
}

impl Write for Line {
    fn write_str(&mut self, piece: &str) -> fmt::Result {
        let end = self.length + piece.len();
        let place = self.bytes.get_mut(self.length..end).ok_or(fmt::Error)?;
        place.copy_from_slice(piece.as_bytes());
        self.length = end;
        Ok(())
    }
}

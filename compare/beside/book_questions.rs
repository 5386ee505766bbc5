//! One question about a book, asked of the boundary and of the second reading: the answer, and every byte of
//! the buffer afterwards.

use crate::port;
use crate::tally::Tally;
use pennyquill::ffi::{Answer, Record};
use second_reading::book::{self, Refusal};
use second_reading::kinds::KINDS;

pub fn told<T>(answer: Result<T, Refusal>, value: impl FnOnce(T) -> u32) -> Answer {
    match answer {
        Ok(given) => Answer {
            refusal: 0,
            value: value(given),
        },
        Err(Refusal::Number(refusal)) => Answer {
            refusal: refusal.into(),
            value: 0,
        },
        Err(Refusal::Record(place)) => Answer {
            refusal: 11,
            value: place as u32,
        },
        Err(Refusal::FieldOrMark(place)) => Answer {
            refusal: 21,
            value: place as u32,
        },
    }
}

pub fn shown(buffer: &[u8]) -> String {
    let first: String = buffer
        .iter()
        .take(20)
        .map(|byte| format!("{byte:02x}"))
        .collect();
    format!("{} bytes, {first}", buffer.len())
}

pub fn check(tally: &mut Tally, buffer: &[u8]) {
    let right = told(book::check(buffer), |records| records as u32);
    tally.hold(right, port::book_check(buffer), || {
        format!("check of {}", shown(buffer))
    });
}

pub fn record(tally: &mut Tally, buffer: &[u8], place: usize) {
    let right = match book::record(buffer, place) {
        Ok(record) => Record {
            refusal: 0,
            kind: code(record.kind),
            value: u32::from(record.year as u16) << 16 | u32::from(record.word),
            field: 0,
        },
        Err(refusal) => {
            let Answer { refusal, value } = told::<()>(Err(refusal), |()| 0);
            Record {
                refusal,
                kind: 0,
                value,
                field: 0,
            }
        }
    };
    let asked = || format!("record {place} of {}", shown(buffer));
    tally.hold(right, port::book_record(buffer, place), asked);
}

pub fn code(kind: second_reading::kinds::Kind) -> u32 {
    let place = KINDS.iter().position(|&other| other == kind);
    place.expect("a kind is one of six") as u32 + 1
}

/// What is answered, and every byte afterwards.
pub fn append(tally: &mut Tally, buffer: &[u8], kind: u32, date: u32) {
    let (mut right_buffer, mut port_buffer) = (buffer.to_vec(), buffer.to_vec());
    let record = book::Record {
        kind: KINDS[kind as usize - 1],
        year: (date >> 16) as u16 as i16,
        word: date as u16,
    };
    let right = told(book::append(&mut right_buffer, record), |place| {
        place as u32
    });
    let port = port::book_append(&mut port_buffer, kind, date);
    let asked = || format!("kind {kind}, {date:#010x} appended to {}", shown(buffer));
    tally.hold(right, port, asked);
    tally.hold(&right_buffer, &port_buffer, asked);
}

/// The date with each mark.
pub fn append_marked(tally: &mut Tally, buffer: &[u8], kind: u32, date: u32) {
    for mark in 0..=3 {
        append(tally, buffer, kind, date + mark);
    }
}

pub fn new(tally: &mut Tally, buffer: &[u8]) {
    let (mut right_buffer, mut port_buffer) = (buffer.to_vec(), buffer.to_vec());
    let right = told(book::new(&mut right_buffer), |()| 0);
    let port = port::book_new(&mut port_buffer);
    let asked = || format!("new over {}", shown(buffer));
    tally.hold(right, port, asked);
    tally.hold(&right_buffer, &port_buffer, asked);
}

//! One question about a book of version 2, about a book of either version, or about a move, asked of the boundary
//! and of the second reading: the answer, and everything that was lent, afterwards.

use crate::book_questions::{code, shown, told};
use crate::port;
use crate::tally::Tally;
use pennyquill::ffi::{Answer, Record};
use second_reading::book::Refusal;
use second_reading::second_book::{self, FieldRecord};
use second_reading::{both_books, moves};

/// What stands in the numbers of a walk before it.
const FILLER: u32 = 0xA5A5_A5A5;

/// Bytes or numbers after what is lent, which are not.
const GUARD: usize = 9;

const VERSION_PLACE: usize = 4;
const MEMBERS: usize = 4;

fn count(records: usize) -> u32 {
    records as u32
}

/// The first place where they differ, with the bytes of both there.
pub fn hold_bytes(tally: &mut Tally, right: &[u8], port: &[u8], asked: impl FnOnce() -> String) {
    let differs = |place: &usize| right[*place] != port[*place];
    let place = if right == port {
        None
    } else {
        (0..right.len()).find(differs)
    };
    let at = |bytes: &[u8]| place.map(|place| (place, bytes[place]));
    tally.hold(at(right), at(port), asked);
}

fn recorded(answer: Result<FieldRecord, Refusal>) -> Record {
    match answer {
        Ok(FieldRecord { record, field }) => Record {
            refusal: 0,
            kind: code(record.kind),
            value: u32::from(record.year as u16) << 16 | u32::from(record.word),
            field: field.into(),
        },
        Err(refusal) => {
            let Answer { refusal, value } = told::<()>(Err(refusal), |()| 0);
            Record {
                refusal,
                kind: 0,
                value,
                field: 0,
            }
        }
    }
}

pub fn new(tally: &mut Tally, buffer: &[u8]) {
    let (mut right_buffer, mut port_buffer) = (buffer.to_vec(), buffer.to_vec());
    let right = told(second_book::new(&mut right_buffer), |()| 0);
    let port = port::book2_new(&mut port_buffer);
    let asked = || format!("new of version 2 over {}", shown(buffer));
    tally.hold(right, port, asked);
    hold_bytes(tally, &right_buffer, &port_buffer, asked);
}

pub fn check(tally: &mut Tally, buffer: &[u8]) {
    let right = told(second_book::check(buffer), count);
    let asked = || format!("check of version 2 of {}", shown(buffer));
    tally.hold(right, port::book2_check(buffer), asked);
}

pub fn record(tally: &mut Tally, buffer: &[u8], place: usize) {
    let right = recorded(second_book::record(buffer, place));
    let asked = || format!("record {place} of version 2 of {}", shown(buffer));
    tally.hold(right, port::book2_record(buffer, place), asked);
}

/// What is handed in: a kind's code, a field and a date.
pub type HandedIn = (u32, u32, u32);

pub fn append(tally: &mut Tally, buffer: &[u8], (kind, field, date): HandedIn) {
    let (mut right_buffer, mut port_buffer) = (buffer.to_vec(), buffer.to_vec());
    let right = told(
        second_book::append(&mut right_buffer, kind, field, date),
        count,
    );
    let port = port::book2_append(&mut port_buffer, kind, field, date);
    let asked = || {
        let book = shown(buffer);
        format!("kind {kind}, field {field}, {date:#010x} appended to version 2 of {book}")
    };
    tally.hold(right, port, asked);
    hold_bytes(tally, &right_buffer, &port_buffer, asked);
}

fn is_second(buffer: &[u8]) -> bool {
    buffer.get(VERSION_PLACE) == Some(&2)
}

/// The second reading's answer, and that of the call of its version.
pub fn any_check(tally: &mut Tally, buffer: &[u8]) {
    let right = told(both_books::check(buffer), count);
    let port = port::any_book_check(buffer);
    let asked = || format!("check of either version of {}", shown(buffer));
    tally.hold(right, port, asked);
    let own = match is_second(buffer) {
        true => port::book2_check(buffer),
        false => port::book_check(buffer),
    };
    tally.hold(own, port, asked);
}

pub fn any_record(tally: &mut Tally, buffer: &[u8], place: usize) {
    let right = recorded(both_books::record(buffer, place));
    let port = port::any_book_record(buffer, place);
    let asked = || format!("record {place} of either version of {}", shown(buffer));
    tally.hold(right, port, asked);
    let own = match is_second(buffer) {
        true => port::book2_record(buffer, place),
        false => port::book_record(buffer, place),
    };
    tally.hold(own, port, asked);
}

/// The records from a place on, in room for so many numbers. What is after that room stays too.
pub fn walk(tally: &mut Tally, buffer: &[u8], place: usize, room: usize) -> (Answer, Vec<u32>) {
    let (mut right_out, mut port_out) = (vec![FILLER; room + GUARD], vec![FILLER; room + GUARD]);
    let walked = both_books::walk(buffer, place, &mut right_out[..room]);
    let port = port::any_book_records(buffer, place, &mut port_out[..room]);
    let asked = || format!("walk from {place} into {room} of {}", shown(buffer));
    tally.hold(told(walked, count), port, asked);
    let differs = |place: &usize| right_out[*place] != port_out[*place];
    tally.hold(None, (0..room + GUARD).find(differs), asked);
    (port, port_out)
}

/// The same, and each record of it is what the call for one record answers.
pub fn walk_and_ask(tally: &mut Tally, buffer: &[u8], place: usize, room: usize) {
    let (answer, out) = walk(tally, buffer, place, room);
    let walked = if answer.refusal == 0 { answer.value } else { 0 };
    for (step, four) in out.chunks(MEMBERS).take(walked as usize).enumerate() {
        let Record {
            refusal,
            kind,
            value,
            field,
        } = port::any_book_record(buffer, place + step);
        let asked = || format!("record {place} + {step} of {}", shown(buffer));
        tally.hold(&[refusal, kind, value, field][..], four, asked);
    }
}

/// Where a move goes.
#[derive(Clone, Copy, PartialEq, Eq, Debug)]
pub enum To {
    One,
    Two,
}

/// A target whose bytes differ from place to place, and what is after it.
fn target(room: usize) -> Vec<u8> {
    (0..room + GUARD).map(|place| place as u8 ^ 0xA5).collect()
}

/// What is answered, every byte of the target, those after it, and those of the book that is moved. Gives the
/// target where the move is done.
pub fn moved(tally: &mut Tally, to: To, from: &[u8], room: usize) -> Option<Vec<u8>> {
    let (mut right_target, mut port_target, mut port_from) =
        (target(room), target(room), from.to_vec());
    let lent = &mut port_target[..room];
    let (right, port) = match to {
        To::One => (
            moves::to_1(from, &mut right_target[..room]),
            port::book_to_1(&mut port_from, lent),
        ),
        To::Two => (
            moves::to_2(from, &mut right_target[..room]),
            port::book_to_2(&mut port_from, lent),
        ),
    };
    let asked = || format!("move to {to:?} into {room} bytes of {}", shown(from));
    tally.hold(told(right, count), port, asked);
    hold_bytes(tally, &right_target, &port_target, asked);
    hold_bytes(tally, from, &port_from, asked);
    port_target.truncate(room);
    (port.refusal == 0).then_some(port_target)
}

pub fn move_both(tally: &mut Tally, from: &[u8], room: usize) {
    moved(tally, To::One, from, room);
    moved(tally, To::Two, from, room);
}

/// Every call of this file but new and append.
pub fn ask_all(tally: &mut Tally, buffer: &[u8], place: usize, room: usize) {
    check(tally, buffer);
    any_check(tally, buffer);
    record(tally, buffer, place);
    any_record(tally, buffer, place);
    walk(tally, buffer, place, room);
    move_both(tally, buffer, room);
}

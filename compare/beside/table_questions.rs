//! One question about a table, asked of the boundary and of the second reading: the answer, and
//! every byte of the buffer afterwards.

use crate::original::{gives, refused};
use crate::port;
use crate::tally::Tally;
use pennyquill::ffi::{Answer, Lookup, Record};
use second_reading::book::number_of;
use second_reading::table::{self, Entry, Looked};

/// What stands in `out` before a call.
const FILLER: u32 = 0xA5A5_A5A5;

/// The members of a lookup's answer, as numbers of `out`.
const MEMBERS: usize = 4;

/// Game kinds, and questions with one field and one number each.
pub struct Questions<'a> {
    pub game: u32,
    pub fields: &'a [u32],
    pub numbers: &'a [i32],
    /// How many numbers `out` has room for.
    pub room: usize,
}

pub fn told<T>(answer: Result<T, u8>, value: impl FnOnce(T) -> u32) -> Answer {
    match answer {
        Ok(given) => gives(value(given)),
        Err(refusal) => refused(refusal.into()),
    }
}

pub fn entries(count: usize) -> u32 {
    count as u32
}

pub fn shown(buffer: &[u8]) -> String {
    let first: String = buffer
        .iter()
        .take(40)
        .map(|byte| format!("{byte:02x}"))
        .collect();
    format!("{} bytes, {first}", buffer.len())
}

pub fn new(tally: &mut Tally, buffer: &mut [u8]) {
    let before = buffer.to_vec();
    let mut port_buffer = before.clone();
    let right = told(table::new(buffer), |()| 0);
    let port = port::table_new(&mut port_buffer);
    let asked = || format!("new table over {}", shown(&before));
    tally.hold(right, port, asked);
    tally.hold(&*buffer, &port_buffer[..], asked);
}

pub fn check(tally: &mut Tally, buffer: &[u8]) {
    let right = told(table::check(buffer), entries);
    let asked = || format!("check of the table {}", shown(buffer));
    tally.hold(right, port::table_check(buffer), asked);
}

pub fn entry(tally: &mut Tally, buffer: &[u8], place: usize) {
    let right = told_entry(table::entry(buffer, place));
    let asked = || format!("entry {place} of {}", shown(buffer));
    tally.hold(right, port::table_entry(buffer, place), asked);
}

pub fn told_entry(entry: Result<Entry, u8>) -> Record {
    match entry {
        Ok(Entry { field, kind }) => Record {
            refusal: 0,
            kind: number_of(kind).into(),
            value: 0,
            field: field.into(),
        },
        Err(refusal) => Record {
            refusal: refusal.into(),
            kind: 0,
            value: 0,
            field: 0,
        },
    }
}

pub fn declare(tally: &mut Tally, buffer: &mut [u8], field: u32, code: u32) {
    let before = buffer.to_vec();
    let mut port_buffer = before.clone();
    let right = told(table::declare(buffer, field, code), entries);
    let port = port::table_declare(&mut port_buffer, field, code);
    let asked = || format!("field {field} declared as {code} in {}", shown(&before));
    tally.hold(right, port, asked);
    tally.hold(&*buffer, &port_buffer[..], asked);
}

pub fn remove(tally: &mut Tally, buffer: &mut [u8], field: u32) {
    let before = buffer.to_vec();
    let mut port_buffer = before.clone();
    let right = told(table::remove(buffer, field), entries);
    let port = port::table_remove(&mut port_buffer, field);
    let asked = || format!("field {field} removed from {}", shown(&before));
    tally.hold(right, port, asked);
    tally.hold(&*buffer, &port_buffer[..], asked);
}

fn looked(buffer: &[u8], field: u32, game: u32, number: i32) -> Lookup {
    told_looked(table::lookup(buffer, field, game, number))
}

pub fn told_looked(looked: Result<Looked, u8>) -> Lookup {
    match looked {
        Ok(Looked {
            is_guessed,
            kind,
            date,
        }) => Lookup {
            refusal: 0,
            kind: number_of(kind).into(),
            value: u32::from(date.fields.year as u16) << 16 | u32::from(date.word()),
            guessed: is_guessed.into(),
        },
        Err(refusal) => Lookup {
            refusal: refusal.into(),
            kind: 0,
            value: 0,
            guessed: 0,
        },
    }
}

pub fn lookup(tally: &mut Tally, buffer: &[u8], field: u32, game: u32, number: i32) {
    let right = looked(buffer, field, game, number);
    let port = port::table_lookup(buffer, field, game, number);
    let asked = || {
        format!(
            "{number} of field {field} under {game} in {}",
            shown(buffer)
        )
    };
    tally.hold(right, port, asked);
}

/// All questions in one call: what it answers, what stands in `out`, and that each answer in it is
/// that of a lookup by itself.
pub fn lookup_all(tally: &mut Tally, buffer: &[u8], questions: &Questions) {
    let &Questions {
        game,
        fields,
        numbers,
        room,
    } = questions;
    let mut right_out = vec![FILLER; room];
    let right = all_looked(buffer, questions, &mut right_out);
    let mut port_out = vec![FILLER; room];
    let port = port::table_lookup_all(buffer, game, fields, numbers, &mut port_out);
    let asked = || {
        let counts = (fields.len(), numbers.len(), room);
        format!("{counts:?} looked up under {game} in {}", shown(buffer))
    };
    tally.hold(right, port, asked);
    let differs = |(right, port): (&u32, &u32)| right != port;
    let first_difference = right_out.iter().zip(&port_out).position(differs);
    tally.hold(None, first_difference, asked);
    let answered = port_out.chunks(MEMBERS).take(port.value as usize);
    for (answer, (&field, &number)) in answered.zip(fields.iter().zip(numbers)) {
        let alone = port::table_lookup(buffer, field, game, number);
        tally.hold(&members(alone)[..], answer, asked);
    }
}

/// As many answers as fields, numbers and `out` have places for. What refuses the whole call is
/// what refuses the lookup of a field that is allowed, 3 excepted.
fn all_looked(buffer: &[u8], questions: &Questions, out: &mut [u32]) -> Answer {
    match table::lookup(buffer, 1, questions.game, 0) {
        Ok(_) | Err(3) => (),
        Err(refusal) => return refused(refusal.into()),
    }
    let asked = questions.fields.iter().zip(questions.numbers);
    let mut answered = 0;
    for (answer, (&field, &number)) in out.chunks_exact_mut(MEMBERS).zip(asked) {
        answer.copy_from_slice(&members(looked(buffer, field, questions.game, number)));
        answered += 1;
    }
    gives(answered)
}

fn members(lookup: Lookup) -> [u32; MEMBERS] {
    let Lookup {
        refusal,
        kind,
        value,
        guessed,
    } = lookup;
    [refusal, kind, value, guessed]
}

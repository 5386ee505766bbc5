//! The lines of a script that are about books of version 2, about both versions with their report, and about
//! moves. README.md has their format.

use crate::book::{self, Refusal, told_refusal};
use crate::kinds::Kind;
use crate::script::{number, shown};
use crate::second_book::{self, FieldRecord};
use crate::{both_books, gaps, moves};

/// What each number of a walk's room is before, and of the report's figures; and each byte of its text's.
const BEFORE: u32 = 7;
const FIGURE_BEFORE: i64 = 7;
const BYTE_BEFORE: u8 = b'~';

/// The most room that a line about the report gives.
const MOST_ROOM: usize = 400;
const MOST_NUMBERS: usize = 64;

/// What is told of a line without its first word, `second`.
pub fn operate_second(buffer: &mut [u8], words: &[&str]) -> Result<String, Refusal> {
    match words {
        ["new"] => second_book::new(buffer).map(|()| "done".to_string()),
        ["check"] => second_book::check(buffer).map(told_number),
        ["record", place] => second_book::record(buffer, number(place)).map(told_record),
        ["append", letter, field, year, word] => {
            let kind = Kind::from_letter(letter).expect("a kind's letter");
            let field: u16 = number(field);
            let date = date_of(number(year), number(word));
            let code = book::number_of(kind).into();
            second_book::append(buffer, code, field.into(), date).map(told_number)
        }
        _ => panic!("no line of a script: second {}", words.join(" ")),
    }
}

fn date_of(year: i16, word: u16) -> u32 {
    u32::from(year as u16) << 16 | u32::from(word)
}

/// What is told of a line without its first word, `any`.
pub fn operate_any(buffer: &[u8], words: &[&str]) -> Result<String, Refusal> {
    match words {
        ["check"] => both_books::check(buffer).map(told_number),
        ["record", place] => both_books::record(buffer, number(place)).map(told_record),
        ["records", place, numbers] => Ok(walked(buffer, number(place), number(numbers))),
        ["report", room] => Ok(reported(buffer, number(room))),
        ["figures", numbers] => Ok(figured(buffer, number(numbers))),
        _ => panic!("no line of a script: any {}", words.join(" ")),
    }
}

/// How many records were walked over, or the refusal, and all numbers afterwards.
fn walked(buffer: &[u8], place: usize, numbers: usize) -> String {
    let mut out = vec![BEFORE; numbers];
    let told = match both_books::walk(buffer, place, &mut out) {
        Ok(records) => told_number(records),
        Err(refusal) => {
            assert!(out.iter().all(|&left| left == BEFORE));
            told_refusal(refusal)
        }
    };
    let numbers: Vec<String> = out.iter().map(u32::to_string).collect();
    format!("{told} {{{}}}", numbers.join(" "))
}

/// The report's length, or the refusal, and all lent bytes afterwards: byte 10 is shown as `/`.
fn reported(buffer: &[u8], room: usize) -> String {
    assert!(room <= MOST_ROOM, "more room than a line may give: {room}");
    let mut out = vec![BYTE_BEFORE; room];
    let told = match gaps::report(buffer, &mut out) {
        Ok(length) => told_number(length),
        Err(refusal) => {
            assert!(out.iter().all(|&left| left == BYTE_BEFORE));
            told_refusal(refusal)
        }
    };
    let text = String::from_utf8(out).expect("a report is text");
    format!("{told} {{{}}}", text.replace('\n', "/"))
}

/// How many figures there are, or the refusal, and all lent numbers afterwards.
fn figured(buffer: &[u8], numbers: usize) -> String {
    assert!(numbers <= MOST_NUMBERS, "more room than a line may give");
    let mut out = vec![FIGURE_BEFORE; numbers];
    let told = match gaps::figures(buffer, &mut out) {
        Ok(count) => told_number(count),
        Err(refusal) => {
            assert!(out.iter().all(|&left| left == FIGURE_BEFORE));
            told_refusal(refusal)
        }
    };
    let numbers: Vec<String> = out.iter().map(i64::to_string).collect();
    format!("{told} {{{}}}", numbers.join(" "))
}

/// What is told of a move, with the target. Where it is done, the target is the buffer from then on.
pub fn moved(buffer: &mut Vec<u8>, version: &str, room: usize, byte: u8) -> String {
    let mut target = vec![byte; room];
    let answer = match version {
        "1" => moves::to_1(buffer, &mut target),
        "2" => moves::to_2(buffer, &mut target),
        _ => panic!("no line of a script: to {version}"),
    };
    let told = match answer {
        Ok(records) => {
            buffer.clone_from(&target);
            told_number(records)
        }
        Err(refusal) => {
            assert!(target.iter().all(|&left| left == byte));
            told_refusal(refusal)
        }
    };
    format!("{told} [{}]", shown(&target))
}

fn told_number(number: usize) -> String {
    number.to_string()
}

fn told_record(record: FieldRecord) -> String {
    let FieldRecord { record, field } = record;
    let (letter, year, word) = (record.kind.letter(), record.year, record.word);
    format!("{letter} {field} {year} {word}")
}

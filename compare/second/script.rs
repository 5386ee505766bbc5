//! Runs a script of book operations and table operations and tells their answers. README.md has the
//! format of both.

use crate::book::{self, Record, Refusal, told_refusal};
use crate::kinds::Kind;
use crate::{table_script, version_script};
use std::str::FromStr;

/// The longest buffer that is shown byte for byte.
const LONGEST_SHOWN: usize = 40;

pub fn run(script: &str) -> String {
    let mut buffer = Vec::new();
    let told = script.lines().filter_map(|line| step(&mut buffer, line));
    told.map(|line| line + "\n").collect()
}

/// What is told of a line: a remark itself, an operation's answer, of other lines nothing.
fn step(buffer: &mut Vec<u8>, line: &str) -> Option<String> {
    if line.starts_with('#') {
        return Some(line.to_string());
    }
    let words: Vec<&str> = line.split(' ').collect();
    if prepare(buffer, &words) {
        return None;
    }
    if let ["to", version, room, byte] = words[..] {
        let told = version_script::moved(buffer, version, number(room), number(byte));
        return Some(format!("{line} = {told}"));
    }
    let before = buffer.clone();
    let answer = operate(buffer, &words).unwrap_or_else(|refusal| {
        assert!(before == *buffer, "a refusal changes no buffer: {line}");
        told_refusal(refusal)
    });
    Some(format!("{line} = {answer} [{}]", shown(buffer)))
}

/// Changes the bytes of the buffer if the line says so. Such a line is no operation.
fn prepare(buffer: &mut Vec<u8>, words: &[&str]) -> bool {
    match words {
        ["buffer", length, byte] => *buffer = vec![number(byte); number(length)],
        ["set", place, byte] => buffer[number::<usize>(place)] = number(byte),
        ["copy", from, count, to] => {
            let (from, to): (usize, usize) = (number(from), number(to));
            for step in 0..number(count) {
                buffer[to + step] = buffer[from + step];
            }
        }
        ["entries", place, first, count, code] => {
            table_script::put_entries(
                &mut buffer[number(place)..],
                number(first),
                number(count),
                number(code),
            );
        }
        _ => return false,
    }
    true
}

fn operate(buffer: &mut [u8], words: &[&str]) -> Result<String, Refusal> {
    match words {
        ["new"] => book::new(buffer).map(|()| "done".to_string()),
        ["check"] => book::check(buffer).map(|records| records.to_string()),
        ["record", place] => book::record(buffer, number(place)).map(told_record),
        ["append", letter, year, word] => {
            let record = Record {
                kind: Kind::from_letter(letter).expect("a kind's letter"),
                year: number(year),
                word: number(word),
            };
            book::append(buffer, record).map(|place| place.to_string())
        }
        ["second", words @ ..] => version_script::operate_second(buffer, words),
        ["any", words @ ..] => version_script::operate_any(buffer, words),
        ["table", words @ ..] => table_script::operate(buffer, words).map_err(Refusal::Number),
        _ => panic!("no line of a script: {}", words.join(" ")),
    }
}

pub fn number<N: FromStr>(word: &str) -> N {
    match word.parse() {
        Ok(number) => number,
        Err(_) => panic!("no such number: {word}"),
    }
}

fn told_record(record: Record) -> String {
    let Record { kind, year, word } = record;
    format!("{} {year} {word}", kind.letter())
}

/// The bytes in hexadecimal, or for a long buffer their number and a sum: of each byte times one
/// more than its place from 0, modulo 2^32.
pub fn shown(buffer: &[u8]) -> String {
    if buffer.len() <= LONGEST_SHOWN {
        return buffer.iter().map(|byte| format!("{byte:02x}")).collect();
    }
    let weighed = |(weight, &byte): (u32, &u8)| u32::from(byte).wrapping_mul(weight);
    let sum = (1..).zip(buffer).map(weighed).fold(0, u32::wrapping_add);
    format!("{} bytes, sum {sum}", buffer.len())
}

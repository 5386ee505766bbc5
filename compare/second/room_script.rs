//! Runs a script of listings into lent room and tells their answers. README.md has its format. Its rows are bytes, as
//! an input of `datelist` may have any.

use crate::room;
use crate::script::{number, shown};
use std::str;

pub fn run(script: &[u8]) -> Vec<u8> {
    let mut input = Vec::new();
    let mut told = Vec::new();
    for row in script.split_inclusive(|&byte| byte == b'\n') {
        let row = row.strip_suffix(b"\n").expect("every row ends in byte 10");
        if let Some(answer) = step(&mut input, row) {
            told.extend(answer);
            told.push(b'\n');
        }
    }
    told
}

/// What is told of a row: a remark itself, a question's answer, of other rows nothing.
fn step(input: &mut Vec<u8>, row: &[u8]) -> Option<Vec<u8>> {
    if row.starts_with(b"#") {
        return Some(row.to_vec());
    }
    if prepare(input, row) {
        return None;
    }
    let row = str::from_utf8(row).expect("a question is text");
    let words: Vec<&str> = row.split(' ').collect();
    let answer = match words[..] {
        ["room", n] => told_number(room::room(number(n))),
        ["list", length, byte] => listed(input, number(length), number(byte)),
        _ => panic!("no row of a script: {row}"),
    };
    Some(format!("{row} = {answer}").into_bytes())
}

/// Changes the input if the row says so. Such a row is no question.
fn prepare(input: &mut Vec<u8>, row: &[u8]) -> bool {
    if row == b"clear" {
        input.clear();
    } else if let Some(text) = row.strip_prefix(b"line ") {
        input.extend(text);
        input.push(b'\n');
    } else if let Some(text) = row.strip_prefix(b"part ") {
        input.extend(text);
    } else if let Some(count) = row.strip_prefix(b"ends ") {
        let count: usize = number(str::from_utf8(count).expect("a number is text"));
        input.resize(input.len() + count, b'\n');
    } else {
        return false;
    }
    true
}

/// What is told of a listing, with the whole buffer that was lent.
fn listed(input: &[u8], length: usize, byte: u8) -> String {
    let mut out = vec![byte; length];
    let answer = room::list(input, &mut out);
    if answer.is_err() {
        assert!(out.iter().all(|&left| left == byte));
    }
    format!("{} [{}]", told_number(answer), shown(&out))
}

fn told_number(answer: Result<usize, u8>) -> String {
    match answer {
        Ok(number) => number.to_string(),
        Err(refusal) => format!("refused {refusal}"),
    }
}

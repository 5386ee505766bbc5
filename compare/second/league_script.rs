//! Runs a script of operations on tables of two leagues and tells their answers. README.md has its format.

use crate::league_table;
use crate::script::{number, shown};
use crate::table;
use crate::table_script::{put_entries, told_entry, told_looked, told_number};
use std::mem;

/// The buffer in use and the other one, which `swap` exchanges.
#[derive(Default)]
struct Buffers {
    here: Vec<u8>,
    there: Vec<u8>,
    /// The last call and its answer, until it is held against the same call on the other buffer.
    last: Option<(String, String)>,
    is_swapped: bool,
}

pub fn run(script: &str) -> String {
    let mut buffers = Buffers::default();
    let told = script.lines().filter_map(|line| buffers.step(line));
    told.map(|line| line + "\n").collect()
}

impl Buffers {
    /// What is told of a line: a remark itself, an operation's answer, of other lines nothing.
    fn step(&mut self, line: &str) -> Option<String> {
        if line.starts_with('#') {
            return Some(line.to_string());
        }
        let words: Vec<&str> = line.split(' ').collect();
        if self.prepare(&words) {
            return None;
        }
        if let ["from", room, byte] = words[..] {
            return Some(format!(
                "{line} = {}",
                self.moved(number(room), number(byte))
            ));
        }
        let before = self.here.clone();
        let answer = operate(&mut self.here, &words).unwrap_or_else(|refusal| {
            assert!(before == self.here, "a refusal changes no buffer: {line}");
            told_refusal(refusal)
        });
        self.hold_apart(line, &answer);
        Some(format!("{line} = {answer} [{}]", shown(&self.here)))
    }

    /// Changes the bytes of the buffer if the line says so. Such a line is no operation.
    fn prepare(&mut self, words: &[&str]) -> bool {
        match words {
            ["buffer", length, byte] => self.here = vec![number(byte); number(length)],
            ["set", place, byte] => self.here[number::<usize>(place)] = number(byte),
            ["entries", place, first, count, code] => {
                let (first, count) = (number(first), number(count));
                put_entries(&mut self.here[number(place)..], first, count, number(code));
            }
            ["shares", place, league, first, count, code] => {
                let bytes = entries_of(number(league), number(first), number(count), number(code));
                let place: usize = number(place);
                self.here[place..place + bytes.len()].copy_from_slice(&bytes);
            }
            ["swap"] => self.swap(),
            _ => return false,
        }
        true
    }

    /// Of the other buffer as many bytes are taken as the one in use has.
    fn swap(&mut self) {
        self.there.resize(self.here.len(), 0);
        mem::swap(&mut self.here, &mut self.there);
        self.is_swapped = true;
    }

    /// "a league's lookups, additions, removals and their refusals depend only on its own entries and its
    /// call": the same call on both sides of a `swap` is one of a league that has the same entries in both.
    fn hold_apart(&mut self, line: &str, answer: &str) {
        let is_swapped = mem::take(&mut self.is_swapped);
        match self.last.take() {
            Some((other_line, other)) if is_swapped && other_line == line => {
                assert!(other == answer, "apart: {line} = {answer}, and {other}");
            }
            _ => self.last = Some((line.to_string(), answer.to_string())),
        }
    }

    /// What is told of a move, with the target. Where it is done, the target is the buffer from then on.
    fn moved(&mut self, room: usize, byte: u8) -> String {
        let mut target = vec![byte; room];
        let told = match league_table::from_table(&self.here, &mut target) {
            Ok(entries) => {
                self.here.clone_from(&target);
                told_number(entries)
            }
            Err(refusal) => {
                assert!(target.iter().all(|&left| left == byte));
                told_refusal(refusal)
            }
        };
        format!("{told} [{}]", shown(&target))
    }
}

fn operate(buffer: &mut [u8], words: &[&str]) -> Result<String, u8> {
    match words {
        ["new"] => league_table::new(buffer).map(|()| "done".to_string()),
        ["check", league] => league_table::check(buffer, number(league)).map(told_number),
        ["entry", league, place] => {
            league_table::entry(buffer, number(league), number(place)).map(told_entry)
        }
        ["declare", league, field, code] => {
            let (league, field) = (number(league), number(field));
            league_table::declare(buffer, league, field, number(code)).map(told_number)
        }
        ["remove", league, field] => {
            league_table::remove(buffer, number(league), number(field)).map(told_number)
        }
        ["lookup", league, field, game, asked] => {
            let (league, field) = (number(league), number(field));
            league_table::lookup(buffer, league, field, number(game), number(asked))
                .map(told_looked)
        }
        ["table", "check"] => table::check(buffer).map(told_number),
        ["table", "lookup", field, game, asked] => {
            table::lookup(buffer, number(field), number(game), number(asked)).map(told_looked)
        }
        _ => panic!("no line of a script: {}", words.join(" ")),
    }
}

fn told_refusal(refusal: u8) -> String {
    format!("refused {refusal}")
}

/// Four bytes for each of so many fields from the first on: the league, the field, big-endian, and the code.
fn entries_of(league: u8, first: u16, count: u16, code: u8) -> Vec<u8> {
    let entry = |field: u16| {
        let [high, low] = field.to_be_bytes();
        [league, high, low, code]
    };
    (0..count).flat_map(|step| entry(first + step)).collect()
}

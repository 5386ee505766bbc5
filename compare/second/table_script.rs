//! The lines of a script that are about tables. README.md has their format.

use crate::script::number;
use crate::table::{self, Entry, Looked};

/// What is told of a line without its first word, `table`, or the number of a refusal.
pub fn operate(buffer: &mut [u8], words: &[&str]) -> Result<String, u8> {
    match words {
        ["new"] => table::new(buffer).map(|()| "done".to_string()),
        ["check"] => table::check(buffer).map(told_number),
        ["entry", place] => table::entry(buffer, number(place)).map(told_entry),
        ["declare", field, code] => {
            table::declare(buffer, number(field), number(code)).map(told_number)
        }
        ["remove", field] => table::remove(buffer, number(field)).map(told_number),
        ["lookup", field, game, asked] => {
            table::lookup(buffer, number(field), number(game), number(asked)).map(told_looked)
        }
        _ => panic!("no line of a script: table {}", words.join(" ")),
    }
}

pub fn told_number(entries: usize) -> String {
    entries.to_string()
}

pub fn told_entry(entry: Entry) -> String {
    let Entry { field, kind } = entry;
    format!("{field} {}", kind.letter())
}

pub fn told_looked(looked: Looked) -> String {
    let Looked {
        is_guessed,
        kind,
        date,
    } = looked;
    let way = if is_guessed { "guessed" } else { "declared" };
    let (year, word) = (date.fields.year, date.word());
    format!("{way} {} {year} {word}", kind.letter())
}

/// Three bytes for each of so many numbers from the first on: the number, big-endian, and the code.
pub fn put_entries(buffer: &mut [u8], first: u16, count: u16, code: u8) {
    for step in 0..count {
        let [high, low] = (first + step).to_be_bytes();
        let place = usize::from(step) * 3;
        buffer[place..place + 3].copy_from_slice(&[high, low, code]);
    }
}

//! Lines for the script of listings: of every kind and way, each with how long its line of the listing is.

use crate::padded::{SIDES, filled};

/// How long a refusal is told.
pub const REFUSED: usize = 12;

/// Dates: the shortest and the longest of a kind, and some between.
const DATES: [(&str, usize); 24] = [
    ("R t 1444.11.11", 24),
    ("R t 1444.2.30.1", 28),
    ("R t -32768.12.31.24", 34),
    ("R b 56456976", 24),
    ("R b 56456999", 30),
    ("D t 1444.11.11", 24),
    ("D t -.1.1", 19),
    ("D t +144.1.1", 21),
    ("D t -32768.12.31", 28),
    ("D t 43808760", 19),
    ("D b -8760", 24),
    ("D b 0", 24),
    ("D g 56456976", 24),
    ("H t 1444.11.11.1", 29),
    ("H b 43808760", 24),
    ("H g 60759371", 28),
    ("U t 1444.2.30", 24),
    ("U t -5.1.1", 22),
    ("E t 1444.11.11.23", 30),
    ("E b 56456999", 30),
    ("E g 56456976", 27),
    ("V t 1836.2.3.6", 27),
    ("V b 43808760", 22),
    ("V g 60759366", 27),
];

/// Refused with 2, with 3 and with 8.
const REFUSALS: &str = "
    R t x|D t +1444.1.1|H t 1444.11.11|U t 1444.2.31|E t 1444.11.11.24|V t 1836.2.3.7|D t |D t 0.1.|
    R b x|D b 2147483648|H b |E b --5|V b 00000000005|D g +5|H g -|E g 5 |V g 1444.11.11|
    R b -1|D b -8736|H b 330847680|E b -1|V b 43808761|D g 5|H g 43808761|E g 56456999|V g 56456976|
    U b 0|U g 0|R g 0||D|Dt|D t|D tt 1444.1.1|d t 1444.1.1|D x 5| D t 1444.1.1|1444.11.11|
    input too long|line D t 1444.1.1|clear|# D t 1444.1.1";

/// Bytes that a reader might take for an end.
const ODD_BYTES: [u8; 6] = [0, 9, 13, 32, 128, 255];

pub type Line = (Vec<u8>, usize);

pub fn dates() -> Vec<Line> {
    let line = |(line, length): (&str, usize)| (line.as_bytes().to_vec(), length);
    let mut dates: Vec<Line> = DATES.into_iter().map(line).collect();
    dates.push((padded("R", SIDES[0]), 22));
    dates
}

pub fn refusals() -> Vec<Line> {
    let listed = REFUSALS.trim_start().split('|');
    let refused = listed.map(|line| line.strip_prefix("\n    ").unwrap_or(line));
    let mut lines: Vec<Vec<u8>> = refused.map(Vec::from).collect();
    // A text over 64 bytes is 1.
    lines.extend(["R", "D", "H", "U", "E", "V"].map(|kind| padded(kind, SIDES[1])));
    for byte in ODD_BYTES {
        lines.push(vec![byte]);
        lines.push([b"D t 1444.1.1".as_slice(), &[byte]].concat());
    }
    lines.into_iter().map(|line| (line, REFUSED)).collect()
}

/// A text with zeros before it.
fn padded(kind: &str, length: usize) -> Vec<u8> {
    format!("{kind} t {}", filled("1444.1.1", length)).into_bytes()
}

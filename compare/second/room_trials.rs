//! What request #110 of document 02 says of the room and of the listing in it, tried on this reading.

use crate::listing;
use crate::page;
use crate::room::{list, room};

/// What the lent bytes hold before.
const FILLER: u8 = 0xEE;

/// The longest input that is listed, and the room for it.
const MOST: usize = 65_535;
const MOST_ROOM: usize = 786_420;

/// Bytes of which lines of every shape are made, and the longest inputs of them that are all tried.
const ALPHABET: [u8; 6] = *b"Db 1-\n";
const LONGEST: usize = 6;

/// Inputs, each with its listing.
const LISTINGS: [(&[u8], &str); 14] = [
    // "empty input prints nothing": no byte is room enough.
    (b"", ""),
    // "Empty lines meet the bound exactly", and so does a last line of one byte that lacks its byte 10.
    (b"\n", "? refused 8\n"),
    (b"\n\n", "? refused 8\n? refused 8\n"),
    (b"x", "? refused 8\n"),
    (b"\nD", "? refused 8\n? refused 8\n"),
    // These do not meet it.
    (b"x\n", "? refused 8\n"),
    (b"xy", "? refused 8\n"),
    (b"\nD t ", "? refused 8\nD refused 2\n"),
    // "every output line [..] ends in byte 10", also where the last line of the input lacks it.
    (b"D t 1444.11.11\n", "D 1444.11.11 1444-11-11\n"),
    (b"D t 1444.11.11", "D 1444.11.11 1444-11-11\n"),
    (b"V b 43808766", "V 1.1.1.6 0001-01-01T06\n"),
    // The longest line that is listed.
    (
        b"R t -32768.12.31.24\n",
        "R -32768.12.31.24 -32768-12-31T23\n",
    ),
    // `input too long` is a line as any other.
    (b"input too long", "? refused 8\n"),
    (b"input too long\n\n", "? refused 8\n? refused 8\n"),
];

pub fn try_all() {
    try_room();
    try_bound();
    for (input, told) in LISTINGS {
        try_listing(input, told);
    }
    try_example();
    try_longest();
    try_too_long();
}

/// Both sides of 65,535, and numbers of which a cut to 16 or 32 bits, or 12 times which, would be small.
fn try_room() {
    for (n, enough) in [(0, 0), (1, 12), (65_534, 786_408), (MOST, MOST_ROOM)] {
        assert_eq!(room(n), Ok(enough));
    }
    for n in [65_536, 65_537, 1 << 17, 357_913_942] {
        assert_eq!(room(n), Err(8));
    }
    for n in [1 << 32, (1 << 32) + 1, (1 << 62) + 1, usize::MAX] {
        assert_eq!(room(n), Err(8));
    }
}

/// An input meets the bound exactly where each of its lines takes one byte: where all its bytes but the last are 10,
/// and the last is any, an empty line again or a line of one byte that lacks its byte 10. So there are 256 such inputs
/// of each length from 1 on, and the empty one. Each of their lines is 8 and told in 12 bytes. Every other line takes
/// two bytes or more: refused, it is told in 12 as well; as a date it takes five or more (`D b 0`), and is told in 34
/// at most.
fn meets(input: &[u8]) -> bool {
    input.iter().rev().skip(1).all(|&byte| byte == 10)
}

/// "n input bytes [..] give at most 12 × n output bytes", and which give as many: all inputs of up to six bytes, and of
/// 300 each last byte.
fn try_bound() {
    hold_bound(b"");
    let mut inputs = vec![Vec::new()];
    for _ in 0..LONGEST {
        inputs = inputs.iter().flat_map(|input| longer(input)).collect();
        inputs.iter().for_each(|input| hold_bound(input));
    }
    for last in 0..=255 {
        let mut input = vec![10; 299];
        input.push(last);
        hold_bound(&input);
        input.push(last);
        hold_bound(&input);
    }
}

/// The input with each byte of the alphabet behind it.
fn longer(input: &[u8]) -> [Vec<u8>; ALPHABET.len()] {
    ALPHABET.map(|byte| [input, &[byte]].concat())
}

fn hold_bound(input: &[u8]) {
    let (length, bound) = (listing::output(input).len(), 12 * input.len());
    assert!(length <= bound);
    assert_eq!(length == bound, meets(input), "{}", input.escape_ascii());
}

/// A listing into every room up to two bytes more than it has.
fn try_listing(input: &[u8], told: &str) {
    for room in 0..told.len() + 3 {
        try_into(input, told.as_bytes(), room);
    }
}

/// "7 exactly when this listing doesn't fit, and then nothing is written"; else nothing behind it.
fn try_into(input: &[u8], told: &[u8], room: usize) {
    let mut out = vec![FILLER; room];
    let answer = list(input, &mut out);
    if room < told.len() {
        assert_eq!(answer, Err(7));
        assert_eq!(out, vec![FILLER; room]);
    } else {
        assert_eq!(answer, Ok(told.len()));
        assert!(out[..told.len()] == *told, "another listing");
        assert!(out[told.len()..].iter().all(|&byte| byte == FILLER));
    }
}

/// The page's example, of 172 bytes: into every room up to two bytes more, and into what its 103 bytes may need.
fn try_example() {
    let input = page::example().as_bytes();
    let told = listing::output(input);
    assert_eq!((input.len(), told.len()), (103, 172));
    let told = String::from_utf8(told).expect("a listing is text");
    try_listing(input, &told);
    try_into(input, told.as_bytes(), 12 * 103);
}

/// Empty lines as many as may be and one fewer, and with a last line of one byte; and a listing that is shorter.
fn try_longest() {
    for n in [MOST - 1, MOST] {
        let told = "? refused 8\n".repeat(n);
        let mut input = vec![10; n];
        for last in [b'\n', b'x'] {
            input[n - 1] = last;
            for room in [0, 12 * n - 1, 12 * n, 12 * n + 1] {
                try_into(&input, told.as_bytes(), room);
            }
        }
    }
    let input = vec![b'x'; MOST];
    for room in [0, 11, 12, 13, MOST_ROOM] {
        try_into(&input, b"? refused 8\n", room);
    }
}

/// "more than 65,535 input bytes are 8": whatever the room, also that of `input too long`, and nothing is written.
fn try_too_long() {
    for n in [MOST + 1, MOST + 2, 1 << 17, (1 << 17) + 1] {
        for byte in [b'\n', b'x'] {
            let input = vec![byte; n];
            for room in [0, 1, 12, 14, 15, 16, MOST_ROOM, 12 * n] {
                let mut out = vec![FILLER; room];
                assert_eq!(list(&input, &mut out), Err(8));
                assert!(out.iter().all(|&byte| byte == FILLER));
            }
        }
    }
}

//! The script of listings into lent room. The second reading answers it.

use crate::random::Random;
use crate::room_lines::{self, Line, REFUSED};
use crate::room_script::{MOST_ROOM, RoomScript};

/// The longest input that is listed.
const MOST: usize = 65_535;

/// Both sides of 65,535; numbers of which a cut to 16 or 32 bits would be good; and such that twelve times as many
/// pass 16 or 32 bits.
const NUMBERS: [u64; 33] = [
    0,
    1,
    2,
    3,
    10,
    103,
    5461,
    5462,
    21_845,
    32_767,
    32_768,
    65_533,
    65_534,
    65_535,
    65_536,
    65_537,
    65_636,
    131_071,
    131_072,
    786_420,
    1 << 24,
    357_913_941,
    357_913_942,
    (1 << 31) - 1,
    1 << 31,
    (1 << 32) - 1,
    1 << 32,
    (1 << 32) + 1,
    (1 << 32) + 65_535,
    (1 << 33) + 100,
    1 << 48,
    1 << 59,
    999_999_999_999_999_999,
];

/// The page's example, and how long each line of its listing is.
const EXAMPLE: [(&str, usize); 8] = [
    ("D t 1444.11.11", 24),
    ("E t 1444.11.11.23", 30),
    ("V b 43808760", 22),
    ("H b 43808760", 24),
    ("U t 1444.2.30", 24),
    ("U b 0", REFUSED),
    ("D t +1444.1.1", REFUSED),
    ("D b -8760", 24),
];

/// How many lines the mixed input has, and after how many it is listed.
const MIXED: usize = 900;
const LISTED_AFTER: [usize; 4] = [10, 50, 200, MIXED];

pub fn all(stream: u64) -> Vec<u8> {
    let mut script = RoomScript::default();
    rooms(&mut script);
    every_room(&mut script);
    example(&mut script);
    lines(&mut script);
    bytes_before(&mut script);
    bound(&mut script);
    below_bound(&mut script);
    long_line(&mut script);
    mixed(&mut script, &mut Random::new(stream));
    longest(&mut script, b"");
    longest(&mut script, b"x");
    script.rows
}

fn rooms(script: &mut RoomScript) {
    script.remark("how much to lend");
    NUMBERS.into_iter().for_each(|n| script.room(n));
}

fn every_room(script: &mut RoomScript) {
    script.remark("no input, which was none before and is none again");
    script.list_into_all(0);
    script.line(b"D t 1444.11.11");
    script.clear();
    script.list_into_all(0);
    script.remark("one line and two into every room");
    let inputs: [(&[u8], usize); 5] = [
        (b"", REFUSED),
        (b"x", REFUSED),
        (b"D b -8760", 24),
        (b"R t -32768.12.31.24", 34),
        (b"U b 0", REFUSED),
    ];
    for (text, length) in inputs {
        script.clear();
        script.line(text);
        script.list_into_all(length);
    }
    script.clear();
    script.ends(2);
    script.list_into_all(2 * REFUSED);
    script.clear();
    script.part(b"D b -8760");
    script.list_into_all(24);
    script.part(b"\xff");
    script.list_around(REFUSED);
}

/// Line after line, the listing so far.
fn example(script: &mut RoomScript) {
    script.remark("the page's example, line by line");
    script.clear();
    let mut length = 0;
    for (line, more) in EXAMPLE {
        script.line(line.as_bytes());
        length += more;
        script.list_around(length);
    }
    script.list(0);
    script.list(12 * script.length);
}

/// Each by itself, with its byte 10 and without it by turns.
fn lines(script: &mut RoomScript) {
    script.remark("every kind and way, each refusal, odd bytes");
    let lines = room_lines::dates()
        .into_iter()
        .chain(room_lines::refusals());
    for ((line, length), has_end) in lines.zip([true, false].into_iter().cycle()) {
        script.clear();
        // No text at all is a line alone.
        if has_end || line.is_empty() {
            script.line(&line);
        } else {
            script.part(&line);
        }
        script.list(length - 1);
        script.list(length);
    }
}

fn bytes_before(script: &mut RoomScript) {
    script.remark("what the buffer held before");
    script.clear();
    script.line(b"U t -5.1.1");
    for byte in [0, 10, 255] {
        for room in [0, 1, 21, 22, 23, 40, 41] {
            script.list_over(room, byte);
        }
    }
}

/// Empty lines, and a last line of one byte behind them.
fn bound(script: &mut RoomScript) {
    for count in [1, 2, 3, 10, 341, 342, 1000, 5461, 5462] {
        script.remark(&format!("empty lines: {count}, then a byte behind them"));
        script.clear();
        script.ends(count);
        script.list_around(12 * count);
        script.part(b"D");
        script.list_around(12 * (count + 1));
    }
}

/// One byte more than a line of the bound has, or one line.
fn below_bound(script: &mut RoomScript) {
    script.remark("not quite the bound");
    for (before, text, after) in [
        (0, b"x".as_slice(), 1),
        (0, b"xy", 0),
        (0, b"x", 2),
        (1, b"x", 1),
        (2, b"xy", 0),
        (1, b"D t ", 1),
        (9, b"D b 0", 9),
    ] {
        script.clear();
        script.ends(before);
        script.part(text);
        script.ends(after);
        // A line that has no byte 10 yet gets one by the first of the ends.
        let others = before + usize::max(after, 1) - 1;
        let own = if text == b"D b 0" { 24 } else { REFUSED };
        script.list_around(12 * others + own);
        script.list(12 * script.length);
    }
}

/// Longer than any buffer for a line.
fn long_line(script: &mut RoomScript) {
    script.remark("a line of 3,004 bytes, and two dates around it");
    script.clear();
    script.line(b"D t 1444.11.11");
    script.part(b"D t ");
    for _ in 0..30 {
        script.part(&[b'1'; 100]);
    }
    script.list_around(24 + REFUSED);
    script.ends(1);
    script.part(b"E g 56456976");
    script.list_around(24 + REFUSED + 27);
    script.list(12 * script.length);
}

/// Two of three lines are dates.
fn some_line(random: &mut Random, dates: &[Line], refusals: &[Line]) -> Line {
    let lines = if random.index(3) > 0 { dates } else { refusals };
    lines[random.index(lines.len())].clone()
}

/// Many lines, listed now and then; then ends behind them, up to the longest input and past it.
fn mixed(script: &mut RoomScript, random: &mut Random) {
    script.remark("many lines of every kind and way");
    let (dates, refusals) = (room_lines::dates(), room_lines::refusals());
    script.clear();
    let mut length = 0;
    for count in 1..=MIXED {
        let (line, more) = some_line(random, &dates, &refusals);
        script.line(&line);
        length += more;
        if LISTED_AFTER.contains(&count) {
            script.list(0);
            script.list_around(length);
        }
    }
    script.remark("ends behind them, up to 65,537 bytes");
    let lines = script.length;
    for n in MOST - 1..=MOST {
        script.ends_up_to(n);
        let whole = length + 12 * (n - lines);
        script.list(0);
        script.list(whole - 1);
        script.list(whole);
    }
    script.list(12 * MOST);
    for n in MOST + 1..=MOST + 2 {
        script.ends_up_to(n);
        let rooms = [0, 12, 15, 16];
        rooms.into_iter().for_each(|room| script.list(room));
    }
    script.list(MOST_ROOM);
}

/// Nothing but empty lines, the last of them perhaps with a byte and no byte 10: 65,534 and 65,535 bytes; then more.
fn longest(script: &mut RoomScript, last: &[u8]) {
    for n in [MOST - 1, MOST] {
        script.remark(&format!("{n} bytes, of which {} not 10", last.len()));
        script.clear();
        script.ends(n - last.len());
        script.part(last);
        let rooms = [0, 12 * n - 1, 12 * n];
        rooms.into_iter().for_each(|room| script.list(room));
    }
    for n in [MOST + 1, MOST + 2] {
        script.part(b"x");
        script.list(0);
        script.list(usize::min(12 * n, MOST_ROOM));
    }
}

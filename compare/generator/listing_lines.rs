//! Lines for `datelist` at both sides of every bound on lines: each shape that the page names or
//! leaves out, and each edge of texts and numbers.

use crate::padded::{self, LIMIT, SIDES, filled};
use crate::{numbers, text_edges};

pub const KINDS: [char; 6] = ['R', 'D', 'H', 'U', 'E', 'V'];

/// The ways that read a number, each with a kind that has it.
pub const NUMBER_WAYS: [&str; 9] = [
    "R b", "D b", "H b", "E b", "V b", "D g", "H g", "E g", "V g",
];

/// Asked of every kind by every way, those that do not exist among them.
const RESTS: [&str; 9] = [
    "",
    "-",
    "x",
    "1444.11.11",
    "1444.11.11.12",
    "56456976",
    "60759371",
    "-8736",
    "0000000001444.1.1",
];

/// Lines without all of kind, space, way, space; with more spaces; with other letters.
const SHAPES: &[u8] = b"
|D|t| |  |   |    |D |D t|D t |U t|U t |R b|R b |V g|V g |Dt|Dt 1444.1.1|D t1444.1.1|D  1444.1.1
|D  t 1444.1.1|D t  1444.1.1|D t 1444.1.1 |D t 1444.1.1  | D t 1444.1.1|D b  5|D b 5 |D b 5 5
|D  b 5|D\tt\t1444.1.1|D t\t1444.1.1|D,t,1444.1.1|d t 1444.1.1|D T 1444.1.1|d T 1444.1.1|D B 5|D G 5
|DD t 1444.1.1|D tt 1444.1.1|D bb 5|1444.11.11|? refused 8|D refused 2|D 1444.11.11 1444-11-11
|D t D t 1444.1.1|D t refused|input too long|r t 1444.1.1|h b 43808760|u t 1444.02.30|e g 56456976
|v b 43808760|A t 1444.1.1|Z t 1444.1.1|C t 1444.1.1|F t 1444.1.1|0 t 1444.1.1|? t 1444.1.1
|D a 5|D c 5|D f 5|D h 5|D s 5|D u 5|D 0 5|D ? 5|D t t|D b b|D g g
|D b 1444.11.11|D b 5.|D b 0x5|D b 5x|D b x5|D b 5-|D b 5e3|D b 1,000|D b 5+0";

/// Numbers at both sides of the bounds on their sign, their digits and 32 bits.
const NUMBERS: &str = "
    +5 +0 + - -0 -00 --5 +-5 -+5 - 5- 0 00 5 05 0000000005 00000000005 -0000000005 -00000000005
    0000000000 00000000000 -0000000000 -00000000000 56456976 0056456976 00056456976 000056456976
    2147483647 2147483648 02147483647 -2147483648 -2147483649 -02147483648 4294967295 4294967296
    4351424272 9999999999 -9999999999 99999999999 -99999999999 18446744073709551616 330847679
    330847680 -243247680 -243247681 -8760 -8736 43808760 43808761";

/// D's text has at most 12 bytes, and those of the others may have 16 and 17.
const TEXTS: &str = "
    1444.1.1 144444444.1 1444.11.11.1 -32768.12.31 -32768.12.31. 001444.11.11 0001444.11.11
    0001444.11.11.12 00001444.11.11.12 0000000043808760 00000000043808760 0000000043808761
    00000000043808761 000000001444.1.1 0000000001444.1.1 -000000001444.1.1 +00000001444.1.1
    xxxxxxxxxxxxxxxx xxxxxxxxxxxxxxxxx ................ .................
    1444.11.11.1444.11.11.1444.11.11.1444.11.11";

/// 64 bytes are a text and 65 are none: each with zeros before it up to both.
const FILLED: &str = "
    1444.1.1 1444.11.11.12 -1444.1.1 +1444.1.1 43808760 43808761 18446744073709553060.1.1 x .";

/// Bytes that a reader might take for the end of a line or of a part.
const ODD_BYTES: [u8; 9] = [0, 9, 11, 13, 32, 46, 127, 128, 255];

/// Every line but those of the samples. No line has byte 10.
pub fn all() -> Vec<Vec<u8>> {
    let mut lines = shapes();
    for kind in KINDS {
        for way in ['t', 'b', 'g'] {
            let line = |rest: String| format!("{kind} {way} {rest}").into_bytes();
            lines.extend(rests().map(line));
        }
    }
    for way in ["D b", "V g"] {
        let line = |number: String| format!("{way} {number}").into_bytes();
        lines.extend(some_numbers().map(line));
    }
    for kind in KINDS {
        let line = |text: String| format!("{kind} t {text}").into_bytes();
        lines.extend(some_texts().map(line));
    }
    lines.extend(with_odd_bytes());
    lines.extend(long_lines());
    lines.extend(text_lines());
    lines.extend(number_lines());
    assert!(!lines.iter().any(|line| line.contains(&b'\n')));
    lines
}

/// The last one again, padded up to both sides of the limit of texts.
fn rests() -> impl Iterator<Item = String> {
    let padded = SIDES.map(|length| filled("1444.1.1", length));
    RESTS.map(String::from).into_iter().chain(padded)
}

/// A number that is padded as a text may be has too many digits.
fn some_numbers() -> impl Iterator<Item = String> {
    let padded = [filled("56456976", LIMIT)];
    NUMBERS.split_whitespace().map(String::from).chain(padded)
}

fn some_texts() -> impl Iterator<Item = String> {
    let both_sides = |text| SIDES.map(|length| filled(text, length));
    let padded = FILLED.split_whitespace().flat_map(both_sides);
    TEXTS.split_whitespace().map(String::from).chain(padded)
}

/// Empty lines come first. In the list each line stands behind a bar.
fn shapes() -> Vec<Vec<u8>> {
    let mut shapes = vec![Vec::new(); 2];
    let listed: Vec<u8> = SHAPES
        .iter()
        .copied()
        .filter(|&byte| byte != b'\n')
        .collect();
    shapes.extend(listed.split(|&byte| byte == b'|').map(<[u8]>::to_vec));
    shapes
}

/// Each odd byte alone, in the place of each byte of the line's head, and at both ends of its rest; and a
/// rest of nothing else, at both sides of the limit.
fn with_odd_bytes() -> Vec<Vec<u8>> {
    let mut lines = Vec::new();
    for byte in ODD_BYTES {
        lines.push(vec![byte]);
        for base in [b"D t 1444.1.1".as_slice(), b"R b 56456976"] {
            for place in [0, 1, 2, 3, 4, 8, base.len() - 1] {
                let mut line = base.to_vec();
                line[place] = byte;
                lines.push(line);
            }
            lines.push([base, &[byte]].concat());
            lines.push([&[byte], base].concat());
        }
        for length in SIDES {
            lines.push([b"U t ".to_vec(), vec![byte; length]].concat());
        }
    }
    lines
}

/// Lines that no buffer for one line would hold.
fn long_lines() -> [Vec<u8>; 3] {
    ["", "D t ", "D b "].map(|head| [head.as_bytes(), &[b'1'; 1000]].concat())
}

/// Each edge text, of one kind after another: the short ones, then the padded ones.
fn text_lines() -> impl Iterator<Item = Vec<u8>> {
    let texts = text_edges::all().into_iter().chain(padded::all());
    let in_one_line = texts.filter(|text| !text.contains(&b'\n'));
    let line = |(text, kind): (Vec<u8>, char)| [format!("{kind} t ").as_bytes(), &text].concat();
    in_one_line.zip(KINDS.into_iter().cycle()).map(line)
}

/// Each edge number, by one way after another.
fn number_lines() -> impl Iterator<Item = Vec<u8>> {
    let line = |(number, way): (i32, &str)| format!("{way} {number}").into_bytes();
    let ways = NUMBER_WAYS.into_iter().cycle();
    numbers::edges().into_iter().zip(ways).map(line)
}

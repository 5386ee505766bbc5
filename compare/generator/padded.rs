//! Padded years: texts of 17 bytes and more, at both sides of the limit of texts and of every width that
//! a leading number might be cut to. Each is asked of all six kinds.

use crate::text_edges::{SHORT, words};
use std::collections::BTreeSet;

/// The longest text that is read: a longer one is 1, whatever it says. D's has at most 12 bytes; between
/// the two it is 2.
pub const LIMIT: usize = 64;

/// Both sides of the limit.
pub const SIDES: [usize; 2] = [LIMIT, LIMIT + 1];

/// Zeros before them up to each of so many bytes. The original looks for an overflow from 19 bytes on.
const FILLED: [(&str, &[usize]); 2] = [
    ("1444.1.1", &[17, 19, 20, 21, 32, 63, 64, 65, 66]),
    ("43808760", &[17, 20, 64, 65]),
];

/// Zeros before them up to both sides of the limit: a sign comes before the zeros, and a year may be
/// nothing but zeros.
const AT_BOTH_SIDES: &str = "
    -1444.1.1 +1444.1.1 1444.11.11.12 43808761 -8760 .1.1 -.1.1 0 18446744073709553060.1.1";

/// Zeros before them up to the limit: what a kind takes alone; both sides of 16 and of 32 bits, and what
/// a cut to so many would make good; a sign after the zeros.
const AT_LIMIT: &str = "
    1444.2.30 1444.11.11.23 1444.11.11.24 32767.12.30 32768.1.1 66980.1.1 -32768.1.1 -32769.1.1
    -64092.1.1 4294968740.1.1 330847632 330847680 -243247680 -243256440 2147483647 2147483648
    4294967296 4338776056 +-1444.1.1";

/// Zeros before them up to the limit: a good year, and a rest that is none.
const BAD_RESTS: &str = "
    1444.1.1.06 1444.13.1 1444.1.1. 1444.1.1x 1444-11-11";

/// As they are: both sides of 63 and of 64 bits, and what comes back as 1444, as -1444, as 43808760 or as
/// -8760 after wrapping once, ten times, 2^64 times or 2^128 times.
const WIDE: &str = "
    9223372036854775807.1.1 9223372036854775808.1.1 9223372036854777252.1.1
    18446744073709550172.1.1 18446744073709551615.1.1 18446744073709551616.1.1
    18446744073709553060.1.1 -18446744073709553060.1.1 184467440737095517604.1.1
    340282366920938463463374607431768212900.1.1
    6277101735386680763835789423207666416102355444464034514340.1.1
    9223372036898584568 18446744073709542856 18446744073753360376 18446744073753360377";

/// Some of these with zeros before them up to the limit.
const FILLED_AND_WIDE: &str = "
    9223372036854775808.1.1 -18446744073709553060.1.1 184467440737095517604.1.1
    18446744073753360376";

/// The text in so many bytes, by zeros before its leading number and after its sign.
pub fn filled(text: &str, length: usize) -> String {
    assert!(text.len() <= length);
    let (sign, after_sign) = text.split_at(usize::from(text.starts_with(['-', '+'])));
    let width = length - sign.len();
    format!("{sign}{after_sign:0>width$}")
}

/// The text in so many bytes, by this byte after it.
pub fn followed(text: &str, byte: u8, length: usize) -> Vec<u8> {
    assert!(text.len() <= length);
    let mut bytes = text.as_bytes().to_vec();
    bytes.resize(length, byte);
    bytes
}

pub fn all() -> BTreeSet<Vec<u8>> {
    let mut texts = BTreeSet::new();
    for (text, lengths) in FILLED {
        texts.extend(lengths.iter().map(|&length| filled(text, length)));
    }
    for length in SIDES {
        texts.extend(words(AT_BOTH_SIDES).map(|text| filled(text, length)));
    }
    for list in [AT_LIMIT, BAD_RESTS, FILLED_AND_WIDE] {
        texts.extend(words(list).map(|text| filled(text, LIMIT)));
    }
    texts.extend(words(WIDE).map(String::from));
    add_other_digits(&mut texts);
    let mut texts: BTreeSet<Vec<u8>> = texts.into_iter().map(String::into_bytes).collect();
    add_other_bytes(&mut texts);
    assert!(texts.iter().all(|text| text.len() > SHORT));
    texts
}

/// Numbers of as many digits as there is room for, and one more; zeros that are not before the number; and
/// numbers that end in good digits, which a reader of the last ones alone would take.
fn add_other_digits(texts: &mut BTreeSet<String>) {
    for digits in [60, 61] {
        texts.insert(format!("{}.1.1", "9".repeat(digits)));
    }
    texts.insert("9".repeat(LIMIT));
    for good in ["1444.1.1", "43808760"] {
        texts.insert(format!("1{}", filled(good, LIMIT - 1)));
    }
    texts.insert(format!("1444.{}", filled("1.1", LIMIT - 5)));
    texts.insert(format!("1444.1.{}", filled("1", LIMIT - 7)));
}

/// No number at all, and short texts with something before them or after them.
fn add_other_bytes(texts: &mut BTreeSet<Vec<u8>>) {
    for length in SIDES {
        texts.extend([b'.', b'x', b'-'].map(|byte| vec![byte; length]));
        texts.insert(followed("1444.1.1", b' ', length));
    }
    texts.insert(followed("1444.1.1", b'0', LIMIT));
    texts.insert(followed("1444.1.1", 0, LIMIT));
    texts.insert(followed("43808760", b' ', LIMIT));
    texts.insert(format!("{:>LIMIT$}", "1444.1.1").into_bytes());
}

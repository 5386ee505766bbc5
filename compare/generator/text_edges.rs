//! Short texts at both sides of every bound on texts but their limit, which `padded` has. Each is asked of
//! all six kinds.

use std::collections::BTreeSet;

/// The longest text that is asked here and in the samples.
pub const SHORT: usize = 16;

/// The texts of the examples and of the pairs.
const EXAMPLES: &str = "
    1444.11.11 1444.11.11.23 1444.2.30 +1444.1.1 -.1.1 +144.1.1 1444.1.1.06 43808760 43808761
    1836.2.3.6 2200.02.30 1936.1.1.24 1436.1.1 1444-11-11 1444-11-11T19";

/// A year is a digit or a sign, then digits; a sign alone is 0.
const SIGNS: &str = "
    - + -0 +0 -- ++ +- -+ --0 +.1.1 -.12.31 +.12.31 -.1.1.1 +.1.1.6 -.1.1.22 --1.1.1 ++1.1.1
    +-1.1.1 -+1.1.1 ++44.1.1 ++44.01.01 --44.01.01 +-44.1.1 1-.1.1 1+.1.1 1-44.1.1 1444.+1.1
    1444.-1.1 1444.1.+1 1444.1.-1 1444.1.1.+1 1444.1.1.-1 -0.1.1 +0.1.1 -00.1.1 -0000.1.1
    -144.1.1 -144.01.1 -144.1.01 -144.01.01 -1444.11.11 -1444.11.11.1";

/// D takes a leading `+` only at length 8, at 9 with dots at 4 and 6 or 4 and 7, and at 10 with
/// dots at 4 and 7.
const PLUSES: &str = "
    +1.1.1 +14.1.1 +.11.11 +0.11.11 +44.11.1 +4.11.11 +44.1.11 +8760000 +0000000 +43808760
    +4380876 +144.1.11 +144.01.1 +44.11.11 +00.11.11 +12345678 +1444.11.1 +144.13.1 +144.1.32
    +144.2.29 +144.01.01 +144.12.31 +144.13.01 +144.01.32 +144.1x.01 +1x4.01.01 +1444.1.11
    +123456789 +444.1.1.1 +44.1.1.1 +4.1.1.1 +1444.11.11 +01444.11.11 +001444.1.1 +1444.11.11.1
    +0001444.11.11";

/// Months and days have one or two digits, hours the same and no leading 0; nothing may follow.
const LAYOUT: &str = "
    . .. ... .1.1 1 1. 1.. 1... 1.1 1.1. 1.1.. 1.1.1 1.1.1. 1.1.1.. 1.1.1.1 1.1.1.1. 1.1.1.1.1
    1..1.1 1444 1444. 1444.1 1444.1. 1444.1.1 1444.1.1. 1444.11.11. 1444..1 1444.1..1 1444.1.1..1
    1444.001.1 1444.111.1 1444.1.001 1444.1.111 1444.11.111 1444.111.11 1444.1.1.001 1444.1.1.0
    1444.1.1.1 1444.1.1.6 1444.1.1.23 1444.1.1.24 1444.1.1.25 1444.1.1.100 1444.11.11.012
    1444.11.11.100 1444.1.1.1. 1444.1.1.11. 1444.1.1.1.1 1444.1.1x 1444.1.1.x 1444.1.1.1x
    1444.x.1 1444.1.x 1444x1.1 1444.1x1 1444.1x.1 1444.11x1 1444.1.11x x444.1.1 1444,1,1 1444/1/1
    1444:1:1 1444-1-1 01444.1.1 001444.1.1 0001.1.1 0000.1.1 0000.01.01 9999.12.31 01444.2.29
    1444.1.1T00";

/// A number text fits 32 bits and lies in the range of numbers; its hour stays as it is.
const NUMBERS: &str = "
    1 23 24 25 696 719 720 743 744 1416 8736 8759 8760 8761 -1 -24 -8736 -8759 -8760 -8761 -17520
    43791240 43791241 43808759 43808762 43808766 43808782 43808783 43808784 56456976 56456997
    56456999 330847655 330847656 330847657 330847679 330847680 -243247680 -243247681 -243256440
    2147483647 2147483648 -2147483648 -2147483649 4294967295 4294967296 4338776056 -4294967296
    99999999 00000024 08760000 -0008760 -8760000 999999999999 9999999999999 9999999999999999
    -999999999999999 0000000043808760 0000000043808761 000000000720 0000000000720 00720 -00720";

/// D's text has 5 to 12 bytes.
const LENGTHS: &str = "
    -32768.12.31 -32768.12.31.1 -32768.12.31.6 -32768.12.31.22 -32768.12.31.24 -32768.1.1.1
    -032768.1.1 -032768.12.31 -0032768.12.31 -0032768.1.1 -00032768.1.1 -000032768.1.1
    00001444.1.1 000001444.1.1 000000001444.1.1 -00001444.1.1 -0001444.1.1 -00000001444.1.1
    0001444.11.11.12 0001444.11.11.18 0001444.11.11.24 0001444.11.11.23 001444.11.11.06
    1444.11.11.12 1444.11.11.1 01444.11.11 001444.11.11 0001444.11.11 0000001444.11.11
    32767.12.31.24 32767.12.31.18 -32769.1.1.6 32768.1.1.6 66980.1.1.6 0.1.1.6 -1.1.1.6 -1.1.1
    -1.12.31";

const YEARS: &str = "
    -99999 -65536 -64092 -32769 -32768 -32767 -10000 -9999 -5001 -5000 -1001 -1000 -999 -101 -100
    -99 -10 -9 -5 0 5 9 10 99 100 144 999 1000 9999 10000 32766 32767 32768 65536 66980 99999";

const HOURS: &str = "
    0 00 01 06 1 2 5 6 7 8 9 10 11 12 13 17 18 19 20 21 22 24 25 26 30 31 32 33 64 99";

pub fn words(list: &'static str) -> impl Iterator<Item = &'static str> {
    list.split_whitespace()
}

pub fn all() -> BTreeSet<Vec<u8>> {
    let mut texts = BTreeSet::new();
    for list in [EXAMPLES, SIGNS, PLUSES, LAYOUT, NUMBERS, LENGTHS] {
        texts.extend(words(list).map(|text| text.as_bytes().to_vec()));
    }
    texts.extend(words(YEARS).map(|year| format!("{year}.1.1").into_bytes()));
    texts.extend(words(HOURS).map(|hour| format!("1444.11.11.{hour}").into_bytes()));
    add_months_and_days(&mut texts);
    add_zeros(&mut texts);
    add_odd_bytes(&mut texts);
    assert!(texts.iter().all(|text| text.len() <= SHORT));
    texts
}

/// The bounds of months and days, with and without a leading 0, on D's short cuts and off them.
fn add_months_and_days(texts: &mut BTreeSet<Vec<u8>>) {
    for month in [0, 1, 9, 10, 12, 13, 99] {
        texts.insert(format!("1444.{month}.1").into_bytes());
        texts.insert(format!("1444.{month:02}.01").into_bytes());
    }
    for day in [0, 1, 9, 10, 28, 29, 30, 31, 32, 99] {
        texts.insert(format!("1444.2.{day}").into_bytes());
        texts.insert(format!("1444.12.{day:02}").into_bytes());
    }
    for month in 1..=12 {
        texts.insert(format!("1836.{month}.30.6").into_bytes());
        texts.insert(format!("1836.{month}.31.6").into_bytes());
    }
    for day in 28..=32 {
        texts.insert(format!("836.02.{day}.12").into_bytes());
        texts.insert(format!("836.1.{day}").into_bytes());
    }
}

/// Nothing but zeros at every length, and behind a sign at the lengths that matter to D.
fn add_zeros(texts: &mut BTreeSet<Vec<u8>>) {
    for length in 0..=SHORT {
        texts.insert(vec![b'0'; length]);
    }
    for length in [4, 5, 7, 8, 9, 12, 13, SHORT] {
        for sign in ["-", "+"] {
            texts.insert(format!("{sign}{:01$}", 0, length - 1).into_bytes());
        }
    }
}

/// The bytes just outside the digits at every place, some others, and bytes whose sum carries.
fn add_odd_bytes(texts: &mut BTreeSet<Vec<u8>>) {
    for base in ["1444.1.1", "1444.11.11", "1444.1.11", "1444.11.1"] {
        for place in 0..base.len() {
            for byte in [0x2f, 0x3a] {
                texts.insert(with_byte(base, place, byte));
            }
        }
    }
    for place in [0, 4, 5, 7] {
        for byte in [0x2e, 0xff] {
            texts.insert(with_byte("1444.1.1", place, byte));
        }
    }
    for byte in [0x00, 0x0a, 0x20, 0x22, 0x5c, 0xff] {
        texts.insert([b"1444.1.1", [byte].as_slice()].concat());
        texts.insert([[byte].as_slice(), b"1444.1.1"].concat());
    }
}

pub fn with_byte(base: &str, place: usize, byte: u8) -> Vec<u8> {
    let mut text = base.as_bytes().to_vec();
    text[place] = byte;
    text
}

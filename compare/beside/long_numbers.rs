//! Leading numbers that tell whether their true value decides, and what stands around them in a text:
//! numbers at the bounds of 15, 16, 31, 32, 63 and 64 bits, at those of what is read, and numbers that
//! a cut to 16, 32, 63 or 64 bits makes good ones.

use std::collections::BTreeSet;

pub const SIGNS: [&[u8]; 3] = [b"", b"-", b"+"];

/// What follows the number: nothing; months and days, and hours after two of them, that all kinds, some
/// or none take; and shapes that no kind takes.
pub const RESTS: [&[u8]; 41] = [
    b"",
    b".1.1",
    b".01.01",
    b".12.31",
    b".2.28",
    b".2.29",
    b".2.30",
    b".2.31",
    b".1.32",
    b".13.1",
    b".0.1",
    b".1.0",
    b".1.1.1",
    b".1.1.6",
    b".1.1.22",
    b".1.1.23",
    b".1.1.24",
    b".1.1.25",
    b".1.1.0",
    b".1.1.06",
    b".1.1.012",
    b".11.11.1",
    b".11.11.6",
    b".11.11.22",
    b".11.11.23",
    b".11.11.24",
    b".11.11.25",
    b".11.11.0",
    b".11.11.06",
    b".11.11.012",
    b".",
    b".1",
    b".1.",
    b".1.1.",
    b".1.1x",
    b"x",
    b"-1",
    b"+1",
    b" ",
    b"\x00",
    b"\xff",
];

/// So many bits a number might be cut to.
const CUTS: [u32; 4] = [16, 32, 63, 64];

/// A year; and the numbers of 1.1.1 without an hour and with one.
const GOOD: [u128; 3] = [1444, 43_808_760, 43_808_761];

/// The last number that is read, the last of a whole day, and the size of the least: of years -5000 to
/// 32767, and of -32768.
const ENDS: [u128; 3] = [37_768 * 8760 - 1, 37_768 * 8760 - 24, 27_768 * 8760];

/// The numbers to be asked with zeros before them, in their fewest digits.
pub fn telling() -> Vec<Vec<u8>> {
    let mut numbers = BTreeSet::from([0, 1, 9, 10, 720]);
    numbers.extend(GOOD);
    for bits in [15, 16, 31, 32, 63, 64] {
        let power = 1_u128 << bits;
        numbers.extend(power - 2..=power + 2);
    }
    for digits in 18..=20 {
        let power = 10_u128.pow(digits);
        numbers.extend([power - 1, power]);
    }
    for end in ENDS {
        numbers.extend(end - 1..=end + 1);
    }
    for bits in CUTS {
        numbers.extend(cut_to_good(bits));
    }
    let digits = |number: u128| number.to_string().into_bytes();
    numbers.into_iter().map(digits).collect()
}

/// Numbers that a cut to so many bits makes good, the last two as negative ones: the year -5 and the
/// number -8760.
fn cut_to_good(bits: u32) -> Vec<u128> {
    let power = 1_u128 << bits;
    let mut numbers = vec![power - 5, power - 8760];
    for times in [1, 2, 3, 10] {
        numbers.extend(GOOD.map(|good| times * power + good));
    }
    numbers
}

/// Numbers of exactly so many digits: the least, the greatest, and the greatest ones that are 0 or a good
/// number more than a multiple of each cut's power of two.
pub fn of_digits(count: usize) -> BTreeSet<Vec<u8>> {
    let mut least = vec![b'0'; count];
    least[0] = b'1';
    let mut numbers = BTreeSet::from([least, vec![b'9'; count]]);
    for bits in CUTS {
        numbers.extend(greatest_over_multiple(count, bits, 0));
        for good in GOOD {
            numbers.extend(greatest_over_multiple(count, bits, good));
        }
    }
    numbers
}

/// The greatest number of so many digits that is `more` over a multiple of 2^bits; none where that has
/// fewer digits. It is so many nines less a remainder: no digit of that is greater than 9, so each is
/// taken from its nine alone.
fn greatest_over_multiple(count: usize, bits: u32, more: u128) -> Option<Vec<u8>> {
    if more.to_string().len() > count {
        return None;
    }
    // The nines may pass 128 bits; that changes no remainder by 2^64 or less.
    let nines = 10_u128.wrapping_pow(count as u32).wrapping_sub(1);
    let remainder = nines.wrapping_sub(more) % (1 << bits);
    let number: Vec<u8> = format!("{remainder:0count$}")
        .bytes()
        .map(|digit| b'9' - (digit - b'0'))
        .collect();
    (number[0] != b'0').then_some(number)
}

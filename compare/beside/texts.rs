//! Texts of up to 16 bytes by the six readers: every text over small alphabets, all digits in D's fast
//! shapes, and each byte of valid texts replaced by every other. Longer ones are those of `padded`.

use crate::original::{Coded, read};
use crate::port;
use crate::report::{Covers, Extent, Report};
use crate::tally::{Tally, share};
use crate::valid_texts;
use std::ops::RangeInclusive;

/// Digits at the bounds of months, days and hours; the two bytes beside the digits; what a text may
/// have beside digits, or an ISO text; and two bytes that are no text's.
const TELLING: &[u8; 16] = b"01234689.+-/:T\x00\xff";

const FEW: &[u8; 6] = b"019.+-";

/// D's fast shapes, with the digits as `d`.
const SHAPES: [&[u8]; 4] = [b"dddd.d.d", b"dddd.dd.d", b"dddd.d.dd", b"dddd.dd.dd"];

/// The longest of the short texts; a text may be longer.
pub const SHORT: usize = 16;

pub fn run(extent: Extent, report: &mut Report) {
    let most = extent.pick(5, 6);
    let name = format!("texts of 0 to {most} bytes over 16 telling ones, six kinds");
    report.row(&name, Covers::All, over(TELLING, 0..=most, ask_all));
    let most = extent.pick(8, 10);
    let name = format!("texts of 7 to {most} bytes over `0 1 9 . + -`, six kinds");
    report.row(&name, Covers::All, over(FEW, 7..=most, ask_all));
    let step = extent.pick(101, 1);
    let name = "all digits in D's four fast shapes, six kinds";
    report.row(name, extent.covers_all(), shapes(step));
    let texts = valid_texts::all(5..=SHORT, extent.pick(3, 40));
    let count = texts.len();
    let name =
        format!("each byte of {count} valid texts of 5 to {SHORT} bytes, all 256, six kinds");
    report.row(&name, Covers::All, replaced(&texts, ask_all));
}

pub fn ask_all(tally: &mut Tally, text: &[u8]) {
    for_all_six!(ask(tally, text));
}

#[inline]
pub fn ask<K: Coded>(tally: &mut Tally, text: &[u8]) -> bool {
    let right = read::<K>(text);
    tally.hold(right, port::read(K::CODE, text), || question::<K>(text));
    right.refusal == 0
}

pub fn question<K: Coded>(text: &[u8]) -> String {
    format!("{} t {:?}", K::LETTER, text.escape_ascii().to_string())
}

/// Asks every text of these lengths over the alphabet.
pub fn over<const N: usize>(
    alphabet: &[u8; N],
    lengths: RangeInclusive<u32>,
    ask: impl Fn(&mut Tally, &[u8]) + Sync,
) -> Tally {
    // A part is a length and the first two letters.
    let firsts = (N * N) as u64;
    let lengths: Vec<u32> = lengths.collect();
    share(lengths.len() as u64 * firsts, |part, tally| {
        let (length, first) = (lengths[(part / firsts) as usize], (part % firsts) as usize);
        let mut text = [0; SHORT];
        let text = &mut text[..length as usize];
        let fixed = text.len().min(2);
        // Where there are fewer than two letters, only the parts that say nothing of the others are done.
        if first >= N.pow(fixed as u32) {
            return;
        }
        spell(alphabet, &mut text[..fixed], first);
        for rest in 0..N.pow(length - fixed as u32) {
            spell(alphabet, &mut text[fixed..], rest);
            ask(tally, text);
        }
    })
}

/// The number in the alphabet's digits, the last first.
fn spell<const N: usize>(alphabet: &[u8; N], text: &mut [u8], mut number: usize) {
    for byte in text {
        *byte = alphabet[number % N];
        number /= N;
    }
}

fn shapes(step: usize) -> Tally {
    const PART: u64 = 10_000;
    SHAPES.into_iter().fold(Tally::default(), |sum, shape| {
        let digits = shape.iter().filter(|&&byte| byte == b'd').count() as u32;
        let tally = share(10_u64.pow(digits) / PART, |part, tally| {
            for number in (part * PART..(part + 1) * PART).step_by(step) {
                let mut text = [0; SHORT];
                fill(shape, &mut text, number);
                ask_all(tally, &text[..shape.len()]);
            }
        });
        sum.and(tally)
    })
}

fn fill(shape: &[u8], text: &mut [u8; SHORT], mut number: u64) {
    for (byte, &part) in text[..shape.len()].iter_mut().zip(shape).rev() {
        *byte = part;
        if part == b'd' {
            *byte = b'0' + (number % 10) as u8;
            number /= 10;
        }
    }
}

/// Asks each text with each byte replaced by all 256.
pub fn replaced(texts: &[Vec<u8>], ask: impl Fn(&mut Tally, &[u8]) + Sync) -> Tally {
    share(texts.len() as u64, |part, tally| {
        let mut text = texts[part as usize].clone();
        for place in 0..text.len() {
            let byte = text[place];
            for other in 0..=255 {
                text[place] = other;
                ask(tally, &text);
            }
            text[place] = byte;
        }
    })
}

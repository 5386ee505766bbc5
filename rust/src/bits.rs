//! A date's bits: what the boundary answers about them, in Rust's words.
//!
//! The bits are the year's sixteen above the packed word: month × 4096 + day × 128 + hour × 4, and the mark.

use crate::ffi::{self, Answer, Number};
use crate::refusal::Refusal;

/// The signature that the two readers of texts of the boundary share.
pub(crate) type Reader = unsafe extern "C" fn(u32, *const u8, usize) -> Answer;

/// The signature that the four writers of the boundary share.
pub(crate) type Writer = unsafe extern "C" fn(u32, u32, *mut u8, usize) -> Answer;

pub(crate) fn given(answer: Answer) -> Result<u32, Refusal> {
    match answer.refusal {
        0 => Ok(answer.value),
        number => Err(Refusal::told(number, answer.value)),
    }
}

/// The number that is told of dates of one kind, about which the boundary refuses nothing.
pub(crate) fn counted(number: Number) -> i32 {
    assert_eq!(number.refusal, 0, "a date of a kind is refused");
    number.value
}

/// The bits of a text's date.
pub(crate) fn read(reader: Reader, kind: u32, text: &[u8]) -> Result<u32, Refusal> {
    // SAFETY: the pointer and the length are those of a slice.
    given(unsafe { reader(kind, text.as_ptr(), text.len()) })
}

pub(crate) fn from_fields(
    kind: u32,
    year: i16,
    month: u8,
    day: u8,
    hour: u8,
) -> Result<u32, Refusal> {
    let (month, day, hour) = (month.into(), day.into(), hour.into());
    given(ffi::pq_from_fields(kind, year.into(), month, day, hour))
}

/// The length of the text, which fills the first bytes of `out`.
pub(crate) fn write(
    writer: Writer,
    kind: u32,
    bits: u32,
    out: &mut [u8],
) -> Result<usize, Refusal> {
    // SAFETY: the pointer and the length are those of a slice that is ours alone.
    let answer = unsafe { writer(kind, bits, out.as_mut_ptr(), out.len()) };
    given(answer).map(|length| length as usize)
}

/// Whether these are the bits of a date of the kind: only then are they in order with themselves.
pub(crate) fn checked(kind: u32, bits: u32) -> Result<u32, Refusal> {
    let Number { refusal, .. } = ffi::pq_order(kind, bits, bits);
    given(Answer {
        refusal,
        value: if refusal == 0 { bits } else { 0 },
    })
}

/// The mark of a date that was guessed; every other has 0.
pub(crate) const GUESSED: u32 = 1;

pub(crate) fn mark(bits: u32) -> u32 {
    bits % 4
}

/// The bits without the mark, by which equal dates have equal hashes.
pub(crate) fn unmarked(bits: u32) -> u32 {
    bits - mark(bits)
}

pub(crate) fn year(bits: u32) -> i16 {
    (bits >> 16) as u16 as i16
}

pub(crate) fn month(bits: u32) -> u8 {
    (bits as u16 / 4096) as u8
}

pub(crate) fn day(bits: u32) -> u8 {
    (bits as u16 % 4096 / 128) as u8
}

pub(crate) fn hour(bits: u32) -> u8 {
    (bits as u16 % 128 / 4) as u8
}

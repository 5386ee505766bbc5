//! What stands for the original where it has no book: records taken apart as they stand in the bytes. It checks nothing
//! but the bounds of its slices.

use pennyquill::ffi::Record;
use std::slice;

/// The bytes before the records.
pub const HEAD: usize = 5;

/// The bytes of a record of a version.
fn size(version: u8) -> usize {
    if version == 2 { 7 } else { 5 }
}

#[inline(always)]
pub fn taken_apart(record: &[u8]) -> Record {
    let (front, date) = record.split_at(record.len() - 4);
    let field = front[1..].iter();
    Record {
        refusal: 0,
        kind: front[0].into(),
        value: u32::from_be_bytes([date[0], date[1], date[2], date[3]]),
        field: field.fold(0, |high, &low| high << 8 | u32::from(low)),
    }
}

/// All records of a book, into as much room.
#[inline(always)]
pub fn walk(book: &[u8], out: &mut [Record]) {
    let records = |size| book[HEAD..].chunks_exact(size);
    // A loop for each version, so that the compiler knows the size of a record.
    match book[4] {
        2 => put(records(7), out),
        _ => put(records(5), out),
    }
}

#[inline(always)]
fn put<'a>(records: impl Iterator<Item = &'a [u8]>, out: &mut [Record]) {
    for (out, record) in out.iter_mut().zip(records) {
        *out = taken_apart(record);
    }
}

/// The same behind a function of the boundary's shape; the room is for so many records.
#[inline(never)]
pub extern "C" fn walk_all(book: *const u8, len: usize, out: *mut Record, count: usize) {
    // SAFETY: the caller hands over the parts of slices, of which the second is its alone.
    let (book, out) = unsafe {
        (
            slice::from_raw_parts(book, len),
            slice::from_raw_parts_mut(out, count),
        )
    };
    walk(book, out);
}

#[inline(always)]
pub fn record(book: &[u8], place: usize) -> Record {
    let size = size(book[4]);
    taken_apart(&book[HEAD + size * place..][..size])
}

/// The same behind a function of the boundary's shape.
#[inline(never)]
pub extern "C" fn record_at(book: *const u8, len: usize, place: usize) -> Record {
    // SAFETY: the caller hands over the parts of a slice.
    record(unsafe { slice::from_raw_parts(book, len) }, place)
}

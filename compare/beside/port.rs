//! The boundary, over slices.

use pennyquill::ffi::{self, Answer, Lookup, Record};

pub type Writer = unsafe extern "C" fn(u32, u32, *mut u8, usize) -> Answer;

#[inline]
pub fn read(kind: u32, text: &[u8]) -> Answer {
    // SAFETY: the pointer and the length are those of a slice.
    unsafe { ffi::pq_read_text(kind, text.as_ptr(), text.len()) }
}

#[inline]
pub fn read_iso(kind: u32, text: &[u8]) -> Answer {
    // SAFETY: as above.
    unsafe { ffi::pq_read_iso(kind, text.as_ptr(), text.len()) }
}

#[inline]
pub fn write(writer: Writer, kind: u32, date: u32, out: &mut [u8]) -> Answer {
    // SAFETY: the pointer and the length are those of a slice that is ours alone.
    unsafe { writer(kind, date, out.as_mut_ptr(), out.len()) }
}

pub fn book_new(book: &mut [u8]) -> Answer {
    // SAFETY: as above.
    unsafe { ffi::pq_book_new(book.as_mut_ptr(), book.len()) }
}

pub fn book_check(book: &[u8]) -> Answer {
    // SAFETY: as above.
    unsafe { ffi::pq_book_check(book.as_ptr(), book.len()) }
}

pub fn book_append(book: &mut [u8], kind: u32, date: u32) -> Answer {
    // SAFETY: as above.
    unsafe { ffi::pq_book_append(book.as_mut_ptr(), book.len(), kind, date) }
}

pub fn book_record(book: &[u8], place: usize) -> Record {
    // SAFETY: as above.
    unsafe { ffi::pq_book_record(book.as_ptr(), book.len(), place) }
}

pub fn book2_new(book: &mut [u8]) -> Answer {
    // SAFETY: as above.
    unsafe { ffi::pq_book2_new(book.as_mut_ptr(), book.len()) }
}

pub fn book2_check(book: &[u8]) -> Answer {
    // SAFETY: as above.
    unsafe { ffi::pq_book2_check(book.as_ptr(), book.len()) }
}

pub fn book2_append(book: &mut [u8], kind: u32, field: u32, date: u32) -> Answer {
    // SAFETY: as above.
    unsafe { ffi::pq_book2_append(book.as_mut_ptr(), book.len(), kind, field, date) }
}

pub fn book2_record(book: &[u8], place: usize) -> Record {
    // SAFETY: as above.
    unsafe { ffi::pq_book2_record(book.as_ptr(), book.len(), place) }
}

pub fn any_book_check(book: &[u8]) -> Answer {
    // SAFETY: as above.
    unsafe { ffi::pq_any_book_check(book.as_ptr(), book.len()) }
}

pub fn any_book_record(book: &[u8], place: usize) -> Record {
    // SAFETY: as above.
    unsafe { ffi::pq_any_book_record(book.as_ptr(), book.len(), place) }
}

pub fn any_book_records(book: &[u8], place: usize, out: &mut [u32]) -> Answer {
    let (numbers, room) = (out.as_mut_ptr(), out.len());
    // SAFETY: as above; two slices, of which the second is ours alone.
    unsafe { ffi::pq_any_book_records(book.as_ptr(), book.len(), place, numbers, room) }
}

/// The book is lent as ours alone too, though nothing may be written there: so a change of it would be seen.
pub fn book_to_2(from: &mut [u8], to: &mut [u8]) -> Answer {
    let (book, length) = (from.as_mut_ptr(), from.len());
    // SAFETY: as above.
    unsafe { ffi::pq_book_to_2(book, length, to.as_mut_ptr(), to.len()) }
}

pub fn book_to_1(from: &mut [u8], to: &mut [u8]) -> Answer {
    let (book, length) = (from.as_mut_ptr(), from.len());
    // SAFETY: as above.
    unsafe { ffi::pq_book_to_1(book, length, to.as_mut_ptr(), to.len()) }
}

/// The book is lent as ours alone here too, for the same reason.
pub fn gap_report(book: &mut [u8], out: &mut [u8]) -> Answer {
    let (bytes, length) = (book.as_mut_ptr(), book.len());
    // SAFETY: as above.
    unsafe { ffi::pq_gap_report(bytes, length, out.as_mut_ptr(), out.len()) }
}

pub fn gap_figures(book: &mut [u8], out: &mut [i64]) -> Answer {
    let (bytes, length) = (book.as_mut_ptr(), book.len());
    // SAFETY: as above.
    unsafe { ffi::pq_gap_figures(bytes, length, out.as_mut_ptr(), out.len()) }
}

/// The input is lent as ours alone here too, for the same reason.
pub fn listing(input: &mut [u8], out: &mut [u8]) -> Answer {
    let (bytes, length) = (input.as_mut_ptr(), input.len());
    // SAFETY: as above.
    unsafe { ffi::pq_listing(bytes, length, out.as_mut_ptr(), out.len()) }
}

pub fn table_new(table: &mut [u8]) -> Answer {
    // SAFETY: as above.
    unsafe { ffi::pq_table_new(table.as_mut_ptr(), table.len()) }
}

pub fn table_check(table: &[u8]) -> Answer {
    // SAFETY: as above.
    unsafe { ffi::pq_table_check(table.as_ptr(), table.len()) }
}

pub fn table_entry(table: &[u8], place: usize) -> Record {
    // SAFETY: as above.
    unsafe { ffi::pq_table_entry(table.as_ptr(), table.len(), place) }
}

pub fn table_declare(table: &mut [u8], field: u32, kind: u32) -> Answer {
    // SAFETY: as above.
    unsafe { ffi::pq_table_declare(table.as_mut_ptr(), table.len(), field, kind) }
}

pub fn table_remove(table: &mut [u8], field: u32) -> Answer {
    // SAFETY: as above.
    unsafe { ffi::pq_table_remove(table.as_mut_ptr(), table.len(), field) }
}

pub fn table_lookup(table: &[u8], field: u32, game_kind: u32, number: i32) -> Lookup {
    // SAFETY: as above.
    unsafe { ffi::pq_table_lookup(table.as_ptr(), table.len(), field, game_kind, number) }
}

pub fn table_lookup_all(
    table: &[u8],
    game_kind: u32,
    fields: &[u32],
    numbers: &[i32],
    out: &mut [u32],
) -> Answer {
    // SAFETY: as above; four slices, of which the last is ours alone.
    unsafe {
        ffi::pq_table_lookup_all(
            table.as_ptr(),
            table.len(),
            game_kind,
            fields.as_ptr(),
            fields.len(),
            numbers.as_ptr(),
            numbers.len(),
            out.as_mut_ptr(),
            out.len(),
        )
    }
}

pub fn leagues_new(table: &mut [u8]) -> Answer {
    // SAFETY: as above.
    unsafe { ffi::pq_leagues_new(table.as_mut_ptr(), table.len()) }
}

/// This table and the next two are lent as ours alone too, though nothing may be written there: so a change
/// would be seen.
pub fn leagues_check(table: &mut [u8], league: u32) -> Answer {
    // SAFETY: as above.
    unsafe { ffi::pq_leagues_check(table.as_mut_ptr(), table.len(), league) }
}

pub fn leagues_entry(table: &mut [u8], league: u32, place: usize) -> Record {
    // SAFETY: as above.
    unsafe { ffi::pq_leagues_entry(table.as_mut_ptr(), table.len(), league, place) }
}

pub fn leagues_lookup(
    table: &mut [u8],
    league: u32,
    field: u32,
    game_kind: u32,
    number: i32,
) -> Lookup {
    let (bytes, length) = (table.as_mut_ptr(), table.len());
    // SAFETY: as above.
    unsafe { ffi::pq_leagues_lookup(bytes, length, league, field, game_kind, number) }
}

pub fn leagues_declare(table: &mut [u8], league: u32, field: u32, kind: u32) -> Answer {
    // SAFETY: as above.
    unsafe { ffi::pq_leagues_declare(table.as_mut_ptr(), table.len(), league, field, kind) }
}

pub fn leagues_remove(table: &mut [u8], league: u32, field: u32) -> Answer {
    // SAFETY: as above.
    unsafe { ffi::pq_leagues_remove(table.as_mut_ptr(), table.len(), league, field) }
}

/// The table that is moved is lent as ours alone here too.
pub fn leagues_from_table(from: &mut [u8], to: &mut [u8]) -> Answer {
    let (table, length) = (from.as_mut_ptr(), from.len());
    // SAFETY: as above.
    unsafe { ffi::pq_leagues_from_table(table, length, to.as_mut_ptr(), to.len()) }
}

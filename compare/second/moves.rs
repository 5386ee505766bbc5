//! "Move either way into a second buffer": "#107 Book version 2 and back" of document 02. Both give the number
//! of records, and leave the target's later bytes as they were. What is refused leaves all of them.

use crate::book::{self, Record, Refusal, refused};
use crate::second_book::{self, FieldRecord};

/// "To 2 takes version 1 alone": what its check refuses, then "12 last, for a short target". A record of
/// version 1 comes from no field, and has no mark.
pub fn to_2(from: &[u8], to: &mut [u8]) -> Result<usize, Refusal> {
    let records: Vec<FieldRecord> = book::records(from)?
        .into_iter()
        .map(|record| FieldRecord { record, field: 0 })
        .collect();
    if to.len() < second_book::room(records.len()) {
        return refused(12);
    }
    second_book::write(to, &records);
    Ok(records.len())
}

/// "to 1 version 2 alone": what its check refuses, then "21 when moving back a record with a field number or a
/// mark, with its place, after 11; 12 last, for a short target".
pub fn to_1(from: &[u8], to: &mut [u8]) -> Result<usize, Refusal> {
    let records = second_book::records(from)?;
    if let Some(place) = records.iter().position(|record| record.has_field_or_mark()) {
        return Err(Refusal::FieldOrMark(place));
    }
    if to.len() < book::room(records.len()) {
        return refused(12);
    }
    let without_field: Vec<Record> = records.iter().map(|record| record.record).collect();
    book::write(to, &without_field);
    Ok(records.len())
}

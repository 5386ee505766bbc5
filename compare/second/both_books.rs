//! The calls that take a book of either version, by "#107 Book version 2 and back" of document 02, and the walk
//! that checks a book once.

use crate::book::{self, Refusal};
use crate::second_book::{self, FieldRecord, VERSION};

/// Where the version stands.
const VERSION_PLACE: usize = 4;

/// The numbers of a record that is walked over: the refusal, which is 0, the kind, the date and the field.
pub const NUMBERS: usize = 4;

/// Every record, in its order. "A call that takes both versions uses the length limit of its version byte,
/// version 1's for any other byte", which then is 10, or 9 beyond that limit. A record of version 1 has no field.
pub fn records(buffer: &[u8]) -> Result<Vec<FieldRecord>, Refusal> {
    if buffer.get(VERSION_PLACE) == Some(&VERSION) {
        return second_book::records(buffer);
    }
    let without_field = |record| FieldRecord { record, field: 0 };
    book::records(buffer).map(|records| records.into_iter().map(without_field).collect())
}

pub fn check(buffer: &[u8]) -> Result<usize, Refusal> {
    records(buffer).map(|records| records.len())
}

pub fn record(buffer: &[u8], place: usize) -> Result<FieldRecord, Refusal> {
    let records = records(buffer)?;
    records.get(place).copied().ok_or(Refusal::Number(13))
}

/// "One call that checks once and answers many records": those from a place on, "numbers, not structs", as many
/// as there are and as whole fours of `out` hold. It gives how many; none at that place is 0 of them.
pub fn walk(buffer: &[u8], place: usize, out: &mut [u32]) -> Result<usize, Refusal> {
    let records = records(buffer)?;
    let from_place = records.iter().skip(place);
    let mut written = 0;
    for (record, four) in from_place.zip(out.chunks_exact_mut(NUMBERS)) {
        four.copy_from_slice(&numbers(record));
        written += 1;
    }
    Ok(written)
}

fn numbers(record: &FieldRecord) -> [u32; NUMBERS] {
    let FieldRecord { record, field } = record;
    let date = u32::from(record.year as u16) << 16 | u32::from(record.word);
    let kind = book::number_of(record.kind);
    [0, kind.into(), date, (*field).into()]
}

//! Field sets: every month, day and hour byte, at the years that matter.

use crate::kinds::Fields;
use crate::original::{Coded, or_panic, or_refused, refused};
use crate::report::{Covers, Extent, Report};
use crate::tally::{Listed, Tally, share};
use pennyquill::ffi::{Answer, pq_from_fields};

const YEARS: [i16; 16] = [
    -32768, -5001, -5000, -101, -100, -99, -1, 0, 1, 1700, 1701, 1799, 1800, 9999, 10000, 32767,
];

/// The quick form too asks all of them.
pub fn run(_: Extent, report: &mut Report) {
    let tally = share(YEARS.len() as u64 * 256, |part, tally| {
        let (year, month) = (YEARS[part as usize / 256], (part % 256) as u8);
        for_each!(with_hour(tally, year, month): RawDate, DateHour, Vic3Date);
        for_each!(without_hour(tally, year, month): Date, UniformDate, Eu5Date);
    });
    let name = "field sets: every month, day and hour byte at 16 years, six kinds";
    report.row(name, Covers::All, tally);
    report.row(
        "fields outside the Rust's types",
        Covers::Sample,
        outside_types(),
    );
}

fn with_hour<K: Coded>(tally: &mut Tally, year: i16, month: u8) {
    for day in 0..=255 {
        for hour in 0..=255 {
            let right = or_refused(K::make(Fields::new(year, month, day, hour)), 4);
            hold::<K>(
                tally,
                right,
                [year.into(), month.into(), day.into(), hour.into()],
            );
        }
    }
}

/// The constructors of D, U and E take no hour: whatever hour is handed in, the answer is theirs.
fn without_hour<K: Coded>(tally: &mut Tally, year: i16, month: u8) {
    for day in 0..=255 {
        let right = match or_panic(|| K::make(Fields::new(year, month, day, 0))) {
            Ok(date) => or_refused(date, 4),
            Err(refusal) => {
                tally.met_often(Listed::FieldsPanic, 256);
                refused(refusal)
            }
        };
        for hour in 0..=255 {
            hold::<K>(tally, right, [year.into(), month.into(), day.into(), hour]);
        }
    }
}

#[inline]
fn hold<K: Coded>(tally: &mut Tally, right: Answer, fields: [i32; 4]) {
    let [year, month, day, hour] = fields;
    let port = pq_from_fields(K::CODE, year, month as u32, day as u32, hour as u32);
    tally.hold(right, port, || format!("{} fields {fields:?}", K::LETTER));
}

/// What is added to a field so that its lowest bits stay: where a field were cut to the Rust's type, the
/// fields would be a date's.
const ABOVE_YEARS: [i32; 6] = [1 << 16, -(1 << 16), 1 << 17, 1 << 30, i32::MIN, -(1 << 24)];
const ABOVE_BYTES: [i32; 7] = [1 << 8, 1 << 9, 1 << 15, 1 << 16, 1 << 24, 1 << 30, i32::MIN];

fn outside_types() -> Tally {
    share(YEARS.len() as u64, |part, tally| {
        for_all_six!(outside(tally, YEARS[part as usize]));
    })
}

fn outside<K: Coded>(tally: &mut Tally, year: i16) {
    let takes_hour = matches!(K::LETTER, 'R' | 'H' | 'V');
    for (month, day, hour) in crate::original::days::<K>() {
        if !takes_hour && hour != 0 {
            continue;
        }
        let fields = [year.into(), month.into(), day.into(), hour.into()];
        for above in ABOVE_YEARS {
            refuse::<K>(tally, fields, 0, above);
        }
        for above in ABOVE_BYTES {
            refuse::<K>(tally, fields, 1, above);
            refuse::<K>(tally, fields, 2, above);
            if takes_hour {
                refuse::<K>(tally, fields, 3, above);
            }
        }
    }
}

fn refuse<K: Coded>(tally: &mut Tally, mut fields: [i32; 4], place: usize, above: i32) {
    fields[place] = fields[place].wrapping_add(above);
    if place == 0 && i16::try_from(fields[0]).is_ok() {
        return;
    }
    tally.met(Listed::OutsideTypes);
    hold::<K>(tally, refused(4), fields);
}

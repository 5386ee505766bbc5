//! Which years a run goes through.

use crate::report::Extent;

/// Both sides of every bound on years, and of every width that a year is written in.
const EDGES: [i16; 36] = [
    -32768, -32767, -10000, -9999, -5001, -5000, -4999, -1001, -1000, -999, -101, -100, -99, -10,
    -9, -5, -2, -1, 0, 1, 2, 9, 10, 99, 100, 999, 1000, 1444, 1700, 1701, 1799, 1800, 9999, 10000,
    32766, 32767,
];

/// Every year; in the quick form the edges and every so many years.
pub fn years(extent: Extent, quick_step: i16) -> Vec<i16> {
    let is_sampled = |year: i16| year % quick_step == 0 || EDGES.contains(&year);
    let is_taken = |&year: &i16| extent.is_full() || is_sampled(year);
    (i16::MIN..=i16::MAX).filter(is_taken).collect()
}

/// Of the full form too only some: the edges, and in the full form every 499th.
pub fn some_years(extent: Extent) -> Vec<i16> {
    years(Extent::Quick, extent.pick(i16::MAX, 499))
}

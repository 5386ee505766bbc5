//! Dates to ask about.

use crate::kinds::{Fields, Kind};
use crate::random::Random;

/// Both sides of every bound on years, and of every width that a year is written in.
pub const YEARS: [i16; 36] = [
    -32768, -32767, -10000, -9999, -5001, -5000, -4999, -1001, -1000, -999, -101, -100, -99, -10,
    -9, -5, -2, -1, 0, 1, 2, 9, 10, 99, 100, 999, 1000, 1444, 1700, 1701, 1799, 1800, 9999, 10000,
    32766, 32767,
];

/// Dates of a kind at the edges of years, months and hours.
pub fn edge_dates<K: Kind>() -> Vec<K> {
    let hours = K::hours();
    let (first, last) = (hours[0], hours[hours.len() - 1]);
    let mut edges = Vec::new();
    for year in YEARS {
        edges.push(Fields::new(year, 1, 1, first));
        edges.push(Fields::new(year, 12, 30, last));
        edges.push(Fields::new(year, 12, 31, last));
    }
    for month in 1..=12 {
        for day in [1, 9, 10, 28, 29, 30, 31] {
            edges.push(Fields::new(1836, month, day, first));
        }
    }
    for hour in hours {
        edges.push(Fields::new(1444, 11, 11, hour));
    }
    edges.into_iter().filter_map(K::with).collect()
}

/// Dates from which a day step leaves a year, the years before 0, or the range.
pub fn landmarks<K: Kind>() -> Vec<K> {
    let days = [
        (-32768, 12, 31),
        (-32768, 1, 1),
        (-2, 12, 31),
        (-2, 1, 1),
        (-1, 12, 31),
        (-1, 1, 2),
        (-1, 1, 1),
        (0, 1, 1),
        (0, 1, 2),
        (0, 12, 31),
        (1, 1, 1),
        (1444, 11, 11),
        (1444, 11, 11),
        (32767, 1, 1),
        (32767, 12, 31),
    ];
    let hours = K::hours();
    let at = |place: usize| hours[place % hours.len()];
    let on = |(place, (year, month, day))| Fields::new(year, month, day, at(place));
    (0..).zip(days).map(on).filter_map(K::with).collect()
}

pub fn any_year(random: &mut Random) -> i16 {
    let year = match random.index(20) {
        0..=3 => random.between(i16::MIN.into(), i16::MAX.into()),
        4..=6 => random.between(-120, 120),
        7..=8 => random.pick(&YEARS).into(),
        _ => random.between(1, 2500),
    };
    year as i16
}

/// Some date of the kind: every month, day and hour that it allows is as likely.
pub fn any_date<K: Kind>(random: &mut Random) -> K {
    let year = any_year(random);
    loop {
        let month = random.between(1, 12) as u8;
        let day = random.between(1, 31) as u8;
        let hour = random.between(0, 24) as u8;
        if let Some(date) = K::with(Fields::new(year, month, day, hour)) {
            return date;
        }
    }
}

//! Crate root for the original's `jomini`: three of its files, unchanged, at the places in the
//! module tree that they expect, and doors to the private parts that the answers need.
#![allow(dead_code)] // only a part of the original is asked

use std::borrow::Cow;

/// Stands in for the original's decoder, which only the display of a scalar calls.
fn decode_windows1252(text: &[u8]) -> Cow<'_, str> {
    String::from_utf8_lossy(text)
}

mod scalar {
    include!(concat!(env!("JOMINI_SRC"), "/crates/jomini/src/scalar.rs"));
}

mod util {
    include!(concat!(env!("JOMINI_SRC"), "/crates/jomini/src/util.rs"));
}

pub mod common {
    pub use date::{Date, DateError, DateFormat, DateHour, PdsDate, PdsDateFormatter};
    pub use date::{RawDate, UniformDate};

    pub(crate) mod date {
        include!(concat!(
            env!("JOMINI_SRC"),
            "/crates/jomini/src/common/date.rs"
        ));

        impl Date {
            pub fn stored_hour(&self) -> u8 {
                self.raw.hour()
            }

            /// The number of the day, which differences and additions count with.
            pub fn day_number(self) -> i32 {
                self.days()
            }

            /// The date of a text by the way that the fast shapes fall back to.
            pub fn by_plain_path(text: &[u8]) -> Option<Date> {
                Self::fallback(text).ok()
            }
        }

        impl UniformDate {
            pub fn stored_hour(&self) -> u8 {
                self.raw.hour()
            }
        }

        /// Year, month, day and hour of a text, before they are those of any kind.
        pub fn text_parts(text: &[u8]) -> Option<(i16, u8, u8, u8)> {
            ExpandedRawDate::parse(text).map(parts)
        }

        /// Those of a number.
        pub fn number_parts(number: i32) -> Option<(i16, u8, u8, u8)> {
            ExpandedRawDate::from_binary(number).map(parts)
        }

        fn parts(date: ExpandedRawDate) -> (i16, u8, u8, u8) {
            (date.year, date.month, date.day, date.hour)
        }

        pub fn month_and_day(day_of_year: i32) -> (u8, u8) {
            month_day_from_julian(day_of_year)
        }

        pub fn days_before_first(month: u8) -> i32 {
            julian_ordinal_day(month)
        }

        pub fn number(year: i16, day_of_year: i32, hour: u8) -> i32 {
            to_binary(year, day_of_year, hour)
        }
    }
}

/// The original's private functions, each behind a name of ours.
pub mod leaves {
    pub use crate::common::date::{days_before_first, month_and_day, number};
    pub use crate::common::date::{number_parts, text_parts};

    /// `to_i64_t`: the leading number and how many bytes follow it.
    pub fn leading_number(text: &[u8]) -> Option<(i64, usize)> {
        let (value, rest) = crate::scalar::to_i64_t(text).ok()?;
        Some((value, rest.len()))
    }

    /// `fast_digit_parse`: the value of eight digits, the first one in the lowest byte.
    pub fn eight_digits(word: u64) -> Option<u64> {
        crate::util::fast_digit_parse(word)
    }
}

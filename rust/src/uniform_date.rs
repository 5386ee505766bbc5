//! Kind U.

use crate::bits;
use crate::ffi;
use crate::pds_date::{PdsDate, pds_date};
use crate::refusal::Refusal;

/// A date in months of 30 days each: kind U.
///
/// ```
/// use pennyquill::{PdsDate, UniformDate};
/// assert_eq!(UniformDate::parse("2200.2.30")?.game_fmt(), "2200.02.30");
/// # Ok::<(), pennyquill::Refusal>(())
/// ```
#[derive(Clone, Copy)]
pub struct UniformDate {
    bits: u32,
}

pds_date!(UniformDate, 4);

impl UniformDate {
    /// The date with these fields, or refusal 4.
    ///
    /// ```
    /// use pennyquill::{Refusal, UniformDate};
    /// assert_eq!(UniformDate::from_ymd_opt(2200, 2, 30), UniformDate::parse("2200.02.30"));
    /// assert_eq!(UniformDate::from_ymd_opt(2200, 1, 31), Err(Refusal::NotOfKind));
    /// ```
    pub fn from_ymd_opt(year: i16, month: u8, day: u8) -> Result<Self, Refusal> {
        let bits = bits::from_fields(Self::KIND, year, month, day, 0)?;
        Ok(UniformDate { bits })
    }

    /// The date of a text, or of a number's text; refusal 1 for a text over 64 bytes, 2 for one that is no date's. The
    /// year or the number may have zeros before it, as many as fit, and its true value decides.
    ///
    /// ```
    /// use pennyquill::{Refusal, UniformDate};
    /// assert_eq!(UniformDate::parse("2205.02.30"), UniformDate::from_ymd_opt(2205, 2, 30));
    /// assert_eq!(UniformDate::parse("720"), Err(Refusal::NotText)); // 31 January
    ///
    /// let padded = |zeros: usize| UniformDate::parse("0".repeat(zeros) + "43808760");
    /// assert_eq!(padded(56), UniformDate::from_ymd_opt(1, 1, 1));
    /// assert_eq!(padded(57), Err(Refusal::TextTooLong));
    /// assert_eq!(UniformDate::parse("18446744073753360376"), Err(Refusal::NotText)); // 2^64 + 43808760
    /// ```
    pub fn parse<T: AsRef<[u8]>>(text: T) -> Result<Self, Refusal> {
        let bits = bits::read(ffi::pq_read_text, Self::KIND, text.as_ref())?;
        Ok(UniformDate { bits })
    }

    /// The date of an ISO text, as [`iso_8601`](PdsDate::iso_8601) writes it and in no other spelling; one with an hour
    /// is none of U's. Refusal 1 for a text over 64 bytes, 2 for any other that is no date's. Not in jomini.
    ///
    /// ```
    /// use pennyquill::{Refusal, UniformDate};
    /// assert_eq!(UniformDate::from_iso_8601("2200-02-30"), UniformDate::parse("2200.02.30"));
    /// assert_eq!(UniformDate::from_iso_8601("2200-01-31"), Err(Refusal::NotText));
    /// assert_eq!(UniformDate::from_iso_8601("2200-02-30T00"), Err(Refusal::NotText));
    /// ```
    pub fn from_iso_8601<T: AsRef<[u8]>>(text: T) -> Result<Self, Refusal> {
        let bits = bits::read(ffi::pq_read_iso, Self::KIND, text.as_ref())?;
        Ok(UniformDate { bits })
    }
}

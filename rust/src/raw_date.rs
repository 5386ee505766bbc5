//! Kind R.

use crate::bits;
use crate::ffi;
use crate::pds_date::{PdsDate, pds_date};
use crate::refusal::Refusal;

/// A date that may have an hour, with days up to 31 in every month: kind R.
///
/// ```
/// use pennyquill::{PdsDate, RawDate};
/// let date = RawDate::parse("1444.2.31.24")?;
/// assert!(date > RawDate::parse("1444.2.31")?);
/// assert_eq!(date.iso_8601(), "1444-02-31T23");
/// # Ok::<(), pennyquill::Refusal>(())
/// ```
#[derive(Clone, Copy)]
pub struct RawDate {
    bits: u32,
}

pds_date!(RawDate, 1);

impl RawDate {
    /// The date with these fields, or refusal 4. Hour 0 means no hour.
    ///
    /// ```
    /// use pennyquill::{PdsDate, RawDate, Refusal};
    /// assert_eq!(RawDate::from_ymdh_opt(1444, 11, 11, 24)?.game_fmt(), "1444.11.11.24");
    /// assert_eq!(RawDate::from_ymdh_opt(1444, 11, 11, 25), Err(Refusal::NotOfKind));
    /// # Ok::<(), Refusal>(())
    /// ```
    pub fn from_ymdh_opt(year: i16, month: u8, day: u8, hour: u8) -> Result<Self, Refusal> {
        let bits = bits::from_fields(Self::KIND, year, month, day, hour)?;
        Ok(RawDate { bits })
    }

    /// The date of a text; refusal 1 for one over 64 bytes, 2 for one that is no date's. It reads no number's text.
    ///
    /// ```
    /// use pennyquill::{RawDate, Refusal};
    /// assert_eq!(RawDate::parse("1444.1.1.6"), RawDate::from_ymdh_opt(1444, 1, 1, 6));
    /// assert_eq!(RawDate::parse("1444.1.1.06"), Err(Refusal::NotText));
    /// ```
    ///
    /// The year may have zeros before it, as many as fit, and its true value decides:
    ///
    /// ```
    /// use pennyquill::{RawDate, Refusal};
    /// let padded = |zeros: usize| RawDate::parse("0".repeat(zeros) + "1444.1.1");
    /// assert_eq!(padded(56), RawDate::from_ymdh_opt(1444, 1, 1, 0));
    /// assert_eq!(padded(57), Err(Refusal::TextTooLong));
    ///
    /// // 2^64 + 1444 is a year of no date, and never 1444.
    /// assert_eq!(RawDate::parse("18446744073709553060.1.1"), Err(Refusal::NotText));
    /// ```
    pub fn parse<T: AsRef<[u8]>>(text: T) -> Result<Self, Refusal> {
        let bits = bits::read(ffi::pq_read_text, Self::KIND, text.as_ref())?;
        Ok(RawDate { bits })
    }

    /// The date of an ISO text, as [`iso_8601`](PdsDate::iso_8601) writes it and in no other spelling, with an hour or
    /// without one. Refusal 1 for a text over 64 bytes, 2 for any other that is no date's. Not in jomini.
    ///
    /// ```
    /// use pennyquill::{RawDate, Refusal};
    /// assert_eq!(RawDate::from_iso_8601("1444-02-31"), RawDate::parse("1444.2.31"));
    /// assert_eq!(RawDate::from_iso_8601("1444-02-31T00"), RawDate::parse("1444.2.31.1"));
    /// assert_eq!(RawDate::from_iso_8601("1444-02-31T23"), RawDate::parse("1444.2.31.24"));
    /// assert_eq!(RawDate::from_iso_8601("1444-02-31T24"), Err(Refusal::NotText));
    /// assert_eq!(RawDate::from_iso_8601("1444-02-31T23:00Z"), Err(Refusal::NotText));
    /// assert_eq!(RawDate::from_iso_8601("01444-02-31"), Err(Refusal::NotText));
    /// assert_eq!(RawDate::from_iso_8601([b'0'; 65]), Err(Refusal::TextTooLong));
    /// ```
    pub fn from_iso_8601<T: AsRef<[u8]>>(text: T) -> Result<Self, Refusal> {
        let bits = bits::read(ffi::pq_read_iso, Self::KIND, text.as_ref())?;
        Ok(RawDate { bits })
    }

    /// The date of a binary number, or refusal 3. The hour is taken as it is.
    ///
    /// ```
    /// use pennyquill::{PdsDate, RawDate, Refusal};
    /// assert_eq!(RawDate::from_binary(56_379_360)?.iso_8601(), "1436-01-01");
    /// assert_eq!(RawDate::from_binary(60_759_371)?.iso_8601(), "1936-01-01T10");
    /// assert_eq!(RawDate::from_binary(-1), Err(Refusal::NotNumber));
    /// # Ok::<(), Refusal>(())
    /// ```
    pub fn from_binary(number: i32) -> Result<Self, Refusal> {
        let bits = bits::given(ffi::pq_read_number(Self::KIND, number))?;
        Ok(RawDate { bits })
    }

    /// The hour, 1 to 24, or 0 where there is none.
    ///
    /// ```
    /// use pennyquill::RawDate;
    /// assert_eq!(RawDate::parse("1444.11.11.12")?.hour(), 12);
    /// # Ok::<(), pennyquill::Refusal>(())
    /// ```
    pub fn hour(&self) -> u8 {
        bits::hour(self.bits)
    }

    /// Whether the date has an hour.
    ///
    /// ```
    /// use pennyquill::RawDate;
    /// assert!(RawDate::parse("1444.11.11.12")?.has_hour());
    /// assert!(!RawDate::parse("1444.11.11")?.has_hour());
    /// # Ok::<(), pennyquill::Refusal>(())
    /// ```
    pub fn has_hour(&self) -> bool {
        self.hour() != 0
    }
}

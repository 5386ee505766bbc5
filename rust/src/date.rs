//! Kind D.

use crate::bits;
use crate::ffi;
use crate::pds_date::{PdsDate, pds_date};
use crate::refusal::Refusal;

/// A date without an hour, in years of 365 days: kind D.
///
/// ```
/// use pennyquill::{Date, PdsDate};
/// let date = Date::parse("1444.11.11")?;
/// assert_eq!((date.year(), date.month(), date.day()), (1444, 11, 11));
/// # Ok::<(), pennyquill::Refusal>(())
/// ```
#[derive(Clone, Copy)]
pub struct Date {
    bits: u32,
}

pds_date!(Date, 2);

impl Date {
    /// The date with these fields, or refusal 4.
    ///
    /// ```
    /// use pennyquill::{Date, Refusal};
    /// assert_eq!(Date::from_ymd_opt(800, 5, 3), Date::parse("800.5.3"));
    /// assert_eq!(Date::from_ymd_opt(2020, 2, 29), Err(Refusal::NotOfKind));
    /// ```
    pub fn from_ymd_opt(year: i16, month: u8, day: u8) -> Result<Self, Refusal> {
        let bits = bits::from_fields(Self::KIND, year, month, day, 0)?;
        Ok(Date { bits })
    }

    /// The date of a text, or of a number's text; refusal 1 for a text over 64 bytes, 2 for one that is no date's. D's
    /// texts have 12 bytes at most, zeros before the year or the number among them: one of 13 to 64 bytes is 2.
    ///
    /// ```
    /// use pennyquill::{Date, Refusal};
    /// assert_eq!(Date::parse("1444.11.11"), Date::from_ymd_opt(1444, 11, 11));
    /// assert_eq!(Date::parse("43808760"), Date::from_ymd_opt(1, 1, 1));
    /// assert_eq!(Date::parse("1444.11.11.1"), Err(Refusal::NotText));
    ///
    /// let padded = |zeros: usize| Date::parse("0".repeat(zeros) + "1444.1.1");
    /// assert_eq!(padded(4), Date::from_ymd_opt(1444, 1, 1));
    /// assert_eq!(padded(5), Err(Refusal::NotText));
    /// assert_eq!(padded(56), Err(Refusal::NotText));
    /// assert_eq!(padded(57), Err(Refusal::TextTooLong));
    /// ```
    pub fn parse<T: AsRef<[u8]>>(text: T) -> Result<Self, Refusal> {
        let bits = bits::read(ffi::pq_read_text, Self::KIND, text.as_ref())?;
        Ok(Date { bits })
    }

    /// The date of an ISO text, as [`iso_8601`](PdsDate::iso_8601) writes it and in no other spelling; one with an hour
    /// is none of D's. Refusal 1 for a text over 64 bytes, 2 for any other that is no date's. Not in jomini.
    ///
    /// ```
    /// use pennyquill::{Date, Refusal};
    /// assert_eq!(Date::from_iso_8601("1444-11-11"), Date::parse("1444.11.11"));
    /// assert_eq!(Date::from_iso_8601("1444-11-11T00"), Err(Refusal::NotText));
    ///
    /// // The sign of a year counts among its four places. -00005 is the year in the exchange text.
    /// assert_eq!(Date::from_iso_8601("-005-01-01"), Date::parse("-5.1.1"));
    /// assert_eq!(Date::from_iso_8601("-0005-01-01"), Err(Refusal::NotText));
    /// assert_eq!(Date::from_iso_8601("-00005-01-01"), Err(Refusal::NotText));
    /// assert_eq!(Date::from_iso_8601("-5-01-01"), Err(Refusal::NotText));
    /// ```
    pub fn from_iso_8601<T: AsRef<[u8]>>(text: T) -> Result<Self, Refusal> {
        let bits = bits::read(ffi::pq_read_iso, Self::KIND, text.as_ref())?;
        Ok(Date { bits })
    }

    /// The date of a binary number, or refusal 3. Its hour is left out.
    ///
    /// ```
    /// use pennyquill::{Date, Refusal};
    /// assert_eq!(Date::from_binary(56_379_360), Date::parse("1436.1.1"));
    /// assert_eq!(Date::from_binary(-8760), Date::parse("-5001.1.1"));
    /// assert_eq!(Date::from_binary(-8736), Err(Refusal::NotNumber));
    /// ```
    pub fn from_binary(number: i32) -> Result<Self, Refusal> {
        let bits = bits::given(ffi::pq_read_number(Self::KIND, number))?;
        Ok(Date { bits })
    }

    /// The date of a number that may be a plain one: refusal 3 too where the year is -100 or less, or there is an hour.
    ///
    /// ```
    /// use pennyquill::{Date, Refusal};
    /// assert_eq!(Date::from_binary_heuristic(56_379_360), Date::parse("1436.1.1"));
    /// assert_eq!(Date::from_binary_heuristic(1444), Err(Refusal::NotNumber));
    /// ```
    pub fn from_binary_heuristic(number: i32) -> Result<Self, Refusal> {
        let bits = bits::given(ffi::pq_guess_number(Self::KIND, number))?;
        Ok(Date { bits })
    }

    /// The binary number of the date.
    ///
    /// ```
    /// use pennyquill::Date;
    /// assert_eq!(Date::parse("1.1.1")?.to_binary(), 43_808_760);
    /// # Ok::<(), pennyquill::Refusal>(())
    /// ```
    pub fn to_binary(self) -> i32 {
        bits::counted(ffi::pq_to_number(Self::KIND, self.bits))
    }

    /// The days from this date to another. Before year 0 the days of a year run backward, as they do in the games.
    ///
    /// ```
    /// use pennyquill::Date;
    /// let date = Date::parse("1400.1.2")?;
    /// assert_eq!(date.days_until(&Date::parse("1401.12.31")?), 728);
    /// assert_eq!(Date::parse("-1.1.1")?.days_until(&Date::parse("-1.1.2")?), -1);
    /// # Ok::<(), pennyquill::Refusal>(())
    /// ```
    pub fn days_until(self, other: &Date) -> i32 {
        bits::counted(ffi::pq_days_until(Self::KIND, self.bits, other.bits))
    }

    /// The date so many days on. Refusal 5 where the sum is outside 32 bits, 6 where no year of 16 bits has that day:
    /// there jomini panics.
    ///
    /// ```
    /// use pennyquill::{Date, Refusal};
    /// let date = Date::parse("1400.1.2")?;
    /// assert_eq!(date.add_days(1), Date::parse("1400.1.3"));
    /// assert_eq!(date.add_days(-1), Date::parse("1400.1.1"));
    /// let last = Date::parse("32767.12.31")?;
    /// assert_eq!(last.add_days(1), Err(Refusal::NoSuchDay));
    /// assert_eq!(last.add_days(i32::MAX), Err(Refusal::SumTooLarge));
    /// # Ok::<(), Refusal>(())
    /// ```
    pub fn add_days(self, days: i32) -> Result<Self, Refusal> {
        let bits = bits::given(ffi::pq_add_days(Self::KIND, self.bits, days))?;
        Ok(Date { bits })
    }
}

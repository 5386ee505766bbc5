//! Kind V.

use crate::bits;
use crate::ffi;
use crate::pds_date::{PdsDate, pds_date};
use crate::refusal::Refusal;

/// A date with hour 0, 6, 12 or 18: kind V.
///
/// ```
/// use pennyquill::{PdsDate, Vic3Date};
/// let date = Vic3Date::parse("1836.2.3.6")?;
/// assert_eq!(date.game_fmt(), "1836.2.3.6");
/// assert_eq!(date.iso_8601(), "1836-02-03T06");
/// # Ok::<(), pennyquill::Refusal>(())
/// ```
#[derive(Clone, Copy)]
pub struct Vic3Date {
    bits: u32,
}

pds_date!(Vic3Date, 6);

impl Vic3Date {
    /// The date with these fields, or refusal 4.
    ///
    /// ```
    /// use pennyquill::{Refusal, Vic3Date};
    /// assert_eq!(Vic3Date::from_ymdh_opt(1836, 2, 3, 6), Vic3Date::parse("1836.2.3.6"));
    /// assert_eq!(Vic3Date::from_ymdh_opt(1836, 2, 3, 7), Err(Refusal::NotOfKind));
    /// ```
    pub fn from_ymdh_opt(year: i16, month: u8, day: u8, hour: u8) -> Result<Self, Refusal> {
        let bits = bits::from_fields(Self::KIND, year, month, day, hour)?;
        Ok(Vic3Date { bits })
    }

    /// The date of a text; refusal 1 for one over 64 bytes, 2 for one that is no date's. It reads no number's text. The
    /// year may have zeros before it, as in [`RawDate::parse`](crate::RawDate::parse).
    ///
    /// ```
    /// use pennyquill::{Refusal, Vic3Date};
    /// assert_eq!(Vic3Date::parse("1836.2.3"), Vic3Date::from_ymdh_opt(1836, 2, 3, 0));
    /// assert_eq!(Vic3Date::parse("43808760"), Err(Refusal::NotText));
    /// ```
    pub fn parse<T: AsRef<[u8]>>(text: T) -> Result<Self, Refusal> {
        let bits = bits::read(ffi::pq_read_text, Self::KIND, text.as_ref())?;
        Ok(Vic3Date { bits })
    }

    /// The date of an ISO text, as [`iso_8601`](PdsDate::iso_8601) writes it and in no other spelling: always with an
    /// hour. Refusal 1 for a text over 64 bytes, 2 for any other that is no date's. Not in jomini.
    ///
    /// ```
    /// use pennyquill::{Refusal, Vic3Date};
    /// assert_eq!(Vic3Date::from_iso_8601("1836-02-03T06"), Vic3Date::parse("1836.2.3.6"));
    /// assert_eq!(Vic3Date::from_iso_8601("1836-02-03T00"), Vic3Date::parse("1836.2.3"));
    /// assert_eq!(Vic3Date::from_iso_8601("1836-02-03T07"), Err(Refusal::NotText));
    /// assert_eq!(Vic3Date::from_iso_8601("1836-02-03"), Err(Refusal::NotText));
    /// ```
    pub fn from_iso_8601<T: AsRef<[u8]>>(text: T) -> Result<Self, Refusal> {
        let bits = bits::read(ffi::pq_read_iso, Self::KIND, text.as_ref())?;
        Ok(Vic3Date { bits })
    }

    /// The date of a binary number, or refusal 3.
    ///
    /// ```
    /// use pennyquill::{Refusal, Vic3Date};
    /// assert_eq!(Vic3Date::from_binary(43_808_766), Vic3Date::parse("1.1.1.6"));
    /// assert_eq!(Vic3Date::from_binary(43_808_767), Err(Refusal::NotNumber));
    /// ```
    pub fn from_binary(number: i32) -> Result<Self, Refusal> {
        let bits = bits::given(ffi::pq_read_number(Self::KIND, number))?;
        Ok(Vic3Date { bits })
    }

    /// The date of a number that may be a plain one: refusal 3 too for years up to 1700, but for 1.1.1 without an hour.
    ///
    /// ```
    /// use pennyquill::{Refusal, Vic3Date};
    /// assert_eq!(Vic3Date::from_binary_heuristic(43_808_760), Vic3Date::parse("1.1.1"));
    /// assert_eq!(Vic3Date::from_binary_heuristic(43_808_766), Err(Refusal::NotNumber));
    /// ```
    pub fn from_binary_heuristic(number: i32) -> Result<Self, Refusal> {
        let bits = bits::given(ffi::pq_guess_number(Self::KIND, number))?;
        Ok(Vic3Date { bits })
    }

    /// The hour: 0, 6, 12 or 18.
    ///
    /// ```
    /// use pennyquill::Vic3Date;
    /// assert_eq!(Vic3Date::parse("1836.2.3.18")?.hour(), 18);
    /// # Ok::<(), pennyquill::Refusal>(())
    /// ```
    pub fn hour(&self) -> u8 {
        bits::hour(self.bits)
    }

    /// The date so many days on, at the same hour. Refusals as those of [`Date::add_days`](crate::Date::add_days).
    ///
    /// ```
    /// use pennyquill::{Refusal, Vic3Date};
    /// let date = Vic3Date::parse("1836.12.31.6")?;
    /// assert_eq!(date.add_days(1), Vic3Date::parse("1837.1.1.6"));
    /// assert_eq!(Vic3Date::parse("-32768.12.31")?.add_days(-1), Err(Refusal::NoSuchDay));
    /// # Ok::<(), Refusal>(())
    /// ```
    pub fn add_days(self, days: i32) -> Result<Self, Refusal> {
        let bits = bits::given(ffi::pq_add_days(Self::KIND, self.bits, days))?;
        Ok(Vic3Date { bits })
    }

    /// The days from this date to another; hours do not count.
    ///
    /// ```
    /// use pennyquill::Vic3Date;
    /// let date = Vic3Date::parse("1836.1.1.18")?;
    /// assert_eq!(date.days_until(&Vic3Date::parse("1836.1.2")?), 1);
    /// # Ok::<(), pennyquill::Refusal>(())
    /// ```
    pub fn days_until(self, other: &Vic3Date) -> i32 {
        bits::counted(ffi::pq_days_until(Self::KIND, self.bits, other.bits))
    }
}

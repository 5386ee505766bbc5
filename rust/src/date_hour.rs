//! Kind H.

use crate::bits;
use crate::ffi;
use crate::pds_date::{PdsDate, pds_date};
use crate::refusal::Refusal;

/// A date with an hour of 1 to 24: kind H.
///
/// ```
/// use pennyquill::{DateHour, PdsDate};
/// let date = DateHour::parse("1936.1.2.24")?;
/// assert_eq!(date.iso_8601(), "1936-01-02T23");
/// # Ok::<(), pennyquill::Refusal>(())
/// ```
#[derive(Clone, Copy)]
pub struct DateHour {
    bits: u32,
}

pds_date!(DateHour, 3);

impl DateHour {
    /// The date with these fields, or refusal 4.
    ///
    /// ```
    /// use pennyquill::{DateHour, Refusal};
    /// assert_eq!(DateHour::from_ymdh_opt(1936, 1, 1, 24), DateHour::parse("1936.1.1.24"));
    /// assert_eq!(DateHour::from_ymdh_opt(1936, 1, 1, 0), Err(Refusal::NotOfKind));
    /// ```
    pub fn from_ymdh_opt(year: i16, month: u8, day: u8, hour: u8) -> Result<Self, Refusal> {
        let bits = bits::from_fields(Self::KIND, year, month, day, hour)?;
        Ok(DateHour { bits })
    }

    /// The date of a text, or of a number's text with an hour of 1 or more; refusal 1 for a text over 64 bytes, 2 for
    /// one that is no date's. The year or the number may have zeros before it, as in
    /// [`UniformDate::parse`](crate::UniformDate::parse).
    ///
    /// ```
    /// use pennyquill::{DateHour, Refusal};
    /// assert_eq!(DateHour::parse("43808761"), DateHour::parse("1.1.1.1"));
    /// assert_eq!(DateHour::parse("1936.1.1"), Err(Refusal::NotText));
    /// ```
    pub fn parse<T: AsRef<[u8]>>(text: T) -> Result<Self, Refusal> {
        let bits = bits::read(ffi::pq_read_text, Self::KIND, text.as_ref())?;
        Ok(DateHour { bits })
    }

    /// The date of an ISO text, as [`iso_8601`](PdsDate::iso_8601) writes it and in no other spelling: always with an
    /// hour, which runs from 0 there. Refusal 1 for a text over 64 bytes, 2 for any other that is no date's. Not in
    /// jomini.
    ///
    /// ```
    /// use pennyquill::{DateHour, Refusal};
    /// assert_eq!(DateHour::from_iso_8601("1936-01-01T00"), DateHour::parse("1936.1.1.1"));
    /// assert_eq!(DateHour::from_iso_8601("1936-01-01T23"), DateHour::parse("1936.1.1.24"));
    /// assert_eq!(DateHour::from_iso_8601("1936-01-01T24"), Err(Refusal::NotText));
    /// assert_eq!(DateHour::from_iso_8601("1936-01-01"), Err(Refusal::NotText));
    /// ```
    pub fn from_iso_8601<T: AsRef<[u8]>>(text: T) -> Result<Self, Refusal> {
        let bits = bits::read(ffi::pq_read_iso, Self::KIND, text.as_ref())?;
        Ok(DateHour { bits })
    }

    /// The date of a binary number, or refusal 3. The number's hours run from 0, the date's from 1.
    ///
    /// ```
    /// use pennyquill::{DateHour, Refusal};
    /// assert_eq!(DateHour::from_binary(43_808_760), DateHour::parse("1.1.1.1"));
    /// assert_eq!(DateHour::from_binary(i32::MAX), Err(Refusal::NotNumber));
    /// ```
    pub fn from_binary(number: i32) -> Result<Self, Refusal> {
        let bits = bits::given(ffi::pq_read_number(Self::KIND, number))?;
        Ok(DateHour { bits })
    }

    /// The date of a number that may be a plain one: refusal 3 too for a year before 1800, but for the first hour of
    /// year 1 or -1.
    ///
    /// ```
    /// use pennyquill::{DateHour, Refusal};
    /// assert_eq!(DateHour::from_binary_heuristic(60_759_371), DateHour::parse("1936.1.1.12"));
    /// assert_eq!(DateHour::from_binary_heuristic(43_808_760), DateHour::parse("1.1.1.1"));
    /// assert_eq!(DateHour::from_binary_heuristic(43_808_761), Err(Refusal::NotNumber));
    /// ```
    pub fn from_binary_heuristic(number: i32) -> Result<Self, Refusal> {
        let bits = bits::given(ffi::pq_guess_number(Self::KIND, number))?;
        Ok(DateHour { bits })
    }

    /// The binary number of the date.
    ///
    /// ```
    /// use pennyquill::DateHour;
    /// assert_eq!(DateHour::parse("1.1.1.1")?.to_binary(), 43_808_760);
    /// # Ok::<(), pennyquill::Refusal>(())
    /// ```
    pub fn to_binary(self) -> i32 {
        bits::counted(ffi::pq_to_number(Self::KIND, self.bits))
    }

    /// The hour, 1 to 24.
    ///
    /// ```
    /// use pennyquill::DateHour;
    /// assert_eq!(DateHour::parse("1936.1.1.24")?.hour(), 24);
    /// # Ok::<(), pennyquill::Refusal>(())
    /// ```
    pub fn hour(&self) -> u8 {
        bits::hour(self.bits)
    }
}

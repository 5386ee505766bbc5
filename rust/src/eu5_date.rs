//! Kind E.

use crate::bits;
use crate::ffi;
use crate::pds_date::{PdsDate, pds_date, whole};
use crate::refusal::Refusal;
use crate::text::Text;

/// A date whose hour component, 0 to 22, stands for the hours 8 to 19 of the game: kind E.
///
/// ```
/// use pennyquill::{Eu5Date, PdsDate};
/// let date = Eu5Date::parse("1444.11.11.2")?;
/// assert_eq!(date.hour(), 9);
/// assert_eq!(date.game_fmt(), "1444.11.11.2");
/// assert_eq!(date.iso_8601(), "1444-11-11T09");
/// # Ok::<(), pennyquill::Refusal>(())
/// ```
#[derive(Clone, Copy)]
pub struct Eu5Date {
    bits: u32,
}

pds_date!(Eu5Date, 5);

impl Eu5Date {
    /// The date with these fields at the start of its day, or refusal 4. For day 32 or more jomini panics.
    ///
    /// ```
    /// use pennyquill::{Eu5Date, Refusal};
    /// assert_eq!(Eu5Date::from_ymd_opt(1337, 4, 1), Eu5Date::parse("1337.4.1"));
    /// assert_eq!(Eu5Date::from_ymd_opt(1337, 2, 29), Err(Refusal::NotOfKind));
    /// assert_eq!(Eu5Date::from_ymd_opt(1337, 1, 32), Err(Refusal::NotOfKind));
    /// ```
    pub fn from_ymd_opt(year: i16, month: u8, day: u8) -> Result<Self, Refusal> {
        let bits = bits::from_fields(Self::KIND, year, month, day, 0)?;
        Ok(Eu5Date { bits })
    }

    /// The date of a text; refusal 1 for one over 64 bytes, 2 for one that is no date's. Hour 23 becomes 22. It reads
    /// no number's text. The year may have zeros before it, as in [`RawDate::parse`](crate::RawDate::parse).
    ///
    /// ```
    /// use pennyquill::{Eu5Date, Refusal};
    /// assert_eq!(Eu5Date::parse("1444.11.11.23"), Eu5Date::parse("1444.11.11.22"));
    /// assert_eq!(Eu5Date::parse("1444.11.11.24"), Err(Refusal::NotText));
    /// ```
    pub fn parse<T: AsRef<[u8]>>(text: T) -> Result<Self, Refusal> {
        let bits = bits::read(ffi::pq_read_text, Self::KIND, text.as_ref())?;
        Ok(Eu5Date { bits })
    }

    /// The date of an ISO text, as [`iso_8601`](PdsDate::iso_8601) writes it and in no other spelling: always with an
    /// hour, so that the date alone, as [`date_fmt`](Self::date_fmt) writes it, is refused. The hour is the one in the
    /// game, and its even hour component comes back. Refusal 1 for a text over 64 bytes, 2 for any other that is no
    /// date's. Not in jomini.
    ///
    /// ```
    /// use pennyquill::{Eu5Date, PdsDate, Refusal};
    /// let kept = Eu5Date::parse("1444.11.11.3")?.iso_8601();
    /// assert_eq!(kept, "1444-11-11T09");
    /// assert_eq!(Eu5Date::from_iso_8601(kept.as_bytes()), Eu5Date::parse("1444.11.11.2"));
    /// assert_eq!(Eu5Date::from_iso_8601("1444-11-11T19"), Eu5Date::parse("1444.11.11.22"));
    ///
    /// // The hours in the game are 8 to 19.
    /// assert_eq!(Eu5Date::from_iso_8601("1444-11-11T07"), Err(Refusal::NotText));
    /// assert_eq!(Eu5Date::from_iso_8601("1444-11-11T20"), Err(Refusal::NotText));
    /// assert_eq!(Eu5Date::from_iso_8601("1444-11-11"), Err(Refusal::NotText));
    /// # Ok::<(), Refusal>(())
    /// ```
    pub fn from_iso_8601<T: AsRef<[u8]>>(text: T) -> Result<Self, Refusal> {
        let bits = bits::read(ffi::pq_read_iso, Self::KIND, text.as_ref())?;
        Ok(Eu5Date { bits })
    }

    /// The date of a binary number, or refusal 3. Hour 23 becomes 22.
    ///
    /// ```
    /// use pennyquill::{Eu5Date, Refusal};
    /// assert_eq!(Eu5Date::from_binary(56_456_999), Eu5Date::parse("1444.11.11.22"));
    /// assert_eq!(Eu5Date::from_binary(-1), Err(Refusal::NotNumber));
    /// ```
    pub fn from_binary(number: i32) -> Result<Self, Refusal> {
        let bits = bits::given(ffi::pq_read_number(Self::KIND, number))?;
        Ok(Eu5Date { bits })
    }

    /// The date of a number that may be a plain one: refusal 3 too where the year is -100 or less, or the hour is odd.
    ///
    /// ```
    /// use pennyquill::{Eu5Date, Refusal};
    /// assert_eq!(Eu5Date::from_binary_heuristic(56_456_998), Eu5Date::parse("1444.11.11.22"));
    /// assert_eq!(Eu5Date::from_binary_heuristic(56_456_999), Err(Refusal::NotNumber));
    /// ```
    pub fn from_binary_heuristic(number: i32) -> Result<Self, Refusal> {
        let bits = bits::given(ffi::pq_guess_number(Self::KIND, number))?;
        Ok(Eu5Date { bits })
    }

    /// The hour in the game, 8 to 19: half of the hour component, and 8.
    ///
    /// ```
    /// use pennyquill::Eu5Date;
    /// assert_eq!(Eu5Date::parse("1444.11.11")?.hour(), 8);
    /// assert_eq!(Eu5Date::parse("1444.11.11.22")?.hour(), 19);
    /// # Ok::<(), pennyquill::Refusal>(())
    /// ```
    pub fn hour(&self) -> u8 {
        bits::hour(self.bits) / 2 + 8
    }

    /// The same date at the start of its day.
    ///
    /// ```
    /// use pennyquill::{Eu5Date, PdsDate};
    /// assert_eq!(Eu5Date::parse("1337.4.1.22")?.start_of_day().game_fmt(), "1337.4.1");
    /// # Ok::<(), pennyquill::Refusal>(())
    /// ```
    pub fn start_of_day(&self) -> Self {
        let bits = bits::given(ffi::pq_start_of_day(Self::KIND, self.bits));
        Eu5Date {
            bits: bits.expect("a date of a kind has a start of its day"),
        }
    }

    /// The days from this date to another; hours do not count.
    ///
    /// ```
    /// use pennyquill::Eu5Date;
    /// let start = Eu5Date::parse("1337.4.1.22")?;
    /// let later = Eu5Date::parse("1338.4.1")?;
    /// assert_eq!(start.days_until(&later), 365);
    /// assert_eq!(later.days_until(&start), -365);
    /// # Ok::<(), pennyquill::Refusal>(())
    /// ```
    pub fn days_until(&self, other: &Self) -> i32 {
        bits::counted(ffi::pq_days_until(Self::KIND, self.bits, other.bits))
    }

    /// The date so many days on, at the start of its day. Refusals as those of
    /// [`Date::add_days`](crate::Date::add_days).
    ///
    /// ```
    /// use pennyquill::{Eu5Date, Refusal};
    /// let date = Eu5Date::parse("1337.12.31.6")?;
    /// assert_eq!(date.add_days(1), Eu5Date::parse("1338.1.1"));
    /// assert_eq!(date.add_days(i32::MAX), Err(Refusal::SumTooLarge));
    /// # Ok::<(), Refusal>(())
    /// ```
    pub fn add_days(&self, days: i32) -> Result<Self, Refusal> {
        let bits = bits::given(ffi::pq_add_days(Self::KIND, self.bits, days))?;
        Ok(Eu5Date { bits })
    }

    /// The ISO date alone, without an hour.
    ///
    /// ```
    /// use pennyquill::Eu5Date;
    /// assert_eq!(Eu5Date::parse("1444.11.11.22")?.date_fmt(), "1444-11-11");
    /// # Ok::<(), pennyquill::Refusal>(())
    /// ```
    pub fn date_fmt(&self) -> Text {
        whole(ffi::pq_write_iso_date, self)
    }
}

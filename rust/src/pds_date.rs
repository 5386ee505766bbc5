//! What dates of all kinds have.

use crate::bits::{self, Writer};
use crate::ffi;
use crate::refusal::Refusal;
use crate::text::Text;

/// The methods that dates of all six kinds share.
///
/// A value of a kind is always a date of the kind, so that its texts are never refused; only a lent buffer may be too
/// short for one.
///
/// A date has a mark: whether it was guessed. The mark is no part of what the date is: two dates that differ in it alone
/// are equal, in order and in a hash as well, and have the same texts.
pub trait PdsDate: Copy + Sized {
    /// The kind's code in a book: R 1, D 2, H 3, U 4, E 5, V 6.
    const KIND: u32;

    /// The year's sixteen bits above the packed word: month × 4096 + day × 128 + hour × 4, and 1 more where the date was
    /// guessed. So equal dates may have two numbers here: compare dates and not their bits.
    ///
    /// ```
    /// use pennyquill::{Date, PdsDate};
    /// assert_eq!(Date::parse("1444.11.11")?.bits(), 0x05A4_B580);
    /// assert_eq!(Date::from_binary_heuristic(56_456_976)?.bits(), 0x05A4_B581);
    /// # Ok::<(), pennyquill::Refusal>(())
    /// ```
    fn bits(&self) -> u32;

    /// The date with these bits, with its mark, if they are those of a date of the kind; else refusal 4.
    ///
    /// ```
    /// use pennyquill::{Date, DateHour, PdsDate, Refusal};
    /// assert_eq!(Date::from_bits(0x05A4_B580), Date::parse("1444.11.11"));
    /// assert_eq!(Date::from_bits(0x05A4_B581), Date::parse("1444.11.11"));
    /// assert_eq!(Date::from_bits(0x05A4_B582), Err(Refusal::NotOfKind)); // no date has the mark 2
    /// assert_eq!(DateHour::from_bits(0x05A4_B580), Err(Refusal::NotOfKind)); // H has no hour 0
    /// ```
    fn from_bits(bits: u32) -> Result<Self, Refusal>;

    /// Whether the date was guessed: read by a kind's `from_binary_heuristic`, or by a
    /// [lookup](crate::field_table::lookup) of a field that is not declared. What is added to a guessed date, and the
    /// start of its day, is guessed too. Not in jomini.
    ///
    /// ```
    /// use pennyquill::{Date, PdsDate};
    /// let guessed = Date::from_binary_heuristic(56_456_976)?;
    /// let declared = Date::from_binary(56_456_976)?;
    /// assert!(guessed.is_guessed());
    /// assert!(!declared.is_guessed());
    /// assert!(guessed.add_days(20)?.is_guessed());
    ///
    /// // They are the same date, in order and in a hash too, and have the same texts.
    /// assert_eq!(guessed, declared);
    /// assert_eq!(guessed.cmp(&declared), std::cmp::Ordering::Equal);
    /// assert!(std::collections::HashSet::from([guessed]).contains(&declared));
    /// assert_eq!(guessed.game_fmt(), declared.game_fmt());
    /// # Ok::<(), pennyquill::Refusal>(())
    /// ```
    fn is_guessed(&self) -> bool {
        bits::mark(self.bits()) == bits::GUESSED
    }

    /// The same date without its mark: as one that nobody had to guess. Not in jomini.
    ///
    /// ```
    /// use pennyquill::{Date, PdsDate};
    /// let guessed = Date::from_binary_heuristic(56_456_976)?;
    /// assert!(!guessed.without_mark().is_guessed());
    /// assert_eq!(guessed.without_mark().bits(), 0x05A4_B580);
    /// # Ok::<(), pennyquill::Refusal>(())
    /// ```
    fn without_mark(&self) -> Self {
        bits::given(ffi::pq_without_mark(Self::KIND, self.bits()))
            .and_then(Self::from_bits)
            .expect("a date of a kind is one without its mark")
    }

    /// The year, -32768 to 32767.
    ///
    /// ```
    /// use pennyquill::{Date, PdsDate};
    /// assert_eq!(Date::parse("-58.1.1")?.year(), -58);
    /// # Ok::<(), pennyquill::Refusal>(())
    /// ```
    fn year(&self) -> i16 {
        bits::year(self.bits())
    }

    /// The month, 1 to 12.
    ///
    /// ```
    /// use pennyquill::{PdsDate, Vic3Date};
    /// assert_eq!(Vic3Date::parse("1836.2.3.6")?.month(), 2);
    /// # Ok::<(), pennyquill::Refusal>(())
    /// ```
    fn month(&self) -> u8 {
        bits::month(self.bits())
    }

    /// The day, from 1.
    ///
    /// ```
    /// use pennyquill::{PdsDate, UniformDate};
    /// assert_eq!(UniformDate::parse("2200.02.30")?.day(), 30);
    /// # Ok::<(), pennyquill::Refusal>(())
    /// ```
    fn day(&self) -> u8 {
        bits::day(self.bits())
    }

    /// The dotted text, as the games write it.
    ///
    /// ```
    /// use pennyquill::{DateHour, PdsDate, UniformDate};
    /// assert_eq!(DateHour::parse("1936.01.01.24")?.game_fmt(), "1936.1.1.24");
    /// assert_eq!(UniformDate::parse("2200.1.1")?.game_fmt(), "2200.01.01");
    /// # Ok::<(), pennyquill::Refusal>(())
    /// ```
    fn game_fmt(&self) -> Text {
        whole(ffi::pq_write_dotted, self)
    }

    /// The ISO text. The sign of a year counts among its four places. Each kind's `from_iso_8601` reads it back as the
    /// same date, but for an odd hour component of kind E, which comes back as the even one below it.
    ///
    /// ```
    /// use pennyquill::{Date, DateHour, Eu5Date, PdsDate, Vic3Date};
    /// assert_eq!(Date::parse("-5.1.1")?.iso_8601(), "-005-01-01");
    /// assert_eq!(DateHour::parse("1936.1.1.24")?.iso_8601(), "1936-01-01T23");
    /// assert_eq!(Eu5Date::parse("1444.11.11.22")?.iso_8601(), "1444-11-11T19");
    /// assert_eq!(Vic3Date::parse("1836.2.3")?.iso_8601(), "1836-02-03T00");
    /// # Ok::<(), pennyquill::Refusal>(())
    /// ```
    fn iso_8601(&self) -> Text {
        whole(ffi::pq_write_iso, self)
    }

    /// The exchange text: as the ISO text, but for the year. Years 0 to 9999 have four digits, all others a sign and
    /// five, as ISO 8601 has them in its expanded form. Not in jomini.
    ///
    /// ```
    /// use pennyquill::{Date, PdsDate};
    /// assert_eq!(Date::parse("1444.11.11")?.exchange(), "1444-11-11");
    /// assert_eq!(Date::parse("-5.1.1")?.exchange(), "-00005-01-01");
    /// assert_eq!(Date::parse("9999.12.31")?.exchange(), "9999-12-31");
    /// assert_eq!(Date::parse("10000.1.1")?.exchange(), "+10000-01-01");
    ///
    /// // The ISO text is another, for these years too.
    /// assert_eq!(Date::parse("-5.1.1")?.iso_8601(), "-005-01-01");
    /// assert_eq!(Date::parse("10000.1.1")?.iso_8601(), "10000-01-01");
    /// # Ok::<(), pennyquill::Refusal>(())
    /// ```
    fn exchange(&self) -> Text {
        whole(ffi::pq_write_exchange, self)
    }

    /// Writes the dotted text into the first bytes of a buffer and gives its length. Later bytes stay; where the
    /// buffer is shorter than the text, that is refusal 7 and all bytes stay.
    ///
    /// ```
    /// use pennyquill::{Date, PdsDate, Refusal};
    /// let date = Date::parse("1444.11.11")?;
    /// let mut line = *b"0123456789...";
    /// assert_eq!(date.write_game_fmt(&mut line)?, 10);
    /// assert_eq!(&line, b"1444.11.11...");
    /// assert_eq!(date.write_game_fmt(&mut line[..9]), Err(Refusal::ShortBuffer));
    /// # Ok::<(), pennyquill::Refusal>(())
    /// ```
    fn write_game_fmt(&self, out: &mut [u8]) -> Result<usize, Refusal> {
        bits::write(ffi::pq_write_dotted, Self::KIND, self.bits(), out)
    }

    /// Writes the ISO text likewise.
    ///
    /// ```
    /// use pennyquill::{PdsDate, Vic3Date};
    /// let mut out = [b'.'; 15];
    /// assert_eq!(Vic3Date::parse("1836.2.3.18")?.write_iso_8601(&mut out)?, 13);
    /// assert_eq!(&out, b"1836-02-03T18..");
    /// # Ok::<(), pennyquill::Refusal>(())
    /// ```
    fn write_iso_8601(&self, out: &mut [u8]) -> Result<usize, Refusal> {
        bits::write(ffi::pq_write_iso, Self::KIND, self.bits(), out)
    }

    /// Writes the exchange text likewise.
    ///
    /// ```
    /// use pennyquill::{PdsDate, RawDate};
    /// let mut out = [b'.'; 15];
    /// assert_eq!(RawDate::parse("1444.1.1.24")?.write_exchange(&mut out)?, 13);
    /// assert_eq!(&out, b"1444-01-01T23..");
    /// assert_eq!(RawDate::parse("-5.1.1.24")?.write_exchange(&mut out)?, 15);
    /// assert_eq!(&out, b"-00005-01-01T23");
    /// # Ok::<(), pennyquill::Refusal>(())
    /// ```
    fn write_exchange(&self, out: &mut [u8]) -> Result<usize, Refusal> {
        bits::write(ffi::pq_write_exchange, Self::KIND, self.bits(), out)
    }
}

/// A text of a date, for which the room is always long enough.
pub(crate) fn whole<K: PdsDate>(writer: Writer, date: &K) -> Text {
    Text::written(|out| {
        bits::write(writer, K::KIND, date.bits(), out).expect("a date of a kind has its texts")
    })
}

/// What each kind has in the same way: its bits, its order, equality and hash, which do not see the mark, and its text as
/// another's `FromStr` and `Debug`.
macro_rules! pds_date {
    ($kind:ident, $code:literal) => {
        impl $crate::PdsDate for $kind {
            const KIND: u32 = $code;

            fn bits(&self) -> u32 {
                self.bits
            }

            fn from_bits(bits: u32) -> Result<Self, $crate::Refusal> {
                $crate::bits::checked(Self::KIND, bits).map(|bits| $kind { bits })
            }
        }

        impl Ord for $kind {
            fn cmp(&self, other: &Self) -> std::cmp::Ordering {
                let order = $crate::ffi::pq_order(Self::KIND, self.bits, other.bits);
                $crate::bits::counted(order).cmp(&0)
            }
        }

        impl PartialOrd for $kind {
            fn partial_cmp(&self, other: &Self) -> Option<std::cmp::Ordering> {
                Some(self.cmp(other))
            }
        }

        impl PartialEq for $kind {
            fn eq(&self, other: &Self) -> bool {
                self.cmp(other).is_eq()
            }
        }

        impl Eq for $kind {}

        impl std::hash::Hash for $kind {
            fn hash<H: std::hash::Hasher>(&self, state: &mut H) {
                $crate::bits::unmarked(self.bits).hash(state)
            }
        }

        impl std::str::FromStr for $kind {
            type Err = $crate::Refusal;

            fn from_str(text: &str) -> Result<Self, Self::Err> {
                Self::parse(text)
            }
        }

        impl std::fmt::Debug for $kind {
            fn fmt(&self, f: &mut std::fmt::Formatter) -> std::fmt::Result {
                write!(
                    f,
                    "{} {}",
                    stringify!($kind),
                    $crate::PdsDate::game_fmt(self)
                )
            }
        }
    };
}

pub(crate) use pds_date;

//! The text of a date.

use std::fmt;
use std::ops::Deref;
use std::str;

/// Every text of a date has 5 to 15 bytes.
pub(crate) const ROOM: usize = 16;

/// What a date is written as. It holds its bytes itself, so that nothing is allocated.
///
/// ```
/// use pennyquill::{Date, PdsDate};
/// let text = Date::parse("1444.11.11")?.iso_8601();
/// assert_eq!(text.as_str(), "1444-11-11");
/// assert_eq!(text.to_string(), "1444-11-11");
/// assert_eq!(text.len(), 10);
/// # Ok::<(), pennyquill::Refusal>(())
/// ```
#[derive(Clone, Copy)]
pub struct Text {
    bytes: [u8; ROOM],
    length: usize,
}

impl Text {
    /// The text that the given writer leaves in the buffer that it is lent; it gives the text's length.
    pub(crate) fn written(write: impl FnOnce(&mut [u8]) -> usize) -> Text {
        let mut bytes = [0; ROOM];
        let length = write(&mut bytes);
        Text { bytes, length }
    }

    /// The text as a string.
    ///
    /// ```
    /// use pennyquill::{Eu5Date, PdsDate};
    /// let date = Eu5Date::parse("1337.4.1.22")?;
    /// assert_eq!(date.game_fmt().as_str(), "1337.4.1.22");
    /// # Ok::<(), pennyquill::Refusal>(())
    /// ```
    pub fn as_str(&self) -> &str {
        str::from_utf8(&self.bytes[..self.length]).expect("the texts of dates are ASCII")
    }
}

impl Deref for Text {
    type Target = str;

    fn deref(&self) -> &str {
        self.as_str()
    }
}

impl fmt::Display for Text {
    fn fmt(&self, f: &mut fmt::Formatter) -> fmt::Result {
        f.pad(self)
    }
}

impl fmt::Debug for Text {
    fn fmt(&self, f: &mut fmt::Formatter) -> fmt::Result {
        fmt::Debug::fmt(self.as_str(), f)
    }
}

impl PartialEq for Text {
    fn eq(&self, other: &Text) -> bool {
        self.as_str() == other.as_str()
    }
}

impl Eq for Text {}

impl PartialEq<str> for Text {
    fn eq(&self, other: &str) -> bool {
        self.as_str() == other
    }
}

impl PartialEq<&str> for Text {
    fn eq(&self, other: &&str) -> bool {
        self.as_str() == *other
    }
}

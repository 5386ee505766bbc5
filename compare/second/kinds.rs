//! "Fields and kinds" of document 01.

use std::fmt;

#[derive(Clone, Copy, PartialEq, Eq)]
pub enum Kind {
    R,
    D,
    H,
    U,
    E,
    V,
}

pub const KINDS: [Kind; 6] = [Kind::R, Kind::D, Kind::H, Kind::U, Kind::E, Kind::V];

/// "Month lengths are 31, 28, 31, 30, 31, 30, 31, 31, 30, 31, 30, 31."
pub const MONTH_LENGTHS: [u16; 12] = [31, 28, 31, 30, 31, 30, 31, 31, 30, 31, 30, 31];

impl Kind {
    pub fn letter(self) -> &'static str {
        match self {
            Kind::R => "R",
            Kind::D => "D",
            Kind::H => "H",
            Kind::U => "U",
            Kind::E => "E",
            Kind::V => "V",
        }
    }

    pub fn from_letter(letter: &str) -> Option<Kind> {
        KINDS.into_iter().find(|kind| kind.letter() == letter)
    }

    /// Whether these are the fields of a date of the kind. E has no hour 23: that "becomes 22"
    /// where a date is read, and is refused where one is handed in or recorded.
    pub fn has(self, date: Fields) -> bool {
        let Fields {
            month, day, hour, ..
        } = date;
        if !(1..=12).contains(&month) || !(1..=31).contains(&day) || hour > 24 {
            return false;
        }
        let fits = day <= MONTH_LENGTHS[usize::from(month) - 1];
        match self {
            Kind::R => true,
            Kind::D => fits && hour == 0,
            Kind::H => fits && hour >= 1,
            Kind::U => day <= 30 && hour == 0,
            Kind::V => fits && matches!(hour, 0 | 6 | 12 | 18),
            Kind::E => fits && hour <= 22,
        }
    }
}

#[derive(Clone, Copy, PartialEq, Eq)]
pub struct Fields {
    pub year: i16,
    pub month: u16,
    pub day: u16,
    pub hour: u16,
}

impl Fields {
    /// "Packed beside the year: month × 4096 + day × 128 + hour × 4." What is left of a word after
    /// these three is the mark, which is no field.
    pub fn from_word(year: i16, word: u16) -> Fields {
        Fields {
            year,
            month: word / 4096,
            day: word % 4096 / 128,
            hour: word % 128 / 4,
        }
    }

    /// The packed word with mark 0.
    pub fn word(self) -> u16 {
        self.month * 4096 + self.day * 128 + self.hour * 4
    }
}

/// `year month day hour`.
impl fmt::Display for Fields {
    fn fmt(&self, f: &mut fmt::Formatter) -> fmt::Result {
        let Fields {
            year,
            month,
            day,
            hour,
        } = self;
        write!(f, "{year} {month} {day} {hour}")
    }
}

/// Those of every word without a mark, in the order of the words.
pub fn all_of_year(year: i16) -> impl DoubleEndedIterator<Item = Fields> {
    (0..=u16::MAX)
        .step_by(4)
        .map(move |word| Fields::from_word(year, word))
}

/// "Each kind owns its least and greatest date": `K least DATE` and `K greatest DATE`, by "Order: year, then packed
/// word" over every word of the first year and the last. Their mark is 0.
pub fn constants() -> String {
    let of_year = |kind: Kind, year: i16| all_of_year(year).filter(move |&date| kind.has(date));
    let mut rows = String::new();
    for kind in KINDS {
        let least = of_year(kind, i16::MIN).next().expect("a date");
        let greatest = of_year(kind, i16::MAX).next_back().expect("a date");
        let letter = kind.letter();
        rows += &format!("{letter} least {least}\n{letter} greatest {greatest}\n");
    }
    rows
}

//! The six kinds of the original under common names.

pub use eu5save::Eu5Date;
pub use jomini::common::{Date, DateHour, RawDate, UniformDate};
pub use vic3save::Vic3Date;

use jomini::common::PdsDate;
use std::fmt;

/// A date's parts as the original stores them, whether or not there is such a date.
#[derive(Clone, Copy, PartialEq, Eq)]
pub struct Fields {
    pub year: i16,
    pub month: u8,
    pub day: u8,
    pub hour: u8,
}

impl Fields {
    pub fn new(year: i16, month: u8, day: u8, hour: u8) -> Self {
        Fields {
            year,
            month,
            day,
            hour,
        }
    }

    /// The dotted text, by which a date of any kind can be had from the original.
    fn dotted(self) -> String {
        let date = format!("{}.{}.{}", self.year, self.month, self.day);
        match self.hour {
            0 => date,
            hour => format!("{date}.{hour}"),
        }
    }
}

impl fmt::Display for Fields {
    fn fmt(&self, f: &mut fmt::Formatter) -> fmt::Result {
        let Fields {
            year,
            month,
            day,
            hour,
        } = self;
        write!(f, "{year} {month} {day} {hour}")
    }
}

pub trait Kind: PdsDate + Copy + Ord {
    const LETTER: char;

    fn read(text: &[u8]) -> Option<Self>;

    /// The kind's constructor; that of D, U and E takes no hour.
    fn make(fields: Fields) -> Option<Self>;

    fn stored_hour(self) -> u8;

    /// What the kind writes beside the dotted and the ISO text.
    fn third_text(self) -> Option<String> {
        None
    }

    fn fields(self) -> Fields {
        Fields::new(self.year(), self.month(), self.day(), self.stored_hour())
    }

    /// No kind stores hour 25, so only a constructor without an hour gives a date here.
    fn takes_hour() -> bool {
        Self::make(Fields::new(1444, 11, 11, 25)).is_none()
    }

    /// The date with exactly these fields. It is read from text, as E has no constructor with
    /// an hour.
    fn with(fields: Fields) -> Option<Self> {
        Self::read(fields.dotted().as_bytes()).filter(|date| date.fields() == fields)
    }

    /// Every hour that a date of the kind can store, ascending.
    fn hours() -> Vec<u8> {
        let is_stored = |&hour: &u8| Self::with(Fields::new(1444, 11, 11, hour)).is_some();
        (0..=24).filter(is_stored).collect()
    }
}

/// Kinds that read numbers.
pub trait Decoded: Kind {
    fn decode(number: i32) -> Option<Self>;
}

/// Kinds that guess whether a number is a date.
pub trait Guessed: Kind {
    fn guess(number: i32) -> Option<Self>;
}

/// Kinds that count days.
pub trait Counted: Kind {
    fn plus(self, days: i32) -> Self;
    fn until(self, later: Self) -> i32;
}

/// Kinds that write numbers.
pub trait Written: Kind {
    fn number(self) -> i32;
}

macro_rules! kind {
    ($kind:ident, $letter:literal, $make:ident($($part:ident),+), $hour:ident $(, $more:item)?) => {
        impl Kind for $kind {
            const LETTER: char = $letter;

            fn read(text: &[u8]) -> Option<Self> {
                $kind::parse(text).ok()
            }

            fn make(fields: Fields) -> Option<Self> {
                $kind::$make($(fields.$part),+)
            }

            fn stored_hour(self) -> u8 {
                $kind::$hour(&self)
            }

            $($more)?
        }
    };
}

kind!(RawDate, 'R', from_ymdh_opt(year, month, day, hour), hour);
kind!(Date, 'D', from_ymd_opt(year, month, day), stored_hour);
kind!(DateHour, 'H', from_ymdh_opt(year, month, day, hour), hour);
kind!(
    UniformDate,
    'U',
    from_ymd_opt(year, month, day),
    stored_hour
);
kind!(Vic3Date, 'V', from_ymdh_opt(year, month, day, hour), hour);
kind!(
    Eu5Date,
    'E',
    from_ymd_opt(year, month, day),
    stored_hour,
    fn third_text(self) -> Option<String> {
        Some(self.date_fmt().to_string())
    }
);

/// Gives an ability to each kind of a list.
macro_rules! able {
    ($ability:ident for $($kind:ident),+: $methods:tt) => {
        $(impl $ability for $kind $methods)+
    };
}

able!(Decoded for RawDate, Date, DateHour, Eu5Date, Vic3Date: {
    fn decode(number: i32) -> Option<Self> {
        Self::from_binary(number)
    }
});

able!(Guessed for Date, DateHour, Eu5Date, Vic3Date: {
    fn guess(number: i32) -> Option<Self> {
        Self::from_binary_heuristic(number)
    }
});

able!(Counted for Date, Eu5Date, Vic3Date: {
    fn plus(self, days: i32) -> Self {
        self.add_days(days)
    }

    fn until(self, later: Self) -> i32 {
        self.days_until(&later)
    }
});

able!(Written for Date, DateHour: {
    fn number(self) -> i32 {
        self.to_binary()
    }
});

/// Calls a function that asks one kind for each kind of a list.
macro_rules! ask_each {
    ($ask:ident($answers:expr): $($kind:ident),+) => {
        $($ask::<$crate::kinds::$kind>($answers);)+
    };
}

macro_rules! ask_all_six {
    ($ask:ident($answers:expr)) => {
        ask_each!($ask($answers): RawDate, Date, DateHour, UniformDate, Eu5Date, Vic3Date)
    };
}

//! Marks, request #106 of document 02: "0 declared, 1 guessed, 2 and 3 not allowed." The original has none.
//! Where one is added to a date, what the original answers to the date is the answer: "Order, equality and
//! all texts disregard it."
//! unmarked.questions: `K w DATE`, the date without its mark, which the second reading answers.

use crate::answers::{Answers, Row};
use crate::kinds::{Fields, Kind};
use std::fmt;

pub const GUESSED: u8 = 1;

/// The marks of two dates, of which at least one has another than 0.
pub fn pairs() -> impl Iterator<Item = (u8, u8)> {
    (1..16).map(|pair| (pair / 4, pair % 4))
}

/// Those of them that are allowed.
pub const ALLOWED_PAIRS: [(u8, u8); 3] = [(GUESSED, 0), (0, GUESSED), (GUESSED, GUESSED)];

/// A date as it is handed in: fields and a mark, whether or not there is such a date.
#[derive(Clone, Copy)]
pub struct Marked {
    pub fields: Fields,
    pub mark: u8,
}

impl Marked {
    pub fn new(fields: Fields, mark: u8) -> Self {
        Marked { fields, mark }
    }

    pub fn unmarked<K: Kind>(date: K) -> Self {
        Marked::new(date.fields(), 0)
    }

    /// The original's date with these fields; none is refusal 4, "also for marks 2 and 3".
    pub fn date<K: Kind>(self) -> Option<K> {
        K::with(self.fields).filter(|_| self.mark <= GUESSED)
    }
}

/// `year month day hour`, and `/mark` where it is not 0.
impl fmt::Display for Marked {
    fn fmt(&self, f: &mut fmt::Formatter) -> fmt::Result {
        match self.mark {
            0 => write!(f, "{}", self.fields),
            mark => write!(f, "{}/{mark}", self.fields),
        }
    }
}

/// What is told of a date: `year month day hour`, and `guessed` where its mark says so.
pub fn told(fields: Fields, mark: u8) -> String {
    match mark {
        0 => fields.to_string(),
        _ => format!("{fields} guessed"),
    }
}

/// The first year and the last, both sides of 0, years of every sign, with the kind's first hour or its last.
pub fn dates<K: Kind>() -> Vec<Fields> {
    let hours = K::hours();
    let (first, last) = (hours[0], hours[hours.len() - 1]);
    let dates = [
        Fields::new(-32768, 1, 1, first),
        Fields::new(-5, 2, 3, last),
        Fields::new(0, 1, 1, first),
        Fields::new(1444, 11, 11, last),
        Fields::new(10000, 2, 28, first),
        Fields::new(32767, 12, 30, last),
    ];
    dates.into_iter().filter(is_date::<K>).collect()
}

/// Fields that no date of the kind has, and that a packed word has room for.
pub fn no_dates<K: Kind>() -> Vec<Fields> {
    let hour = K::hours()[0];
    let fields = [
        Fields::new(1444, 13, 1, hour),
        Fields::new(1444, 0, 1, hour),
        Fields::new(1444, 11, 0, hour),
        Fields::new(1444, 2, 30, hour),
        Fields::new(1444, 1, 31, hour),
        Fields::new(1444, 11, 11, 0),
        Fields::new(1444, 11, 11, 1),
        Fields::new(1444, 11, 11, 23),
        Fields::new(1444, 11, 11, 24),
        Fields::new(1444, 11, 11, 25),
    ];
    let is_none = |fields: &Fields| !is_date::<K>(fields);
    fields.into_iter().filter(is_none).collect()
}

fn is_date<K: Kind>(fields: &Fields) -> bool {
    K::with(*fields).is_some()
}

pub fn ask(questions: &mut Answers) {
    ask_all_six!(ask_kind(questions));
}

/// Every mark of some dates, and of fields that are no date the marks that a date may have.
fn ask_kind<K: Kind>(questions: &mut Answers) {
    let mut ask = |fields, mark| {
        let date = Marked::new(fields, mark);
        questions.edge(Row::unanswered(format!("{} w {date}", K::LETTER)));
    };
    for fields in dates::<K>() {
        (0..=3).for_each(|mark| ask(fields, mark));
    }
    for fields in no_dates::<K>() {
        (0..=GUESSED).for_each(|mark| ask(fields, mark));
    }
}

//! texts.txt: `K t "TEXT" DATE`, or `refused 2` for the date; `refused 1` for a text over the limit.

use crate::answers::{Answers, Row, date_or_refused, quoted};
use crate::dates::any_date;
use crate::kinds::Kind;
use crate::padded::{self, LIMIT};
use crate::random::Random;
use crate::text_edges::{self, SHORT};

const SAMPLES_PER_KIND: usize = 150;

pub fn ask(answers: &mut Answers) {
    ask_all_six!(ask_kind(answers));
}

fn ask_kind<K: Kind>(answers: &mut Answers) {
    for text in text_edges::all().union(&padded::all()) {
        answers.edge(row::<K>(text));
    }
    for _ in 0..SAMPLES_PER_KIND {
        let text = some_text::<K>(&mut answers.random);
        answers.sample(row::<K>(&text));
    }
}

/// The original has no limit: it is not asked about a text over ours.
fn row<K: Kind>(text: &[u8]) -> Row {
    let answer = if text.len() > LIMIT {
        "refused 1".to_string()
    } else {
        date_or_refused(K::read(text), 2)
    };
    Row::new(format!("{} t {}", K::LETTER, quoted(text)), answer)
}

/// Mostly a date of the kind, spelled in one of the ways that the readers take.
pub fn some_text<K: Kind>(random: &mut Random) -> Vec<u8> {
    loop {
        let text = match random.index(10) {
            0 => number(random),
            1..=2 => damaged::<K>(random),
            3 => jumble(random),
            _ => spelled::<K>(random),
        };
        if text.len() <= SHORT {
            return text;
        }
    }
}

fn spelled<K: Kind>(random: &mut Random) -> Vec<u8> {
    let fields = any_date::<K>(random).fields();
    let sign = match fields.year {
        ..0 => "-",
        _ if random.chance(5) => "+",
        _ => "",
    };
    let year = fields.year.unsigned_abs();
    let year_width = random.pick(&[1, 1, 4, 5, 7]);
    let (month_width, day_width) = (random.pick(&[1, 2]), random.pick(&[1, 2]));
    let (month, day) = (fields.month, fields.day);
    let mut text = format!("{sign}{year:0year_width$}.{month:0month_width$}.{day:0day_width$}");
    if fields.hour != 0 {
        text.push_str(&format!(".{}", fields.hour));
    }
    text.into_bytes()
}

/// Half of the numbers are whole days.
fn number(random: &mut Random) -> Vec<u8> {
    let number = match random.index(4) {
        0 => random.between(-300_000_000, 400_000_000),
        1 => random.between(0, 330_847_679),
        _ => random.between(0, 13_785_319) * 24,
    };
    number.to_string().into_bytes()
}

fn damaged<K: Kind>(random: &mut Random) -> Vec<u8> {
    let mut text = spelled::<K>(random);
    let place = random.index(text.len());
    match random.index(3) {
        0 => text[place] = random.byte(),
        1 => text.insert(place, random.pick(ALPHABET)),
        _ => drop(text.remove(place)),
    }
    text
}

const ALPHABET: &[u8] = b"0123456789.-+";

fn jumble(random: &mut Random) -> Vec<u8> {
    let length = random.index(SHORT + 1);
    (0..length).map(|_| random.pick(ALPHABET)).collect()
}

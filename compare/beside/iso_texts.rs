//! ISO texts by the six readers, which the original lacks: held against the second reading of request
//! #102. Every date's text read back, every text over small alphabets, each byte of valid texts
//! replaced by every other, such texts made too long, and generated ones.

use crate::kinds::Fields;
use crate::original::{Coded, bits, days, gives, refused, with};
use crate::port;
use crate::random::Random;
use crate::report::{Covers, Extent, Report, grouped};
use crate::spellings::{ROOM, each_date};
use crate::tally::{Tally, share, share_with};
use crate::texts::{over, replaced};
use crate::valid_texts::lengthened;
use crate::years::years;
use pennyquill::ffi::{self, Answer};
use second_reading::iso;
use second_reading::kinds::{KINDS, Kind};
use std::collections::BTreeSet;
use std::ops::RangeInclusive;

/// What an ISO text may have, in few digits; and with another digit and the other sign.
const FEW: &[u8; 4] = b"01-T";
const MORE: &[u8; 6] = b"019-T+";

/// What is put into a damaged text beside any byte.
const LETTERS: &[u8] = b"0123456789-+T.:";

/// Of the texts of each kind. Six times as many parts have random numbers of their own.
const PARTS: u64 = 40;

/// The generated texts, those that some kind reads, and how many kinds read them.
#[derive(Default)]
struct Counts {
    texts: u64,
    accepted_by_some: u64,
    pairs: u64,
}

pub fn run(extent: Extent, report: &mut Report) {
    for_all_six!(read_back(extent, report));
    let most = extent.pick(11, 13);
    let name = format!("ISO texts: 0 to {most} bytes over `0 1 - T`, six kinds");
    report.row(&name, Covers::All, over(FEW, 0..=most, ask_all));
    let most = extent.pick(10, 11);
    let name = format!("ISO texts: 0 to {most} bytes over `0 1 9 - T +`, six kinds");
    report.row(&name, Covers::All, over(MORE, 0..=most, ask_all));
    let texts = valid(extent.pick(1, 4));
    let count = texts.len();
    let name = format!("ISO texts: each byte of {count} valid ones, all 256, six kinds");
    report.row(&name, Covers::All, replaced(&texts, ask_all));
    let count = extent.pick(20_000, 500_000);
    let name = "ISO texts: 17 to 64 bytes, six kinds";
    report.row(name, Covers::Sample, long(&texts, 17..=64, count));
    let name = "ISO texts: 65 to 100 bytes, six kinds";
    report.row(name, Covers::Sample, long(&texts, 65..=100, count));
    generated(extent.pick(600_000, 10_000_000), report);
}

fn ask_all(tally: &mut Tally, text: &[u8]) {
    accepting(tally, text);
}

/// How many kinds read the text.
fn accepting(tally: &mut Tally, text: &[u8]) -> u64 {
    let codes = 1..=6;
    codes.map(|code| u64::from(ask(tally, code, text))).sum()
}

#[inline]
fn ask(tally: &mut Tally, code: u32, text: &[u8]) -> bool {
    let right = second(code, text);
    let asked = || question(code, text);
    tally.hold(right, port::read_iso(code, text), asked);
    right.refusal == 0
}

fn question(code: u32, text: &[u8]) -> String {
    let text = text.escape_ascii().to_string();
    format!("{} i {text:?}", kind(code).letter())
}

fn kind(code: u32) -> Kind {
    KINDS[code as usize - 1]
}

#[inline]
fn second(code: u32, text: &[u8]) -> Answer {
    match iso::read(kind(code), text) {
        Ok(date) => gives(u32::from(date.year as u16) << 16 | u32::from(date.word())),
        Err(refusal) => refused(refusal.into()),
    }
}

/// Every date of a kind as it is written, read by the port: what the request says of it, and what the
/// second reading reads.
fn read_back<K: Coded>(extent: Extent, report: &mut Report) {
    let tally = each_date::<K>(extent, |tally, date: K| {
        let mut out = [0; ROOM];
        let written = port::write(ffi::pq_write_iso, K::CODE, date.bits(), &mut out);
        let text = &out[..written.value as usize];
        let read = port::read_iso(K::CODE, text);
        let asked = || question(K::CODE, text);
        tally.hold(gives(bits(come_back(date))), read, asked);
        tally.hold(second(K::CODE, text), read, asked);
    });
    let name = format!("{}: every date, its ISO text read back", K::LETTER);
    report.row(&name, extent.covers_all(), tally);
}

/// "R, D, H, U and V come back as the same date. E comes back with the even component of that in-game
/// hour, so component 3 comes back as 2."
fn come_back<K: Coded>(date: K) -> Fields {
    let mut fields = date.fields();
    if K::LETTER == 'E' {
        fields.hour = fields.hour / 2 * 2;
    }
    fields
}

/// The original's ISO texts of dates of every kind: so many at each of some years, of both signs and
/// every width.
fn valid(count: usize) -> Vec<Vec<u8>> {
    let mut texts = BTreeSet::new();
    for_all_six!(add_valid(count, &mut texts));
    texts.into_iter().collect()
}

fn add_valid<K: Coded>(count: usize, texts: &mut BTreeSet<Vec<u8>>) {
    /// A prime, so that all months, days and hours come up.
    const STEP: usize = 997;
    let days = days::<K>();
    for (place, year) in years(Extent::Quick, i16::MAX).into_iter().enumerate() {
        for more in 0..count {
            let day = days[(place * count + more) * STEP % days.len()];
            texts.insert(text_of::<K>(year, day));
        }
    }
}

fn text_of<K: Coded>(year: i16, (month, day, hour): (u8, u8, u8)) -> Vec<u8> {
    let date = with::<K>(Fields::new(year, month, day, hour));
    let date = date.expect("a kind has the same days in every year");
    date.iso_8601().to_string().into_bytes()
}

/// Such texts made too long for an ISO text, which has at most 15 bytes: 2, and above 64 bytes 1.
fn long(texts: &[Vec<u8>], lengths: RangeInclusive<usize>, count: u64) -> Tally {
    share(PARTS, |part, tally| {
        let mut random = Random::new(part);
        for _ in 0..count / PARTS {
            let place = random.index(texts.len());
            let text = lengthened(&mut random, &texts[place], lengths.clone());
            ask_all(tally, &text);
        }
    })
}

/// So many texts of each kind, all of them asked of all six.
fn generated(count: u64, report: &mut Report) {
    let (mut tally, mut counts) = (Tally::default(), Counts::default());
    for_all_six!(generate(count, &mut tally, &mut counts));
    let Counts {
        texts,
        accepted_by_some,
        pairs,
    } = counts;
    let name = format!("ISO texts: {} generated ones, six kinds", grouped(texts));
    report.row(&name, Covers::Sample, tally);
    let share = |part: u64, whole: u64| part as f64 * 100.0 / whole as f64;
    report.later(&format!(
        "\nOf the generated ISO texts {:.1}% are accepted by some kind; of all pairs of text and kind {:.1}%.\n",
        share(accepted_by_some, texts),
        share(pairs, texts * 6),
    ));
}

fn generate<K: Coded>(count: u64, sum: &mut Tally, counts: &mut Counts) {
    let days = days::<K>();
    let (tally, counted) = share_with::<Counts>(PARTS, |part, tally, counts| {
        let mut random = Random::new(u64::from(K::CODE - 1) * PARTS + part);
        for _ in 0..count / PARTS {
            let text = some_text::<K>(&mut random, &days);
            let kinds = accepting(tally, &text);
            counts.texts += 1;
            counts.accepted_by_some += u64::from(kinds > 0);
            counts.pairs += kinds;
        }
    });
    *sum = std::mem::take(sum).and(tally);
    for more in counted {
        counts.texts += more.texts;
        counts.accepted_by_some += more.accepted_by_some;
        counts.pairs += more.pairs;
    }
}

/// A date of the kind, spelled right; or one in three times damaged.
fn some_text<K: Coded>(random: &mut Random, days: &[(u8, u8, u8)]) -> Vec<u8> {
    let year = match random.index(3) {
        0 => random.between(-1200, 1200),
        1 => random.between(1, 2500),
        _ => random.between(i16::MIN.into(), i16::MAX.into()),
    };
    let mut text = text_of::<K>(year as i16, random.pick(days));
    if random.index(3) == 0 {
        damage(random, &mut text);
    }
    text
}

/// A byte replaced, added or taken out.
fn damage(random: &mut Random, text: &mut Vec<u8>) {
    let (place, letter) = (random.index(text.len()), random.pick(LETTERS));
    match random.index(5) {
        0 => text[place] = random.byte(),
        1 => text[place] = letter,
        2 => text.insert(place, letter),
        3 => text.push(letter),
        _ => drop(text.remove(place)),
    }
}

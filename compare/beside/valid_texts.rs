//! Texts that a kind accepts, at every length that it accepts, and such texts made too long.

use crate::drawn;
use crate::original::Coded;
use crate::random::Random;
use std::collections::BTreeSet;
use std::ops::RangeInclusive;

/// So many draws are made for each kind; some lengths come up seldom.
const DRAWS: usize = 300_000;

/// For each kind and each of these lengths, up to `count` texts.
pub fn all(lengths: RangeInclusive<usize>, count: usize) -> Vec<Vec<u8>> {
    let mut texts = BTreeSet::new();
    for_all_six!(add(&mut texts, &lengths, count));
    texts.into_iter().collect()
}

fn add<K: Coded>(texts: &mut BTreeSet<Vec<u8>>, lengths: &RangeInclusive<usize>, count: usize) {
    let mut random = Random::new(50 + u64::from(K::CODE));
    let longest = *lengths.end();
    let mut found = vec![0; longest + 1];
    for _ in 0..DRAWS {
        let mut text = drawn::text(&mut random, K::LETTER).text().to_vec();
        if random.chance(50) {
            text = filled(&mut random, &text, longest);
        }
        let length = text.len();
        let is_wanted = lengths.contains(&length) && found[length] < count;
        if is_wanted && K::read(&text).is_some() && texts.insert(text) {
            found[length] += 1;
        }
    }
}

/// With zeros before the year, up to the longest text.
fn filled(random: &mut Random, text: &[u8], longest: usize) -> Vec<u8> {
    let zeros = random.index(1 + longest.saturating_sub(text.len()));
    drawn::with_zeros(text, zeros).text().to_vec()
}

/// The text in one of these lengths, all of them above its own, mostly with zeros before the year, else
/// with anything after it.
pub fn lengthened(random: &mut Random, text: &[u8], lengths: RangeInclusive<usize>) -> Vec<u8> {
    let (least, greatest) = lengths.into_inner();
    let length = least + random.index(greatest - least + 1);
    let more = length.saturating_sub(text.len());
    if random.chance(80) {
        drawn::with_zeros(text, more).text().to_vec()
    } else {
        let after: Vec<u8> = (0..more).map(|_| random.byte()).collect();
        [text, &after].concat()
    }
}

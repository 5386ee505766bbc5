//! Inputs for listings: small ones that are counted out, and drawn ones.

use crate::drawn::KINDS;
use crate::lines;
use crate::random::Random;

/// Bytes of which lines of every shape are made, of each shape's parts few.
pub const SHAPES: &[u8] = b"Dtb 1.\n";

/// Bytes of which dates, numbers and further lines are made, behind a line's head.
pub const RESTS: &[u8] = b"01.-\n";

/// The page's example, without its last byte 10.
pub const EXAMPLE: &[u8] = b"D t 1444.11.11
E t 1444.11.11.23
V b 43808760
H b 43808760
U t 1444.2.30
U b 0
D t +1444.1.1
D b -8760";

/// How many texts there are of up to so many bytes over these.
pub fn texts(letters: &[u8], longest: u32) -> u64 {
    let letters = letters.len() as u64;
    (0..=longest).map(|length| letters.pow(length)).sum()
}

/// The text at a place among all over these: shorter ones come first.
pub fn text(letters: &[u8], place: u64) -> Vec<u8> {
    let count = letters.len() as u64;
    let (mut rest, mut text) = (place, Vec::new());
    while rest > 0 {
        rest -= 1;
        text.push(letters[(rest % count) as usize]);
        rest /= count;
    }
    text
}

/// Each kind's letter with each way, those that do not exist among them.
pub fn heads() -> Vec<Vec<u8>> {
    let head = |kind: char, way: char| format!("{kind} {way} ").into_bytes();
    let of_kind = |kind| ['t', 'b', 'g'].map(|way| head(kind, way));
    KINDS.into_iter().flat_map(of_kind).collect()
}

/// So many bytes of lines of every kind and way, in one of three with runs of empty lines between them; the last one is
/// cut wherever it is.
pub fn mixed(random: &mut Random, length: usize) -> Vec<u8> {
    let mut input = Vec::with_capacity(length + 200);
    let has_runs = random.index(3) == 0;
    while input.len() < length {
        if has_runs && random.chance(20) {
            let run = random.index(100);
            input.resize(input.len() + run, b'\n');
        } else {
            input.extend(lines::line(random));
        }
    }
    input.truncate(length);
    input
}

/// Nothing but empty lines, but for the last byte.
pub fn empty_lines(length: usize, last: u8) -> Vec<u8> {
    let mut input = vec![b'\n'; length];
    if let Some(place) = input.last_mut() {
        *place = last;
    }
    input
}

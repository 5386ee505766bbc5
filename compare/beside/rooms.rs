//! Room for a listing and the listing in it, which the original lacks: held against the second reading of request #110.

use crate::lines::{self, COMMAND, LONGEST_INPUT};
use crate::random::Random;
use crate::report::{Covers, Extent, Report};
use crate::room_inputs::{EXAMPLE, RESTS, SHAPES, empty_lines, heads, mixed, text, texts};
use crate::room_questions::{Met, around, list, room};
use crate::tally::{Tally, share_with};
use crate::{port, wide_rooms};
use pennyquill::ffi;

const PARTS: u64 = 100;

/// What a row counts.
type Counted = (Tally, Vec<Met>);

pub fn run(extent: Extent, report: &mut Report) {
    let mut met = Met::default();
    let mut row = |name: &str, covers: Covers, (tally, parts): Counted| {
        parts.iter().for_each(|part| met.add(part));
        report.row(name, covers, tally);
    };
    let name = "room for 0 to 70,000 bytes";
    row(name, Covers::All, small_numbers());
    let name =
        "room for numbers near powers of two and where 12 times as many wrap, and random ones";
    row(name, Covers::Sample, large_numbers());
    let longest = extent.pick(6, 8);
    let name = format!(
        "listings of all inputs of up to {longest} bytes over `D t b 1 .`, space and byte 10, seven rooms"
    );
    row(&name, Covers::All, all_shapes(longest));
    let longest = extent.pick(5, 7);
    let name = format!(
        "listings after each kind and way: all rests of up to {longest} bytes over `0 1 . -` and byte 10, seven rooms"
    );
    row(&name, Covers::All, all_rests(longest));
    let name = "listings of 60 inputs into all room up to 12 for each byte and two more";
    row(name, Covers::All, all_rooms());
    let name = "listings of the page's example with one byte changed to each of 256, and of all its parts, seven rooms";
    row(name, Covers::All, one_byte());
    let longest = extent.pick(60, 300);
    let name = format!(
        "listings of up to {longest} bytes, all 10 but the last, which is each of 256, seven rooms"
    );
    row(&name, Covers::All, last_bytes(longest));
    let name =
        "listings of up to 65,537 bytes, all 10 but perhaps the last, 12 for each and a byte less";
    row(name, Covers::Sample, many_empty(extent.pick(1021, 16)));
    let name = "listings of random lines, up to 300 bytes, seven rooms";
    let count = extent.pick(40_000, 3_000_000);
    row(name, Covers::Sample, random_small(count));
    let name = "listings of random lines, up to 65,537 bytes, seven rooms";
    row(name, Covers::Sample, random_long(extent.pick(100, 5000)));
    let name = "listings of 65,536 bytes and more";
    row(name, Covers::Sample, too_long());
    match wide_rooms::compare() {
        Some(tally) => report.row("inputs and room of over 2^32 bytes", Covers::Sample, tally),
        None => eprintln!("rooms: over 2^32 bytes cannot be lent here, so that is not compared"),
    }
    printed(extent, report);
    report.later(&met.table());
}

fn small_numbers() -> Counted {
    share_with(1, |_, tally, met| {
        (0..=70_000).for_each(|n| room(tally, met, n));
    })
}

fn large_numbers() -> Counted {
    share_with(1, |_, tally, met| {
        let powers = (16..usize::BITS).map(|bit| 1_usize << bit);
        // Twelve times a number near these is small in 32 bits, or in 64.
        let twelfths = |times| [(1 << 32) / 12 * times, usize::MAX / 12 * times];
        let wrapping = (1..=12).flat_map(twelfths);
        for near in powers.chain(wrapping).chain([usize::MAX]) {
            for n in near.saturating_sub(1000)..=near.saturating_add(1000) {
                room(tally, met, n);
            }
        }
        let mut random = Random::new(0);
        for _ in 0..100_000 {
            let n = random.word() >> random.index(64);
            room(tally, met, n as usize);
        }
    })
}

fn all_shapes(longest: u32) -> Counted {
    let all = texts(SHAPES, longest);
    share_with(PARTS, |part, tally, met| {
        for place in (part..all).step_by(PARTS as usize) {
            around(tally, met, &text(SHAPES, place));
        }
    })
}

fn all_rests(longest: u32) -> Counted {
    let (all, heads) = (texts(RESTS, longest), heads());
    share_with(PARTS, |part, tally, met| {
        for place in (part..all).step_by(PARTS as usize) {
            let rest = text(RESTS, place);
            for head in &heads {
                around(tally, met, &[head.as_slice(), &rest].concat());
            }
        }
    })
}

fn all_rooms() -> Counted {
    share_with(60, |part, tally, met| {
        let input = mixed(&mut Random::new(part), 2 * part as usize);
        for room in 0..=12 * input.len() + 2 {
            list(tally, met, &input, room);
        }
    })
}

/// The parts are those from any place to any other.
fn one_byte() -> Counted {
    share_with(EXAMPLE.len() as u64, |place, tally, met| {
        let place = place as usize;
        for byte in 0..=255 {
            let mut input = EXAMPLE.to_vec();
            input[place] = byte;
            around(tally, met, &input);
        }
        for end in place..=EXAMPLE.len() {
            around(tally, met, &EXAMPLE[place..end]);
        }
    })
}

fn last_bytes(longest: u64) -> Counted {
    share_with(longest + 1, |length, tally, met| {
        for last in 0..=255 {
            around(tally, met, &empty_lines(length as usize, last));
        }
    })
}

/// Both sides of 12 for each: at both sides of the longest input, and of every so many bytes below.
fn many_empty(step: usize) -> Counted {
    let longest = LONGEST_INPUT - 2..=LONGEST_INPUT + 2;
    let lengths: Vec<usize> = longest.chain((1..LONGEST_INPUT).step_by(step)).collect();
    share_with(lengths.len() as u64, |part, tally, met| {
        let length = lengths[part as usize];
        for last in [b'\n', b'x'] {
            let input = empty_lines(length, last);
            list(tally, met, &input, 12 * length - 1);
            list(tally, met, &input, 12 * length);
        }
    })
}

fn random_small(count: u64) -> Counted {
    share_with(PARTS, |part, tally, met| {
        let mut random = Random::new(part);
        for _ in 0..count / PARTS {
            let length = random.index(301);
            around(tally, met, &mixed(&mut random, length));
        }
    })
}

/// Half of them at both sides of the longest input.
fn random_long(count: u64) -> Counted {
    share_with(count, |part, tally, met| {
        let mut random = Random::new(part);
        let length = match part % 2 {
            0 => LONGEST_INPUT - 2 + random.index(5),
            _ => random.index(LONGEST_INPUT + 3),
        };
        around(tally, met, &mixed(&mut random, length));
    })
}

/// Into no room, into room for `input too long`, and into more than any listing needs.
fn too_long() -> Counted {
    let lengths = [65_536, 65_537, 65_600, 70_000, 131_071, 131_072, 131_073];
    share_with(lengths.len() as u64, |part, tally, met| {
        let length = lengths[part as usize];
        let mut random = Random::new(part);
        for input in [
            mixed(&mut random, length),
            empty_lines(length, b'\n'),
            vec![b'x'; length],
        ] {
            for room in [0, 1, 11, 12, 14, 15, 16, 786_420, 12 * length] {
                list(tally, met, &input, room);
            }
        }
    })
}

/// What the program prints is the listing, lent as much as the boundary says: "that line is the program's alone".
fn printed(extent: Extent, report: &mut Report) {
    let command = std::env::var(COMMAND).unwrap_or_default();
    if command.is_empty() {
        eprintln!("rooms: {COMMAND} names no program, so what it prints is not compared");
        return;
    }
    let mut tally = Tally::default();
    let lengths = [0, 1, 103, 5000, LONGEST_INPUT - 1, LONGEST_INPUT];
    for number in 0..extent.pick(6, 120) {
        let mut random = Random::new(number);
        let length = lengths[number as usize % lengths.len()];
        let input = mixed(&mut random, length);
        let (refusal, listing) = lent_and_listed(&input);
        let is_same = lines::output(&command, &input) == listing;
        tally.hold((0, true), (refusal, is_same), || format!("input {number}"));
    }
    let input = empty_lines(LONGEST_INPUT + 1, b'\n');
    let told = lines::output(&command, &input);
    tally.hold(b"input too long\n".to_vec(), told, || {
        "65,536 bytes".to_string()
    });
    tally.hold((8, vec![]), lent_and_listed(&input), || {
        "65,536 bytes".to_string()
    });
    let name = "listings beside what `datelist` prints";
    report.row(name, Covers::Sample, tally);
}

/// Asks how much to lend, lends it, and gives the refusal, and the listing if there is one.
fn lent_and_listed(input: &[u8]) -> (u32, Vec<u8>) {
    let room = ffi::pq_listing_room(input.len()).value as usize;
    let mut out = vec![0; room];
    let answer = port::listing(&mut input.to_vec(), &mut out);
    out.truncate(answer.value as usize);
    (answer.refusal, out)
}

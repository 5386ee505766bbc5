//! One question about the room for a listing, or about a listing, asked of the boundary and of the second reading: the
//! answer, and everything that was lent, afterwards.

use crate::gap_questions::{BEFORE, lent};
use crate::port;
use crate::report::grouped;
use crate::table_questions::told;
use crate::tally::Tally;
use crate::version_questions::hold_bytes;
use pennyquill::ffi;
use second_reading::{listing, room};

/// The greatest refusal of these two calls.
const LAST_REFUSAL: usize = 8;

/// How often the second reading gave each answer: by the refusal, 0 where there was none.
#[derive(Default)]
pub struct Met {
    rooms: [u64; LAST_REFUSAL + 1],
    listings: [u64; LAST_REFUSAL + 1],
    /// How many listings met the bound, and how many bytes were listed.
    at_bound: u64,
    bytes: u64,
}

impl Met {
    pub fn add(&mut self, more: &Met) {
        for refusal in 0..=LAST_REFUSAL {
            self.rooms[refusal] += more.rooms[refusal];
            self.listings[refusal] += more.listings[refusal];
        }
        self.at_bound += more.at_bound;
        self.bytes += more.bytes;
    }

    /// A row for each answer.
    pub fn table(&self) -> String {
        let mut table = String::from("\n| room | asked for | listed into |\n|---|---:|---:|\n");
        for (refusal, name) in [
            (0, "given"),
            (7, "7: the listing does not fit"),
            (8, "8: over 65,535 bytes"),
        ] {
            let (rooms, listings) = (self.rooms[refusal], self.listings[refusal]);
            let (rooms, listings) = (grouped(rooms), grouped(listings));
            table.push_str(&format!("| {name} | {rooms} | {listings} |\n"));
        }
        let (at_bound, bytes) = (grouped(self.at_bound), grouped(self.bytes));
        table.push_str(&format!(
            "\n{at_bound} of the given listings have 12 bytes for each byte of their input; {bytes} bytes were listed.\n"
        ));
        table
    }
}

fn count(number: usize) -> u32 {
    number as u32
}

/// How much to lend for so many bytes.
pub fn room(tally: &mut Tally, met: &mut Met, n: usize) {
    let right = told(room::room(n), count);
    met.rooms[right.refusal as usize] += 1;
    let port = ffi::pq_listing_room(n);
    tally.hold(right, port, || format!("room for {n} bytes"));
}

/// The listing into so many bytes: the answer, every byte that is lent, those before and after, and those of the input.
pub fn list(tally: &mut Tally, met: &mut Met, input: &[u8], room: usize) {
    let (mut right_out, mut port_out) = (lent(room), lent(room));
    let mut port_input = input.to_vec();
    let given = BEFORE..BEFORE + room;
    let right = told(room::list(input, &mut right_out[given.clone()]), count);
    let port = port::listing(&mut port_input, &mut port_out[given]);
    met.listings[right.refusal as usize] += 1;
    met.bytes += u64::from(right.value);
    let is_at_bound = right.refusal == 0 && right.value as usize == 12 * input.len();
    met.at_bound += u64::from(is_at_bound);
    let asked = || format!("listing into {room} bytes of {}", shown(input));
    tally.hold(right, port, asked);
    hold_bytes(tally, &right_out, &port_out, asked);
    hold_bytes(tally, input, &port_input, asked);
}

/// Into no room, into half of the listing, a byte short, exactly, a byte more, a byte less than 12 for each, and these.
pub fn around(tally: &mut Tally, met: &mut Met, input: &[u8]) {
    let (length, most) = (listing::output(input).len(), 12 * input.len());
    let less = |room: usize| room.saturating_sub(1);
    for room in [
        0,
        length / 2,
        less(length),
        length,
        length + 1,
        less(most),
        most,
    ] {
        list(tally, met, input, room);
    }
}

/// The input's number of bytes and its first ones.
fn shown(input: &[u8]) -> String {
    let first = &input[..input.len().min(30)];
    format!("{} bytes, {}", input.len(), first.escape_ascii())
}

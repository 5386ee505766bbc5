//! Inputs and room of over 2^32 bytes, which a cut to 32 bits would make short. Nobody touches most of these bytes, and
//! as long as that is so they take no memory.

use crate::port;
use crate::table_questions::told;
use crate::tally::Tally;
use second_reading::room;
use std::alloc::{self, Layout};
use std::slice;

/// The longest that are lent: 2^32 and some bytes.
const WIDTH: usize = 1 << 32;
const MOST: usize = WIDTH + 65_536;

/// So much of what is lent is looked at.
const SEEN: usize = 4096;

/// Bytes that are 0. There are none where the machine has not so many to give.
struct Wide(*mut u8);

impl Wide {
    fn layout() -> Layout {
        Layout::array::<u8>(MOST).expect("so many bytes can be asked for")
    }

    fn new() -> Option<Wide> {
        // SAFETY: the layout has bytes.
        let bytes = unsafe { alloc::alloc_zeroed(Wide::layout()) };
        (!bytes.is_null()).then_some(Wide(bytes))
    }

    fn bytes(&mut self) -> &mut [u8] {
        // SAFETY: so many bytes were given, as zeros, and are ours as long as this is.
        unsafe { slice::from_raw_parts_mut(self.0, MOST) }
    }
}

impl Drop for Wide {
    fn drop(&mut self) {
        // SAFETY: they were given with this layout.
        unsafe { alloc::dealloc(self.0, Wide::layout()) }
    }
}

/// None where the machine has not so many bytes to give.
pub fn compare() -> Option<Tally> {
    let mut wide = Wide::new()?;
    let mut tally = Tally::default();
    long_inputs(&mut tally, wide.bytes());
    long_rooms(&mut tally, wide.bytes());
    Some(tally)
}

/// All of them are 8, and nothing is written.
fn long_inputs(tally: &mut Tally, wide: &mut [u8]) {
    for more in [0, 1, 12, 65_535, 65_536] {
        for room in [0, 12, 15, SEEN] {
            let input = &mut wide[..WIDTH + more];
            let (mut right_out, mut port_out) = (vec![7; room], vec![7; room]);
            let right = told(room::list(input, &mut right_out), |length| length as u32);
            let port = port::listing(input, &mut port_out);
            let asked = || format!("listing into {room} bytes of 2^32 bytes and {more}");
            tally.hold(right, port, asked);
            tally.hold(right_out, port_out, asked);
        }
    }
}

/// All of them are enough.
fn long_rooms(tally: &mut Tally, wide: &mut [u8]) {
    for more in [0, 1, 11, 65_536] {
        for input in [b"".as_slice(), b"\n", b"D t 1444.11.11\nU b 0"] {
            let out = &mut wide[..WIDTH + more];
            let right = told(room::list(input, out), |length| length as u32);
            let right_out = out[..SEEN].to_vec();
            out[..SEEN].fill(0);
            let port = port::listing(&mut input.to_vec(), out);
            let port_out = out[..SEEN].to_vec();
            out[..SEEN].fill(0);
            let asked = || format!("listing into 2^32 bytes and {more}");
            tally.hold(right, port, asked);
            tally.hold(right_out, port_out, asked);
        }
    }
}

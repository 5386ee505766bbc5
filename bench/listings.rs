//! Of the tasks: the listing of a whole input into a lent buffer. The original has none.

use crate::inputs::mixed_lines;
use crate::measure::compare;
use crate::plain_listing::{self, parts};
use crate::tasks::Show;
use pennyquill::ffi::{self, Answer};
use second_reading::room;
use std::cell::RefCell;

/// As many bytes as are listed.
const INPUT: usize = 65_535;

/// What stands for the original: called as Rust, and behind a function of the boundary's shape.
type Plain = fn(&[u8], &mut [u8]) -> Answer;
type Bounded = extern "C" fn(*const u8, usize, *mut u8, usize) -> Answer;

pub fn all(show: Show) {
    let input = mixed_lines(INPUT);
    let most = 12 * INPUT;
    let length = second(&input, &mut vec![0; most]).value as usize;
    for (told, room) in [
        ("into 12 for each byte", most),
        ("into exactly its length", length),
        ("into a byte less, refused", length - 1),
    ] {
        list(show, told, &input, room, (second, second_at));
    }
    let told = "into 12 for each byte, beside one without allocations";
    let ways: (Plain, Bounded) = (plain_listing::list, plain_listing::list_at);
    list(show, told, &input, most, ways);
}

fn list(show: Show, told: &str, input: &[u8], room: usize, (plain, bounded): (Plain, Bounded)) {
    let lent = RefCell::new(vec![0; room]);
    let plain = |_: &()| plain(input, &mut lent.borrow_mut());
    let bounded = |_: &()| {
        let mut out = lent.borrow_mut();
        bounded(input.as_ptr(), input.len(), out.as_mut_ptr(), room)
    };
    let port = |_: &()| {
        let mut out = lent.borrow_mut();
        // SAFETY: the pointers and the lengths are those of slices, of which the second is ours alone.
        unsafe { ffi::pq_listing(input.as_ptr(), input.len(), out.as_mut_ptr(), room) }
    };
    let plain_answer = bounded(&());
    let plain_listing = lent.replace(vec![0; room]);
    assert_eq!(port(&()), plain_answer);
    assert!(*lent.borrow() == plain_listing, "the listings differ");
    let times = compare(&[()], plain, bounded, port);
    let name = format!("listing of 65,535 bytes {told}");
    show(&format!("{name} ‖"), times);
    show(&format!("{name}, a byte ‖"), times.of_each(input.len()));
}

/// The second reading, which makes a `String` of every line, and then one of all.
fn second(input: &[u8], out: &mut [u8]) -> Answer {
    match room::list(input, out) {
        Ok(length) => Answer {
            refusal: 0,
            value: length as u32,
        },
        Err(refusal) => Answer {
            refusal: refusal.into(),
            value: 0,
        },
    }
}

#[inline(never)]
extern "C" fn second_at(input: *const u8, len: usize, out: *mut u8, room: usize) -> Answer {
    // SAFETY: the caller hands over the parts of slices, of which the second is its alone.
    let (input, out) = unsafe { parts(input, len, out, room) };
    second(input, out)
}

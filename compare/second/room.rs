//! "#110 Room for a listing" of document 02: how much to lend for a listing, and the whole of it in one lent buffer.

use crate::listing;

/// "n input bytes, n at most 65,535".
const MOST_INPUT: usize = 65_535;

/// "give at most 12 × n output bytes".
const ROOM_FOR_EACH: usize = 12;

/// "The host [..] must know how much to lend": 12 × n. "more than 65,535 input bytes are 8."
pub fn room(n: usize) -> Result<usize, u8> {
    if n > MOST_INPUT {
        return Err(8);
    }
    Ok(ROOM_FOR_EACH * n)
}

/// "the whole listing in one buffer", "the output being document 01's": it fills the first bytes, and its length is
/// given. 8 comes first, whatever the room, so that `input too long` is never written: that line is the program's
/// alone. "7 exactly when this listing doesn't fit, and then nothing is written": a buffer of exactly the listing's
/// length is enough.
pub fn list(input: &[u8], out: &mut [u8]) -> Result<usize, u8> {
    let most = room(input.len())?;
    let listing = listing::output(input);
    assert!(listing.len() <= most, "over 12 × n bytes");
    let filled = out.get_mut(..listing.len()).ok_or(7)?;
    filled.copy_from_slice(&listing);
    Ok(listing.len())
}

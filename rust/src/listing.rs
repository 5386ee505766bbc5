//! Listings: many dates read and written in one call, as the program `datelist` prints them.

use crate::bits::given;
use crate::ffi;
use crate::refusal::Refusal;

/// The bytes that are room for the listing of every input of so many: 12 for each. Refusal 8 where there are more than
/// 65,535 bytes to be listed.
///
/// ```
/// use pennyquill::{Refusal, listing, listing_room};
/// assert_eq!(listing_room(1000)?, 12_000);
/// assert_eq!(listing_room(0)?, 0);
/// assert_eq!(listing_room(65_535)?, 786_420);
/// assert_eq!(listing_room(65_536), Err(Refusal::InputTooLong));
///
/// // Empty lines leave none to spare.
/// assert_eq!(listing(&[b'\n'; 1000])?.len(), 12_000);
/// # Ok::<(), Refusal>(())
/// ```
pub fn listing_room(n: usize) -> Result<usize, Refusal> {
    given(ffi::pq_listing_room(n)).map(|room| room as usize)
}

/// The listing of an input: each of its lines is answered by a line, ended by a byte 10. Refusal 8 where the input has more
/// than 65,535 bytes, and no other. Not in jomini.
///
/// A line of input is a kind's letter, a way and the rest, between single spaces; it ends at a byte 10, never at a 13. Way
/// `t` reads the rest as `parse` of the kind does; `b` and `g` read it as a number, perhaps `-` and then 1 to 10 digits, as
/// `from_binary` and `from_binary_heuristic` do. The answer is the letter, the dotted text and the ISO text; or the letter,
/// `refused` and 1, 2 or 3. A line of any other shape, an empty one too, and one of `U b`, `U g` or `R g` is answered by
/// `? refused 8`.
///
/// ```
/// use pennyquill::{Refusal, listing};
/// let input = b"D t 1444.11.11\n\
///               E t 1444.11.11.23\n\
///               V b 43808760\n\
///               H b 43808760\n\
///               U t 1444.2.30\n\
///               U b 0\n\
///               D t +1444.1.1\n\
///               D b -8760\n";
/// let listed = b"D 1444.11.11 1444-11-11\n\
///                E 1444.11.11.22 1444-11-11T19\n\
///                V 1.1.1 0001-01-01T00\n\
///                H 1.1.1.1 0001-01-01T00\n\
///                U 1444.02.30 1444-02-30\n\
///                ? refused 8\n\
///                D refused 2\n\
///                D -5001.1.1 -5001-01-01\n";
/// assert_eq!(listing(input)?, listed);
///
/// // The last line may lack its end. No input has no line.
/// assert_eq!(listing(b"D g 1444")?, b"D refused 3\n");
/// assert_eq!(listing(b"")?, b"");
///
/// // What is refused of a line stands in the listing; the call itself refuses an input that is too long.
/// assert_eq!(listing(&[b'x'; 65_535])?, b"? refused 8\n");
/// let refusal = listing(&[b'x'; 65_536]).unwrap_err();
/// assert_eq!(refusal, Refusal::InputTooLong);
/// assert_eq!(refusal.to_string(), "refused 8: the input is over 65,535 bytes");
/// # Ok::<(), Refusal>(())
/// ```
pub fn listing(input: &[u8]) -> Result<Vec<u8>, Refusal> {
    let mut out = vec![0; listing_room(input.len())?];
    let length = write_listing(input, &mut out)?;
    out.truncate(length);
    out.shrink_to_fit();
    Ok(out)
}

/// Writes the [listing] of an input into the front of a buffer and gives its length in bytes. A buffer of exactly that
/// length is enough, one of [`listing_room`] bytes always; later bytes stay. Refusal 8 where the input has more than 65,535
/// bytes, whatever the buffer; then 7 where the buffer is too short: then nothing is written.
///
/// ```
/// use pennyquill::{Refusal, write_listing};
/// let mut out = [b'.'; 26];
/// let input = b"U t 1444.2.30\n";
/// assert_eq!(write_listing(input, &mut out[..23]), Err(Refusal::ShortBuffer));
/// assert_eq!(out, [b'.'; 26]);
/// assert_eq!(write_listing(input, &mut out[..24])?, 24);
/// assert_eq!(&out, b"U 1444.02.30 1444-02-30\n..");
///
/// // 8 comes first.
/// assert_eq!(write_listing(&[b'\n'; 65_535], &mut out), Err(Refusal::ShortBuffer));
/// assert_eq!(write_listing(&[b'\n'; 65_536], &mut out), Err(Refusal::InputTooLong));
/// assert_eq!(write_listing(&[b'\n'; 65_536], &mut []), Err(Refusal::InputTooLong));
/// # Ok::<(), Refusal>(())
/// ```
pub fn write_listing(input: &[u8], out: &mut [u8]) -> Result<usize, Refusal> {
    let (start, room) = (out.as_mut_ptr(), out.len());
    // SAFETY: the pointers and the lengths are those of slices, of which the second is ours alone.
    let answer = unsafe { ffi::pq_listing(input.as_ptr(), input.len(), start, room) };
    given(answer).map(|length| length as usize)
}

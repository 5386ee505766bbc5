//! "Padded years", request #104 of document 02: "Raise the text limit from 16 to 64 bytes, with the
//! leading number's true decimal value deciding and never its value after wrapping."
//!
//! About a text of up to 16 bytes the original is asked as it is. About a longer one it is asked with
//! the leading number in its fewest digits: these have the same value, and pass no 64 bits.

use crate::kinds::Kind;

/// "Refusals: 1 now begins at 65 bytes."
pub const LONGEST_TEXT: usize = 64;

/// The limit before the request.
const LONGEST_AS_IT_IS: usize = 16;

/// "The year must fit 16 bits, a number text 32": no number of more digits does.
const MOST_DIGITS: usize = 10;

/// "text over 64 bytes" is 1, which comes before 2, "text not of that kind". "D still takes 12 at most."
pub fn read<D>(kind: Kind, text: &[u8], parse: impl Fn(&[u8]) -> Option<D>) -> Result<D, u8> {
    if text.len() > LONGEST_TEXT {
        return Err(1);
    }
    if text.len() <= LONGEST_AS_IT_IS {
        return parse(text).ok_or(2);
    }
    if kind == Kind::D {
        return Err(2);
    }
    let text = in_fewest_digits(text).ok_or(2)?;
    parse(&text).ok_or(2)
}

/// The text with its leading number in the fewest digits; none where it has too many for every kind.
fn in_fewest_digits(text: &[u8]) -> Option<Vec<u8>> {
    let has_sign = matches!(text.first(), Some(b'-' | b'+'));
    let (sign, after_sign) = text.split_at(usize::from(has_sign));
    let is_digit = |byte: &&u8| byte.is_ascii_digit();
    let (digits, rest) = after_sign.split_at(after_sign.iter().take_while(is_digit).count());
    let is_zero = |byte: &&u8| **byte == b'0';
    let zeros = digits.iter().take_while(is_zero).count();
    // Of nothing but zeros one stays.
    let fewest = &digits[zeros.min(digits.len().saturating_sub(1))..];
    (fewest.len() <= MOST_DIGITS).then(|| [sign, fewest, rest].concat())
}

//! Numbers and integers as the text writes them, and the value word that carries a number in the table.
//! A value is m times ten to the k; its word is 256 times m, plus 2(k + 64), plus 1 if negative.

use crate::refusal::{NUMBER, RANGE};
use crate::words::is_blank;

/// The value word of zero: m 0, k 0, no sign.
pub(crate) const ZERO: u64 = 2 * EXPONENT_SHIFT as u64;

const EXPONENT_SHIFT: i64 = 64;
const EXPONENT_BOUND: i64 = 60;

/// The least m of more than 15 digits.
const MANTISSA_BOUND: u64 = 1_000_000_000_000_000;

/// So many digits fit a word whatever they are.
const SAFE_DIGITS: usize = 19;

/// From here on one more digit may not fit.
const MANTISSA_FULL: u64 = 1_000_000_000_000_000_000;

/// No text is long enough to bring an exponent from here back into bounds with the digits of its fraction.
const EXPONENT_FULL: i64 = 1_000_000_000_000;

/// Reads `word` as a number and gives its value word, or refusal 13 (malformed) or 14 (out of bounds).
///
/// ```
/// assert_eq!(plain::value(b"4.50nH"), Ok(45 * 256 + 2 * (-10 + 64) as u64));
/// assert_eq!(plain::value(b"2e+"), Err(13));
/// assert_eq!(plain::value(b"1e61"), Err(14));
/// ```
pub fn value(word: &[u8]) -> Result<u64, u64> {
    let (outcome, rest) = scan(word);
    if rest.is_empty() {
        outcome
    } else {
        Err(NUMBER)
    }
}

/// Reads the number at the front of `bytes`, up to a blank or the end, and hands back what follows it.
/// After a malformed number what is handed back has no meaning.
pub(crate) fn scan(bytes: &[u8]) -> (Result<u64, u64>, &[u8]) {
    let (negative, bytes) = sign(bytes);
    let (mantissa, whole) = digits(bytes, 0);
    let (mantissa, fraction, rest) = match whole {
        [b'.', fraction @ ..] => {
            let (mantissa, rest) = digits(fraction, mantissa);
            (mantissa, fraction.len() - rest.len(), rest)
        }
        _ => (mantissa, 0, whole),
    };
    let written = &bytes[..bytes.len() - rest.len()];
    let count = bytes.len() - whole.len() + fraction;
    let (exponent, rest) = exponent(rest);
    let (scale, rest) = letters(rest);
    if count == 0 || rest.first().is_some_and(|&byte| !is_blank(byte)) {
        return (Err(NUMBER), rest);
    }
    let exponent = exponent + scale - fraction as i64;
    let outcome = if count <= SAFE_DIGITS {
        value_word(mantissa, exponent, negative)
    } else {
        long_value_word(written, exponent, negative)
    };
    (outcome, rest)
}

/// Reads digits on top of those already in `mantissa`, and gives what follows them.
/// They go by twos, since each multiplication has to wait for the one before it. Of more than [`SAFE_DIGITS`] the
/// mantissa has no meaning: looking out for that here would slow all numbers down.
fn digits(mut bytes: &[u8], mut mantissa: u64) -> (u64, &[u8]) {
    while let [tens @ b'0'..=b'9', ones @ b'0'..=b'9', rest @ ..] = bytes {
        let pair = (tens - b'0') * 10 + (ones - b'0');
        mantissa = mantissa.wrapping_mul(100).wrapping_add(u64::from(pair));
        bytes = rest;
    }
    if let [digit @ b'0'..=b'9', rest @ ..] = bytes {
        mantissa = mantissa.wrapping_mul(10).wrapping_add(u64::from(digit - b'0'));
        bytes = rest;
    }
    (mantissa, bytes)
}

/// Whether a sign at the front says negative, and what follows it.
fn sign(bytes: &[u8]) -> (bool, &[u8]) {
    match bytes {
        [b'-', rest @ ..] => (true, rest),
        [b'+', rest @ ..] => (false, rest),
        _ => (false, bytes),
    }
}

/// The exponent at the front and what follows it; an `e` without digits is no exponent but a letter.
fn exponent(bytes: &[u8]) -> (i64, &[u8]) {
    let [b'e' | b'E', after @ ..] = bytes else { return (0, bytes) };
    let (negative, mut rest) = sign(after);
    if !matches!(rest, [b'0'..=b'9', ..]) {
        return (0, bytes);
    }
    let mut exponent = 0;
    while let [digit @ b'0'..=b'9', more @ ..] = rest {
        if exponent < EXPONENT_FULL {
            exponent = exponent * 10 + i64::from(digit - b'0');
        }
        rest = more;
    }
    (if negative { -exponent } else { exponent }, rest)
}

/// The power of ten that the first of the letters stands for, and what follows the letters.
fn letters(bytes: &[u8]) -> (i64, &[u8]) {
    let [first @ (b'a'..=b'z' | b'A'..=b'Z'), rest @ ..] = bytes else { return (0, bytes) };
    let scale = match first {
        b'T' => 12,
        b'G' => 9,
        b'M' => 6,
        b'k' => 3,
        b'm' => -3,
        b'u' => -6,
        b'n' => -9,
        b'p' => -12,
        b'f' => -15,
        _ => 0,
    };
    let mut rest = rest;
    while let [b'a'..=b'z' | b'A'..=b'Z', more @ ..] = rest {
        rest = more;
    }
    (scale, rest)
}

/// The value word of `mantissa` times ten to the `exponent`.
fn value_word(mut mantissa: u64, mut exponent: i64, negative: bool) -> Result<u64, u64> {
    if mantissa == 0 {
        return Ok(ZERO);
    }
    while mantissa.is_multiple_of(10) {
        mantissa /= 10;
        exponent += 1;
    }
    if mantissa >= MANTISSA_BOUND || exponent.abs() > EXPONENT_BOUND {
        return Err(RANGE);
    }
    Ok(256 * mantissa + 2 * (exponent + EXPONENT_SHIFT) as u64 + u64::from(negative))
}

/// The value word of a mantissa too long to be read at once, given as it is written.
/// Zeros at both ends do not count, so that it may still be in bounds.
fn long_value_word(written: &[u8], mut exponent: i64, negative: bool) -> Result<u64, u64> {
    let mut mantissa = 0;
    for digit in written.iter().filter(|&&byte| byte != b'.').map(|byte| u64::from(byte - b'0')) {
        if mantissa < MANTISSA_FULL {
            mantissa = mantissa * 10 + digit;
        } else if digit == 0 {
            exponent += 1;
        } else {
            return Err(RANGE);
        }
    }
    value_word(mantissa, exponent, negative)
}

/// Reads an integer of 1 to 9 digits that must lie in `low..=high`.
pub(crate) fn integer(word: &[u8], low: u64, high: u64) -> Result<u64, u64> {
    if word.is_empty() || word.len() > 9 || !word.iter().all(u8::is_ascii_digit) {
        return Err(NUMBER);
    }
    let value = word.iter().fold(0, |value, digit| value * 10 + u64::from(digit - b'0'));
    if (low..=high).contains(&value) {
        Ok(value)
    } else {
        Err(RANGE)
    }
}

/// A value word taken apart: m, k, and whether it is negative.
pub(crate) fn parts(word: u64) -> (u64, i64, bool) {
    (word >> 8, (word >> 1 & 127) as i64 - EXPONENT_SHIFT, word & 1 == 1)
}

/// Whether `word` can be the value word of a number.
pub(crate) fn is_value_word(word: u64) -> bool {
    let (mantissa, exponent, _) = parts(word);
    let non_zero = mantissa < MANTISSA_BOUND && !mantissa.is_multiple_of(10) && exponent.abs() <= EXPONENT_BOUND;
    word == ZERO || non_zero
}

/// Whether `word` is the value word of a number above zero.
pub(crate) fn is_positive_word(word: u64) -> bool {
    is_value_word(word) && word != ZERO && word & 1 == 0
}

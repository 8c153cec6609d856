//! Doubles for drawing: the value of a value word, or nothing where it lies outside the span that is drawn.
//! Both m and the power of ten are exact as doubles, so that the one operation on them is all that rounds.

use crate::number::{is_value_word, parts};

/// The powers of ten that are drawn with, by their exponent. They end where a double can no longer hold them exactly,
/// and with them ends the span.
const POWERS: [f64; 23] = [
    1e0, 1e1, 1e2, 1e3, 1e4, 1e5, 1e6, 1e7, 1e8, 1e9, 1e10, 1e11, 1e12, 1e13, 1e14, 1e15, 1e16, 1e17, 1e18, 1e19, 1e20,
    1e21, 1e22,
];

/// The double of a value word, m times ten to the k: one multiplication by, or one division by, the power of ten.
///
/// `None` says outside: k is not from -22 to 22, or `word` is no value word.
///
/// ```
/// assert_eq!(plain::double_of(45 * 256 + 2 * (-10 + 64) as u64), Some(45.0 / 1e10));
/// assert_eq!(plain::double_of(256 + 2 * (23 + 64)), None);
/// ```
pub fn double_of(word: u64) -> Option<f64> {
    if !is_value_word(word) {
        return None;
    }
    let (mantissa, exponent, negative) = parts(word);
    let power = POWERS.get(exponent.unsigned_abs() as usize)?;
    // At most 15 digits: nothing rounds here.
    let mantissa = mantissa as f64;
    // To multiply by a negative power would round twice, since no double holds a tenth.
    let size = if exponent < 0 { mantissa / power } else { mantissa * power };
    // The value word of zero has no sign, so this makes no minus zero.
    Some(if negative { -size } else { size })
}

/// The doubles of a frequency and a value, both value words; `None`, outside, if either of them is.
pub fn pair_of(frequency: u64, value: u64) -> Option<(f64, f64)> {
    Some((double_of(frequency)?, double_of(value)?))
}

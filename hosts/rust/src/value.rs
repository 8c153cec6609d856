// value.rs: the exact decimal numbers that a file writes, kept as the table's value words.
// A value word is 256 m + 2 (k + 64) + s; m never ends in 0, so equal numbers are equal words.
use std::cmp::Ordering;
use std::fmt;

use crate::raw;

/// The greatest m: 15 digits.
const SIZE_MOST: u64 = 999_999_999_999_999;

/// An exact decimal number: m times ten to the k, with a sign.
///
/// Two values are equal exactly when the numbers are; they are ordered as numbers. No floating point takes part.
#[derive(Clone, Copy, PartialEq, Eq, Hash)]
pub struct Value(u64);

impl Value {
    /// Zero, which is also what an entry is that a file does not write.
    pub const ZERO: Value = Value(128);

    /// The value of a value word, or `None` where the word is none.
    pub fn from_word(word: u64) -> Option<Value> {
        let value = Value(word);
        let written =
            (1..=SIZE_MOST).contains(&value.size()) && value.size() % 10 != 0 && (-60..=60).contains(&value.exponent());
        (value == Value::ZERO || written).then_some(value)
    }

    /// The value word, as it stands in the table.
    pub fn word(self) -> u64 {
        self.0
    }

    /// Whether the number is below zero.
    pub fn negative(self) -> bool {
        self.0 % 2 == 1
    }

    /// m: at most 15 digits, not ending in 0; 0 for zero.
    pub fn size(self) -> u64 {
        self.0 / 256
    }

    /// k, from -60 to 60; 0 for zero.
    pub fn exponent(self) -> i32 {
        (self.0 % 256 / 2) as i32 - 64
    }

    /// Whether the number is zero.
    pub fn is_zero(self) -> bool {
        self == Value::ZERO
    }

    /// The double to draw the number by: the exact number rounded once, and the number itself where it is whole and below two to the 53.
    /// `None` where k is not from -22 to 22: there nothing is drawn.
    ///
    /// ```
    /// let value = |word| skumvari::Value::from_word(word).expect("a value word");
    /// assert_eq!(value(256 * 45 + 2 * (64 - 10)).to_f64(), Some(45.0 / 1e10));
    /// assert_eq!(value(256 + 2 * (64 + 23)).to_f64(), None); // 1e23
    /// ```
    pub fn to_f64(self) -> Option<f64> {
        raw::double(self.0)
    }

    /// The doubles of a frequency and a value, a point of a curve; `None` if either has none (see [`to_f64`](Value::to_f64)).
    pub fn pair(frequency: Value, value: Value) -> Option<(f64, f64)> {
        raw::pair(frequency.0, value.0)
    }

    /// The sizes of numbers that are not zero are ordered as these pairs: the place of the first digit, then all 15 digits.
    fn magnitude(self) -> (i32, u64) {
        let digits = self.size().ilog10();
        (digits as i32 + self.exponent(), self.size() * 10u64.pow(14 - digits))
    }
}

impl Ord for Value {
    fn cmp(&self, other: &Value) -> Ordering {
        let sign = |value: &Value| {
            if value.is_zero() {
                0
            } else if value.negative() {
                -1
            } else {
                1
            }
        };
        sign(self).cmp(&sign(other)).then_with(|| match sign(self) {
            0 => Ordering::Equal,
            1 => self.magnitude().cmp(&other.magnitude()),
            _ => other.magnitude().cmp(&self.magnitude()),
        })
    }
}

impl PartialOrd for Value {
    fn partial_cmp(&self, other: &Value) -> Option<Ordering> {
        Some(self.cmp(other))
    }
}

/// Writes m, `e` and k, as the listing does: `45e-10`, `-1e3`, and `0e0` for zero.
impl fmt::Display for Value {
    fn fmt(&self, out: &mut fmt::Formatter<'_>) -> fmt::Result {
        let sign = if self.negative() { "-" } else { "" };
        write!(out, "{sign}{}e{}", self.size(), self.exponent())
    }
}

impl fmt::Debug for Value {
    fn fmt(&self, out: &mut fmt::Formatter<'_>) -> fmt::Result {
        fmt::Display::fmt(self, out)
    }
}

#[cfg(test)]
mod tests {
    use super::*;

    fn value(negative: bool, size: u64, exponent: i32) -> Value {
        Value::from_word(256 * size + 2 * (exponent + 64) as u64 + u64::from(negative)).expect("a value word")
    }

    #[test]
    fn a_value_prints_as_in_the_listing() {
        assert_eq!(value(false, 45, -10).to_string(), "45e-10");
        assert_eq!(value(true, 1, 3).to_string(), "-1e3");
        assert_eq!(Value::ZERO.to_string(), "0e0");
    }

    #[test]
    fn words_that_are_no_value_are_none() {
        let zero_with_sign = 129;
        let zero_with_exponent = 130;
        let ends_in_zero = 256 * 10 + 128;
        let sixteen_digits = 256 * (SIZE_MOST + 2) + 128;
        let exponent_61 = 256 + 2 * 125;
        for word in [0, zero_with_sign, zero_with_exponent, ends_in_zero, sixteen_digits, exponent_61, u64::MAX] {
            assert_eq!(Value::from_word(word), None, "{word}");
        }
        assert!(Value::from_word(256 * SIZE_MOST + 2 * 124 + 1).is_some());
    }

    #[test]
    fn values_are_ordered_as_numbers() {
        let rising = [
            value(true, SIZE_MOST, 60),
            value(true, 2, 0),
            value(true, 19, -1),
            value(true, 1, -60),
            Value::ZERO,
            value(false, 1, -60),
            value(false, 99, -2),
            value(false, 1, 0),
            value(false, 100_000_000_000_001, -14),
            value(false, 11, -1),
            value(false, 2, 0),
            value(false, 1, 60),
        ];
        for (i, left) in rising.iter().enumerate() {
            for (j, right) in rising.iter().enumerate() {
                assert_eq!(left.cmp(right), i.cmp(&j), "{left} {right}");
            }
        }
    }

    #[test]
    fn doubles_and_pairs() {
        assert_eq!(value(false, 45, -10).to_f64(), Some(4.5e-9));
        assert_eq!(value(true, 1, 3).to_f64(), Some(-1000.0));
        assert_eq!(Value::ZERO.to_f64().map(f64::to_bits), Some(0));
        assert_eq!(value(false, SIZE_MOST, 22).to_f64(), Some(999_999_999_999_999e22));
        assert_eq!(value(false, SIZE_MOST, 23).to_f64(), None);
        let (frequency, outside) = (value(false, 1, 9), value(true, 1, -23));
        assert_eq!(Value::pair(frequency, value(false, 45, -10)), Some((1e9, 4.5e-9)));
        assert_eq!(Value::pair(frequency, outside), None);
        assert_eq!(Value::pair(outside, frequency), None);
    }
}

//! Doubles of value words: which are drawn, with which bits, and which are outside.
//! What a double must be is found with integers alone, or stands here as a literal or as the paper's own division.

use plain::{double_of, pair_of, value};

/// The greatest m, of 15 digits.
const GREATEST: u64 = 999_999_999_999_999;

/// Words that are no value word.
const NO_VALUE_WORDS: [u64; 14] = [
    0,
    1,
    2,
    127,
    // Zero with a sign, with k 1 and with k -1.
    129,
    130,
    126,
    // An m that ends in 0.
    256 * 10 + 128,
    256 * 999_999_999_999_990 + 129,
    // An m of 16 digits.
    256 * 1_000_000_000_000_001 + 128,
    256 * 9_007_199_254_740_991 + 128,
    // k 61 and -61.
    256 + 2 * (64 + 61),
    256 + 2 * (64 - 61),
    u64::MAX,
];

/// The word as the paper's layout has it.
fn word(mantissa: u64, exponent: i64, negative: bool) -> u64 {
    256 * mantissa + 2 * (exponent + 64) as u64 + u64::from(negative)
}

/// The bits that are drawn; equal doubles may still differ in the sign of a zero.
fn bits(word: u64) -> Option<u64> {
    double_of(word).map(f64::to_bits)
}

/// The bits that are drawn for a number as the text writes it.
fn written(number: &str) -> Option<u64> {
    bits(value(number.as_bytes()).expect("a number"))
}

fn ten_to(exponent: u64) -> u128 {
    (0..exponent).fold(1, |power, _| power * 10)
}

/// The double nearest to m times ten to the k, where a tie goes to the even one.
fn nearest(mantissa: u64, exponent: i64) -> f64 {
    let (mantissa, power) = (u128::from(mantissa), ten_to(exponent.unsigned_abs()));
    if exponent < 0 {
        nearest_quotient(mantissa, power)
    } else {
        (mantissa * power) as f64
    }
}

/// Divides with as many twos put to the dividend as give the quotient the 53 bits of a double, rounds it by what is
/// left over, and takes the twos away again. A divisor has at most 74 bits, so a word of 128 holds all of it.
fn nearest_quotient(dividend: u128, divisor: u128) -> f64 {
    let twos = (0..).find(|twos| (dividend << twos) / divisor >= 1 << 52).expect("twos enough");
    let (quotient, left) = ((dividend << twos) / divisor, (dividend << twos) % divisor);
    assert!(quotient < 1 << 53);
    let up = 2 * left > divisor || 2 * left == divisor && quotient % 2 == 1;
    (0..twos).fold((quotient + u128::from(up)) as f64, |double, _| double / 2.0)
}

/// Mantissas of 1 to 15 digits, none ending in 0.
fn mantissas() -> Vec<u64> {
    let mut seed = 11u64;
    let mut next = |digits| {
        seed = seed.wrapping_mul(6_364_136_223_846_793_005).wrapping_add(1_442_695_040_888_963_407);
        (seed >> 8) % 10u64.pow(digits)
    };
    let scattered = (1..=15).flat_map(|digits| [digits; 40]).map(&mut next);
    let chosen = (1..100).chain([GREATEST, GREATEST - 1, 900_719_925_474_099, 100_000_000_000_001]);
    chosen.chain(scattered).filter(|mantissa| mantissa % 10 != 0).collect()
}

#[test]
fn the_readings_of_the_request() {
    assert_eq!(bits(word(45, -10, false)), Some((45.0_f64 / 1e10).to_bits()));
    assert_eq!(bits(word(1, 22, false)), Some(1e22_f64.to_bits()));
    assert_eq!(bits(word(1, 23, false)), None);
    assert_eq!(bits(word(1, -22, false)), Some((1.0_f64 / 1e22).to_bits()));
    assert_eq!(bits(word(1, -23, false)), None);
    assert_eq!(bits(128), Some(0), "plus zero has no bit set");
}

#[test]
fn the_span_is_that_of_the_words_own_exponent() {
    for mantissa in [1, 7, 45, GREATEST] {
        for exponent in -60..=60 {
            for negative in [false, true] {
                let drawn = double_of(word(mantissa, exponent, negative)).is_some();
                assert_eq!(drawn, (-22..=22).contains(&exponent), "{mantissa}e{exponent}");
            }
        }
    }
}

/// However the text writes it, m does not end in 0.
#[test]
fn zeros_in_the_text_do_not_move_the_span() {
    assert_eq!(written("4.50nH"), Some(4.5e-9_f64.to_bits()));
    assert_eq!(written("0.1e23"), Some(1e22_f64.to_bits()));
    assert_eq!(written("10e22"), None);
    assert_eq!(written("10e-23"), Some(1e-22_f64.to_bits()));
    assert_eq!(written("0.1e-22"), None);
    assert_eq!(written("1.5e23"), Some(1.5e23_f64.to_bits()));
    assert_eq!(written("15e-23"), None);
}

#[test]
fn every_double_is_the_nearest() {
    for mantissa in mantissas() {
        for exponent in -22..=22 {
            let size = nearest(mantissa, exponent).to_bits();
            let found = [false, true].map(|negative| bits(word(mantissa, exponent, negative)));
            assert_eq!(found, [Some(size), Some(size | 1 << 63)], "{mantissa}e{exponent}");
        }
    }
}

/// A power below one, or two powers after another, would round more than once and show in the last bit.
#[test]
fn nothing_rounds_twice() {
    assert_eq!(bits(word(3, -1, false)), Some(0.3_f64.to_bits()));
    assert_ne!(0.3_f64.to_bits(), (3.0_f64 * 0.1).to_bits());
    let twice = |mantissa: &u64| (*mantissa as f64 / 1e11 / 1e11).to_bits() != nearest(*mantissa, -22).to_bits();
    assert!(mantissas().iter().any(twice));
}

#[test]
fn a_sign_survives() {
    assert_eq!(bits(word(1, -22, true)), Some((-1e-22_f64).to_bits()));
    assert_eq!(bits(word(1, 22, true)), Some((-1e22_f64).to_bits()));
    assert_eq!(bits(word(7, 0, true)), Some((-7.0_f64).to_bits()));
    assert_eq!(written("-7p"), Some((-7e-12_f64).to_bits()));
}

#[test]
fn zero_is_plus_zero_however_it_is_written() {
    for zero in ["0", "-0", "+0.00", "-0e99T", "-.0e-99"] {
        assert_eq!(written(zero), Some(0), "{zero}");
    }
}

#[test]
fn whole_numbers_below_two_to_the_53_are_exact() {
    let whole = |mantissa, exponent| double_of(word(mantissa, exponent, false)).map(|double| double as u64);
    assert_eq!(whole(GREATEST, 0), Some(999_999_999_999_999));
    assert_eq!(whole(9, 15), Some(9_000_000_000_000_000));
    assert_eq!(whole(900_719_925_474_099, 1), Some(9_007_199_254_740_990), "the greatest that ends in 0");
    let mut met = 0;
    for mantissa in mantissas() {
        for exponent in 0..=15 {
            let number = u128::from(mantissa) * ten_to(exponent);
            if number < 1 << 53 {
                assert_eq!(whole(mantissa, exponent as i64).map(u128::from), Some(number), "{mantissa}e{exponent}");
                met += 1;
            }
        }
    }
    assert!(met > 1_000, "{met}");
}

/// The powers themselves are exact, those too that are not below two to the 53.
#[test]
fn powers_of_ten_are_exact() {
    for exponent in 0..=22 {
        let power = double_of(word(1, exponent, false)).map(|double| double as u128);
        assert_eq!(power, Some(ten_to(exponent as u64)), "{exponent}");
    }
}

#[test]
fn words_that_are_no_value_word_are_outside() {
    for word in NO_VALUE_WORDS {
        assert_eq!(double_of(word), None, "{word}");
    }
}

#[test]
fn a_pair_is_outside_if_either_is() {
    let drawn = [(word(1, 9, false), 1e9), (word(45, -10, true), -45e-10), (128, 0.0)];
    let outside = [&[word(1, 23, false), word(1, -23, true)], &NO_VALUE_WORDS[..]].concat();
    for (frequency, first) in drawn {
        for (value, second) in drawn {
            assert_eq!(pair_of(frequency, value), Some((first, second)));
        }
        for &word in &outside {
            assert_eq!(pair_of(frequency, word), None, "{frequency} {word}");
            assert_eq!(pair_of(word, frequency), None, "{word} {frequency}");
        }
    }
    assert_eq!(pair_of(outside[0], outside[1]), None);
}

// doubles.rs: the doubles of words made at random, by both readings and by Rust's own reading of the number as text.
use skumvari::Value;

use crate::compare::{self, Outcome};
use crate::random::Random;

/// How many words were drawn, and how many were outside.
#[derive(Default)]
pub struct Seen {
    pub drawn: u64,
    pub outside: u64,
}

/// A word of a number of 1 to 15 digits with a k from -30 to 30, or any word at all, which is seldom a value word.
fn word(random: &mut Random) -> u64 {
    if random.percent(10) {
        return random.word();
    }
    let size = random.word() % 10u64.pow(random.between(1, 15) as u32);
    256 * size + 2 * (random.between(34, 94) as u64) + random.word() % 2
}

/// All that is told of a frequency and a value.
pub fn of_pair(random: &mut Random, seen: &mut Seen) -> Outcome {
    let (frequency, value) = (word(random), word(random));
    for word in [frequency, value] {
        let Some(bits) = compare::double(word)? else {
            seen.outside += 1;
            continue;
        };
        let text = Value::from_word(word).ok_or(format!("{word} is drawn and is no value word"))?.to_string();
        if text.parse().map(f64::to_bits) != Ok(bits) {
            return Err(format!("the double of {text} is not the one that Rust reads: {bits:x}"));
        }
        seen.drawn += 1;
    }
    compare::pair(frequency, value)
}

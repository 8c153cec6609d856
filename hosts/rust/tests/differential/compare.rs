// compare.rs: asks the proved library and the plain reading the same, and tells the first thing in which their answers differ.
// An answer is compared whole: numbers, lines, places, and every word of a table or a matrix, also those that must stay as they were.
// The questions without judging are asked besides, wherever the plain reading has told that they may be.
use plain::Answer;
use skumvari::raw::{self, MatrixError, Place, StepWords};
use skumvari::{Refusal, Value};

use crate::layout::Layout;
use crate::random::Random;

/// What differed.
pub type Outcome<T = ()> = Result<T, String>;

/// A word that no answer has, for values that must stay as they were.
const UNTOUCHED: u64 = 0x5555_aaaa_5555_aaaa;

fn same<T: PartialEq + std::fmt::Debug>(what: impl FnOnce() -> String, proved: T, plain: T) -> Outcome {
    if proved == plain {
        return Ok(());
    }
    Err(format!("{}: proved {proved:?}, plain {plain:?}", what()))
}

/// Like `same`, but of two long runs of words only the first difference is told.
fn same_words(what: impl FnOnce() -> String, proved: &[u64], plain: &[u64]) -> Outcome {
    if proved == plain {
        return Ok(());
    }
    let place = proved.iter().zip(plain).position(|(left, right)| left != right);
    Err(format!(
        "{}: word {place:?}: proved {:?}, plain {:?}",
        what(),
        place.map(|at| proved[at]),
        place.map(|at| plain[at])
    ))
}

/// The intake into tables that start as these words; hands back the answer and the table.
pub fn intake(text: &[u8], rubbish: &[u64]) -> Outcome<(Answer, Vec<u64>)> {
    let (mut table, mut plain_table) = (rubbish.to_vec(), rubbish.to_vec());
    let answer = match raw::intake(text, &mut table) {
        Ok(used) => Answer::Accepted(used),
        Err(refusal) => Answer::Refused(refusal.number, refusal.line),
    };
    same(|| format!("intake, {} words", rubbish.len()), answer, plain::intake(text, &mut plain_table))?;
    same_words(|| format!("table of {} words", rubbish.len()), &table, &plain_table)?;
    Ok((answer, table))
}

pub fn sound(text: &[u8], table: &[u64]) -> Outcome<bool> {
    let sound = raw::sound(text, table);
    same(|| "sound".to_string(), sound, plain::sound(text, table))?;
    Ok(sound)
}

/// Number and line of a refused question.
type Refused = (u64, u64);

/// A question that is refused by this number is asked over an unsound table.
const UNSOUND: Refused = (30, 0);

fn refused(refusal: Refusal) -> Refused {
    (refusal.number, refusal.line)
}

pub fn entry(text: &[u8], table: &[u64], [section, kind, row, column]: [u64; 4]) -> Outcome {
    let told = |answer: Result<Value, Refusal>| answer.map(Value::word).map_err(refused);
    let what = || format!("entry {section} {kind} {row} {column}");
    let plain = plain::entry(text, table, section, kind, row, column).map_err(|number| (number, 0));
    same(what, told(raw::entry(text, table, section, kind, row, column)), plain)?;
    if plain == Err(UNSOUND) {
        return Ok(());
    }
    // SAFETY: the table is sound for the text, or the question would be refused by 30.
    let unjudged = unsafe { raw::entry_unjudged(text, table, section, kind, row, column) };
    same(|| format!("unjudged {}", what()), told(unjudged), plain)
}

/// The words of a step and the next place; nothing where the walk is done.
type Stepped = Option<([u64; 6], [u64; 3])>;

fn stepped(answer: Result<Option<(StepWords, Place)>, Refusal>) -> Result<Stepped, Refused> {
    let words = |(words, next): (StepWords, Place)| {
        let record = [words.kind, words.target, words.amount, words.side_start, words.side_length, words.line];
        (record, [next.model, next.step, next.depth])
    };
    answer.map(|step| step.map(words)).map_err(refused)
}

/// One step, and the next place if there is one.
pub fn step(text: &[u8], table: &[u64], place: [u64; 3]) -> Outcome<Option<[u64; 3]>> {
    let [model, step, depth] = place;
    let asked = Place { model, step, depth };
    let plain: Result<Stepped, _> = plain::step(text, table, model, step, depth)
        .map(|walked| {
            let record =
                [walked.kind, walked.target, walked.amount, walked.side_start, walked.side_length, walked.line];
            (!walked.done).then_some((record, [walked.next.model, walked.next.step, walked.next.depth]))
        })
        .map_err(|number| (number, 0));
    same(|| format!("step {place:?}"), stepped(asked.step(text, table)), plain)?;
    if plain.is_ok() {
        // SAFETY: the table is sound for the text and the place is in range, or the question would be refused.
        let unjudged = unsafe { asked.step_unjudged(text, table) };
        same(|| format!("unjudged step {place:?}"), stepped(unjudged), plain)?;
    }
    Ok(plain.ok().flatten().map(|(_, next)| next))
}

/// A whole matrix against what the table's records say, and at some places, or all if they are few, against the plain reading's entries.
pub fn matrix(text: &[u8], table: &[u64], section: u64, kind: u64, random: &mut Random, places: usize) -> Outcome {
    // Whether the question is refused, and with what, is the same as for an entry that every matrix has.
    let first = plain::entry(text, table, section, kind, 1, 1);
    let layout = first.is_ok().then(|| Layout::of(table).expect("a sound table has its parts"));
    let size = layout.as_ref().map_or(0, |layout| layout.section(section)[3] as usize);
    let length = (size * size).saturating_add_signed(*random.pick(&[0, 0, 0, 3, -1]));
    let told = |answer: Result<usize, MatrixError>| {
        answer.map_err(|error| match error {
            MatrixError::Refused(refusal) => refused(refusal),
            _ => (0, 0),
        })
    };
    let mut values = vec![UNTOUCHED; length];
    let proved = told(raw::matrix(text, table, section, kind, &mut values));
    let what = || format!("matrix {section} {kind} into {length} words");
    let plain = match first {
        Err(number) => Err((number, 0)),
        Ok(_) if length < size * size => Err((0, 0)),
        Ok(_) => Ok(size),
    };
    same(what, proved, plain)?;
    let mut wanted = vec![UNTOUCHED; length];
    if let (Ok(_), Some(layout)) = (plain, layout) {
        layout.fill_matrix(section, kind, &mut wanted[..size * size]);
    }
    same_words(what, &values, &wanted)?;
    if plain != Err(UNSOUND) {
        let mut values = vec![UNTOUCHED; length];
        // SAFETY: the table is sound for the text, or the question would be refused by 30.
        let unjudged = unsafe { raw::matrix_unjudged(text, table, section, kind, &mut values) };
        same(|| format!("unjudged {}", what()), told(unjudged), plain)?;
        same_words(|| format!("unjudged {}", what()), &values, &wanted)?;
    }
    if plain.is_err() {
        return Ok(());
    }
    for turn in 0..places.min(size * size) {
        let place = if places < size * size { random.below(size * size) } else { turn };
        let (row, column) = ((place / size + 1) as u64, (place % size + 1) as u64);
        same(
            || format!("matrix {section} {kind} at {row} {column}"),
            Ok(values[place]),
            plain::entry(text, table, section, kind, row, column),
        )?;
    }
    Ok(())
}

/// The listing of an accepted text, whose table has the words that are used and no more.
pub fn listing(text: &[u8], table: &[u64]) -> Outcome {
    let plain = plain::listing(text, table);
    let mut proved = vec![0; plain.len() + 1];
    let length = raw::list(text, table, table.len(), &mut proved);
    let differs = plain.iter().zip(&proved).position(|(left, right)| left != right);
    same(|| "bytes of the listing".to_string(), length, plain.len())?;
    same(|| "the first byte of the listing that differs".to_string(), differs, None)
}

/// The double of a word, told as its bits.
pub fn double(word: u64) -> Outcome<Option<u64>> {
    let proved = raw::double(word).map(f64::to_bits);
    same(|| format!("double of {word}"), proved, plain::double_of(word).map(f64::to_bits))?;
    Ok(proved)
}

pub fn pair(frequency: u64, value: u64) -> Outcome {
    let bits = |(first, second): (f64, f64)| (first.to_bits(), second.to_bits());
    let (proved, plain) = (raw::pair(frequency, value), plain::pair_of(frequency, value));
    same(|| format!("pair of {frequency} and {value}"), proved.map(bits), plain.map(bits))
}

//! The proved functions themselves, for people who keep texts and tables of their own.
//! Every text, every table and every number is taken; what is wrong with them is told in the answer.
//!
//! Only the three functions `.._unjudged` are otherwise. They do not judge the table, ask the caller to know that it is
//! sound, and are unsafe: over a table that is not sound for its text they may do anything.
//!
//! The layout of a table is told in `include/skumvari.h`. Sections, kinds and models are asked for by their index from 0 (a
//! [`Kind`](crate::Kind) as `kind as u64`), rows and columns from 1.
use std::fmt;

use crate::{sys, Refusal, Value};

/// How many words the answer of the intake, of an entry, of a whole matrix and of a double has.
const ANSWER_WORDS: usize = 4;
/// How many words the answer of a pair of doubles has.
const PAIR_WORDS: usize = 5;
/// How many words the answer of a walk has.
const WALK_WORDS: usize = 13;

/// How many words a table has that is long enough for every text.
pub fn table_words() -> usize {
    sys::table_words()
}

/// Reads a text into a table and tells how many words of it are used. The words past them are zeroed; refused, all words are.
pub fn intake(text: &[u8], table: &mut [u64]) -> Result<usize, Refusal> {
    let mut answer = [0; ANSWER_WORDS];
    let lent = sys::intake(text, table, &mut answer);
    given(lent, &answer).map(|()| answer[3] as usize)
}

/// Whether a table is sound for a text. Every table that the intake left for the same text is.
pub fn sound(text: &[u8], table: &[u64]) -> bool {
    sys::sound(text, table)
}

/// One entry of a section's matrix; zero where it is not written or its kind not given.
pub fn entry(text: &[u8], table: &[u64], section: u64, kind: u64, row: u64, column: u64) -> Result<Value, Refusal> {
    let mut answer = [0; ANSWER_WORDS];
    let lent = sys::entry(text, table, [section, kind, row, column], &mut answer);
    told_entry(lent, &answer)
}

/// What [`entry`] answers, of a table that is known to be sound and is not judged again.
///
/// # Safety
///
/// The table is sound for the text, as [`sound`] tells it. The table that an accepted [`intake`] left is, while neither
/// it nor the text has changed, and so are its words that are used.
#[allow(unsafe_code)]
pub unsafe fn entry_unjudged(
    text: &[u8],
    table: &[u64],
    section: u64,
    kind: u64,
    row: u64,
    column: u64,
) -> Result<Value, Refusal> {
    let mut answer = [0; ANSWER_WORDS];
    // SAFETY: the caller answers for the table.
    let lent = unsafe { sys::entry_unjudged(text, table, [section, kind, row, column], &mut answer) };
    told_entry(lent, &answer)
}

fn told_entry(lent: bool, answer: &[u64; ANSWER_WORDS]) -> Result<Value, Refusal> {
    given(lent, answer)?;
    Ok(Value::from_word(answer[3]).expect("an entry that is given is a value word"))
}

/// A place in a model's path. A walk starts at [`Place::start`] and goes on from the place that each step hands back.
#[derive(Clone, Copy, Debug, PartialEq, Eq, Hash)]
pub struct Place {
    /// Index of the model.
    pub model: u64,
    /// How many of its steps lie behind.
    pub step: u64,
    /// How many forks are open.
    pub depth: u64,
}

impl Place {
    /// Before the first step of a model.
    pub fn start(model: u64) -> Place {
        Place { model, step: 0, depth: 0 }
    }

    /// The step from this place and the next place; `None` at the end of the path.
    pub fn step(self, text: &[u8], table: &[u64]) -> Result<Option<(StepWords, Place)>, Refusal> {
        let mut answer = [0; WALK_WORDS];
        let lent = sys::walk(text, table, [self.model, self.step, self.depth], &mut answer);
        told_step(lent, &answer)
    }

    /// What [`step`](Place::step) answers, of a table that is known to be sound and a place that is known to be in
    /// range. Neither is judged again, so every step takes the same time.
    ///
    /// # Safety
    ///
    /// The table is sound for the text, as in [`entry_unjudged`]. The place is in range: the start of a model that is
    /// there, or a place that a step over the same text and table has handed back.
    #[allow(unsafe_code)]
    pub unsafe fn step_unjudged(self, text: &[u8], table: &[u64]) -> Result<Option<(StepWords, Place)>, Refusal> {
        let mut answer = [0; WALK_WORDS];
        // SAFETY: the caller answers for the table and the place.
        let lent = unsafe { sys::walk_unjudged(text, table, [self.model, self.step, self.depth], &mut answer) };
        told_step(lent, &answer)
    }
}

fn told_step(lent: bool, answer: &[u64; WALK_WORDS]) -> Result<Option<(StepWords, Place)>, Refusal> {
    given(lent, answer)?;
    let done = answer[3] == 1;
    let next = Place { model: answer[10], step: answer[11], depth: answer[12] };
    Ok((!done).then(|| (StepWords::new(&answer[4..10]), next)))
}

/// One step from a place in a model's path and the next place; `None` at the end of the path.
pub fn step(text: &[u8], table: &[u64], place: Place) -> Result<Option<(StepWords, Place)>, Refusal> {
    place.step(text, table)
}

/// The words of a step, as in the table's record.
#[derive(Clone, Copy, Debug, PartialEq, Eq, Hash)]
pub struct StepWords {
    /// 0 end, 1 section, 2 fork, 3 endfork.
    pub kind: u64,
    /// Index of the end's map or of the section; else 0.
    pub target: u64,
    /// Of a section: Mult (Lumped), or Len as a value word (Distributed); else 0.
    pub amount: u64,
    /// Of an end with a Side: where the side's name starts in the text; else 0.
    pub side_start: u64,
    /// How many bytes it has.
    pub side_length: u64,
    /// The line of the step.
    pub line: u64,
}

impl StepWords {
    /// From the six words of a record, or of a walk's answer, which has them in the same order.
    pub(crate) fn new(words: &[u64]) -> StepWords {
        StepWords {
            kind: words[0],
            target: words[1],
            amount: words[2],
            side_start: words[3],
            side_length: words[4],
            line: words[5],
        }
    }
}

/// Writes every entry of a section's matrix of a kind, row by row, as value words into at least N times N words, and tells N. The rest of
/// the words, and all of them without an `Ok`, are left as they were.
pub fn matrix(text: &[u8], table: &[u64], section: u64, kind: u64, values: &mut [u64]) -> Result<usize, MatrixError> {
    let mut answer = [0; ANSWER_WORDS];
    let lent = sys::matrix(text, table, [section, kind], values, &mut answer);
    told_matrix(lent, &answer)
}

/// What [`matrix`] answers and writes, of a table that is known to be sound and is not judged again.
///
/// # Safety
///
/// The table is sound for the text, as in [`entry_unjudged`].
#[allow(unsafe_code)]
pub unsafe fn matrix_unjudged(
    text: &[u8],
    table: &[u64],
    section: u64,
    kind: u64,
    values: &mut [u64],
) -> Result<usize, MatrixError> {
    let mut answer = [0; ANSWER_WORDS];
    // SAFETY: the caller answers for the table.
    let lent = unsafe { sys::matrix_unjudged(text, table, [section, kind], values, &mut answer) };
    told_matrix(lent, &answer)
}

fn told_matrix(lent: bool, answer: &[u64; ANSWER_WORDS]) -> Result<usize, MatrixError> {
    given(lent, answer).map_err(|refusal| match refusal.number {
        0 => MatrixError::TooFewValues { conductors: answer[3] as usize },
        _ => MatrixError::Refused(refusal),
    })?;
    Ok(answer[3] as usize)
}

/// Why a whole matrix is not given.
#[derive(Clone, Copy, Debug, PartialEq, Eq)]
#[non_exhaustive]
pub enum MatrixError {
    /// The question is refused.
    Refused(Refusal),
    /// The words lent for the values are fewer than N times N.
    TooFewValues {
        /// N.
        conductors: usize,
    },
}

impl fmt::Display for MatrixError {
    fn fmt(&self, out: &mut fmt::Formatter<'_>) -> fmt::Result {
        match self {
            MatrixError::Refused(refusal) => refusal.fmt(out),
            MatrixError::TooFewValues { conductors } => {
                write!(out, "fewer words lent than {conductors} times {conductors}")
            }
        }
    }
}

impl std::error::Error for MatrixError {}

/// The double of a value word, m times ten to the k, rounded once. `None` is outside: k is not from -22 to 22, or the word is no value word.
pub fn double(word: u64) -> Option<f64> {
    let mut answer = [0; ANSWER_WORDS];
    let lent = sys::double(word, &mut answer);
    is_given(lent, &answer).then(|| f64::from_bits(answer[3]))
}

/// The doubles of two value words, a frequency and a value. `None` if either is outside.
pub fn pair(frequency: u64, value: u64) -> Option<(f64, f64)> {
    let mut answer = [0; PAIR_WORDS];
    let lent = sys::pair(frequency, value, &mut answer);
    is_given(lent, &answer).then(|| (f64::from_bits(answer[3]), f64::from_bits(answer[4])))
}

/// Writes the listing of an accepted text and its table, as much of it as there is room for, and tells how many bytes
/// were written. Where these are all of `out`, it may go on. `words` is the words used that the intake told.
pub fn list(text: &[u8], table: &[u64], words: usize, out: &mut [u8]) -> usize {
    sys::list(text, table, words, out)
}

/// The first three words of every answer: given, number, line.
fn given(lent: bool, answer: &[u64]) -> Result<(), Refusal> {
    is_given(lent, answer).then_some(()).ok_or_else(|| Refusal::new(answer[1], answer[2]))
}

/// Whether what was asked for is given: the first word of the answer.
fn is_given(lent: bool, answer: &[u64]) -> bool {
    assert!(lent, "the words lent for an answer are as many as the header asks for");
    answer[0] == 1
}

//! The questions over a filled table: an entry of a section's matrix, and a step of a walk along a model's path.
//! Refused, they give 30 for an unsound table, else 31 for what is out of range.

use crate::number::ZERO;
use crate::refusal::{NO_SUCH, TABLE};
use crate::sound::sound_parts;
use crate::table::STEP_WORDS;

/// The value word of an entry of a section's matrix.
///
/// `section` counts from 0, `kind` is 0 to 3 for R, L, G and C, `row` and `column` are 1 to the section's N.
/// Entries not written and kinds not given are zero. The error is the number of refusal: 30 or 31.
pub fn entry(text: &[u8], table: &[u64], section: u64, kind: u64, row: u64, column: u64) -> Result<u64, u64> {
    let parts = sound_parts(text, table).ok_or(TABLE)?;
    let section = usize::try_from(section).ok().and_then(|section| parts.sections.get(section)).ok_or(NO_SUCH)?;
    let conductors = section[3];
    let in_range = |place| (1..=conductors).contains(&place);
    if kind > 3 || !in_range(row) || !in_range(column) {
        return Err(NO_SUCH);
    }
    let Some(matrix) = section[4 + kind as usize].checked_sub(1) else { return Ok(ZERO) };
    let [_, _, first, count, _] = parts.matrices[matrix as usize];
    let values = &parts.values[first as usize..][..count as usize];
    // A matrix is symmetric and only its upper half is written; the places rise.
    let place = (row.min(column), row.max(column));
    let found = values.binary_search_by_key(&place, |&[row, column, _]| (row, column));
    Ok(found.map_or(ZERO, |index| values[index][2]))
}

/// A place in the walk along a model's path: before its step `step`, inside `depth` forks.
#[derive(Debug, Clone, Copy, PartialEq, Eq)]
pub struct Place {
    /// The model, from 0.
    pub model: u64,
    /// The step in the model, from 0; the count of its steps where the walk is done.
    pub step: u64,
    /// The forks opened and not closed before the step.
    pub depth: u64,
}

/// What a walk finds at a place.
#[derive(Debug, Clone, Copy, PartialEq, Eq)]
pub struct Walked {
    /// The walk is at its end: all words below are 0 and the place stays.
    pub done: bool,
    /// 0 end, 1 section, 2 fork, 3 endfork.
    pub kind: u64,
    /// The index of the map or section.
    pub target: u64,
    /// The Mult, or the Len's value word.
    pub amount: u64,
    /// Where the side's name starts in the text.
    pub side_start: u64,
    /// The length of the side's name, 0 for none.
    pub side_length: u64,
    /// The line of the step.
    pub line: u64,
    /// Where the walk goes on.
    pub next: Place,
}

impl Walked {
    fn new(done: bool, words: &[u64; STEP_WORDS], next: Place) -> Walked {
        let [kind, target, amount, side_start, side_length, line] = *words;
        Walked { done, kind, target, amount, side_start, side_length, line, next }
    }
}

/// Takes a step of the walk from the place `model`, `step`, `depth`.
///
/// The error is the number of refusal: 30 or 31.
pub fn step(text: &[u8], table: &[u64], model: u64, step: u64, depth: u64) -> Result<Walked, u64> {
    let parts = sound_parts(text, table).ok_or(TABLE)?;
    let record = usize::try_from(model).ok().and_then(|model| parts.models.get(model)).ok_or(NO_SUCH)?;
    let &[_, _, _, first, count] = record;
    let steps = &parts.steps[first as usize..][..count as usize];
    if step > count || depth != depth_after(&steps[..step as usize]) {
        return Err(NO_SUCH);
    }
    let here = Place { model, step, depth };
    let Some(words) = steps.get(step as usize) else {
        return Ok(Walked::new(true, &[0; STEP_WORDS], here));
    };
    // In a sound model the depth stays from 0 to 8, so there is a fork open at each endfork: this cannot go below 0.
    let depth = match words[0] {
        2 => depth + 1,
        3 => depth - 1,
        _ => depth,
    };
    Ok(Walked::new(false, words, Place { model, step: step + 1, depth }))
}

/// Opens less closes; of steps that come from a sound model's front, so that it never falls below 0.
fn depth_after(steps: &[[u64; STEP_WORDS]]) -> u64 {
    let count = |kind| steps.iter().filter(|step| step[0] == kind).count() as u64;
    count(2) - count(3)
}

//! The table's layout: seven parts, each after its count, with records of a fixed number of words.
//! Here it is written from a document and taken apart again.

use crate::document::{Action, Amount, Document, Matrix, Model, PinMap, Section, Step, Value};
use crate::document::{
    MAPS_BOUND, MATRICES_BOUND, MODELS_BOUND, PINS_BOUND, SECTIONS_BOUND, STEPS_BOUND, VALUES_BOUND,
};
use crate::words::Piece;

/// Words in a record of each part.
pub(crate) const MODEL_WORDS: usize = 5;
pub(crate) const STEP_WORDS: usize = 6;
pub(crate) const MAP_WORDS: usize = 7;
pub(crate) const PIN_WORDS: usize = 2;
pub(crate) const SECTION_WORDS: usize = 8;
pub(crate) const MATRIX_WORDS: usize = 5;
pub(crate) const VALUE_WORDS: usize = 3;

/// How many words the layout of a document has.
pub(crate) fn words_needed(document: &Document) -> usize {
    7 + document.models.len() * MODEL_WORDS
        + document.steps.len() * STEP_WORDS
        + document.maps.len() * MAP_WORDS
        + document.pins.len() * PIN_WORDS
        + document.sections.len() * SECTION_WORDS
        + document.matrices.len() * MATRIX_WORDS
        + document.values.len() * VALUE_WORDS
}

/// Writes the layout to the front of `table`, which has room for it. `targets` are those of the steps.
pub(crate) fn write(document: &Document, targets: &[usize], table: &mut [u64]) {
    let steps: Vec<_> = document.steps.iter().zip(targets).collect();
    let rest = write_part(table, &document.models, model_words);
    let rest = write_part(rest, &steps, |(step, target)| step_words(step, **target));
    let rest = write_part(rest, &document.maps, map_words);
    let rest = write_part(rest, &document.pins, |pin| name_words(pin.name));
    let rest = write_part(rest, &document.sections, section_words);
    let rest = write_part(rest, &document.matrices, matrix_words);
    write_part(rest, &document.values, value_words);
}

/// Writes a count and its records, and gives the words after them.
fn write_part<'t, Record, const WORDS: usize>(
    table: &'t mut [u64],
    records: &[Record],
    words: impl Fn(&Record) -> [u64; WORDS],
) -> &'t mut [u64] {
    let (part, rest) = table.split_at_mut(1 + records.len() * WORDS);
    part[0] = records.len() as u64;
    for (to, record) in part[1..].chunks_exact_mut(WORDS).zip(records) {
        to.copy_from_slice(&words(record));
    }
    rest
}

fn name_words(name: Piece) -> [u64; 2] {
    [name.start as u64, name.bytes.len() as u64]
}

fn model_words(model: &Model) -> [u64; MODEL_WORDS] {
    let [start, length] = name_words(model.named.name);
    [start, length, model.model_type as u64, model.first_step as u64, model.steps as u64]
}

fn step_words(step: &Step, target: usize) -> [u64; STEP_WORDS] {
    let target = target as u64;
    match step.action {
        Action::End { side, .. } => {
            let [start, length] = side.map_or([0, 0], name_words);
            [0, target, 0, start, length, step.line]
        }
        Action::Section { amount: Amount::Multiple(amount) | Amount::Length(amount), .. } => {
            [1, target, amount, 0, 0, step.line]
        }
        Action::Fork => [2, 0, 0, 0, 0, step.line],
        Action::Endfork => [3, 0, 0, 0, 0, step.line],
    }
}

fn map_words(map: &PinMap) -> [u64; MAP_WORDS] {
    let [start, length] = name_words(map.named.name);
    [start, length, map.order as u64, map.rows, map.columns, map.first_pin as u64, map.pins as u64]
}

fn section_words(section: &Section) -> [u64; SECTION_WORDS] {
    let [start, length] = name_words(section.named.name);
    let [r, l, g, c] = section.matrices.map(|matrix| matrix.map_or(0, |index| index as u64 + 1));
    [start, length, section.method as u64, section.conductors.unwrap_or(0), r, l, g, c]
}

fn matrix_words(matrix: &Matrix) -> [u64; MATRIX_WORDS] {
    [matrix.form as u64, matrix.bandwidth, matrix.first_value as u64, matrix.values as u64, matrix.line]
}

fn value_words(value: &Value) -> [u64; VALUE_WORDS] {
    [u64::from(value.row), u64::from(value.column), value.word]
}

/// The records of a table, part by part; nothing in them is judged but that they lie inside the table.
#[derive(Clone, Copy)]
pub(crate) struct Parts<'t> {
    pub models: &'t [[u64; MODEL_WORDS]],
    pub steps: &'t [[u64; STEP_WORDS]],
    pub maps: &'t [[u64; MAP_WORDS]],
    pub pins: &'t [[u64; PIN_WORDS]],
    pub sections: &'t [[u64; SECTION_WORDS]],
    pub matrices: &'t [[u64; MATRIX_WORDS]],
    pub values: &'t [[u64; VALUE_WORDS]],
    /// All words after the last value.
    pub rest: &'t [u64],
}

impl<'t> Parts<'t> {
    /// Takes a table apart, if its counts are within their bounds and it is long enough for them.
    pub fn of(table: &'t [u64]) -> Option<Parts<'t>> {
        let (models, rest) = split_part(table, MODELS_BOUND)?;
        let (steps, rest) = split_part(rest, STEPS_BOUND)?;
        let (maps, rest) = split_part(rest, MAPS_BOUND)?;
        let (pins, rest) = split_part(rest, PINS_BOUND)?;
        let (sections, rest) = split_part(rest, SECTIONS_BOUND)?;
        let (matrices, rest) = split_part(rest, MATRICES_BOUND)?;
        let (values, rest) = split_part(rest, VALUES_BOUND)?;
        Some(Parts { models, steps, maps, pins, sections, matrices, values, rest })
    }
}

fn split_part<const WORDS: usize>(table: &[u64], bound: usize) -> Option<(&[[u64; WORDS]], &[u64])> {
    let (&count, rest) = table.split_first()?;
    let count = usize::try_from(count).ok().filter(|&count| count <= bound)?;
    let (part, rest) = rest.split_at_checked(count * WORDS)?;
    Some((part.as_chunks().0, rest))
}

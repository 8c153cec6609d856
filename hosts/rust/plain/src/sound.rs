//! Soundness: whether the words of a table can be trusted by those who follow its offsets and indexes.
//! What lines say, and whether names mean anything, is not judged.

use crate::document::{BANDWIDTH_BOUND, CONDUCTORS_BOUND, DEPTH_BOUND, MAP_PINS_BOUND, MULTIPLE_BOUND};
use crate::number::{is_positive_word, is_value_word};
use crate::table::Parts;

/// The longest name, in bytes.
const NAME_BOUND: u64 = 120;

/// Whether `table` is sound over `text`.
pub fn sound(text: &[u8], table: &[u64]) -> bool {
    sound_parts(text, table).is_some()
}

/// The parts of a sound table.
pub(crate) fn sound_parts<'t>(text: &[u8], table: &'t [u64]) -> Option<Parts<'t>> {
    let parts = Parts::of(table)?;
    let is_name = |start, length| is_name(text, start, length);
    let all_sound = parts.models.iter().all(|model| is_name(model[0], model[1]) && sound_model(model, &parts))
        && parts.steps.iter().all(|step| sound_step(step, text, &parts))
        && parts.maps.iter().all(|map| is_name(map[0], map[1]) && sound_map(map, &parts))
        && parts.pins.iter().all(|pin| is_name(pin[0], pin[1]))
        && parts.sections.iter().all(|section| is_name(section[0], section[1]) && sound_section(section, &parts))
        && sound_matrices(&parts)
        && parts.values.iter().all(|value| is_value_word(value[2]))
        && parts.rest.iter().all(|&word| word == 0);
    all_sound.then_some(parts)
}

/// Whether a name of 1 to 120 bytes lies in the text; the sum must not wrap.
fn is_name(text: &[u8], start: u64, length: u64) -> bool {
    (1..=NAME_BOUND).contains(&length) && is_range(start, length, text.len())
}

fn is_range(first: u64, count: u64, bound: usize) -> bool {
    first.checked_add(count).is_some_and(|end| end <= bound as u64)
}

fn sound_model(&[_, _, model_type, first, count]: &[u64; 5], parts: &Parts) -> bool {
    model_type <= 2
        && is_range(first, count, parts.steps.len())
        && keeps_depth(&parts.steps[first as usize..][..count as usize])
}

/// Whether the depth of these steps stays from 0 to the bound and comes back to 0.
fn keeps_depth(steps: &[[u64; 6]]) -> bool {
    let end = steps.iter().try_fold(0u64, |depth, step| match step[0] {
        2 => Some(depth + 1).filter(|&depth| depth <= DEPTH_BOUND),
        3 => depth.checked_sub(1),
        _ => Some(depth),
    });
    end == Some(0)
}

fn sound_step(&[kind, target, amount, start, length, _]: &[u64; 6], text: &[u8], parts: &Parts) -> bool {
    let no_side = start == 0 && length == 0;
    match kind {
        0 => {
            let sided = no_side || is_name(text, start, length);
            target < parts.maps.len() as u64 && amount == 0 && sided
        }
        1 => {
            let section = usize::try_from(target).ok().and_then(|target| parts.sections.get(target));
            no_side && section.is_some_and(|section| fits_method(amount, section[2]))
        }
        2 | 3 => target == 0 && amount == 0 && no_side,
        _ => false,
    }
}

fn fits_method(amount: u64, method: u64) -> bool {
    match method {
        0 => (1..=MULTIPLE_BOUND).contains(&amount),
        1 => is_positive_word(amount),
        _ => false,
    }
}

fn sound_map(&[_, _, order, rows, columns, first, count]: &[u64; 7], parts: &Parts) -> bool {
    let is_size = |size| (1..=CONDUCTORS_BOUND).contains(&size);
    let grid = match order {
        0 | 1 => is_size(rows) && is_size(columns),
        2 => rows == 0 && columns == 0,
        _ => false,
    };
    grid && count <= MAP_PINS_BOUND as u64 && is_range(first, count, parts.pins.len())
}

fn sound_section(&[_, _, method, conductors, ref matrices @ ..]: &[u64; 8], parts: &Parts) -> bool {
    method <= 1
        && (1..=CONDUCTORS_BOUND).contains(&conductors)
        && matrices.iter().all(|&matrix| matrix <= parts.matrices.len() as u64)
}

fn sound_matrices(parts: &Parts) -> bool {
    let rising = rising_from(parts.values);
    parts.matrices.iter().all(|&[form, bandwidth, first, count, _]| {
        let banded = form == 1 && bandwidth <= BANDWIDTH_BOUND;
        let other = form <= 3 && bandwidth == 0;
        (banded || other)
            && is_range(first, count, parts.values.len())
            && (count == 0 || rising[(first + count - 1) as usize] as u64 <= first)
    })
}

/// For each value the index from which on all values up to it rise and lie in the upper triangle.
/// Ranges of matrices may overlap; with this each of them is judged at once.
fn rising_from(values: &[[u64; 3]]) -> Vec<usize> {
    let mut from = 0;
    let mut previous = (0, 0);
    let judge = |(index, &[row, column, _]): (usize, &[u64; 3])| {
        let place = (row, column);
        if row < 1 || row > column || column > CONDUCTORS_BOUND {
            from = index + 1;
        } else if index > from && place <= previous {
            from = index;
        }
        previous = place;
        from
    };
    values.iter().enumerate().map(judge).collect()
}

// questions.rs: everything that is asked of a table: one that the intake left, and such a one with some of its words bent.
// The places asked for lie inside, at the edge and far outside; how many are asked falls with the table's length.
use crate::compare::{self, Outcome};
use crate::layout::{Layout, MODELS, RECORD_WORDS, SECTIONS};
use crate::random::Random;

/// About so many words are looked through for one kind of question: each goes over the whole table to see whether it is sound.
const WORK: usize = 3_000;
/// The same for walks, so that those of all but very long tables go to their ends.
const WALK_WORK: usize = 40_000;
/// Of a longer table little is asked.
const LONG_TABLE: usize = 50_000;

/// Numbers at the bounds that a sound table keeps, and just outside; value words with exponents -60, 60 and one further are among them.
const EDGES: [u64; 27] = [
    0, 1, 2, 3, 4, 5, 8, 9, 63, 64, 65, 119, 120, 121, 128, 129, 130, 255, 256, 257, 264, 262, 504, 506, 65_535,
    65_536, 2_688,
];

/// How many bent tables were sound, and how many were not.
#[derive(Default)]
pub struct Bends {
    pub sound: u64,
    pub unsound: u64,
}

/// Everything about the table of an accepted file.
pub fn of_accepted(text: &[u8], table: &[u64], random: &mut Random) -> Outcome {
    if !compare::sound(text, table)? {
        return Err("the table of an accepted file is not sound".to_string());
    }
    compare::listing(text, table)?;
    let layout = Layout::of(table).expect("a sound table has its parts");
    if table.len() > LONG_TABLE {
        compare::entry(text, table, address(&layout, random))?;
        compare::step(text, table, place(&layout, random))?;
        return compare::matrix(text, table, 0, 1, random, 1);
    }
    let many = (WORK / table.len()).clamp(1, 60);
    walks(text, table, &layout, random)?;
    for _ in 0..many.min(12) {
        compare::entry(text, table, address(&layout, random))?;
        compare::step(text, table, place(&layout, random))?;
    }
    for section in 0..layout.count(SECTIONS).min(many as u64) {
        for kind in 0..4 {
            compare::matrix(text, table, section, kind, random, many / 4)?;
        }
    }
    compare::matrix(text, table, layout.count(SECTIONS), 0, random, 0)?;
    compare::matrix(text, table, 0, 4, random, 0)
}

/// Every model to its end and past it; of very long paths only the front, and then the end.
fn walks(text: &[u8], table: &[u64], layout: &Layout, random: &mut Random) -> Outcome {
    let mut room = WALK_WORK / table.len();
    for (model, record) in layout.records(MODELS).enumerate() {
        let (model, steps) = (model as u64, record[4]);
        let mut place = [model, 0, 0];
        while let Some(next) = compare::step(text, table, place)? {
            place = if room > 0 { next } else { [model, steps, 0] };
            room = room.saturating_sub(1);
        }
        if place != [model, steps, 0] {
            return Err(format!("the walk of model {model} ends at {place:?}"));
        }
        compare::step(text, table, [model, steps + 1, 0])?;
        compare::step(text, table, [model, steps, 1])?;
        compare::step(text, table, [model, random.between(0, steps as usize) as u64, random.below(3) as u64])?;
        if room == 0 {
            return Ok(());
        }
    }
    Ok(())
}

/// A number from 0 to about a bound, or a very great one.
fn about(bound: u64, random: &mut Random) -> u64 {
    match random.below(12) {
        0 => *random.pick(&[u64::MAX, 1 << 63, 1 << 32, bound.wrapping_neg()]),
        1 => bound,
        2 => bound + 1,
        _ => random.word() % bound.max(1),
    }
}

fn address(layout: &Layout, random: &mut Random) -> [u64; 4] {
    let section = about(layout.count(SECTIONS), random);
    let size = if section < layout.count(SECTIONS) { layout.section(section)[3] } else { 1 };
    // Rows and columns count from 1: one more than what is drawn is inside unless it is drawn at the edge.
    let [row, column] = [0; 2].map(|_| about(size, random).wrapping_add(u64::from(random.percent(90))));
    [section, about(4, random), row, column]
}

fn place(layout: &Layout, random: &mut Random) -> [u64; 3] {
    let model = about(layout.count(MODELS), random);
    let steps = if model < layout.count(MODELS) { layout.record(MODELS, model)[4] } else { 1 };
    [model, about(steps, random), about(3, random)]
}

/// Tables with one word bent, or a few. The table may have words after its last part.
pub fn of_bent(text: &[u8], table: &[u64], random: &mut Random, bends: &mut Bends) -> Outcome {
    let layout = Layout::of(table).expect("a sound table has its parts");
    for _ in 0..(WORK / table.len()).clamp(1, 8) {
        let mut bent = table.to_vec();
        let mut story = String::new();
        for _ in 0..*random.pick(&[1, 1, 1, 2]) {
            bend(&mut bent, &layout, random, &mut story);
        }
        match compare_bent(text, &bent, &layout, random).map_err(|difference| format!("{difference}; bent:{story}"))? {
            true => bends.sound += 1,
            false => bends.unsound += 1,
        }
    }
    Ok(())
}

/// Every word of a small table becomes every number of the edges, and what lies next to it and furthest from it.
pub fn of_every_bend(text: &[u8], table: &[u64], bends: &mut Bends) -> Outcome {
    let mut bent = table.to_vec();
    for (at, old) in table.iter().enumerate() {
        let near =
            [old.wrapping_sub(1), old.wrapping_add(1), u64::MAX - old, (u64::MAX - old).wrapping_add(1), 1 << 63];
        for new in EDGES.iter().chain(&near) {
            bent[at] = *new;
            let told = |difference| format!("{difference}; bent: word {at} from {old} to {new}");
            match compare::sound(text, &bent).map_err(told)? {
                true => bends.sound += 1,
                false => bends.unsound += 1,
            }
        }
        compare::entry(text, &bent, [0, 1, 1, 1])?;
        compare::step(text, &bent, [0, 0, 0])?;
        bent[at] = *old;
    }
    Ok(())
}

/// The places asked for are those of the table before it was bent, so they are at the edges of the bent one.
fn compare_bent(text: &[u8], bent: &[u64], layout: &Layout, random: &mut Random) -> Outcome<bool> {
    let sound = compare::sound(text, bent)?;
    for _ in 0..if sound { 4 } else { 1 } {
        compare::entry(text, bent, address(layout, random))?;
        compare::step(text, bent, place(layout, random))?;
        compare::matrix(text, bent, about(layout.count(SECTIONS), random), about(4, random), random, 6)?;
    }
    Ok(sound)
}

fn bend(table: &mut Vec<u64>, layout: &Layout, random: &mut Random, story: &mut String) {
    if random.percent(8) {
        let length = if random.percent(50) {
            random.between(0, table.len())
        } else {
            table.len().saturating_sub(random.between(1, 9))
        };
        table.truncate(length);
        story.push_str(&format!(" cut to {length} words"));
        return;
    }
    let at = word_place(layout, random);
    // An earlier bend may have cut the table.
    let Some(old) = table.get(at).copied() else { return };
    let new = match random.below(12) {
        0 => 0,
        1 | 2 => old.wrapping_add(1),
        3 | 4 => old.wrapping_sub(1),
        5 => u64::MAX,
        6 => 1 << 63,
        7 => u64::MAX - random.word() % 130,
        8 => old ^ (1 << random.below(64)),
        9 => *random.pick(&EDGES),
        _ => table[random.below(table.len())],
    };
    table[at] = new;
    story.push_str(&format!(" word {at} from {old} to {new}"));
}

/// The place of a word: of a part's count, of one of its records, or after the last part. Parts are as likely as each other, however long.
fn word_place(layout: &Layout, random: &mut Random) -> usize {
    let part = random.below(RECORD_WORDS.len() + 1);
    let start = layout.starts[part];
    if part == RECORD_WORDS.len() {
        return start + random.below(4);
    }
    let count = layout.count(part) as usize;
    match random.below(8) {
        0 => start,
        _ if count == 0 => start,
        _ => start + 1 + random.below(count * RECORD_WORDS[part]),
    }
}

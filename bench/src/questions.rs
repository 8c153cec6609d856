// questions.rs: what a question costs that judges its table, and the same question without judging: entries over tables
// that grow, and whole walks along paths that grow. Both must answer the same.
use std::hint::black_box;
use std::process::exit;
use std::time::Duration;

use skumvari::raw::{self, Place};
use skumvari::Intake;

use crate::file::{diagonal, two_maps, File, Numbers};
use crate::kinds::KINDS;
use crate::timed;

/// Of judged questions fewer are asked, since each goes over the whole table.
const JUDGED: usize = 200;
const UNJUDGED: usize = 200_000;
const ROUNDS: usize = 5;

pub fn measure() {
    entries();
    walks();
}

fn accepted(file: &File) -> Intake {
    Intake::read(file.text()).expect("a file that is meant to be accepted")
}

/// The best time of some rounds, for one of so many calls.
fn nanoseconds(rounds: usize, calls: usize, mut work: impl FnMut()) -> f64 {
    let best: Option<Duration> = (0..rounds).map(|_| timed(&mut work)).min();
    best.expect("some rounds").as_secs_f64() * 1e9 / calls as f64
}

fn entries() {
    println!("\n{:<36} {:>9} {:>14} {:>14} {:>9}", "one entry, ns", "words", "judged", "not judged", "times");
    let (name, make) = KINDS[0];
    for size in [1, 2, 4] {
        let file = accepted(&make(size));
        let (text, table) = (file.text(), file.table());
        let judged = |[section, kind, row, column]: [u64; 4]| raw::entry(text, table, section, kind, row, column);
        let unjudged = |[section, kind, row, column]: [u64; 4]| {
            // SAFETY: the table is what the intake left for the text, so it is sound for it.
            unsafe { raw::entry_unjudged(text, table, section, kind, row, column) }
        };
        let places = places(&file);
        let few = &places[..JUDGED];
        if !few.iter().all(|place| judged(*place).is_ok() && judged(*place) == unjudged(*place)) {
            differ(name);
        }
        let slow = nanoseconds(ROUNDS, JUDGED, || few.iter().for_each(|place| ask(|| judged(*place))));
        let fast = nanoseconds(ROUNDS, UNJUDGED, || places.iter().for_each(|place| ask(|| unjudged(*place))));
        println!("{name:<36} {:>9} {slow:>14.1} {fast:>14.1} {:>9.0}", table.len(), slow / fast);
    }
}

/// Entries of the kind L, of all sections in no order.
fn places(file: &Intake) -> Vec<[u64; 4]> {
    let sections: Vec<u64> = file.sections().map(|section| section.conductors() as u64).collect();
    let mut numbers = Numbers(6);
    let mut place = || {
        let section = numbers.below(sections.len() as u64);
        let size = sections[section as usize];
        [section, 1, numbers.below(size) + 1, numbers.below(size) + 1]
    };
    (0..UNJUDGED).map(|_| place()).collect()
}

fn ask<T>(question: impl FnOnce() -> T) {
    black_box(question());
}

fn differ(name: &str) -> ! {
    eprintln!("bench: {name}: with and without judging the answers differ: nothing is measured");
    exit(1);
}

fn walks() {
    println!("\n{:<36} {:>9} {:>14} {:>14} {:>9}", "a whole walk, ns a step", "words", "judged", "not judged", "times");
    for steps in [1_024, 2_048, 4_096] {
        walk(&format!("{steps} steps"), &path(steps, &[diagonal(1)], 1), ROUNDS);
    }
    let sections: Vec<String> = (0..255).map(|_| diagonal(256)).collect();
    walk("4096 steps, great table", &path(4_096, &sections, 256), 1);
}

/// A model of so many steps, over the sections in turn.
fn path(steps: usize, sections: &[String], conductors: usize) -> Intake {
    let mut file = File { maps: two_maps(conductors), ..File::default() };
    for (index, lines) in sections.iter().enumerate() {
        file.add_section(&format!("S{index}"), lines);
    }
    let mut path = String::from("Model_pinmap P\n");
    for step in 0..steps - 2 {
        path.push_str(&format!("Section Mult=1 S{}\n", step % sections.len()));
    }
    file.models.push(("A".to_string(), path + "Model_pinmap Q\n"));
    accepted(&file)
}

fn walk(name: &str, file: &Intake, rounds: usize) {
    let (text, table) = (file.text(), file.table());
    let steps = file.models().next().expect("a model").steps().len();
    let judged = || walked(|place| place.step(text, table));
    // SAFETY: the table is what the intake left for the text, and a walk asks from the places that it is handed.
    let unjudged = || walked(|place| unsafe { place.step_unjudged(text, table) });
    if judged() != steps || unjudged() != steps {
        differ(name);
    }
    let slow = nanoseconds(rounds, steps, || ask(judged));
    let fast = nanoseconds(ROUNDS, steps, || ask(unjudged));
    println!("{name:<36} {:>9} {slow:>14.1} {fast:>14.1} {:>9.0}", table.len(), slow / fast);
}

/// How many steps a walk along the first model has.
fn walked(step: impl Fn(Place) -> Result<Option<(raw::StepWords, Place)>, skumvari::Refusal>) -> usize {
    let mut place = Place::start(0);
    while let Some((_, next)) = step(place).expect("a place in range") {
        place = next;
    }
    place.step as usize
}

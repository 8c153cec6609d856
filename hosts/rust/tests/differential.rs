// differential.rs: the proved library against the independent plain reading: every answer and every word of every table must be the same.
// The texts are the test files with expected answers, files at the paper's bounds, generated files, and damaged ones; tables are bent too. The words
// whose doubles are asked are made at random.
//
// SKUMVARI_SEED, SKUMVARI_CASES and SKUMVARI_SECONDS change what is generated.
#[path = "differential/bounds.rs"]
mod bounds;
#[path = "differential/breaks.rs"]
mod breaks;
#[path = "differential/compare.rs"]
mod compare;
#[path = "differential/damage.rs"]
mod damage;
#[path = "differential/doubles.rs"]
mod doubles;
#[path = "differential/generator.rs"]
mod generator;
#[path = "differential/layout.rs"]
mod layout;
#[path = "differential/questions.rs"]
mod questions;
#[path = "differential/random.rs"]
mod random;
#[path = "differential/writer.rs"]
mod writer;

use std::collections::BTreeSet;
use std::panic::{catch_unwind, AssertUnwindSafe};
use std::path::{Path, PathBuf};
use std::time::{Duration, Instant};
use std::{env, fs};

use compare::Outcome;
use layout::{Layout, MAPS, MATRICES, MODELS, SECTIONS, STEPS};
use plain::Answer;
use questions::Bends;
use random::Random;
use skumvari::raw;

const SEED: u64 = 1;
const CASES: u64 = 240;
const SECONDS: u64 = 60;

/// How many pairs of words are asked for their doubles.
const PAIRS: u64 = 500_000;
/// How many damaged files follow each generated one.
const DAMAGED: u64 = 7;
/// Lengths of table: one that most files fit, and that of the listing program.
const FEW_WORDS: usize = 1_000;
const LISTING_WORDS: usize = 8_192;
/// Of a longer text less is asked.
const SHORT_TEXT: usize = 20_000;
/// How many words after those used there are in tables that are bent.
const AFTER: usize = 4;
/// The greatest number of refusal of the intake, and the one below it that is not given yet.
const NUMBERS: usize = 29;
const NOT_GIVEN: usize = 28;

/// A setting from the environment, or its default.
fn setting(name: &str, default: u64) -> u64 {
    match env::var(name) {
        Ok(value) => value.parse().unwrap_or_else(|_| panic!("{name} is not a number: {value}")),
        Err(_) => default,
    }
}

/// What is tried and what came of it.
struct Run {
    seed: u64,
    case: u64,
    /// What tables hold before the intake.
    rubbish: Vec<u64>,
    accepted: u64,
    /// How often each number of refusal was given.
    refused: [u64; NUMBERS + 1],
    bends: Bends,
}

#[test]
fn proved_and_plain_agree() {
    let mut run = Run::new(setting("SKUMVARI_SEED", SEED));
    let start = Instant::now();
    run.vectors();
    println!("test files: {} cases, {:.1} s", run.case, start.elapsed().as_secs_f32());
    run.breaks();
    run.bounds();
    println!("breaks and bounds: {} cases, {:.1} s", run.case, start.elapsed().as_secs_f32());
    let (reached, whole) = run.generated();
    println!("generated: {} cases, {:.1} s", run.case, start.elapsed().as_secs_f32());
    run.report();
    run.assert_all_refusals();
    if whole {
        assert_all_reached(&reached);
    }
}

#[test]
fn doubles_agree() {
    let seed = setting("SKUMVARI_SEED", SEED);
    let mut seen = doubles::Seen::default();
    for case in 0..PAIRS {
        let compared = doubles::of_pair(&mut Random::of_case(seed, case), &mut seen);
        assert_eq!(compared, Ok(()), "SKUMVARI_SEED={seed} case {case}");
    }
    println!("doubles: {} drawn, {} outside", seen.drawn, seen.outside);
    assert!(seen.drawn > PAIRS / 2 && seen.outside > PAIRS / 2);
}

impl Run {
    fn new(seed: u64) -> Run {
        println!("SKUMVARI_SEED={seed}");
        let mut random = Random::of_case(seed, 0);
        let rubbish = (0..raw::table_words()).map(|_| random.word()).collect();
        Run { seed, case: 0, rubbish, accepted: 0, refused: [0; NUMBERS + 1], bends: Bends::default() }
    }

    /// The test files of the base and of the change requests.
    fn vectors(&mut self) {
        for folder in ["../../crates/test_vectors/data", "../vectors"] {
            let folder = Path::new(env!("CARGO_MANIFEST_DIR")).join(folder);
            let entries = fs::read_dir(&folder).unwrap_or_else(|error| panic!("{}: {error}", folder.display()));
            let mut paths: Vec<PathBuf> = entries.map(|entry| entry.expect("an entry of the folder").path()).collect();
            paths.retain(|path| path.extension() == Some("icm".as_ref()));
            // The order of a folder is not the same everywhere, and the case numbers go by it.
            paths.sort();
            for path in paths {
                let text = fs::read(&path).expect("a test file");
                self.try_case(&path.display().to_string(), &text);
            }
        }
    }

    /// The paper's example with every word of its table bent, and with every rule broken that it can break.
    fn breaks(&mut self) {
        let mut table = vec![0; raw::table_words()];
        let used = raw::intake(breaks::EXAMPLE, &mut table).expect("the paper's example is accepted");
        let bent = questions::of_every_bend(breaks::EXAMPLE, &table[..used + AFTER], &mut self.bends);
        assert_eq!(bent, Ok(()), "the paper's example");
        for (number, text) in breaks::files() {
            let answer = self.try_case("edited example", &text);
            assert!(
                matches!(answer, Answer::Refused(given, _) if given == number),
                "an example that breaks {number}: {answer:?}"
            );
        }
    }

    fn bounds(&mut self) {
        for (name, text) in bounds::files() {
            self.try_case(&name, &text);
        }
    }

    /// Generated files and damaged ones; tells what they reach, and whether all were tried that belong to the defaults.
    fn generated(&mut self) -> (BTreeSet<(&'static str, u64)>, bool) {
        let cases = setting("SKUMVARI_CASES", CASES);
        let seconds = setting("SKUMVARI_SECONDS", SECONDS);
        let deadline = Instant::now() + Duration::from_secs(seconds);
        let mut reached = BTreeSet::new();
        for case in 0..cases {
            if Instant::now() > deadline {
                println!("stopped after {seconds} s and {case} generated cases");
                return (reached, false);
            }
            // A damaged file is made from the same generated one as its neighbours.
            let file = case / (DAMAGED + 1);
            let text = generator::file(&mut Random::of_case(self.seed, file));
            if case % (DAMAGED + 1) == 0 {
                let answer = self.try_case("generated", &text);
                assert!(
                    matches!(answer, Answer::Accepted(_)),
                    "generated file {file} of seed {} is refused: {answer:?}",
                    self.seed
                );
                note_reached(&text, &mut reached);
            } else {
                let text = damage::damaged(&text, case, &mut Random::of_case(!self.seed, case));
                self.try_case("damaged", &text);
            }
        }
        (reached, self.seed == SEED && cases >= CASES)
    }

    /// Compares everything about one text. A difference ends the test, with all it takes to have it again.
    fn try_case(&mut self, name: &str, text: &[u8]) -> Answer {
        let tried = catch_unwind(AssertUnwindSafe(|| self.compare(text)));
        let difference = match tried {
            Ok(Ok(answer)) => {
                self.case += 1;
                return answer;
            }
            Ok(Err(difference)) => difference,
            Err(_) => "a panic, told above".to_string(),
        };
        let path = env::temp_dir().join(format!("skumvari-difference-{}-{}.icm", self.seed, self.case));
        let kept = fs::write(&path, text).map_or_else(|error| error.to_string(), |()| path.display().to_string());
        panic!("SKUMVARI_SEED={} case {} ({name}): {difference}; the file: {kept}", self.seed, self.case);
    }

    fn compare(&mut self, text: &[u8]) -> Outcome<Answer> {
        let mut random = Random::of_case(self.seed, self.case);
        let greatest = raw::table_words();
        // Long texts take long to read, so they are not tried with tables that are too short.
        let short = text.len() <= SHORT_TEXT;
        let mut first = self.intake(text, if short { FEW_WORDS } else { greatest })?;
        if short && first.0 == Answer::Refused(18, 0) {
            first = self.intake(text, greatest)?;
        }
        let (answer, table) = first;
        let other = match random.below(40) {
            0 => greatest,
            1..=9 => LISTING_WORDS,
            10..=19 => 0,
            20..=29 => 1,
            _ => table.iter().rposition(|word| *word != 0).map_or(2, |last| last + 1),
        };
        // What is refused before the table's length counts is seldom tried again.
        if short && (!matches!(answer, Answer::Refused(1..=17, _)) || random.percent(25)) {
            self.intake(text, other)?;
        }
        if let Answer::Accepted(used) = answer {
            self.intake(text, used - 1)?;
            questions::of_accepted(text, &table[..used], &mut random)?;
            // Some words after those used belong to the table that is bent.
            questions::of_bent(text, &table[..table.len().min(used + AFTER)], &mut random, &mut self.bends)?;
        }
        Ok(answer)
    }

    fn intake(&mut self, text: &[u8], length: usize) -> Outcome<(Answer, Vec<u64>)> {
        let outcome = compare::intake(text, &self.rubbish[..length])?;
        match outcome.0 {
            Answer::Accepted(_) => self.accepted += 1,
            Answer::Refused(number, _) => self.refused[number as usize] += 1,
        }
        Ok(outcome)
    }

    fn report(&self) {
        println!("intakes accepted: {}; by number of refusal:", self.accepted);
        for (number, count) in self.refused.iter().enumerate().skip(1) {
            println!("{number:4} {count:7}");
        }
        println!("bent tables: {} sound, {} unsound", self.bends.sound, self.bends.unsound);
    }

    fn assert_all_refusals(&self) {
        let given = (1..=NUMBERS).filter(|number| *number != NOT_GIVEN);
        let missed: Vec<usize> = given.filter(|number| self.refused[*number] == 0).collect();
        assert!(missed.is_empty(), "numbers of refusal that no case met: {missed:?}");
    }
}

/// Notes the enumerations of an accepted file's table, whether places of a grid are missing and ends have sides, and how deep forks go.
fn note_reached(text: &[u8], reached: &mut BTreeSet<(&'static str, u64)>) {
    let mut table = vec![0; raw::table_words()];
    let used = raw::intake(text, &mut table).expect("an accepted file");
    let layout = Layout::of(&table[..used]).expect("the parts of an accepted file");
    reached.extend(layout.records(MODELS).map(|model| ("type", model[2])));
    for map in layout.records(MAPS) {
        reached.insert(("order", map[2]));
        if map[2] < 2 {
            reached.insert(("missing places", u64::from(map[6] < map[3] * map[4])));
        }
    }
    reached.extend(layout.records(MATRICES).map(|matrix| ("form", matrix[0])));
    for section in layout.records(SECTIONS) {
        reached.insert(("method", section[2]));
        reached.extend((0..4).filter(|kind| section[4 + kind] != 0).map(|kind| ("kind", kind as u64)));
    }
    let mut depth = 0u64;
    for step in layout.records(STEPS) {
        match step[0] {
            0 => drop(reached.insert(("side", step[4].min(1)))),
            2 => depth += 1,
            3 => depth -= 1,
            _ => {}
        }
        reached.insert(("depth", depth));
    }
}

fn assert_all_reached(reached: &BTreeSet<(&'static str, u64)>) {
    let kinds = [
        ("type", 2),
        ("order", 2),
        ("missing places", 1),
        ("form", 3),
        ("method", 1),
        ("kind", 3),
        ("side", 1),
        ("depth", 8),
    ];
    for (what, most) in kinds {
        for value in 0..=most {
            assert!(reached.contains(&(what, value)), "no generated file has {what} {value}");
        }
    }
}

// unjudged.rs: the questions without judging, and the listing, over every test file that is accepted. What they answer
// is held to the questions that judge: every entry, whole matrix and step of a walk; and the listing to the plain
// reading's.
use skumvari::raw::{self, MatrixError, Place};
use skumvari::{Intake, Kind};
use std::fs;
use std::hint::black_box;
use std::path::{Path, PathBuf};
use std::time::{Duration, Instant};

/// A judged question goes over the whole table. About so many words are gone over for the entries of a file.
const WORK: usize = 20_000_000;

/// A word that no answer has, for values that must stay as they were.
const UNTOUCHED: u64 = 0x5555_aaaa_5555_aaaa;

/// The accepted test files of the base and of the change requests, with their names.
fn accepted() -> impl Iterator<Item = (String, Intake)> {
    let folders = ["../../crates/test_vectors/data", "../vectors"];
    let paths = folders.into_iter().flat_map(|folder| {
        let folder = Path::new(env!("CARGO_MANIFEST_DIR")).join(folder);
        let entries = fs::read_dir(&folder).unwrap_or_else(|error| panic!("{}: {error}", folder.display()));
        entries.map(|entry| entry.expect("an entry of the folder").path()).collect::<Vec<PathBuf>>()
    });
    let files = paths.filter(|path| path.extension() == Some("icm".as_ref()));
    files.filter_map(|path| Some((path.display().to_string(), Intake::open(&path).ok()?)))
}

/// Asks something of every accepted test file; there are many.
fn of_each(ask: impl Fn(&str, &Intake)) {
    let mut asked = 0;
    for (name, file) in accepted() {
        assert!(raw::sound(file.text(), file.table()), "{name}");
        ask(&name, &file);
        asked += 1;
    }
    assert!(asked > 100, "{asked}");
}

fn unjudged_entry(file: &Intake, [section, kind, row, column]: [u64; 4]) -> Result<u64, u64> {
    // SAFETY: the table is what the intake left for the text, so it is sound for it.
    let entry = unsafe { raw::entry_unjudged(file.text(), file.table(), section, kind, row, column) };
    entry.map(|value| value.word()).map_err(|refusal| refusal.number)
}

fn judged_entry(file: &Intake, [section, kind, row, column]: [u64; 4]) -> Result<u64, u64> {
    let entry = raw::entry(file.text(), file.table(), section, kind, row, column);
    entry.map(|value| value.word()).map_err(|refusal| refusal.number)
}

/// A matrix into so many words, judged or not: the answer, and the words.
fn matrix(
    file: &Intake,
    judged: bool,
    section: u64,
    kind: u64,
    length: usize,
) -> (Result<usize, MatrixError>, Vec<u64>) {
    let mut values = vec![UNTOUCHED; length];
    let answer = if judged {
        raw::matrix(file.text(), file.table(), section, kind, &mut values)
    } else {
        // SAFETY: the table is what the intake left for the text, so it is sound for it.
        unsafe { raw::matrix_unjudged(file.text(), file.table(), section, kind, &mut values) }
    };
    (answer, values)
}

/// Every entry of every section, of a kind more than there is, and a row and a column outside on either side. All are
/// compared with the judged matrix, and with judged entries as many as there is time for.
#[test]
fn entries() {
    of_each(|name, file| {
        let places: usize = file.sections().map(|section| 5 * (section.conductors() + 2).pow(2)).sum();
        let every = (places * file.words_used() / WORK).max(1);
        let mut asked = 0;
        for (index, section) in file.sections().enumerate() {
            let size = section.conductors();
            for kind in 0..5 {
                let (given, words) = matrix(file, true, index as u64, kind, size * size);
                for (row, column) in (0..size + 2).flat_map(|row| (0..size + 2).map(move |column| (row, column))) {
                    let address = [index as u64, kind, row as u64, column as u64];
                    let told = unjudged_entry(file, address);
                    let inside = given.is_ok() && (1..=size).contains(&row) && (1..=size).contains(&column);
                    assert_eq!(told, if inside { Ok(words[(row - 1) * size + column - 1]) } else { Err(31) }, "{name}");
                    asked += 1;
                    if asked % every == 0 {
                        assert_eq!(told, judged_entry(file, address), "{name} {address:?}");
                    }
                }
            }
        }
        assert_eq!(unjudged_entry(file, [file.sections().len() as u64, 0, 1, 1]), Err(31), "{name}");
        assert_eq!(unjudged_entry(file, [u64::MAX; 4]), Err(31), "{name}");
    });
}

/// Into room that suffices, more of it, and less.
#[test]
fn matrices() {
    of_each(|name, file| {
        for (index, section) in file.sections().enumerate() {
            let size = section.conductors();
            for kind in 0..5 {
                for length in [size * size, size * size + 3, size * size - 1] {
                    let asked = |judged| matrix(file, judged, index as u64, kind, length);
                    assert!(asked(false) == asked(true), "{name} {index} {kind} into {length} words");
                }
            }
            for kind in Kind::ALL {
                let (given, words) = matrix(file, true, index as u64, kind as u64, size * size);
                assert_eq!(given, Ok(size), "{name}");
                assert!(section.matrix(kind).values().iter().map(|value| value.word()).eq(words), "{name}");
            }
        }
        let outside = file.sections().len() as u64;
        assert_eq!(matrix(file, false, outside, 0, 1), matrix(file, true, outside, 0, 1), "{name}");
    });
}

/// Every model from its start to its end, and once more at the end.
#[test]
fn walks() {
    of_each(|name, file| {
        let (text, table) = (file.text(), file.table());
        for (index, model) in file.models().enumerate() {
            let mut place = Place::start(index as u64);
            let mut walk = model.walk();
            loop {
                // SAFETY: the table is what the intake left for the text; the place is a start or was handed back.
                let told = unsafe { place.step_unjudged(text, table) };
                assert_eq!(told, place.step(text, table), "{name} {place:?}");
                assert_eq!(walk.place(), place, "{name}");
                let walked = walk.next();
                let Some((words, next)) = told.expect("a place in range") else {
                    assert_eq!(walked, None, "{name}");
                    break;
                };
                assert_eq!(walked.map(|walked| walked.step.line() as u64), Some(words.line), "{name}");
                place = next;
            }
            assert_eq!(place, Place { model: index as u64, step: model.steps().len() as u64, depth: 0 }, "{name}");
        }
    });
}

/// The listing is the plain reading's, its lines of steps are those that a step prints as, and it fills room of every
/// length with its front.
#[test]
fn listings() {
    of_each(|name, file| {
        let listing = file.listing();
        assert!(listing.as_bytes() == plain::listing(file.text(), file.table()), "{name}");
        let steps: Vec<String> = file.models().flat_map(|model| model.steps()).map(|step| step.to_string()).collect();
        assert!(listing.lines().skip(file.models().len() + 3).take(steps.len()).eq(steps), "{name}");
        for length in [0, 1, listing.len() / 2, listing.len(), listing.len() + 7] {
            let mut room = vec![b'~'; length];
            let written = raw::list(file.text(), file.table(), file.words_used(), &mut room);
            assert_eq!(written, length.min(listing.len()), "{name}");
            assert!(room[..written] == listing.as_bytes()[..written], "{name}");
            assert!(room[written..].iter().all(|byte| *byte == b'~'), "{name}");
        }
    });
}

/// The best of some times, which a busy machine does not spoil.
fn best<T>(ask: impl Fn() -> T) -> Duration {
    let timed = |_| {
        let start = Instant::now();
        black_box(ask());
        start.elapsed()
    };
    (0..20).map(timed).min().expect("some rounds")
}

/// A file that keeps its table does not have it judged again: that took hundreds of times as long (bench/run).
#[test]
fn a_question_of_a_kept_file_does_not_go_over_the_table() {
    let path = "../../crates/test_vectors/data/bound_text_1048576_values_65536.icm";
    let file = Intake::open(Path::new(env!("CARGO_MANIFEST_DIR")).join(path)).expect("an accepted file");
    let judged = best(|| raw::entry(file.text(), file.table(), 0, 1, 1, 1));
    let section = file.sections().next().expect("a section");
    let kept = best(|| section.entry(Kind::Inductance, 1, 1));
    assert!(kept * 20 < judged, "{kept:?} and {judged:?}");
    let model = file.models().next().expect("a model");
    let step = best(|| model.walk().next());
    assert!(step * 20 < judged, "{step:?} and {judged:?}");
}

// requests.rs: the files of hosts/vectors, made for the change requests. Each has an answer after each landing; those
// hold that are told for the landing that was last. The README there tells what the tables hold.
use std::collections::{BTreeMap, BTreeSet};
use std::fs;

use crate::reading::{spelled, Reading, LISTING_WORDS};
use crate::{bytes_of, hash, path, text_of};

/// The requests whose landing changes what a question is asked or answered.
const ASKED_ANEW: [&str; 3] = ["9", "7", "4"];

/// The words of the table for which the answers are told.
const WORDS: usize = 524_288;

const LEVELS: &str = "hosts/vectors/levels.txt";

/// The request that landed last, of those that the tables of answers have a column for.
fn landed() -> String {
    text_of("hosts/vectors/landed.txt").trim_end().to_owned()
}

fn file(name: &str) -> Vec<u8> {
    bytes_of(&format!("hosts/vectors/{name}.icm"))
}

/// The names in a folder.
fn names(folder: &str) -> impl Iterator<Item = String> {
    let entries = fs::read_dir(path(folder)).unwrap_or_else(|error| panic!("{folder}: {error}"));
    entries.map(|entry| entry.expect("an entry").file_name().into_string().expect("a name in ASCII"))
}

/// The lines of a table but for its head, each as its words.
fn records(name: &str) -> Vec<Vec<String>> {
    let text = text_of(name);
    let lines = text.lines().filter(|line| !line.starts_with('#'));
    lines.map(|line| line.split(' ').map(str::to_owned).collect()).collect()
}

/// How many landings came before that of a request, by the order in the head of the answers.
fn before(request: &str) -> usize {
    let text = text_of(LEVELS);
    let head = text.lines().next().expect("a head");
    let (_, order) = head.split_once("landings ").expect("the landings");
    order.split(' ').position(|landing| landing == request).unwrap_or_else(|| panic!("no landing of request {request}"))
}

/// Of each record the name and what holds after a landing.
fn column(name: &str, landing: &str) -> Vec<(String, String)> {
    let at = before(landing) + 1;
    records(name).into_iter().map(|record| (record[0].clone(), record[at].clone())).collect()
}

pub fn answers<R: Reading>() {
    let files = column(LEVELS, &landed());
    for (name, wanted) in &files {
        let text = file(name);
        let (answer, table) = R::take_in(&text, WORDS);
        let told = match answer {
            Ok(used) => {
                assert!(R::sound(&text, &table), "{name}");
                format!("a{used}")
            }
            Err((number, line)) => format!("{number}:{line}"),
        };
        assert_eq!(&told, wanted, "{name}");
    }
    assert_eq!(names("hosts/vectors").filter(|name| name.ends_with(".icm")).count(), files.len());
}

pub fn hashes<R: Reading>() {
    for (name, wanted) in column("hosts/vectors/hashes.txt", &landed()) {
        let (answer, table) = R::take_in(&file(&name), WORDS);
        let told = answer.map_or("-".to_owned(), |used| hash(&table[..used]));
        assert_eq!(told, wanted, "{name}");
    }
}

/// Tables of other lengths, told for some landings only. Those of the next one told hold already for a file whose answer
/// stays till then, since the table it needs stays too.
fn rooms<R: Reading>() {
    let rooms = records("hosts/vectors/rooms.txt");
    let landed = landed();
    let told = rooms.iter().map(|room| &room[1]).filter(|landing| before(landing) >= before(&landed));
    let next = told.min_by_key(|landing| before(landing)).expect("a landing");
    let (now, then) = (column(LEVELS, &landed), column(LEVELS, next));
    let stays: BTreeSet<_> = now.iter().zip(&then).filter(|(now, then)| now == then).map(|(file, _)| &file.0).collect();
    let mut asked = 0;
    for room in rooms.iter().filter(|room| &room[1] == next && stays.contains(&room[0])) {
        let (answer, _) = R::take_in(&file(&room[0]), room[2].parse().expect("a number of words"));
        assert_eq!(spelled(answer), room[3..].join(" "), "{}", room[..3].join(" "));
        asked += 1;
    }
    assert!(asked > 0);
}

/// Listings are told from the landing on that adds a line to all of them, so before it there are none here.
pub fn rooms_and_listings<R: Reading>() {
    rooms::<R>();
    let suffix = format!(".{}.out", landed());
    for listing in names("hosts/vectors/listings") {
        if let Some(name) = listing.strip_suffix(&suffix) {
            assert_eq!(R::list(&file(name)), text_of(&format!("hosts/vectors/listings/{listing}")), "{name}");
        }
    }
}

/// The files of the base whose answers a landing changed: the latest change up to the last landing holds.
pub fn changes_of_the_base<R: Reading>() {
    let mut latest = BTreeMap::new();
    for record in records("hosts/vectors/base-changes.txt") {
        let landing = before(&record[1]);
        if landing <= before(&landed()) {
            let held = latest.entry(record[0].clone()).or_insert((landing, String::new()));
            *held = held.clone().max((landing, record[2..].join(" ")));
        }
    }
    assert!(!latest.is_empty());
    for (name, (_, wanted)) in latest {
        let (answer, _) = R::take_in(&bytes_of(&format!("crates/test_vectors/data/{name}.icm")), LISTING_WORDS);
        assert_eq!(spelled(answer), wanted, "{name}");
    }
}

pub fn questions<R: Reading>() {
    let last = before(&landed());
    let asked = ASKED_ANEW.iter().rev().find(|request| before(request) <= last).expect("a landing");
    let mut files = 0;
    for name in names("hosts/vectors/questions") {
        let text = text_of(&format!("hosts/vectors/questions/{name}"));
        let mut lines = text.lines();
        if lines.next() == Some(&format!("after {asked}")) {
            ask::<R>(&name, &mut lines);
            files += 1;
        }
    }
    assert!(files > 0);
}

/// What follows the landing in a file of questions: the text, the table, whether it is sound, and the questions with their answers.
fn ask<'a, R: Reading>(name: &str, lines: &mut impl Iterator<Item = &'a str>) {
    let mut told = |key: &str| {
        let line = lines.next().expect(name);
        line.strip_prefix(key).unwrap_or_else(|| panic!("{name}: {line}"))
    };
    let text = bytes_of(&format!("hosts/vectors/{}", told("text ")));
    let long: usize = told("table ").parse().expect(name);
    let mut table = Vec::new();
    while table.len() < long {
        table.extend(numbers(told("")));
    }
    assert_eq!(table.len(), long, "{name}");
    assert_eq!(told("sound "), u64::from(R::sound(&text, &table)).to_string(), "{name}");
    for line in lines {
        let (question, wanted) = line.split_once(" = ").expect(name);
        assert_eq!(answer::<R>(question, &text, &table), numbers(wanted), "{name}: {question}");
    }
}

fn numbers(line: &str) -> Vec<u64> {
    line.split(' ').map(|word| word.parse().expect("a number")).collect()
}

/// The number of refusal and the words of the answer, zeros where it is refused.
fn answer<R: Reading>(question: &str, text: &[u8], table: &[u64]) -> Vec<u64> {
    let (kind, place) = question.split_once(' ').expect("a question");
    match (kind, &numbers(place)[..]) {
        ("entry", &[section, kind, row, column]) => {
            words(R::entry(text, table, [section, kind, row, column]).map(|value| [value]))
        }
        ("walk", &[model, step, depth]) => words(R::step(text, table, [model, step, depth])),
        _ => panic!("not a question: {question}"),
    }
}

fn words<const N: usize>(answer: Result<[u64; N], u64>) -> Vec<u64> {
    let number = answer.err().unwrap_or(0);
    [&[number], &answer.unwrap_or([0; N])[..]].concat()
}

/// Each word of the file, and each pair of a word and the one below it: a pair is drawn where both are.
pub fn doubles<R: Reading>() {
    let bits = |wanted: &str| u64::from_str_radix(wanted, 16).ok();
    let told = records("hosts/vectors/doubles.txt");
    let words: Vec<(u64, Option<u64>)> =
        told.iter().map(|record| (record[0].parse().expect("a word"), bits(&record[1]))).collect();
    for (word, wanted) in &words {
        assert_eq!(R::double(*word).map(f64::to_bits), *wanted, "{word}");
    }
    for pair in words.windows(2) {
        let [(frequency, first), (value, second)] = [pair[0], pair[1]];
        let drawn = R::pair(frequency, value).map(|(x, y)| (x.to_bits(), y.to_bits()));
        assert_eq!(drawn, first.zip(second), "{frequency} {value}");
    }
    let drawn = words.iter().filter(|(_, wanted)| wanted.is_some()).count();
    assert!(drawn > 0 && drawn < words.len() && told.iter().all(|record| record.len() == 2));
}

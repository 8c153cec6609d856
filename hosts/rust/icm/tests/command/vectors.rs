// vectors.rs: the command over the test files, whose answers were found from the papers apart from this project: those
// of the base, with what `test_vectors` must print, and those of the change requests. The base's answers are for a table
// of 8,192 words and texts of 65,536 bytes; the command takes every text, so where they say 18 or toolong it goes on.
use std::collections::BTreeMap;

use crate::json::Json;
use crate::scripts::listing_of;
use crate::support::{icm, path, text_of};

/// What `check` says of files: `accepted WORDS` or `refused NUMBER LINE`, by name.
fn checked(folder: &str, names: &[String]) -> BTreeMap<String, String> {
    let arguments: Vec<&str> = ["check", "--json"].into_iter().chain(names.iter().map(String::as_str)).collect();
    let ran = icm(&path(folder), &arguments);
    assert_eq!((ran.status, ran.errors.as_str()), (1, ""));
    let told = ran.results.lines().map(Json::read).map(|told| {
        let words = if told.names().contains(&"refused") {
            let refused = told.get("refused");
            format!("refused {} {}", refused.get("number").text(), refused.get("line").text())
        } else {
            format!("accepted {}", told.get("words").text())
        };
        (told.get("file").text().to_string(), words)
    });
    told.collect()
}

#[test]
fn the_base_is_checked() {
    let (input, output) = (text_of("crates/test_vectors/stdin"), text_of("crates/test_vectors/stdout"));
    let names: Vec<String> = input.lines().filter(|line| !line.contains(' ')).map(str::to_string).collect();
    let told = checked("crates/test_vectors/data", &names);
    let mut compared = 0;
    for (name, line) in names.iter().zip(output.lines()) {
        let wanted = line.strip_prefix(name.strip_suffix(".icm").expect("a file's name")).expect("its line").trim();
        if !["refused 18 0", "toolong"].contains(&wanted) {
            assert_eq!(told[name], wanted, "{name}");
            compared += 1;
        }
    }
    assert!(compared > 400, "{compared}");
}

/// The answers are told for a table that is long enough for all of them.
#[test]
fn the_requests_are_checked() {
    let levels = text_of("hosts/vectors/levels.txt");
    let landed = text_of("hosts/vectors/landed.txt");
    let (_, landings) = levels.lines().next().and_then(|head| head.split_once("landings ")).expect("the landings");
    let column = 1 + landings.split(' ').position(|landing| landing == landed.trim_end()).expect("the last landing");
    let wanted: Vec<(String, String)> = levels
        .lines()
        .skip(1)
        .map(|line| {
            let words: Vec<&str> = line.split(' ').collect();
            let answer = match words[column].strip_prefix('a') {
                Some(used) => format!("accepted {used}"),
                None => format!("refused {}", words[column].replace(':', " ")),
            };
            (format!("{}.icm", words[0]), answer)
        })
        .collect();
    let names: Vec<String> = wanted.iter().map(|(name, _)| name.clone()).collect();
    assert_eq!(checked("hosts/vectors", &names), wanted.into_iter().collect());
}

/// The listings that `test_vectors` must print, for people and for scripts.
#[test]
fn the_base_is_listed() {
    let (input, output) = (text_of("crates/test_vectors/stdin"), text_of("crates/test_vectors/stdout"));
    let folder = path("crates/test_vectors/data");
    let mut compared = 0;
    for name in input.lines().filter_map(|line| line.strip_suffix(" list")) {
        let short = name.strip_suffix(".icm").expect("a file's name");
        let (_, listing) = output.split_once(&format!("\n{short}\n")).expect("its listing");
        if listing.starts_with("accepted") {
            let ran = icm(&folder, &["list", name]);
            assert_eq!((ran.status, ran.errors.as_str()), (0, ""), "{name}");
            assert!(listing.starts_with(&ran.results) && is_whole(&ran.results), "{name}: {}", ran.results);
            let object = Json::read(&icm(&folder, &["list", "--json", name]).results);
            assert_eq!(listing_of(&object), ran.results, "{name}");
            compared += 1;
        }
    }
    assert!(compared > 10, "{compared}");
}

/// Whether as many values follow as the listing says: what stands behind a listing is another file's.
fn is_whole(listing: &str) -> bool {
    let mut behind = listing.lines().skip_while(|line| !line.starts_with("values "));
    let count = behind.next().and_then(|line| line.strip_prefix("values ")).and_then(|count| count.parse().ok());
    count == Some(behind.count())
}

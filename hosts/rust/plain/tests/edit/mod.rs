//! Changes to the lines of the paper's example, and the answers they bring.
//! `{14=X}` replaces line 14, `{14+=X}` adds below it, `{14=-}` drops it, `{33-37=X}` takes a range; `;` parts lines.

use plain::{intake, Answer};

use crate::example;

/// Tries edits, each with the answer it must bring.
pub fn check(cases: &[(impl AsRef<str>, &str)]) {
    let failures: Vec<_> = cases
        .iter()
        .filter_map(|(edits, expected)| {
            let edits = edits.as_ref();
            let found = answer(&changed(edits));
            (found != *expected).then(|| format!("{edits}: expected {expected}, found {found}"))
        })
        .collect();
    assert!(failures.is_empty(), "{}", failures.join("\n"));
}

/// The answer for a text, with room enough in the table.
pub fn answer(text: &str) -> String {
    match intake(text.as_bytes(), &mut [0; 16_384]) {
        Answer::Accepted(_) => "accepted".to_owned(),
        Answer::Refused(number, line) => format!("{number} {line}"),
    }
}

/// The example after its edits. Each line of it stands for a group of lines, so that the numbers stay those of the example.
pub fn changed(edits: &str) -> String {
    let mut groups: Vec<Vec<&str>> = example::LINES.split(';').map(|line| vec![line]).collect();
    let edits = edits.strip_prefix('{').and_then(|edits| edits.strip_suffix('}')).expect("edits in braces");
    for edit in edits.split("}{") {
        let (place, lines) = edit.split_once('=').expect("an edit");
        let adds = place.ends_with('+');
        let (first, last) = place.trim_end_matches('+').split_once('-').unwrap_or_else(|| {
            let line = place.trim_end_matches('+');
            (line, line)
        });
        let [first, last] = [first, last].map(|line| line.parse::<usize>().expect("a line number") - 1);
        if !adds {
            groups[first..=last].iter_mut().for_each(Vec::clear);
        }
        if lines != "-" {
            groups[first].extend(lines.split(';'));
        }
    }
    groups.concat().iter().map(|line| format!("{line}\n")).collect()
}

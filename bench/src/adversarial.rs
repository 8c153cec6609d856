// adversarial.rs: files made to be slow for a reader that compares names one by one, or that goes back over what it has read.
// All but the lists are accepted; a long list cannot be, since each listed name needs a model and there are at most 64 of these.
use std::fmt::Write;

use crate::file::{diagonal, File, TEXT_MOST};

pub fn files() -> Vec<(&'static str, Vec<u8>)> {
    vec![
        ("half a million list lines", list(|_| "A\n".to_string())),
        ("different list lines", list(|line| format!("{line:x}\n"))),
        ("1,366 ends in one path, sided", ends()),
        ("16 maps of 256 pins, equal prefixes", pins()),
        ("256 sections by 4,094 steps", sections()),
        ("all blank lines", filled("\n")),
        ("all comments, short", filled("|\n")),
        ("all comments, long", filled(&format!("|{}\n", "c".repeat(119)))),
    ]
}

/// The prefix that makes names long and equal up to their ends.
fn prefix(length: usize) -> String {
    "n".repeat(length)
}

/// A list that fills the text.
fn list(line: impl Fn(usize) -> String) -> Vec<u8> {
    let mut file = File::small();
    let room = TEXT_MOST - file.text().len();
    for index in 0.. {
        let next = line(index);
        if file.list.len() + next.len() > room {
            return file.text();
        }
        file.list.push_str(&next);
    }
    unreachable!("the lines are not empty")
}

/// A fork block has one end and two steps about it, so 4,096 steps have 1,366 ends; all are on one map, each with a side of its own.
fn ends() -> Vec<u8> {
    let mut file = File::small();
    let mut path = String::from("Model_pinmap P\nSide first\nSection Mult=1 S0\n");
    for end in 0..1_364 {
        let _ = writeln!(path, "Fork\nModel_pinmap P\nSide {}{end:04}\nEndfork", prefix(100));
    }
    path.push_str("Model_pinmap P\nSide last\n");
    file.models[0].1 = path;
    file.text()
}

/// 4,096 pins with names of 120 bytes.
fn pins() -> Vec<u8> {
    let mut file = File::through_sections(256, &[diagonal(256)]);
    let pins: Vec<String> = (0..256).map(|pin| format!("{}{pin:04}", prefix(116))).collect();
    file.maps = (0..14).map(|map| (format!("M{map}"), pins.clone())).collect();
    file.maps.extend(["P", "Q"].map(|map| (map.to_string(), pins.clone())));
    file.text()
}

/// Each section is used once, and the last one, which a search from the front finds last, by all other steps.
fn sections() -> Vec<u8> {
    let mut file = File::small();
    let name = |section: usize| format!("{}{section:03}", prefix(95));
    let mut path = String::from("Model_pinmap P\n");
    for step in 0..4_094 {
        let _ = writeln!(path, "Section Mult=1 {}", name(step.min(255)));
    }
    path.push_str("Model_pinmap Q\n");
    file.models[0].1 = path;
    file.sections.clear();
    for section in 0..256 {
        file.add_section(&name(section), &diagonal(1));
    }
    file.text()
}

/// The smallest file, filled with one line over and over.
fn filled(line: &str) -> Vec<u8> {
    let mut file = File::small();
    file.filling = line.repeat((TEXT_MOST - file.text().len()) / line.len());
    file.text()
}

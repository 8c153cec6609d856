// kinds.rs: the five ordinary kinds of file, each as near to the greatest length of a text as the paper's bounds allow.
// A size of 4 is the whole file, of 2 about half of it and of 1 about a quarter.
use std::fmt::Write;

use crate::file::{diagonal, two_maps, File, Numbers};

/// A name and what makes a file of a size.
pub type Kind = (&'static str, fn(usize) -> File);

pub const KINDS: [Kind; 5] = [
    ("full matrices", full_matrices),
    ("sparse matrices", sparse_matrices),
    ("short numbers with units", short_numbers),
    ("short path and pin lines", short_lines),
    ("long lines", long_lines),
];

/// The rows of a full matrix with its numbers, so many to a line.
fn full(
    conductors: usize,
    to_a_line: usize,
    mut number: impl FnMut() -> String,
    decorate: impl Fn(String) -> String,
) -> String {
    let mut lines = String::new();
    for row in 1..=conductors {
        let _ = writeln!(lines, "{}", decorate(format!("[Row] {row}")));
        let numbers: Vec<String> = (row..=conductors).map(|_| number()).collect();
        for line in numbers.chunks(to_a_line) {
            let _ = writeln!(lines, "{}", decorate(line.join(" ")));
        }
    }
    lines
}

fn plainly(line: String) -> String {
    line
}

/// 64,512 values of 15 bytes with the blank.
fn full_matrices(size: usize) -> File {
    let mut numbers = Numbers(1);
    let section = |_| format!("[Inductance Matrix] Full_matrix\n{}", full(63, 7, || numbers.middle(), plainly));
    File::through_sections(63, &(0..8 * size).map(section).collect::<Vec<_>>())
}

/// Every third column of each row.
fn sparse_matrices(size: usize) -> File {
    let mut numbers = Numbers(2);
    let section = |_| {
        let mut lines = String::from("[Capacitance Matrix] Sparse_matrix\n");
        for row in 1..=96 {
            let _ = writeln!(lines, "[Row] {row}");
            for column in (row..=96).step_by(3) {
                let _ = writeln!(lines, "{column} {}", numbers.middle());
            }
        }
        lines
    };
    File::through_sections(96, &(0..17 * size / 2).map(section).collect::<Vec<_>>())
}

/// The bound of 65,536 values keeps these files short.
fn short_numbers(size: usize) -> File {
    let mut numbers = Numbers(3);
    let section = |_| format!("[Inductance Matrix] Full_matrix\n{}", full(63, 16, || numbers.short(), plainly));
    File::through_sections(63, &(0..8 * size).map(section).collect::<Vec<_>>())
}

/// The bounds of 4,096 steps and 4,096 pins keep these files short.
fn short_lines(size: usize) -> File {
    let mut numbers = Numbers(4);
    let mut file = File::default();
    file.add_section("S", &diagonal(64));
    for model in 0..16 * size {
        let map = model % (15 * size);
        let mut path = format!("Model_pinmap P{map}\nSide a\n");
        for _ in 0..15 {
            let _ = writeln!(path, "Section Mult={} S\nFork\nSection Mult=1 S\nEndfork", numbers.below(99) + 1);
        }
        let _ = writeln!(path, "Model_pinmap P{map}\nSide b");
        file.models.push((format!("M{model}"), path));
    }
    for map in 0..16 * size {
        file.maps.push((format!("P{map}"), (0..64).map(|pin| format!("A{pin}")).collect()));
    }
    file
}

/// All lines but the few about the matrices have 119 or 120 characters.
fn long_lines(size: usize) -> File {
    let mut numbers = Numbers(5);
    let lengthen =
        |line: String| if line.len() < 110 { format!("{line} |{}", "c".repeat(117 - line.len())) } else { line };
    let section = |_| format!("[Inductance Matrix] Full_matrix\n{}", full(100, 6, || numbers.long(), lengthen));
    let mut file = File::through_sections(100, &(0..2 * size).map(section).collect::<Vec<_>>());
    file.maps = two_maps(100);
    for (_, pins) in &mut file.maps {
        pins.iter_mut().for_each(|pin| *pin = lengthen(std::mem::take(pin)));
    }
    file
}

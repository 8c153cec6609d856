// bounds.rs: files with exactly as many of something as the paper allows, and with one more.
// They are too long to come by chance.
use std::fmt::Write;

/// How many there are of each; everything has one conductor unless the diagonal is longer.
struct Counts {
    models: usize,
    steps: usize,
    maps: usize,
    pins: usize,
    sections: usize,
    /// Numbers written in each section, which has at least one.
    values: usize,
}

const LEAST: Counts = Counts { models: 1, steps: 3, maps: 1, pins: 1, sections: 1, values: 0 };

/// The greatest length of a text.
const TEXT_MOST: usize = 1_048_576;

/// Names and texts.
pub fn files() -> Vec<(String, Vec<u8>)> {
    let mut files = Vec::new();
    for more in 0..2 {
        let mut add = |name: &str, text: String| files.push((format!("{name} and {more}"), text.into_bytes()));
        add("64 models", file(&Counts { models: 64 + more, ..LEAST }));
        add("4096 steps", file(&Counts { steps: 4_096 + more, ..LEAST }));
        add("64 maps", file(&Counts { maps: 64 + more, ..LEAST }));
        add("256 pins", file(&Counts { pins: 256 + more, ..LEAST }));
        add("4096 pins", file(&Counts { pins: 256, maps: 16 + more, ..LEAST }));
        add("256 sections", file(&Counts { sections: 256 + more, ..LEAST }));
        add("65536 values", file(&Counts { values: 65_536 + more, pins: 256, ..LEAST }));
        add("diagonal of 256", diagonal(256 + more));
        let mut longest = file(&LEAST);
        while longest.len() < TEXT_MOST + more {
            let length = (TEXT_MOST + more - longest.len()).min(121);
            let _ = writeln!(longest, "{}", "x".repeat(length - 1));
        }
        add("1048576 bytes", longest);
    }
    files
}

fn file(counts: &Counts) -> String {
    let mut text = String::from(
        "[Begin Header]\n[ICM Ver] 1.1\n[File Name] t.icm\n[File Rev] 1\n[End Header]\n[Begin ICM Family] F\n",
    );
    text.push_str("[Manufacturer] M\n[ICM Model List]\n");
    for model in 0..counts.models {
        let _ = writeln!(text, "M{model}");
    }
    let sections = counts.sections;
    for model in 0..counts.models {
        let _ = writeln!(
            text,
            "[Begin ICM Model] M{model}\nICM_model_type MLM\n[Tree Path Description]\nModel_pinmap P0\nSide a"
        );
        for step in 0..(counts.steps - 2).max(sections) {
            let _ = writeln!(text, "Section Mult=1 S{}", step % sections);
        }
        text.push_str("Model_pinmap P0\nSide b\n[End ICM Model]\n");
    }
    for map in 0..counts.maps {
        let _ = writeln!(text, "[ICM Pin Map] P{map}\nPin_order Un_ordered\nPin_list");
        for pin in 0..counts.pins {
            let _ = writeln!(text, "{pin}");
        }
    }
    text.push_str("[End ICM Family]\n");
    for section in 0..sections {
        let _ = writeln!(text, "[Begin ICM Section] S{section}\n[Derivation Method] Lumped");
        write_matrices(&mut text, counts.pins, counts.values);
        text.push_str("[End ICM Section]\n");
    }
    text.push_str("[End]\n");
    text
}

/// Banded matrices while the numbers are enough, since many of theirs go on a line, and a sparse one of those that are left, or of one.
fn write_matrices(text: &mut String, conductors: usize, values: usize) {
    let mut left = values;
    for (kind, bandwidth) in [("Capacitance", 255), ("Resistance", 232)] {
        let lengths: Vec<usize> = (1..=conductors).map(|row| 1 + bandwidth.min(conductors - row)).collect();
        let Some(fewer) = left.checked_sub(lengths.iter().sum()) else { continue };
        left = fewer;
        let _ = writeln!(text, "[{kind} Matrix] Banded_matrix\n[Bandwidth] {bandwidth}");
        for (index, length) in lengths.iter().enumerate() {
            let _ = writeln!(text, "[Row] {}", index + 1);
            for line in vec!["1"; *length].chunks(60) {
                let _ = writeln!(text, "{}", line.join(" "));
            }
        }
    }
    // Its row 1 has the last column, which settles N; more numbers fill the rows from the second on.
    let _ = writeln!(text, "[Inductance Matrix] Sparse_matrix\n[Row] 1\n{conductors} 1");
    left = left.saturating_sub(1);
    for row in 2..=conductors {
        if left == 0 {
            break;
        }
        let _ = writeln!(text, "[Row] {row}");
        for column in row..(row + left).min(conductors + 1) {
            let _ = writeln!(text, "{column} 1");
            left -= 1;
        }
    }
}

/// One section with a diagonal of this length.
fn diagonal(length: usize) -> String {
    let numbers = "1nH\n".repeat(length);
    file(&Counts { pins: length.min(256), ..LEAST }).replace(
        &format!("[Inductance Matrix] Sparse_matrix\n[Row] 1\n{} 1\n", length.min(256)),
        &format!("[Resistance Matrix] Diagonal_matrix\n{numbers}"),
    )
}

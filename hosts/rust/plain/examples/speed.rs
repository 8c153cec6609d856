//! Prints how fast the intake reads a generated file of about a mebibyte of full matrices.
//! The best of many rounds counts, since a busy machine can only slow a round down.

use std::fmt::Write;
use std::hint::black_box;
use std::time::{Duration, Instant};

use plain::{intake, listing, sound, Answer};

const CONDUCTORS: usize = 63;
const SECTIONS: usize = 32;
const ROUNDS: u32 = 200;

fn main() {
    let text = generate();
    let text = text.as_bytes();
    let mut table = vec![0; 250_000];
    let answer = intake(text, &mut table);
    assert!(matches!(answer, Answer::Accepted(_)), "{answer:?}");
    println!("{} bytes, {answer:?}", text.len());
    report("intake", text.len(), || {
        black_box(intake(black_box(text), &mut table));
    });
    let answered = table.clone();
    report("sound", text.len(), || assert!(sound(black_box(text), black_box(&answered))));
    report("listing", text.len(), || {
        black_box(listing(black_box(text), &answered));
    });
}

fn report(what: &str, bytes: usize, mut round: impl FnMut()) {
    let mut times: Vec<Duration> = (0..ROUNDS)
        .map(|_| {
            let start = Instant::now();
            round();
            start.elapsed()
        })
        .collect();
    times.sort();
    let speed = |time: Duration| bytes as f64 / time.as_secs_f64() / 1e6;
    let (best, middle) = (times[0], times[times.len() / 2]);
    println!("{what}: best {best:?} ({:.0} MB/s), median {middle:?} ({:.0} MB/s)", speed(best), speed(middle));
}

/// One model whose path goes through all sections, each with a full matrix.
fn generate() -> String {
    let mut text = String::from(
        "[Begin Header]\n[ICM Ver] 1.1\n[File Name] t.icm\n[File Rev] 0.1\n[End Header]\n[Begin ICM Family] D\n\
         [Manufacturer] O\n[ICM Model List]\nA\n[Begin ICM Model] A\nICM_model_type MLM\n[Tree Path Description]\n\
         Model_pinmap P\n",
    );
    for section in 0..SECTIONS {
        writeln!(text, "Section Mult=1 S{section}").unwrap();
    }
    text.push_str("Model_pinmap Q\n[End ICM Model]\n");
    for map in ["P", "Q"] {
        writeln!(text, "[ICM Pin Map] {map}\nPin_order Un_ordered\nPin_list").unwrap();
        for pin in 0..CONDUCTORS {
            writeln!(text, "A{pin}").unwrap();
        }
    }
    text.push_str("[End ICM Family]\n");
    for section in 0..SECTIONS {
        writeln!(text, "[Begin ICM Section] S{section}\n[Derivation Method] Lumped").unwrap();
        write_matrix(&mut text, section);
        text.push_str("[End ICM Section]\n");
    }
    text.push_str("[End]\n");
    text
}

fn write_matrix(text: &mut String, section: usize) {
    text.push_str("[Inductance Matrix] Full_matrix\n");
    let mut seed = section as u64 + 1;
    for row in 1..=CONDUCTORS {
        writeln!(text, "[Row] {row}").unwrap();
        for (index, column) in (row..=CONDUCTORS).enumerate() {
            seed = seed.wrapping_mul(6_364_136_223_846_793_005).wrapping_add(1_442_695_040_888_963_407);
            let digits = seed >> 33;
            let separator = if index % 7 == 6 || column == CONDUCTORS { '\n' } else { ' ' };
            write!(text, "{}.{:08}e-{:02}{separator}", digits % 9 + 1, digits / 9 % 100_000_000, digits % 12 + 1)
                .unwrap();
        }
    }
}

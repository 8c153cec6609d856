// against.rs: measures the intakes of two archives beside each other, in one process and in turns, so that what slows
// the machine down for a while slows down both. Each is a shared library, for equal terms.
use std::hint::black_box;
use std::time::{Duration, Instant};

use plain::Answer;

use crate::adversarial;
use crate::kinds::KINDS;
use crate::library::Library;
use crate::{megabytes_a_second, timed, told, ROUNDS, TIME};

/// The best times of the two, and what the rounds say one by one.
struct Times {
    this: Duration,
    other: Duration,
    /// How many times as fast as the other this one was, by rounds, the least first.
    ratios: Vec<f64>,
}

impl Times {
    /// The ratio that so many quarters of the rounds do not reach.
    fn quartile(&self, quarters: usize) -> f64 {
        self.ratios[(self.ratios.len() - 1) * quarters / 4]
    }
}

pub fn compare(this: &str, other: &str) -> Result<(), String> {
    let libraries = [Library::open(this)?, Library::open(other)?];
    println!(
        "Best processor times of at least {ROUNDS} rounds, this archive and the other in turns; MB: a million bytes.\n\
         Above 1 this one is faster: by the best times, by the round in the middle, and by the middle half of them\n"
    );
    println!(
        "{:<36} {:>9} {:>10} {:>10} {:>11} {:>7} {:>13}",
        "kind", "bytes", "this MB/s", "other MB/s", "this/other", "middle", "middle half"
    );
    let kinds = KINDS.iter().map(|(name, make)| (*name, make(4).text()));
    for (name, text) in kinds.chain(adversarial::files()) {
        row(&libraries, name, &text);
    }
    Ok(())
}

fn row(libraries: &[Library; 2], name: &str, text: &[u8]) {
    let bytes = text.len();
    let answers = libraries.each_ref().map(|library| library.intake(text, &mut vec![0; library.table_words()]));
    // One that stops early, at a line that the other reads on from, is not faster.
    if !alike(answers[0], answers[1]) {
        println!("{name:<36} {bytes:>9} not compared: {}, the other {}", told(answers[0]), told(answers[1]));
        return;
    }
    let times = measure(libraries, text, answers.map(needed));
    let speeds = [times.this, times.other].map(|time| megabytes_a_second(bytes, time));
    let ratio = times.other.as_secs_f64() / times.this.as_secs_f64();
    let half = format!("{:.2} to {:.2}", times.quartile(1), times.quartile(3));
    println!(
        "{name:<36} {bytes:>9} {:>10.1} {:>10.1} {ratio:>11.2} {:>7.2} {half:>13}",
        speeds[0],
        speeds[1],
        times.quartile(2)
    );
}

/// Accepted by both, though perhaps into tables of other layouts, or refused alike.
fn alike(this: Answer, other: Answer) -> bool {
    matches!((this, other), (Answer::Accepted(_), Answer::Accepted(_))) || this == other
}

/// The table's length that a text needs; 8,192 words where it is refused.
fn needed(answer: Answer) -> usize {
    match answer {
        Answer::Accepted(used) => used,
        Answer::Refused(..) => 8_192,
    }
}

fn measure(libraries: &[Library; 2], text: &[u8], words: [usize; 2]) -> Times {
    let mut tables = words.map(|words| vec![0; words]);
    let mut times = Times { this: Duration::MAX, other: Duration::MAX, ratios: Vec::new() };
    let start = Instant::now();
    while times.ratios.len() < ROUNDS as usize || start.elapsed() < TIME {
        // Who comes second finds the text in the processor's caches, so each comes second in turn.
        let order = if times.ratios.len() % 2 == 0 { [0, 1] } else { [1, 0] };
        let mut round = [Duration::ZERO; 2];
        for at in order {
            let (library, table) = (&libraries[at], &mut tables[at]);
            round[at] = timed(|| library.intake(black_box(text), black_box(table)));
        }
        times.this = times.this.min(round[0]);
        times.other = times.other.min(round[1]);
        times.ratios.push(round[1].as_secs_f64() / round[0].as_secs_f64());
    }
    times.ratios.sort_by(f64::total_cmp);
    times
}

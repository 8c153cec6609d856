// main.rs: measures the proved intake beside the plain reading of the same paper, in one run and in turns, and questions
// that judge their table beside the same ones that do not; prints plain text. Before anything is timed both must answer
// the same; if not, that is told and the exit status is 1. With `--against THIS OTHER`, two shared libraries, their
// intakes are measured instead.
mod adversarial;
mod against;
mod clock;
mod file;
mod kinds;
mod library;
mod proved;
mod questions;

use std::env;
use std::hint::black_box;
use std::process::exit;
use std::time::{Duration, Instant};

use kinds::KINDS;
use plain::Answer;

/// Each file is read in turns at least so many times, and as often as fits into the time.
const ROUNDS: u32 = 7;
const TIME: Duration = Duration::from_millis(1_000);

/// The best times of the two.
struct Times {
    bytes: usize,
    answer: Answer,
    proved: Duration,
    plain: Duration,
}

impl Times {
    fn megabytes_a_second(&self, time: Duration) -> f64 {
        megabytes_a_second(self.bytes, time)
    }

    fn nanoseconds_a_byte(&self, time: Duration) -> f64 {
        time.as_secs_f64() * 1e9 / self.bytes as f64
    }

    fn ratio(&self) -> f64 {
        self.plain.as_secs_f64() / self.proved.as_secs_f64()
    }

    fn told(&self) -> String {
        told(self.answer)
    }
}

fn megabytes_a_second(bytes: usize, time: Duration) -> f64 {
    bytes as f64 / time.as_secs_f64() / 1e6
}

fn told(answer: Answer) -> String {
    match answer {
        Answer::Accepted(_) => "accepted".to_string(),
        Answer::Refused(number, line) => format!("refused {number} {line}"),
    }
}

fn main() {
    let arguments: Vec<String> = env::args().skip(1).collect();
    match &arguments.iter().map(String::as_str).collect::<Vec<_>>()[..] {
        [] => beside_plain(),
        ["--against", this, other] => {
            if let Err(error) = against::compare(this, other) {
                eprintln!("bench: {error}");
                exit(1);
            }
        }
        _ => {
            eprintln!("usage: bench [--against THIS OTHER]");
            exit(2);
        }
    }
}

fn beside_plain() {
    println!("Best processor times of at least {ROUNDS} rounds, proved and plain in turns; tables of the words needed; MB: a million bytes\n");
    let whole = speeds();
    growth();
    adversarial(&whole);
    questions::measure();
}

/// The answer of both, and the table's length that the text needs; 8,192 words where it is refused.
fn agreed(name: &str, text: &[u8]) -> (Answer, usize) {
    let mut proved_table = vec![u64::MAX; proved::table_words()];
    let mut plain_table = proved_table.clone();
    let proved = proved::intake(text, &mut proved_table);
    let answer = plain::intake(text, &mut plain_table);
    if !proved::same(proved, answer) || proved_table != plain_table {
        let tables = if proved_table == plain_table { "equal" } else { "different" };
        eprintln!("bench: {name}: proved {proved:?}, plain {answer:?}, tables {tables}: nothing is measured");
        exit(1);
    }
    match answer {
        Answer::Accepted(used) => (answer, used),
        Answer::Refused(..) => (answer, 8_192),
    }
}

fn measure(name: &str, text: &[u8]) -> Times {
    let (answer, words) = agreed(name, text);
    let mut table = vec![0; words];
    let mut times = Times { bytes: text.len(), answer, proved: Duration::MAX, plain: Duration::MAX };
    let start = Instant::now();
    let mut rounds = 0;
    while rounds < ROUNDS || start.elapsed() < TIME {
        times.proved = times.proved.min(timed(|| proved::intake(black_box(text), black_box(&mut table))));
        times.plain = times.plain.min(timed(|| plain::intake(black_box(text), black_box(&mut table))));
        rounds += 1;
    }
    times
}

fn timed<T>(work: impl FnOnce() -> T) -> Duration {
    let start = clock::thread_time();
    black_box(work());
    clock::thread_time() - start
}

/// The five kinds as long as they get, and a bare pass over the bytes of the first; hands back the times of the first.
fn speeds() -> Times {
    println!("{:<26} {:>9} {:>12} {:>12} {:>14}", "kind", "bytes", "proved MB/s", "plain MB/s", "proved/plain");
    let mut first = None;
    for (name, make) in KINDS {
        let text = make(4).text();
        let times = measure(name, &text);
        if !matches!(times.answer, Answer::Accepted(_)) {
            eprintln!("bench: {name}: {}: the file is meant to be accepted", times.told());
            exit(1);
        }
        let (proved, plain) = (times.megabytes_a_second(times.proved), times.megabytes_a_second(times.plain));
        println!("{name:<26} {:>9} {proved:>12.1} {plain:>12.1} {:>14.2}", times.bytes, times.ratio());
        first.get_or_insert(times);
    }
    let whole = first.expect("there are kinds");
    let text = KINDS[0].1(4).text();
    let bare = (0..50).map(|_| timed(|| black_box(&text).iter().map(|byte| u64::from(*byte)).sum::<u64>())).min();
    println!(
        "{:<26} {:>9} {:>12.1}",
        "bare sum of the bytes",
        text.len(),
        whole.megabytes_a_second(bare.expect("some rounds"))
    );
    whole
}

/// The same kinds at about a quarter, half and all of that length.
fn growth() {
    println!("\n{:<26} {:>27} {:>24} {:>24}", "growth, ns a byte", "bytes", "proved", "plain");
    for (name, make) in KINDS {
        let times = [1, 2, 4].map(|size| measure(name, &make(size).text()));
        let bytes = times.iter().map(|times| format!("{:>9}", times.bytes)).collect::<String>();
        let proved =
            times.iter().map(|times| format!("{:>8.3}", times.nanoseconds_a_byte(times.proved))).collect::<String>();
        let plain =
            times.iter().map(|times| format!("{:>8.3}", times.nanoseconds_a_byte(times.plain))).collect::<String>();
        println!("{name:<26} {bytes} {proved} {plain}");
    }
}

/// Files made to be slow, in nanoseconds a byte, and how many times that is of the ordinary file.
fn adversarial(ordinary: &Times) {
    let (proved, plain) = (ordinary.nanoseconds_a_byte(ordinary.proved), ordinary.nanoseconds_a_byte(ordinary.plain));
    println!(
        "\n{:<36} {:>9} {:>16} {:>8} {:>7} {:>8} {:>7}",
        "adversarial, ns a byte", "bytes", "answer", "proved", "times", "plain", "times"
    );
    println!(
        "{:<36} {:>9} {:>16} {proved:>8.3} {:>7.2} {plain:>8.3} {:>7.2}",
        "full matrices",
        ordinary.bytes,
        ordinary.told(),
        1.0,
        1.0
    );
    for (name, text) in adversarial::files() {
        let times = measure(name, &text);
        let (slow, plain_slow) = (times.nanoseconds_a_byte(times.proved), times.nanoseconds_a_byte(times.plain));
        let quotients = (slow / proved, plain_slow / plain);
        let answer = times.told();
        println!(
            "{name:<36} {:>9} {answer:>16} {slow:>8.3} {:>7.2} {plain_slow:>8.3} {:>7.2}",
            times.bytes, quotients.0, quotients.1
        );
    }
}

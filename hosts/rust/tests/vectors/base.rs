// base.rs: the base's files. They stand with the programs that run them over the proved code, each with its input and what it must print; here
// a reading is asked the same.
use skumvari::Intake;

use crate::reading::{spelled, Reading, LISTING_BYTES, LISTING_WORDS};
use crate::{bytes_of, hash, text_of};

/// Tells for each line of a program's input what a reading says to it, and compares all with what the program must print.
fn assert_prints(program: &str, told: impl Fn(&str) -> String) {
    let (input, output) = (text_of(&format!("crates/{program}/stdin")), text_of(&format!("crates/{program}/stdout")));
    let mut rest = output.as_str();
    for line in input.lines() {
        let told = told(line);
        rest = rest.strip_prefix(&told).unwrap_or_else(|| {
            let wanted: Vec<&str> = rest.lines().take(told.lines().count()).collect();
            panic!("{line}: wanted\n{}\ntold\n{told}", wanted.join("\n"))
        });
    }
    assert_eq!(rest, "");
}

fn file(name: &str) -> Vec<u8> {
    bytes_of(&format!("crates/test_vectors/data/{name}"))
}

pub fn answers_rooms_hashes_and_listings<R: Reading>() {
    assert_prints("test_vectors", |line| {
        let (file_name, asked) = line.split_once(' ').unwrap_or((line, ""));
        let name = file_name.strip_suffix(".icm").expect("a file's name");
        let text = file(file_name);
        match asked {
            "" if text.len() > LISTING_BYTES => format!("{name} toolong\n"),
            "" => format!("{name} {}\n", spelled(R::take_in(&text, LISTING_WORDS).0)),
            "list" => format!("{name}\n{}", R::list(&text)),
            "hash" => {
                let (answer, table) = R::take_in(&text, LISTING_WORDS);
                format!("{name} {} {}\n", answer.expect(name), hash(&table))
            }
            room => {
                let (answer, _) = R::take_in(&text, room.parse().expect("a number of words"));
                format!("{name} {room} {}\n", spelled(answer))
            }
        }
    });
}

/// A value word is 256 m + 2 (k + 64) + s.
pub fn numbers<R: Reading>() {
    assert_prints("test_numbers", |word| match R::number(word) {
        Ok(value) => {
            let sign = if value % 2 == 1 { "-" } else { "" };
            format!("{word} {sign}{} {}\n", value / 256, (value % 256 / 2) as i64 - 64)
        }
        Err(number) => format!("{word} {number}\n"),
    });
}

#[test]
fn walks_and_matrices_are_what_the_table_says() {
    let input = text_of("crates/test_vectors/stdin");
    let names = input.lines().filter(|line| !line.contains(' '));
    let mut accepted = 0;
    for (name, file) in names.filter_map(|name| Some((name, Intake::read(file(name)).ok()?))) {
        accepted += 1;
        for model in file.models() {
            let walk = file.walk(model.name()).expect("its own model");
            assert!(walk.map(|walked| walked.step).eq(model.steps()), "{name} {}", model.name());
        }
        for section in file.sections() {
            for written in section.all_written() {
                let matrix = section.matrix(written.kind());
                for number in written.numbers() {
                    assert_eq!(matrix.get(number.row, number.column), Some(number.value), "{name}");
                    assert_eq!(matrix.get(number.column, number.row), Some(number.value), "{name}");
                }
            }
        }
    }
    assert!(accepted > 0);
}

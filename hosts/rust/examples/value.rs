// value.rs: prints one value of a file: cargo run --example value FILE SECTION KIND ROW COLUMN, for instance t.icm S L 2 1.
// The kind is R, L, G or C; rows and columns count from 1. What is wrong is told in one line, and the exit status is 1.
use skumvari::{Intake, Kind, Value};
use std::error::Error;
use std::process::ExitCode;

fn value() -> Result<Value, Box<dyn Error>> {
    let arguments: Vec<String> = std::env::args().skip(1).collect();
    let [file, section, kind, row, column] = arguments.as_slice() else {
        return Err("usage: value FILE SECTION KIND ROW COLUMN".into());
    };
    let kind = Kind::ALL.into_iter().find(|known| known.to_string() == *kind).ok_or("the kind is R, L, G or C")?;
    Ok(Intake::open(file)?.entry(section, kind, row.parse()?, column.parse()?)?)
}

fn main() -> ExitCode {
    match value() {
        Ok(value) => {
            println!("{value}");
            ExitCode::SUCCESS
        }
        Err(error) => {
            eprintln!("{error}");
            ExitCode::FAILURE
        }
    }
}

// main.rs: the command `icm`: what people and scripts ask of an ICM file, over the Rust host library.
// Results go to standard output, everything else to standard error, and the exit status says how it went.
#![forbid(unsafe_code)]

mod answers;
mod arguments;
mod desk;
mod excerpt;
mod help;
mod json;
mod output;
mod source;

use std::io::ErrorKind;
use std::process::ExitCode;

use arguments::{Request, Verb};
use desk::{Desk, Style};
use output::Output;

/// How it went, as the exit status tells it. Of several files the greatest counts.
#[derive(Clone, Copy, Debug, PartialEq, Eq, PartialOrd, Ord)]
pub enum Status {
    /// The file is accepted, and the question answered.
    Accepted = 0,
    /// The file or the question is refused.
    Refused = 1,
    /// The command is used wrongly, a file cannot be read, or the results cannot be written.
    Wrong = 2,
}

fn main() -> ExitCode {
    let mut results = Output::results();
    let mut errors = Output::errors();
    let status = match arguments::read(std::env::args_os().skip(1)) {
        Ok(request) => answer(request, &mut results, &mut errors),
        Err(wrong) => {
            errors.print(format_args!("icm: {wrong}\n"));
            Status::Wrong
        }
    };
    let status = match results.finish() {
        // Whoever reads the results has had enough of them: that is no failure.
        Err(failure) if failure.kind() != ErrorKind::BrokenPipe => {
            errors.print(format_args!("icm: cannot write the results: {failure}\n"));
            Status::Wrong
        }
        _ => status,
    };
    ExitCode::from(status as u8)
}

fn answer(request: Request, results: &mut Output, errors: &mut Output) -> Status {
    match request {
        Request::Help(text) => {
            results.print(format_args!("{text}"));
            Status::Accepted
        }
        Request::Ask { verb, json } => {
            let style = match (&verb, json) {
                (_, true) => Style::Json,
                (Verb::Check(_), false) => Style::Brief,
                (_, false) => Style::Full,
            };
            ask(verb, &mut Desk { results, errors, style })
        }
    }
}

fn ask(verb: Verb, desk: &mut Desk) -> Status {
    let json = desk.style == Style::Json;
    match verb {
        Verb::List(source) => desk.ask(&source, |file| Ok(answers::listing(file, json))),
        Verb::Entry { source, section, kind, row, column } => {
            desk.ask(&source, |file| answers::entry(file, &section, kind, row, column, json))
        }
        Verb::Walk { source, model } => desk.ask(&source, |file| answers::walk(file, &model, json)),
        Verb::Check(sources) => {
            let mut greatest = Status::Accepted;
            for source in sources.iter() {
                greatest = greatest.max(desk.ask(source, |file| Ok(answers::check(file, json))));
                if !desk.results.is_open() {
                    break;
                }
            }
            greatest
        }
    }
}

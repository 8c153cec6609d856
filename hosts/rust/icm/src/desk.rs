// desk.rs: where answers and refusals are told: which stream each goes to, and how it looks there.
use std::io;

use skumvari::{Intake, Refusal};

use crate::excerpt::{blamed, Excerpt};
use crate::json::{Fields, Json};
use crate::output::{Output, Paint};
use crate::source::{Source, Verdict};
use crate::Status;

#[derive(Clone, Copy, PartialEq, Eq)]
pub enum Style {
    /// For people: the answer alone, or the refusal with the line of the file, which is no result.
    Full,
    /// For people: one line for each file, accepted or refused, and both are results.
    Brief,
    /// For scripts: one object for each file, whatever comes of it.
    Json,
}

/// What an accepted file answers.
pub enum Answer {
    Text(String),
    Json(Fields),
}

/// A question about something that the file does not have.
pub struct Missing {
    pub refusal: Refusal,
    /// What it has instead.
    pub note: String,
}

pub struct Desk<'o> {
    pub results: &'o mut Output,
    pub errors: &'o mut Output,
    pub style: Style,
}

impl Desk<'_> {
    /// Asks a question of a file, and tells what comes of it.
    pub fn ask(&mut self, source: &Source, question: impl FnOnce(&Intake) -> Result<Answer, Missing>) -> Status {
        match source.judge() {
            Verdict::Accepted(file) => match question(&file) {
                Ok(answer) => self.tell(source, answer),
                Err(missing) => self.refuse(source, &missing.refusal, b"", Some(&missing.note)),
            },
            Verdict::Refused { refusal, text } => self.refuse(source, &refusal, &text, None),
            Verdict::Unreadable(error) => self.fail(source, &error),
        }
    }

    fn tell(&mut self, source: &Source, answer: Answer) -> Status {
        match answer {
            Answer::Text(text) if self.style == Style::Brief => {
                let place = self.results.painted(Paint::Place, source);
                let accepted = self.results.painted(Paint::Accepted, "accepted");
                self.results.print(format_args!("{place}: {accepted}, {text}\n"));
            }
            Answer::Text(text) => self.results.print(format_args!("{text}")),
            Answer::Json(fields) => {
                let mut all = vec![("accepted", Json::True)];
                all.extend(fields);
                self.object(source, all);
            }
        }
        Status::Accepted
    }

    fn refuse(&mut self, source: &Source, refusal: &Refusal, text: &[u8], note: Option<&str>) -> Status {
        match self.style {
            Style::Full => {
                tell_refusal(self.errors, source, refusal);
                if let Some(excerpt) = Excerpt::of(text, refusal) {
                    draw(self.errors, refusal.line, &excerpt);
                }
                if let Some(note) = note {
                    let frame = self.errors.painted(Paint::Frame, "      =");
                    self.errors.print(format_args!("{frame} {note}\n"));
                }
            }
            Style::Brief => tell_refusal(self.results, source, refusal),
            Style::Json => {
                let line = blamed(text, refusal).map(|line| Json::told(String::from_utf8_lossy(line)));
                let fields = vec![
                    ("number", Json::Whole(refusal.number)),
                    ("name", refusal.name.into()),
                    ("line", Json::Whole(refusal.line)),
                    ("meaning", refusal.reason().into()),
                    ("text", line.unwrap_or(Json::Null)),
                    ("note", note.into()),
                ];
                self.object(source, vec![("refused", fields.into())]);
            }
        }
        Status::Refused
    }

    fn fail(&mut self, source: &Source, error: &io::Error) -> Status {
        match self.style {
            Style::Full | Style::Brief => {
                self.results.flush();
                self.errors.print(format_args!("icm: cannot read {source}: {error}\n"));
            }
            Style::Json => self.object(source, vec![("error", Json::told(error))]),
        }
        Status::Wrong
    }

    fn object(&mut self, source: &Source, fields: Fields) {
        let mut all = vec![("file", Json::told(source.given()))];
        all.extend(fields);
        self.results.print(format_args!("{}\n", Json::Object(all)));
    }
}

/// `FILE:LINE: refused NUMBER NAME: MEANING`, without a line where none is to blame.
fn tell_refusal(out: &mut Output, source: &Source, refusal: &Refusal) {
    let place = if refusal.line == 0 { source.to_string() } else { format!("{source}:{}", refusal.line) };
    let place = out.painted(Paint::Place, place);
    let refused = out.painted(Paint::Refused, format_args!("refused {} {}", refusal.number, refusal.name));
    out.print(format_args!("{place}: {refused}: {}\n", refusal.reason()));
}

/// The line with its number, and the mark below it.
fn draw(out: &mut Output, line: u64, excerpt: &Excerpt) {
    let bar = out.painted(Paint::Frame, format_args!("{line:>5} |"));
    out.print(format_args!("{bar} {}\n", excerpt.shown));
    let width = line.to_string().len().max(5);
    let bar = out.painted(Paint::Frame, format_args!("{:width$} |", ""));
    let mark = out.painted(Paint::Refused, "^".repeat(excerpt.mark.len()));
    out.print(format_args!("{bar} {:indent$}{mark}\n", "", indent = excerpt.mark.start));
}

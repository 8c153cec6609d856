// source.rs: where a text comes from, a file or standard input, and what the intake says to it.
use std::ffi::OsString;
use std::fmt;
use std::fs::File;
use std::io::{self, Read};
use std::path::PathBuf;

use skumvari::{Intake, Refusal};

/// What stands for standard input.
pub const STANDARD: &str = "-";

#[derive(Debug, PartialEq, Eq)]
pub enum Source {
    Standard,
    File(PathBuf),
}

/// What comes of a source.
pub enum Verdict {
    Accepted(Intake),
    Refused { refusal: Refusal, text: Vec<u8> },
    Unreadable(io::Error),
}

impl Source {
    pub fn new(argument: OsString) -> Source {
        if argument == STANDARD {
            Source::Standard
        } else {
            Source::File(argument.into())
        }
    }

    /// The name as it was given.
    pub fn given(&self) -> String {
        match self {
            Source::Standard => STANDARD.to_string(),
            Source::File(path) => path.display().to_string(),
        }
    }

    pub fn judge(&self) -> Verdict {
        let text = match self.read() {
            Ok(text) => text,
            Err(error) => return Verdict::Unreadable(error),
        };
        // The intake keeps its text, and a refusal is told with a line of it: so one of the two has to be a copy.
        match Intake::read(text.as_slice()) {
            Ok(file) => Verdict::Accepted(file),
            Err(refusal) => Verdict::Refused { refusal, text },
        }
    }

    /// The bytes; of a text that is too long no more than it takes to refuse it.
    fn read(&self) -> io::Result<Vec<u8>> {
        let most = Intake::TEXT_MOST as u64 + 1;
        let mut text = Vec::new();
        match self {
            Source::Standard => io::stdin().lock().take(most).read_to_end(&mut text)?,
            Source::File(path) => File::open(path)?.take(most).read_to_end(&mut text)?,
        };
        Ok(text)
    }
}

/// As people are told it.
impl fmt::Display for Source {
    fn fmt(&self, out: &mut fmt::Formatter<'_>) -> fmt::Result {
        match self {
            Source::Standard => out.write_str("<stdin>"),
            Source::File(path) => write!(out, "{}", path.display()),
        }
    }
}

// output.rs: the two streams that are printed to. Printing does not fail: the first failure is kept until the end, and
// nothing is written after it. So a reader that goes away, as `head` does, ends the command quietly.
use std::env;
use std::fmt::{Arguments, Display};
use std::io::{self, BufWriter, IsTerminal, LineWriter, Write};

/// How words are painted where there is colour: by the codes of terminals.
#[derive(Clone, Copy)]
pub enum Paint {
    /// A file and a line.
    Place,
    Accepted,
    Refused,
    /// What stands about an excerpt.
    Frame,
}

impl Paint {
    fn code(self) -> &'static str {
        match self {
            Paint::Place => "1",
            Paint::Accepted => "32",
            Paint::Refused => "1;31",
            Paint::Frame => "1;34",
        }
    }
}

pub struct Output {
    stream: Box<dyn Write>,
    failure: Option<io::Error>,
    has_colour: bool,
}

impl Output {
    /// Standard output: at a terminal line by line, as people read, and else in great pieces.
    pub fn results() -> Output {
        let is_terminal = io::stdout().is_terminal();
        let stream: Box<dyn Write> =
            if is_terminal { Box::new(io::stdout()) } else { Box::new(BufWriter::new(io::stdout())) };
        Output { stream, failure: None, has_colour: is_terminal && is_colour_wanted() }
    }

    /// Standard error, line by line.
    pub fn errors() -> Output {
        let has_colour = io::stderr().is_terminal() && is_colour_wanted();
        Output { stream: Box::new(LineWriter::new(io::stderr())), failure: None, has_colour }
    }

    pub fn print(&mut self, words: Arguments) {
        if self.failure.is_none() {
            self.failure = self.stream.write_fmt(words).err();
        }
    }

    pub fn painted(&self, paint: Paint, words: impl Display) -> String {
        if self.has_colour {
            format!("\x1b[{}m{words}\x1b[0m", paint.code())
        } else {
            words.to_string()
        }
    }

    /// Whether what is printed still goes anywhere.
    pub fn is_open(&self) -> bool {
        self.failure.is_none()
    }

    /// Writes what is left, so that it stands before what another stream is told next.
    pub fn flush(&mut self) {
        if self.failure.is_none() {
            self.failure = self.stream.flush().err();
        }
    }

    /// Writes what is left, and tells the first failure.
    pub fn finish(mut self) -> io::Result<()> {
        self.flush();
        self.failure.map_or(Ok(()), Err)
    }
}

/// People turn colour off by NO_COLOR, which may hold anything, and some terminals have none.
fn is_colour_wanted() -> bool {
    let is_dumb = env::var_os("TERM").map_or(true, |terminal| terminal == "dumb");
    let is_unwanted = env::var_os("NO_COLOR").is_some_and(|value| !value.is_empty());
    !is_dumb && !is_unwanted
}

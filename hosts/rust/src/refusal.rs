// refusal.rs: what is wrong, as the paper numbers it: the number, its name, its meaning and the line to blame.
// Also the errors of questions by name and of opening a file, which may fail for other reasons too.
use std::fmt;
use std::io;

/// What the paper's table of refusals says of each number.
const NUMBERS: [(u64, &str, &str); 30] = [
    (1, "SIZE", "text over 1,048,576 bytes"),
    (2, "BYTE", "byte other than 0x20 to 0x7E, TAB, LF, or CR right before LF"),
    (3, "LONG", "line over 120 characters without its terminator"),
    (4, "UNENDED", "last line has no LF"),
    (5, "HEADER", "no [Begin Header] line"),
    (6, "KEYWORD", "bad bracket"),
    (7, "UNKNOWN", "keyword that ICM 1.1 does not have"),
    (8, "LATER", "keyword that is not taken yet"),
    (9, "PLACE", "keyword misplaced, repeated, or a required part missing when its block closes"),
    (10, "END", "text stops before [End]"),
    (11, "ARGUMENT", "argument missing, surplus or not allowed"),
    (12, "LINE", "line that its place does not take"),
    (13, "NUMBER", "malformed number or integer"),
    (14, "RANGE", "number or integer out of bounds"),
    (15, "FORK", "fork nested deeper than 8, Endfork with none open, or path closed with one open"),
    (16, "SHAPE", "matrix of the wrong shape, or more pins than the grid has places"),
    (17, "LIMIT", "count above its bound"),
    (18, "ROOM", "table shorter than the words needed"),
    (19, "TWICE", "second of one name within models, maps, sections, list or one map's pins"),
    (20, "LIST", "model not listed, or listed without one"),
    (21, "NOMAP", "no pin map of that name on a later line"),
    (22, "SIDE", "two ends of a path on one map, with Side lacking at either or the same"),
    (23, "NOSECTION", "no such section"),
    (24, "METHOD", "Mult with a Distributed section, or Len with a Lumped one"),
    (25, "KIND", "step of an SLM model over a section with a form that is not Diagonal_matrix"),
    (26, "COUNT", "pins or conductors that differ from the pins of the path's first map"),
    (27, "UNUSED", "section that no step uses"),
    (29, "SGR", "SGR in a model that is not SLM_general"),
    (30, "TABLE", "question over an unsound table"),
    (31, "NOSUCH", "section, kind, row, column or walk place out of range"),
];

/// The number of a question about what is not there.
const NOSUCH: u64 = 31;

/// A refusal of the intake or of a question.
#[derive(Clone, Copy, Debug, PartialEq, Eq, Hash)]
#[non_exhaustive]
pub struct Refusal {
    /// The paper's number: 1 to 27 or 29 from the intake, 30 or 31 from a question.
    pub number: u64,
    /// The paper's name of the number, such as `ROOM`.
    pub name: &'static str,
    /// The line to blame, from 1; 0 where no line is to blame.
    pub line: u64,
}

impl Refusal {
    pub(crate) fn new(number: u64, line: u64) -> Refusal {
        Refusal { number, name: meaning(number).0, line }
    }

    /// What the number means, in one sentence without a period.
    pub fn reason(&self) -> &'static str {
        meaning(self.number).1
    }
}

fn meaning(number: u64) -> (&'static str, &'static str) {
    match NUMBERS.iter().find(|(known, _, _)| *known == number) {
        Some((_, name, reason)) => (name, reason),
        None => ("UNKNOWN NUMBER", "a number that this version does not know"),
    }
}

impl fmt::Display for Refusal {
    fn fmt(&self, out: &mut fmt::Formatter<'_>) -> fmt::Result {
        write!(out, "refused {} {}: {}", self.number, self.name, self.reason())?;
        if self.line != 0 {
            write!(out, ", line {}", self.line)?;
        }
        Ok(())
    }
}

impl std::error::Error for Refusal {}

/// Why a question that names a model or a section has no answer.
#[derive(Clone, Debug, PartialEq, Eq)]
#[non_exhaustive]
pub enum QuestionError {
    /// The file has no model of this name.
    NoModel(String),
    /// The file has no section of this name.
    NoSection(String),
    /// The question is refused: over an accepted file 31, for a row or a column out of range.
    Refused(Refusal),
}

impl QuestionError {
    /// The refusal that the paper has for it: 31 of what is not there, also where it was asked for by its name.
    pub fn refusal(&self) -> Refusal {
        match self {
            QuestionError::NoModel(_) | QuestionError::NoSection(_) => Refusal::new(NOSUCH, 0),
            QuestionError::Refused(refusal) => *refusal,
        }
    }
}

impl fmt::Display for QuestionError {
    fn fmt(&self, out: &mut fmt::Formatter<'_>) -> fmt::Result {
        match self {
            QuestionError::NoModel(name) => write!(out, "no model named {name}"),
            QuestionError::NoSection(name) => write!(out, "no section named {name}"),
            QuestionError::Refused(refusal) => refusal.fmt(out),
        }
    }
}

impl std::error::Error for QuestionError {
    fn source(&self) -> Option<&(dyn std::error::Error + 'static)> {
        match self {
            QuestionError::Refused(refusal) => Some(refusal),
            _ => None,
        }
    }
}

impl From<Refusal> for QuestionError {
    fn from(refusal: Refusal) -> QuestionError {
        QuestionError::Refused(refusal)
    }
}

/// Why a file could not be opened: it could not be read, or the intake refused what it holds.
#[derive(Debug)]
#[non_exhaustive]
pub enum Error {
    /// The file could not be read.
    Io(io::Error),
    /// The intake refused its text.
    Refused(Refusal),
}

impl fmt::Display for Error {
    fn fmt(&self, out: &mut fmt::Formatter<'_>) -> fmt::Result {
        match self {
            Error::Io(error) => error.fmt(out),
            Error::Refused(refusal) => refusal.fmt(out),
        }
    }
}

impl std::error::Error for Error {
    fn source(&self) -> Option<&(dyn std::error::Error + 'static)> {
        match self {
            Error::Io(error) => Some(error),
            Error::Refused(refusal) => Some(refusal),
        }
    }
}

impl From<io::Error> for Error {
    fn from(error: io::Error) -> Error {
        Error::Io(error)
    }
}

impl From<Refusal> for Error {
    fn from(refusal: Refusal) -> Error {
        Error::Refused(refusal)
    }
}

#[cfg(test)]
mod tests {
    use super::*;

    #[test]
    fn a_refusal_is_one_clear_line() {
        assert_eq!(Refusal::new(18, 0).to_string(), "refused 18 ROOM: table shorter than the words needed");
        assert_eq!(Refusal::new(14, 35).to_string(), "refused 14 RANGE: number or integer out of bounds, line 35");
        assert_eq!(Refusal::new(99, 0).name, "UNKNOWN NUMBER");
    }

    #[test]
    fn what_is_not_there_is_refused_31() {
        let told = |error: QuestionError| (error.refusal().number, error.refusal().name, error.refusal().line);
        assert_eq!(told(QuestionError::NoModel("A".to_string())), (31, "NOSUCH", 0));
        assert_eq!(told(QuestionError::NoSection("A".to_string())), (31, "NOSUCH", 0));
        assert_eq!(told(QuestionError::Refused(Refusal::new(30, 0))), (30, "TABLE", 0));
    }

    #[test]
    fn the_numbers_are_those_of_the_header() {
        let header = include_str!("../../../include/skumvari.h");
        let lines = header.lines().filter_map(|line| line.trim().strip_prefix("SKUMVARI_NUMBER_"));
        let numbers = lines.map(|line| {
            let mut words = line.split([' ', ',']);
            let name = words.next().expect("a name");
            (words.nth(1).expect("a number").parse().expect("a number"), name)
        });
        assert!(numbers.eq(NUMBERS.iter().map(|(number, name, _)| (*number, *name))));
    }

    /// Rows of numbers that are not given have no name, or say so.
    #[test]
    fn the_numbers_are_those_of_the_document() {
        let document = include_str!("../../../docs/USING.md");
        let (_, table) = document.split_once("### The numbers").expect("the part about numbers");
        let rows =
            table.lines().skip_while(|line| !line.starts_with("|---")).skip(1).take_while(|line| !line.is_empty());
        let numbers = rows.filter_map(|row| {
            let mut cells = row.split('|').map(str::trim).skip(1);
            let (number, name, meaning) = (cells.next()?.parse().ok()?, cells.next()?, cells.next()?);
            (!name.is_empty() && !meaning.starts_with("Gone")).then_some((number, name))
        });
        assert!(numbers.eq(NUMBERS.iter().map(|(number, name, _)| (*number, *name))));
    }
}

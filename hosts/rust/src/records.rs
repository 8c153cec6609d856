// records.rs: the records of an accepted file's table as a Rust user expects them: models with steps, pin maps with pins, sections.
// All are read from the table directly, without a question, and are cheap to copy: each is an index and a borrow of the intake.
use std::fmt;

use crate::kinds::{Form, Kind, Method, ModelType, PinOrder};
use crate::raw::StepWords;
use crate::{Intake, QuestionError, Value, Walk};

/// The parts of a table, in its order.
#[derive(Clone, Copy, Debug, PartialEq, Eq)]
pub(crate) enum Part {
    Models,
    Steps,
    Maps,
    Pins,
    Sections,
    Matrices,
    Values,
}

impl Part {
    pub const ALL: [Part; 7] =
        [Part::Models, Part::Steps, Part::Maps, Part::Pins, Part::Sections, Part::Matrices, Part::Values];

    /// How many words a record has.
    pub fn width(self) -> usize {
        [5, 6, 7, 2, 8, 5, 3][self as usize]
    }
}

/// One record of the table of an accepted file.
#[derive(Clone, Copy)]
pub(crate) struct Record<'a> {
    pub intake: &'a Intake,
    pub part: Part,
    pub index: usize,
}

impl<'a> Record<'a> {
    fn word(self, place: usize) -> u64 {
        self.intake.words(self.part, self.index)[place]
    }

    fn number(self, place: usize) -> usize {
        self.word(place) as usize
    }

    /// The name of a record that starts with one.
    fn name(self) -> &'a str {
        self.intake.name(self.word(0), self.word(1))
    }

    /// The records of another part in the range that two words of this one give: first, count.
    fn range(self, part: Part, place: usize) -> impl ExactSizeIterator<Item = Record<'a>> + DoubleEndedIterator + 'a {
        let first = self.number(place);
        (first..first + self.number(place + 1)).map(move |index| Record { part, index, ..self })
    }
}

/// Records are equal if they are the same record of the same intake.
impl PartialEq for Record<'_> {
    fn eq(&self, other: &Record<'_>) -> bool {
        std::ptr::eq(self.intake, other.intake) && self.part == other.part && self.index == other.index
    }
}

impl Eq for Record<'_> {}

impl fmt::Debug for Record<'_> {
    fn fmt(&self, out: &mut fmt::Formatter<'_>) -> fmt::Result {
        write!(out, "{:?}[{}]", self.part, self.index)
    }
}

/// A model.
#[derive(Clone, Copy, Debug, PartialEq, Eq)]
pub struct Model<'a>(pub(crate) Record<'a>);

impl<'a> Model<'a> {
    /// The name of `[Begin ICM Model]`.
    pub fn name(self) -> &'a str {
        self.0.name()
    }

    /// `ICM_model_type`.
    pub fn model_type(self) -> ModelType {
        ModelType::ALL[self.0.number(2)]
    }

    /// The steps of the path, in the order of the text, read from the table.
    pub fn steps(self) -> impl ExactSizeIterator<Item = Step<'a>> + DoubleEndedIterator + 'a {
        self.0.range(Part::Steps, 3).map(Step::from_record)
    }

    /// The same steps by the proved walk, each with its depth, as [`Intake::walk`] gives them.
    pub fn walk(self) -> Walk<'a> {
        let Record { intake, index, .. } = self.0;
        Walk::new(intake, intake.kept().path(index).expect("the model is there"))
    }
}

/// A step of a model's path.
#[derive(Clone, Copy, Debug, PartialEq, Eq)]
pub enum Step<'a> {
    /// `Model_pinmap`: an end of the path.
    End {
        /// The line of `Model_pinmap`.
        line: usize,
        /// The map that it names.
        map: PinMap<'a>,
        /// `Side`, where there is one.
        side: Option<&'a str>,
    },
    /// `Section`.
    Section {
        /// Its line.
        line: usize,
        /// The section that it names.
        section: Section<'a>,
        /// `Mult` or `Len`.
        amount: Amount,
    },
    /// `Fork`.
    Fork {
        /// Its line.
        line: usize,
    },
    /// `Endfork`.
    Endfork {
        /// Its line.
        line: usize,
    },
}

/// How much of a section a step goes over.
#[derive(Clone, Copy, Debug, PartialEq, Eq)]
pub enum Amount {
    /// So many repetitions of a Lumped section.
    Mult(u64),
    /// So long a piece of a Distributed section.
    Len(Value),
}

/// Writes the number.
impl fmt::Display for Amount {
    fn fmt(&self, out: &mut fmt::Formatter<'_>) -> fmt::Result {
        match self {
            Amount::Mult(count) => write!(out, "{count}"),
            Amount::Len(length) => write!(out, "{length}"),
        }
    }
}

impl<'a> Step<'a> {
    fn from_record(record: Record<'a>) -> Step<'a> {
        Step::new(record.intake, StepWords::new(record.intake.words(Part::Steps, record.index)))
    }

    /// From the words of a step of this intake, whether of its record or of a walk's answer.
    pub(crate) fn new(intake: &'a Intake, words: StepWords) -> Step<'a> {
        let target = |part| Record { intake, part, index: words.target as usize };
        let line = words.line as usize;
        match words.kind {
            0 => {
                let side = (words.side_length != 0).then(|| intake.name(words.side_start, words.side_length));
                Step::End { line, map: PinMap(target(Part::Maps)), side }
            }
            1 => {
                let section = Section(target(Part::Sections));
                Step::Section { line, section, amount: Amount::new(section.method(), words.amount) }
            }
            2 => Step::Fork { line },
            _ => Step::Endfork { line },
        }
    }

    /// The line of the text that writes the step.
    pub fn line(self) -> usize {
        match self {
            Step::End { line, .. } | Step::Section { line, .. } | Step::Fork { line } | Step::Endfork { line } => line,
        }
    }

    /// The name of the map or the section that the step names.
    pub fn name(self) -> Option<&'a str> {
        match self {
            Step::End { map, .. } => Some(map.name()),
            Step::Section { section, .. } => Some(section.name()),
            Step::Fork { .. } | Step::Endfork { .. } => None,
        }
    }
}

/// Writes the step as a line of the listing, such as `section 14 S 2`.
impl fmt::Display for Step<'_> {
    fn fmt(&self, out: &mut fmt::Formatter<'_>) -> fmt::Result {
        match self {
            Step::End { line, map, side: None } => write!(out, "end {line} {}", map.name()),
            Step::End { line, map, side: Some(side) } => write!(out, "end {line} {} {side}", map.name()),
            Step::Section { line, section, amount } => write!(out, "section {line} {} {amount}", section.name()),
            Step::Fork { line } => write!(out, "fork {line}"),
            Step::Endfork { line } => write!(out, "endfork {line}"),
        }
    }
}

impl Amount {
    fn new(method: Method, word: u64) -> Amount {
        match method {
            Method::Lumped => Amount::Mult(word),
            Method::Distributed => Amount::Len(value(word)),
        }
    }
}

/// A pin map.
#[derive(Clone, Copy, Debug, PartialEq, Eq)]
pub struct PinMap<'a>(pub(crate) Record<'a>);

impl<'a> PinMap<'a> {
    /// The name of `[ICM Pin Map]`.
    pub fn name(self) -> &'a str {
        self.0.name()
    }

    /// `Pin_order`.
    pub fn order(self) -> PinOrder {
        PinOrder::ALL[self.0.number(2)]
    }

    /// `Num_of_rows`; 0 where the map is Un_ordered.
    pub fn rows(self) -> usize {
        self.0.number(3)
    }

    /// `Num_of_columns`; 0 where the map is Un_ordered.
    pub fn columns(self) -> usize {
        self.0.number(4)
    }

    /// The names of the pins, in the order of the text. There is at least one; an ordered map has at most rows times columns, since places of
    /// its grid may be missing, and the file does not say which.
    pub fn pins(self) -> impl ExactSizeIterator<Item = &'a str> + DoubleEndedIterator + 'a {
        self.0.range(Part::Pins, 5).map(Record::name)
    }
}

/// A section with its matrices.
#[derive(Clone, Copy, Debug, PartialEq, Eq)]
pub struct Section<'a>(pub(crate) Record<'a>);

impl<'a> Section<'a> {
    /// The name of `[Begin ICM Section]`.
    pub fn name(self) -> &'a str {
        self.0.name()
    }

    /// `[Derivation Method]`.
    pub fn method(self) -> Method {
        Method::ALL[self.0.number(2)]
    }

    /// N, the number of conductors: how many rows and columns each matrix has.
    pub fn conductors(self) -> usize {
        self.0.number(3)
    }

    /// One entry of a matrix, as [`Intake::entry`] gives it.
    pub fn entry(self, kind: Kind, row: usize, column: usize) -> Result<Value, QuestionError> {
        let Record { intake, index, .. } = self.0;
        Ok(intake.kept().entry(index, kind, row, column)?)
    }

    /// Every entry of a matrix from one question. A kind that is not given has zeros.
    pub fn matrix(self, kind: Kind) -> Matrix {
        let Record { intake, index, .. } = self.0;
        let mut words = vec![0; self.conductors() * self.conductors()];
        let conductors = intake
            .kept()
            .matrix(index, kind, &mut words)
            .expect("a section of an accepted file has every kind of matrix, and the words are N times N");
        Matrix { conductors, values: words.into_iter().map(value).collect() }
    }

    /// How the matrix of a kind is written; `None` where it is not given.
    pub fn written(self, kind: Kind) -> Option<Written<'a>> {
        let matrix = self.0.number(4 + kind as usize).checked_sub(1)?;
        Some(Written { kind, record: Record { part: Part::Matrices, index: matrix, ..self.0 } })
    }

    /// How the matrices that are given are written, in the order of the text.
    pub fn all_written(self) -> impl ExactSizeIterator<Item = Written<'a>> + DoubleEndedIterator + 'a {
        let mut all: Vec<_> = Kind::ALL.into_iter().filter_map(|kind| self.written(kind)).collect();
        all.sort_by_key(|written| written.record.index);
        all.into_iter()
    }
}

/// A matrix as the text writes it.
#[derive(Clone, Copy, Debug, PartialEq, Eq)]
pub struct Written<'a> {
    kind: Kind,
    record: Record<'a>,
}

impl<'a> Written<'a> {
    /// Of which kind it is.
    pub fn kind(self) -> Kind {
        self.kind
    }

    /// In which form it is written.
    pub fn form(self) -> Form {
        Form::new(self.record.number(0), self.record.number(1))
    }

    /// The line of its keyword.
    pub fn line(self) -> usize {
        self.record.number(4)
    }

    /// The numbers that are written, in the order of the text.
    pub fn numbers(self) -> impl ExactSizeIterator<Item = Number> + DoubleEndedIterator + 'a {
        self.record.range(Part::Values, 2).map(|record| Number {
            row: record.number(0),
            column: record.number(1),
            value: value(record.word(2)),
        })
    }
}

/// A number that a matrix writes, with the entry that it is. Rows and columns count from 1; the row is at most the column.
#[derive(Clone, Copy, Debug, PartialEq, Eq)]
pub struct Number {
    /// The row.
    pub row: usize,
    /// The column.
    pub column: usize,
    /// The number.
    pub value: Value,
}

/// Every entry of a matrix.
#[derive(Clone, Debug, PartialEq, Eq)]
pub struct Matrix {
    conductors: usize,
    values: Vec<Value>,
}

impl Matrix {
    /// N: how many rows and columns there are.
    pub fn conductors(&self) -> usize {
        self.conductors
    }

    /// The entry of a row and a column, both from 1 to N.
    pub fn get(&self, row: usize, column: usize) -> Option<Value> {
        let inside = 1..=self.conductors;
        (inside.contains(&row) && inside.contains(&column))
            .then(|| self.values[(row - 1) * self.conductors + column - 1])
    }

    /// The rows, from the first.
    pub fn rows(&self) -> impl ExactSizeIterator<Item = &[Value]> + DoubleEndedIterator {
        self.values.chunks_exact(self.conductors)
    }

    /// All entries, row by row.
    pub fn values(&self) -> &[Value] {
        &self.values
    }
}

fn value(word: u64) -> Value {
    Value::from_word(word).expect("the table of an accepted file has value words where values stand")
}

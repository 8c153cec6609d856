// intake.rs: an accepted file: what its table holds, and what can be asked about it.
// Everything here rests on text and table being kept together and never changed (kept.rs).
use std::fmt;
use std::fs::File;
use std::io::Read;
use std::path::Path;

use crate::kept::Kept;
use crate::records::{Model, Part, PinMap, Record, Section};
use crate::{Error, Kind, QuestionError, Refusal, Value, Walk};

/// An accepted ICM file.
#[derive(Clone)]
pub struct Intake {
    kept: Kept,
    /// Where each part's count stands in the table.
    starts: [usize; Part::ALL.len()],
}

impl Intake {
    /// The bytes that a text may have; a longer one is refused whatever it holds.
    pub const TEXT_MOST: usize = 1_048_576;

    /// Reads a text. It is kept, since the table names places in it.
    pub fn read(text: impl Into<Vec<u8>>) -> Result<Intake, Refusal> {
        let kept = Kept::read(text.into())?;
        let starts = starts(kept.table());
        Ok(Intake { kept, starts })
    }

    /// Reads the file of a name. Of a file that is too long no more is read than it takes to refuse it.
    pub fn open(path: impl AsRef<Path>) -> Result<Intake, Error> {
        let mut text = Vec::new();
        File::open(path)?.take(Intake::TEXT_MOST as u64 + 1).read_to_end(&mut text)?;
        Ok(Intake::read(text)?)
    }

    /// The text that was read.
    pub fn text(&self) -> &[u8] {
        self.kept.text()
    }

    /// The words of the table that are used, for the functions of [`raw`](crate::raw).
    pub fn table(&self) -> &[u64] {
        self.kept.table()
    }

    /// How many words of a table the file needs.
    pub fn words_used(&self) -> usize {
        self.table().len()
    }

    /// Text and table, for questions.
    pub(crate) fn kept(&self) -> &Kept {
        &self.kept
    }

    /// The models, in the order of the text.
    pub fn models(&self) -> impl ExactSizeIterator<Item = Model<'_>> + DoubleEndedIterator + '_ {
        self.records(Part::Models).map(Model)
    }

    /// The model of a name.
    pub fn model(&self, name: &str) -> Option<Model<'_>> {
        self.models().find(|model| model.name() == name)
    }

    /// The pin maps, in the order of the text.
    pub fn maps(&self) -> impl ExactSizeIterator<Item = PinMap<'_>> + DoubleEndedIterator + '_ {
        self.records(Part::Maps).map(PinMap)
    }

    /// The pin map of a name.
    pub fn map(&self, name: &str) -> Option<PinMap<'_>> {
        self.maps().find(|map| map.name() == name)
    }

    /// The sections, in the order of the text.
    pub fn sections(&self) -> impl ExactSizeIterator<Item = Section<'_>> + DoubleEndedIterator + '_ {
        self.records(Part::Sections).map(Section)
    }

    /// The section of a name.
    pub fn section(&self, name: &str) -> Option<Section<'_>> {
        self.sections().find(|section| section.name() == name)
    }

    /// One entry of a section's matrix; rows and columns count from 1. An entry that is not written, or of a kind that is not given, is
    /// zero; entry (j, i) is entry (i, j).
    pub fn entry(&self, section: &str, kind: Kind, row: usize, column: usize) -> Result<Value, QuestionError> {
        let section = self.section(section).ok_or_else(|| QuestionError::NoSection(section.to_string()))?;
        section.entry(kind, row, column)
    }

    /// Walks along a model's path, asking the proved walk step by step. Each step takes the same short time.
    pub fn walk(&self, model: &str) -> Result<Walk<'_>, QuestionError> {
        self.model(model).map(Model::walk).ok_or_else(|| QuestionError::NoModel(model.to_string()))
    }

    /// The listing of the whole file, as the proved function writes it.
    pub fn listing(&self) -> String {
        self.kept.listing()
    }

    /// How many records a part has.
    pub(crate) fn count(&self, part: Part) -> usize {
        self.table()[self.starts[part as usize]] as usize
    }

    /// The words of a record.
    pub(crate) fn words(&self, part: Part, index: usize) -> &[u64] {
        let start = self.starts[part as usize] + 1 + index * part.width();
        &self.table()[start..start + part.width()]
    }

    /// The records of a part.
    pub(crate) fn records(&self, part: Part) -> impl ExactSizeIterator<Item = Record<'_>> + DoubleEndedIterator + '_ {
        (0..self.count(part)).map(move |index| Record { intake: self, part, index })
    }

    /// The bytes of a name.
    pub(crate) fn name(&self, start: u64, length: u64) -> &str {
        let bytes = &self.text()[start as usize..][..length as usize];
        std::str::from_utf8(bytes).expect("the intake accepts only printable ASCII in names")
    }
}

/// Tells the sizes and not every byte and word.
impl fmt::Debug for Intake {
    fn fmt(&self, out: &mut fmt::Formatter<'_>) -> fmt::Result {
        write!(out, "Intake {{ bytes: {}, words: {} }}", self.text().len(), self.words_used())
    }
}

/// Where each part's count stands: a part is its count and then so many records.
fn starts(table: &[u64]) -> [usize; Part::ALL.len()] {
    let mut starts = [0; Part::ALL.len()];
    let mut start = 0;
    for part in Part::ALL {
        starts[part as usize] = start;
        start += 1 + table[start] as usize * part.width();
    }
    starts
}

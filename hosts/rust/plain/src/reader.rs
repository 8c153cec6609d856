//! Reads the lines from the top, hands each to the block it stands in, and gathers the document.
//! The first line that breaks a rule ends the reading.

use crate::document::Document;
use crate::keyword::{self, Keyword, Seen};
use crate::lines::{Line, Lines};
use crate::matrix::MatrixReading;
use crate::model::ModelHead;
use crate::path::PathReading;
use crate::pin_map::PinMapReading;
use crate::refusal::{Refusal, END, HEADER, KEYWORD, LINE};
use crate::words::Piece;

/// The block between a `[Begin ...]` and its `[End ...]`, or a gap between two such blocks.
#[derive(Debug, Clone, Copy, PartialEq, Eq)]
pub(crate) enum Block {
    Header,
    BeforeFamily,
    Family,
    Model,
    BetweenSections,
    Section,
    Finished,
}

/// What takes the lines up to the next keyword.
pub(crate) enum Taker<'a> {
    Nothing,
    Text,
    List,
    Head(ModelHead),
    Path(PathReading),
    PinMap(PinMapReading<'a>),
    Matrix(MatrixReading),
}

pub(crate) struct Reader<'a> {
    pub document: Document<'a>,
    pub block: Block,
    pub taker: Taker<'a>,
    /// The keywords of the family, which go on after each of its models.
    pub family: Seen,
    /// The keywords of the header, the model or the section being read.
    pub seen: Seen,
}

/// Reads a whole text. Every line is checked for its bytes, also those below a refusal or below `[End]`.
pub(crate) fn read(text: &[u8]) -> Result<Document<'_>, Refusal> {
    let mut reader = Reader {
        document: Document::default(),
        block: Block::Header,
        taker: Taker::Nothing,
        family: Seen::default(),
        seen: Seen::default(),
    };
    let mut lines = Lines::over(text);
    let outcome = reader.read(&mut lines);
    lines.check_rest()?;
    outcome.map(|()| reader.document)
}

impl<'a> Reader<'a> {
    fn read(&mut self, lines: &mut Lines<'a>) -> Result<(), Refusal> {
        find_header(lines)?;
        while let Some(line) = lines.next() {
            self.line(line).map_err(|number| Refusal { number, line: line.number })?;
            if self.block == Block::Finished {
                return Ok(());
            }
        }
        Err(Refusal { number: END, line: 0 })
    }

    fn line(&mut self, line: Line<'a>) -> Result<(), u64> {
        let content = line.content.trim_start();
        match content.bytes.first() {
            None => Ok(()),
            Some(b'[') if content.start == line.content.start => self.keyword(content, line.number),
            Some(b'[') if !matches!(self.taker, Taker::Text) => Err(KEYWORD),
            Some(_) => self.take(content, line.number),
        }
    }

    /// Hands a line without a keyword to what takes it.
    fn take(&mut self, content: Piece<'a>, line: u64) -> Result<(), u64> {
        let document = &mut self.document;
        match &mut self.taker {
            Taker::Matrix(matrix) => matrix.take(content, &mut document.values),
            Taker::PinMap(map) => map.take(content, line, &mut document.pins),
            Taker::Path(path) => path.take(content, line, &mut document.steps),
            Taker::Head(head) => head.take(content, line),
            Taker::List => crate::family::take_list_line(content, line, &mut document.list),
            Taker::Text => Ok(()),
            Taker::Nothing => Err(LINE),
        }
    }

    fn keyword(&mut self, content: Piece<'a>, line: u64) -> Result<(), u64> {
        let (keyword, argument) = keyword::read(content)?;
        match self.block {
            Block::Header => self.header_keyword(keyword, argument),
            Block::BeforeFamily => self.before_family_keyword(keyword, argument),
            Block::Family => self.family_keyword(keyword, argument, line),
            Block::Model => self.model_keyword(keyword, argument),
            Block::BetweenSections => self.between_sections_keyword(keyword, argument, line),
            Block::Section => self.section_keyword(keyword, argument, line),
            Block::Finished => Ok(()),
        }
    }
}

/// Passes over everything above the header, bad brackets too.
fn find_header(lines: &mut Lines) -> Result<(), Refusal> {
    while let Some(line) = lines.next() {
        if line.content.bytes.first() != Some(&b'[') {
            continue;
        }
        if let Ok((Keyword::BeginHeader, argument)) = keyword::read(line.content) {
            return argument.nothing().map_err(|number| Refusal { number, line: line.number });
        }
    }
    Err(Refusal { number: HEADER, line: 0 })
}

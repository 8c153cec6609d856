//! The sections below the family: a derivation method first, then one matrix of each kind at most.
//! All matrices of a section have the same conductor count.

use crate::document::{Form, Method, Named, Section, SECTIONS_BOUND};
use crate::keyword::{Keyword, Seen};
use crate::matrix::MatrixReading;
use crate::reader::{Block, Reader, Taker};
use crate::refusal::{ARGUMENT, LIMIT, PLACE};
use crate::words::Piece;

impl<'a> Reader<'a> {
    pub(crate) fn between_sections_keyword(
        &mut self,
        keyword: Keyword,
        argument: Piece<'a>,
        line: u64,
    ) -> Result<(), u64> {
        match keyword {
            Keyword::BeginSection => self.open_section(Named { name: argument.name()?, line }),
            Keyword::End if !self.document.sections.is_empty() => {
                argument.nothing()?;
                self.block = Block::Finished;
                Ok(())
            }
            _ => Err(PLACE),
        }
    }

    fn open_section(&mut self, named: Named<'a>) -> Result<(), u64> {
        if self.document.sections.len() == SECTIONS_BOUND {
            return Err(LIMIT);
        }
        // The method follows as the section's first keyword.
        let section = Section { named, method: Method::Lumped, conductors: None, matrices: [None; 4] };
        self.document.sections.push(section);
        self.block = Block::Section;
        self.seen = Seen::default();
        Ok(())
    }

    /// The order of the steps is that of the numbers: place 9, argument 11, then 16 and 17 of the matrix that ends.
    pub(crate) fn section_keyword(&mut self, keyword: Keyword, argument: Piece<'a>, line: u64) -> Result<(), u64> {
        if let Keyword::Row | Keyword::Bandwidth = keyword {
            return match &mut self.taker {
                Taker::Matrix(matrix) if keyword == Keyword::Row => matrix.row(argument),
                Taker::Matrix(matrix) => matrix.bandwidth(argument),
                _ => Err(PLACE),
            };
        }
        let taker = self.open_in_section(keyword, argument, line)?;
        let ended = std::mem::replace(&mut self.taker, taker);
        if let Taker::Matrix(matrix) = ended {
            self.close_matrix(&matrix)?;
        }
        Ok(())
    }

    fn open_in_section(&mut self, keyword: Keyword, argument: Piece<'a>, line: u64) -> Result<Taker<'a>, u64> {
        if keyword != Keyword::DerivationMethod && !self.seen.has(Keyword::DerivationMethod) {
            return Err(PLACE);
        }
        self.seen.once(keyword)?;
        match keyword {
            Keyword::DerivationMethod => {
                self.section().method = read_method(argument)?;
                Ok(Taker::Nothing)
            }
            Keyword::EndSection => {
                self.check_section_complete()?;
                argument.nothing()?;
                self.block = Block::BetweenSections;
                Ok(Taker::Nothing)
            }
            _ => {
                let kind = matrix_kind(keyword).ok_or(PLACE)?;
                let form = read_form(argument)?;
                Ok(Taker::Matrix(MatrixReading::open(kind, form, line, self.document.values.len())))
            }
        }
    }

    fn section(&mut self) -> &mut Section<'a> {
        self.document.sections.last_mut().expect("a section is open")
    }

    fn check_section_complete(&mut self) -> Result<(), u64> {
        let seen = self.seen;
        let complete = match self.section().method {
            Method::Distributed => seen.has(Keyword::Inductance) && seen.has(Keyword::Capacitance),
            Method::Lumped => MATRIX_KEYWORDS.iter().any(|&keyword| seen.has(keyword)),
        };
        if complete {
            Ok(())
        } else {
            Err(PLACE)
        }
    }

    fn close_matrix(&mut self, matrix: &MatrixReading) -> Result<(), u64> {
        let values = self.document.values.len();
        let index = self.document.matrices.len();
        let section = self.section();
        let conductors = matrix.close(values, section.conductors)?;
        section.conductors = Some(conductors);
        section.matrices[matrix.kind()] = Some(index);
        self.document.matrices.push(matrix.record(values));
        Ok(())
    }
}

/// R, L, G and C in the order of the table.
const MATRIX_KEYWORDS: [Keyword; 4] =
    [Keyword::Resistance, Keyword::Inductance, Keyword::Conductance, Keyword::Capacitance];

fn matrix_kind(keyword: Keyword) -> Option<usize> {
    MATRIX_KEYWORDS.iter().position(|&of_kind| of_kind == keyword)
}

fn read_method(argument: Piece) -> Result<Method, u64> {
    match argument.single()?.bytes {
        b"Lumped" => Ok(Method::Lumped),
        b"Distributed" => Ok(Method::Distributed),
        _ => Err(ARGUMENT),
    }
}

fn read_form(argument: Piece) -> Result<Form, u64> {
    match argument.single()?.bytes {
        b"Diagonal_matrix" => Ok(Form::Diagonal),
        b"Banded_matrix" => Ok(Form::Banded),
        b"Sparse_matrix" => Ok(Form::Sparse),
        b"Full_matrix" => Ok(Form::Full),
        _ => Err(ARGUMENT),
    }
}

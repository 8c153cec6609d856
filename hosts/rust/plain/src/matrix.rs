//! A matrix as it is read: its rows, its numbers and, where it ends, whether they have its form's shape.
//! Numbers go straight to the document's values, each with its row and column.

use crate::document::{Form, Matrix, Value, BANDWIDTH_BOUND, CONDUCTORS_BOUND, VALUES_BOUND};
use crate::number;
use crate::refusal::{LIMIT, LINE, NUMBER, RANGE, SHAPE};
use crate::words::{is_blank, Piece};

#[derive(Debug)]
pub(crate) struct MatrixReading {
    kind: usize,
    form: Form,
    line: u64,
    first_value: usize,
    bandwidth: Option<u64>,
    /// The number of the open `[Row]`, 0 above the first.
    row: u64,
    /// How many numbers each row has, in the forms whose rows are all written.
    row_lengths: Vec<usize>,
    /// The greatest row or column named in a sparse matrix.
    greatest: u64,
    /// The last column named in the open sparse row, 0 if there is none yet.
    last_column: u64,
    /// All sparse columns so far rise and are not below their row.
    columns_rise: bool,
}

impl MatrixReading {
    pub fn open(kind: usize, form: Form, line: u64, first_value: usize) -> MatrixReading {
        MatrixReading {
            kind,
            form,
            line,
            first_value,
            bandwidth: None,
            row: 0,
            row_lengths: Vec::new(),
            greatest: 0,
            last_column: 0,
            columns_rise: true,
        }
    }

    /// R, L, G or C, as an index from 0.
    pub fn kind(&self) -> usize {
        self.kind
    }

    pub fn row(&mut self, argument: Piece) -> Result<(), u64> {
        let row = number::integer(argument.single()?.bytes, 1, CONDUCTORS_BOUND)?;
        let in_order = match self.form {
            Form::Diagonal => false,
            Form::Full => row == self.row + 1,
            Form::Banded => self.bandwidth.is_some() && row == self.row + 1,
            Form::Sparse => row > self.row,
        };
        if !in_order {
            return Err(SHAPE);
        }
        self.row = row;
        self.row_lengths.push(0);
        self.greatest = self.greatest.max(row);
        self.last_column = 0;
        Ok(())
    }

    pub fn bandwidth(&mut self, argument: Piece) -> Result<(), u64> {
        let bandwidth = number::integer(argument.single()?.bytes, 0, BANDWIDTH_BOUND)?;
        // Once there is a row there is a bandwidth too.
        if self.form != Form::Banded || self.bandwidth.is_some() {
            return Err(SHAPE);
        }
        self.bandwidth = Some(bandwidth);
        Ok(())
    }

    /// Takes a data line.
    pub fn take(&mut self, content: Piece, values: &mut Vec<Value>) -> Result<(), u64> {
        match self.form {
            Form::Diagonal => {
                let next = (values.len() - self.first_value) as u32 + 1;
                take_numbers(content.bytes, values, |index| (next + index, next + index))?;
            }
            Form::Full | Form::Banded => {
                let length = self.row_lengths.last_mut().ok_or(LINE)?;
                let row = self.row as u32;
                let next = row + *length as u32;
                *length += take_numbers(content.bytes, values, |index| (row, next + index))?;
            }
            Form::Sparse => self.take_sparse(content, values)?,
        }
        if values.len() > VALUES_BOUND {
            return Err(LIMIT);
        }
        Ok(())
    }

    /// Takes `column value`; the lowest number of the two words counts.
    fn take_sparse(&mut self, content: Piece, values: &mut Vec<Value>) -> Result<(), u64> {
        let (column, rest) = content.split_word();
        let value = rest.single().map_err(|_| LINE)?;
        if self.row == 0 {
            return Err(LINE);
        }
        let (column, word) = match (number::integer(column.bytes, 1, CONDUCTORS_BOUND), number::value(value.bytes)) {
            (Ok(column), Ok(word)) => (column, word),
            (Err(NUMBER), _) | (_, Err(NUMBER)) => return Err(NUMBER),
            _ => return Err(RANGE),
        };
        self.columns_rise &= column > self.last_column && column >= self.row;
        self.last_column = column;
        self.greatest = self.greatest.max(column);
        values.push(Value { row: self.row as u32, column: column as u32, word });
        Ok(())
    }

    /// The matrix ends with `values` values read in all: N, if it has its shape and agrees with the section's N.
    pub fn close(&self, values: usize, section: Option<u64>) -> Result<u64, u64> {
        let count = values - self.first_value;
        let rows = self.row_lengths.len();
        let (in_shape, conductors) = match self.form {
            Form::Diagonal => (true, count as u64),
            Form::Full => (self.rows_reach(rows), rows as u64),
            Form::Banded => (self.rows_reach(self.bandwidth.unwrap_or(0) as usize), rows as u64),
            Form::Sparse => (self.columns_rise, self.greatest),
        };
        if !in_shape || count == 0 || section.is_some_and(|section| section != conductors) {
            return Err(SHAPE);
        }
        if conductors > CONDUCTORS_BOUND {
            return Err(LIMIT);
        }
        Ok(conductors)
    }

    /// Every row runs from its diagonal over `reach` more columns, or to the last column.
    fn rows_reach(&self, reach: usize) -> bool {
        let below = (0..self.row_lengths.len()).rev();
        self.row_lengths.iter().zip(below).all(|(&length, below)| length == 1 + reach.min(below))
    }

    /// The record of the ended matrix.
    pub fn record(&self, values: usize) -> Matrix {
        Matrix {
            form: self.form,
            bandwidth: self.bandwidth.unwrap_or(0),
            first_value: self.first_value,
            values: values - self.first_value,
            line: self.line,
        }
    }
}

/// Takes all numbers of a line and counts them; the lowest number of refusal on the line counts, not the first.
fn take_numbers(mut bytes: &[u8], values: &mut Vec<Value>, place: impl Fn(u32) -> (u32, u32)) -> Result<usize, u64> {
    let mut count = 0;
    let mut in_range = true;
    loop {
        while let [byte, rest @ ..] = bytes {
            if !is_blank(*byte) {
                break;
            }
            bytes = rest;
        }
        if bytes.is_empty() {
            break;
        }
        let (outcome, rest) = number::scan(bytes);
        match outcome {
            Ok(word) => {
                let (row, column) = place(count);
                values.push(Value { row, column, word });
            }
            Err(RANGE) => in_range = false,
            Err(number) => return Err(number),
        }
        count += 1;
        bytes = rest;
    }
    if in_range {
        Ok(count as usize)
    } else {
        Err(RANGE)
    }
}

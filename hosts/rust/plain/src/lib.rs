//! A plain reading of ICM 1.1 intake files: a text and a lent table go in, words used or a refusal come out.
//! Beside the intake stand the questions over a filled table (soundness, entry, walk step), its listing and the
//! doubles of its values.

#![forbid(unsafe_code)]
#![warn(missing_docs)]

mod document;
mod double;
mod family;
mod header;
mod keyword;
mod lines;
mod listing;
mod matrix;
mod model;
mod number;
mod path;
mod pin_map;
mod questions;
mod reader;
mod refusal;
mod rules;
mod section;
mod sound;
mod table;
mod words;

pub use double::{double_of, pair_of};
pub use listing::listing;
pub use number::value;
pub use questions::{entry, step, Place, Walked};
pub use sound::sound;

use refusal::Refusal;

/// The longest text that is read, in bytes.
const TEXT_BOUND: usize = 1_048_576;

/// What an intake says of a text.
#[derive(Debug, Clone, Copy, PartialEq, Eq)]
pub enum Answer {
    /// The text is accepted; the count of table words its layout uses.
    Accepted(usize),
    /// The text is refused: the number of the rule it breaks, and the line (0 where no line is to blame).
    Refused(u64, u64),
}

/// Reads `text` and lays it out in `table`, which may be of any length.
///
/// An accepted text fills the first words of the table and zeroes the others; a refused one zeroes all of them.
pub fn intake(text: &[u8], table: &mut [u64]) -> Answer {
    match try_intake(text, table) {
        Ok(used) => {
            table[used..].fill(0);
            Answer::Accepted(used)
        }
        Err(Refusal { number, line }) => {
            table.fill(0);
            Answer::Refused(number, line)
        }
    }
}

/// The groups of rules in their order: size; lines and what they hold; room; what goes together across the file.
fn try_intake(text: &[u8], table: &mut [u64]) -> Result<usize, Refusal> {
    if text.len() > TEXT_BOUND {
        return Err(Refusal { number: refusal::SIZE, line: 0 });
    }
    let document = reader::read(text)?;
    let needed = table::words_needed(&document);
    if needed > table.len() {
        return Err(Refusal { number: refusal::ROOM, line: 0 });
    }
    let targets = rules::resolve(&document)?;
    table::write(&document, &targets, table);
    Ok(needed)
}

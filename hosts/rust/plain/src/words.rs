//! Pieces of the text that remember where they start, and how a piece falls into words.
//! Also the shapes an argument can have: nothing, any text, one word, a name, a word after `=`.

use crate::refusal::ARGUMENT;

/// Some bytes of the text and their offset in it.
#[derive(Debug, Clone, Copy)]
pub(crate) struct Piece<'a> {
    pub start: usize,
    pub bytes: &'a [u8],
}

pub(crate) fn is_blank(byte: u8) -> bool {
    byte == b' ' || byte == b'\t'
}

impl<'a> Piece<'a> {
    /// The piece parted at `index`, which must not lie behind its end.
    fn split_at(self, index: usize) -> (Piece<'a>, Piece<'a>) {
        let (front, back) = self.bytes.split_at(index);
        (Piece { start: self.start, bytes: front }, Piece { start: self.start + index, bytes: back })
    }

    /// The piece without its first `count` bytes.
    pub fn skip(self, count: usize) -> Piece<'a> {
        self.split_at(count).1
    }

    /// The piece parted before the first byte that `ends` names, or at its end.
    pub fn split_before(self, ends: impl Fn(u8) -> bool) -> (Piece<'a>, Piece<'a>) {
        let index = self.bytes.iter().position(|&byte| ends(byte)).unwrap_or(self.bytes.len());
        self.split_at(index)
    }

    pub fn trim_start(self) -> Piece<'a> {
        self.split_before(|byte| !is_blank(byte)).1
    }

    pub fn trim(self) -> Piece<'a> {
        let front = self.trim_start();
        let length = front.bytes.iter().rposition(|&byte| !is_blank(byte)).map_or(0, |last| last + 1);
        front.split_at(length).0
    }

    /// The first word, empty if there is none, and what follows it.
    pub fn split_word(self) -> (Piece<'a>, Piece<'a>) {
        self.trim_start().split_before(is_blank)
    }

    pub fn is_empty(self) -> bool {
        self.bytes.is_empty()
    }

    /// Holds no word at all.
    pub fn nothing(self) -> Result<(), u64> {
        if self.trim_start().is_empty() {
            Ok(())
        } else {
            Err(ARGUMENT)
        }
    }

    /// Text of at least one word, without the blanks about it.
    pub fn text(self) -> Result<Piece<'a>, u64> {
        let text = self.trim();
        if text.is_empty() {
            Err(ARGUMENT)
        } else {
            Ok(text)
        }
    }

    /// Exactly one word.
    pub fn single(self) -> Result<Piece<'a>, u64> {
        let (word, rest) = self.split_word();
        if word.is_empty() {
            return Err(ARGUMENT);
        }
        rest.nothing()?;
        Ok(word)
    }

    /// Exactly one word that may name a model, map, section or side.
    pub fn name(self) -> Result<Piece<'a>, u64> {
        let word = self.single()?;
        match word.bytes {
            b"POWER" | b"GND" | b"NC" | b"NA" => Err(ARGUMENT),
            _ => Ok(word),
        }
    }

    /// What follows an `=` that must come first.
    pub fn after_equals(self) -> Result<Piece<'a>, u64> {
        let rest = self.trim_start();
        if rest.bytes.first() == Some(&b'=') {
            Ok(rest.skip(1))
        } else {
            Err(ARGUMENT)
        }
    }

    /// The key of a subparameter line and the rest. An `=` ends the key only in the forms that are written with one.
    pub fn split_key(self) -> (&'a [u8], Piece<'a>) {
        let (key, rest) = self.split_before(|byte| is_blank(byte) || byte == b'=');
        match key.bytes {
            b"Ref_impedance" | b"Num_of_rows" | b"Num_of_columns" => (key.bytes, rest),
            _ => {
                let (word, rest) = self.split_word();
                (word.bytes, rest)
            }
        }
    }
}

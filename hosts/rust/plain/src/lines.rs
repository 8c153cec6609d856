//! The lines of the text: each is checked for its bytes, its length and its terminator as it is found.
//! A line is handed on without its terminator and its comment.

use crate::refusal::{Refusal, BYTE, LONG, UNENDED};
use crate::words::Piece;

/// The longest line, in bytes without the terminator.
const LINE_BOUND: usize = 120;

/// A line of the text, counted from 1.
#[derive(Debug, Clone, Copy)]
pub(crate) struct Line<'a> {
    pub number: u64,
    pub content: Piece<'a>,
}

/// Walks over the lines; stops for good at one that breaks a rule of its own.
pub(crate) struct Lines<'a> {
    text: &'a [u8],
    position: usize,
    number: u64,
    broken: Option<Refusal>,
}

impl<'a> Lines<'a> {
    pub fn over(text: &'a [u8]) -> Lines<'a> {
        Lines { text, position: 0, number: 0, broken: None }
    }

    /// The next line, or nothing at the end of the text and after a broken line.
    pub fn next(&mut self) -> Option<Line<'a>> {
        if self.position == self.text.len() || self.broken.is_some() {
            return None;
        }
        self.number += 1;
        let rest = &self.text[self.position..];
        let content = run_length(rest, |byte| is_allowed(byte) & (byte != b'|'));
        let length = match &rest[content..] {
            comment @ [b'|', ..] => content + run_length(comment, is_allowed),
            _ => content,
        };
        let terminator = match &rest[length..] {
            [b'\n', ..] => 1,
            [b'\r', b'\n', ..] => 2,
            [] => return self.break_with(if length > LINE_BOUND { LONG } else { UNENDED }),
            _ => return self.break_with(BYTE),
        };
        if length > LINE_BOUND {
            return self.break_with(LONG);
        }
        let content = Piece { start: self.position, bytes: &rest[..content] };
        self.position += length + terminator;
        Some(Line { number: self.number, content })
    }

    /// Looks through all lines not walked yet. A broken line goes before whatever was found in the lines above it.
    pub fn check_rest(&mut self) -> Result<(), Refusal> {
        while self.next().is_some() {}
        self.broken.map_or(Ok(()), Err)
    }

    fn break_with(&mut self, number: u64) -> Option<Line<'a>> {
        self.broken = Some(Refusal { number, line: self.number });
        None
    }
}

/// Bytes that are looked at together: a whole chunk takes a few instructions, and most lines are longer than one.
const CHUNK: usize = 16;

/// How many bytes from the front belong to a run.
fn run_length(bytes: &[u8], belongs: impl Fn(u8) -> bool) -> usize {
    let (chunks, _) = bytes.as_chunks::<CHUNK>();
    let whole = chunks.iter().take_while(|chunk| chunk.iter().fold(true, |all, &byte| all & belongs(byte)));
    let length = whole.count() * CHUNK;
    let tail = &bytes[length..];
    length + tail.iter().position(|&byte| !belongs(byte)).unwrap_or(tail.len())
}

/// Whether a byte may stand in a line, before its terminator. Without branches, so that a chunk can be judged at once.
fn is_allowed(byte: u8) -> bool {
    (byte.wrapping_sub(b' ') <= b'~' - b' ') | (byte == b'\t')
}

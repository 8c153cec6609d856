//! A path: an end, items of which the first is a section, and the end that closes it.
//! A fork block holds items and perhaps one end as its last; blocks lie in each other to a depth of 8.

use crate::document::{Action, Amount, Step, DEPTH_BOUND, MULTIPLE_BOUND, STEPS_BOUND};
use crate::number;
use crate::refusal::{ARGUMENT, FORK, LIMIT, LINE, PLACE, RANGE};
use crate::words::{is_blank, Piece};

/// What the path may go on with.
#[derive(Debug, Clone, Copy, PartialEq, Eq, Default)]
enum Phase {
    #[default]
    FirstEnd,
    FirstSection,
    Items,
    /// The open fork block has its end, so that only an Endfork may follow.
    BlockEnded,
    Closed,
}

#[derive(Debug, Default)]
pub(crate) struct PathReading {
    phase: Phase,
    depth: u64,
    /// The last line read was a Model_pinmap.
    takes_side: bool,
}

impl PathReading {
    /// On one line 15 goes first, then a wrong rest (11), a wrong place (12), a bad number (13, 14) and the limit (17).
    pub fn take<'a>(&mut self, content: Piece<'a>, line: u64, steps: &mut Vec<Step<'a>>) -> Result<(), u64> {
        let (key, rest) = content.split_key();
        let takes_side = std::mem::replace(&mut self.takes_side, false);
        if key == b"Side" && (takes_side || self.phase != Phase::Closed) {
            return add_side(rest, takes_side, steps);
        }
        if self.phase == Phase::Closed {
            return Err(LINE);
        }
        let action = match key {
            b"Model_pinmap" => self.end(rest)?,
            b"Section" => self.section(rest)?,
            b"Fork" => self.fork(rest)?,
            b"Endfork" => self.endfork(rest)?,
            _ => return Err(LINE),
        };
        if steps.len() == STEPS_BOUND {
            return Err(LIMIT);
        }
        steps.push(Step { action, line });
        Ok(())
    }

    /// A path ends at a keyword: with no fork open, and closed by its last end.
    pub fn close(&self) -> Result<(), u64> {
        match self.phase {
            _ if self.depth > 0 => Err(FORK),
            Phase::Closed => Ok(()),
            _ => Err(PLACE),
        }
    }

    fn end<'a>(&mut self, rest: Piece<'a>) -> Result<Action<'a>, u64> {
        let map = rest.name()?;
        self.phase = match self.phase {
            Phase::FirstEnd => Phase::FirstSection,
            Phase::Items if self.depth == 0 => Phase::Closed,
            Phase::Items => Phase::BlockEnded,
            _ => return Err(LINE),
        };
        self.takes_side = true;
        Ok(Action::End { map, side: None })
    }

    fn section<'a>(&mut self, rest: Piece<'a>) -> Result<Action<'a>, u64> {
        let (key, number, section) = split_section(rest)?;
        if !matches!(self.phase, Phase::FirstSection | Phase::Items) {
            return Err(LINE);
        }
        self.phase = Phase::Items;
        let amount = match key {
            Key::Mult => Amount::Multiple(number::integer(number.bytes, 1, MULTIPLE_BOUND)?),
            Key::Len => Amount::Length(read_length(number.bytes)?),
        };
        Ok(Action::Section { section, amount })
    }

    fn fork(&mut self, rest: Piece) -> Result<Action<'static>, u64> {
        if self.depth == DEPTH_BOUND {
            return Err(FORK);
        }
        rest.nothing()?;
        if self.phase != Phase::Items {
            return Err(LINE);
        }
        self.depth += 1;
        Ok(Action::Fork)
    }

    fn endfork(&mut self, rest: Piece) -> Result<Action<'static>, u64> {
        if self.depth == 0 {
            return Err(FORK);
        }
        rest.nothing()?;
        self.depth -= 1;
        self.phase = Phase::Items;
        Ok(Action::Endfork)
    }
}

/// Gives the last step, which is an end if the line stands in its place, the side of this line.
fn add_side<'a>(rest: Piece<'a>, in_place: bool, steps: &mut [Step<'a>]) -> Result<(), u64> {
    let name = rest.name()?;
    match steps.last_mut() {
        Some(Step { action: Action::End { side, .. }, .. }) if in_place => {
            *side = Some(name);
            Ok(())
        }
        _ => Err(LINE),
    }
}

enum Key {
    Mult,
    Len,
}

/// Parts `Mult=n name` and `Len=v name`; the number is not judged yet.
fn split_section(rest: Piece<'_>) -> Result<(Key, Piece<'_>, Piece<'_>), u64> {
    let (key, rest) = rest.trim_start().split_before(|byte| is_blank(byte) || byte == b'=');
    let key = match key.bytes {
        b"Mult" => Key::Mult,
        b"Len" => Key::Len,
        _ => return Err(ARGUMENT),
    };
    let (number, rest) = rest.after_equals()?.split_word();
    Ok((key, number, rest.name()?))
}

/// The value word of a length, which is above zero.
fn read_length(word: &[u8]) -> Result<u64, u64> {
    let value = number::value(word)?;
    if number::is_positive_word(value) {
        Ok(value)
    } else {
        Err(RANGE)
    }
}

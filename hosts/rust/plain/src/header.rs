//! The header's keywords: the version first, a file name and revision, and the optional ones.
//! Each stands at most once.

use crate::keyword::Keyword;
use crate::reader::{Block, Reader, Taker};
use crate::refusal::{ARGUMENT, PLACE};
use crate::words::Piece;

/// The longest date, in characters.
const DATE_BOUND: usize = 40;

impl<'a> Reader<'a> {
    pub(crate) fn header_keyword(&mut self, keyword: Keyword, argument: Piece<'a>) -> Result<(), u64> {
        if keyword != Keyword::Version && !self.seen.has(Keyword::Version) {
            return Err(PLACE);
        }
        self.seen.once(keyword)?;
        self.taker = Taker::Nothing;
        match keyword {
            Keyword::Version => accept(argument.text()?.bytes == b"1.1"),
            Keyword::FileName => accept(is_file_name(argument.text()?.bytes)),
            Keyword::Date => accept(argument.text()?.bytes.len() <= DATE_BOUND),
            Keyword::FileRevision | Keyword::Redistribution => argument.text().map(|_| ()),
            Keyword::Source
            | Keyword::Notes
            | Keyword::Disclaimer
            | Keyword::Copyright
            | Keyword::Support
            | Keyword::RedistributionText => {
                self.taker = Taker::Text;
                Ok(())
            }
            Keyword::EndHeader => self.end_header(argument),
            _ => Err(PLACE),
        }
    }

    fn end_header(&mut self, argument: Piece<'a>) -> Result<(), u64> {
        if !self.seen.has(Keyword::FileName) || !self.seen.has(Keyword::FileRevision) {
            return Err(PLACE);
        }
        argument.nothing()?;
        self.block = Block::BeforeFamily;
        Ok(())
    }
}

fn accept(allowed: bool) -> Result<(), u64> {
    if allowed {
        Ok(())
    } else {
        Err(ARGUMENT)
    }
}

/// A base, one period and 1 to 3 more, all of small letters, digits, underscore and hyphen.
fn is_file_name(text: &[u8]) -> bool {
    let is_part = |part: &[u8]| {
        !part.is_empty() && part.iter().all(|byte| matches!(byte, b'a'..=b'z' | b'0'..=b'9' | b'_' | b'-'))
    };
    match text.iter().position(|&byte| byte == b'.') {
        Some(period) => is_part(&text[..period]) && is_part(&text[period + 1..]) && text.len() - period <= 4,
        None => false,
    }
}

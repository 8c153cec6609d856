//! Keywords in brackets: how one is written, and which of them are known.
//! Case does not count and an underscore is as good as a space.

use crate::refusal::{KEYWORD, LATER, PLACE, UNKNOWN};
use crate::words::{is_blank, Piece};

/// The keywords that are read now.
#[derive(Debug, Clone, Copy, PartialEq, Eq)]
pub(crate) enum Keyword {
    BeginHeader,
    Version,
    FileName,
    FileRevision,
    Date,
    Source,
    Notes,
    Disclaimer,
    Copyright,
    Support,
    Redistribution,
    RedistributionText,
    EndHeader,
    BeginFamily,
    Manufacturer,
    FamilyDescription,
    ModelList,
    BeginModel,
    ModelDescription,
    TreePath,
    EndModel,
    PinMap,
    EndFamily,
    BeginSection,
    DerivationMethod,
    Resistance,
    Inductance,
    Conductance,
    Capacitance,
    Bandwidth,
    Row,
    EndSection,
    End,
}

/// Longer than every known keyword.
const BUFFER_SIZE: usize = 32;

/// Reads the keyword that opens `line` and hands back what follows its bracket.
pub(crate) fn read(line: Piece<'_>) -> Result<(Keyword, Piece<'_>), u64> {
    let close = line.bytes.iter().position(|&byte| byte == b']').ok_or(KEYWORD)?;
    let argument = line.skip(close + 1);
    let inside = &line.bytes[1..close];
    if !is_well_formed(inside) || argument.bytes.first().is_some_and(|&byte| !is_blank(byte)) {
        return Err(KEYWORD);
    }
    let mut buffer = [0; BUFFER_SIZE];
    let folded = buffer.get_mut(..inside.len()).ok_or(UNKNOWN)?;
    for (to, from) in folded.iter_mut().zip(inside) {
        *to = if *from == b'_' { b' ' } else { from.to_ascii_lowercase() };
    }
    Ok((find(folded)?, argument))
}

/// Words of letters and digits parted by one separator each, a letter first; one word may have a hyphen.
fn is_well_formed(inside: &[u8]) -> bool {
    inside.first().is_some_and(u8::is_ascii_alphabetic)
        && inside.split(|&byte| byte == b' ' || byte == b'_').all(|word| {
            !word.is_empty()
                && (word.iter().all(u8::is_ascii_alphanumeric) || word.eq_ignore_ascii_case(b"s-parameter"))
        })
}

/// The keyword of this folded spelling. The one that matrices repeat comes first.
fn find(folded: &[u8]) -> Result<Keyword, u64> {
    Ok(match folded {
        b"row" => Keyword::Row,
        b"begin header" => Keyword::BeginHeader,
        b"icm ver" => Keyword::Version,
        b"file name" => Keyword::FileName,
        b"file rev" => Keyword::FileRevision,
        b"date" => Keyword::Date,
        b"source" => Keyword::Source,
        b"notes" => Keyword::Notes,
        b"disclaimer" => Keyword::Disclaimer,
        b"copyright" => Keyword::Copyright,
        b"support" => Keyword::Support,
        b"redistribution" => Keyword::Redistribution,
        b"redistribution text" => Keyword::RedistributionText,
        b"end header" => Keyword::EndHeader,
        b"begin icm family" => Keyword::BeginFamily,
        b"manufacturer" => Keyword::Manufacturer,
        b"icm family description" => Keyword::FamilyDescription,
        b"icm model list" => Keyword::ModelList,
        b"begin icm model" => Keyword::BeginModel,
        b"icm model description" => Keyword::ModelDescription,
        b"tree path description" => Keyword::TreePath,
        b"end icm model" => Keyword::EndModel,
        b"icm pin map" => Keyword::PinMap,
        b"end icm family" => Keyword::EndFamily,
        b"begin icm section" => Keyword::BeginSection,
        b"derivation method" => Keyword::DerivationMethod,
        b"resistance matrix" => Keyword::Resistance,
        b"inductance matrix" => Keyword::Inductance,
        b"conductance matrix" => Keyword::Conductance,
        b"capacitance matrix" => Keyword::Capacitance,
        b"bandwidth" => Keyword::Bandwidth,
        b"end icm section" => Keyword::EndSection,
        b"end" => Keyword::End,
        b"comment char"
        | b"nodal path description"
        | b"icm node map"
        | b"icm swath parameters"
        | b"icm swath pin numbers"
        | b"frequency"
        | b"icm s-parameter" => return Err(LATER),
        _ => return Err(UNKNOWN),
    })
}

/// The keywords that have stood in a block, for those that may stand there only once.
#[derive(Debug, Clone, Copy, Default)]
pub(crate) struct Seen(u64);

impl Seen {
    pub fn has(self, keyword: Keyword) -> bool {
        self.0 & 1 << keyword as u64 != 0
    }

    /// Notes a keyword that must not have stood before.
    pub fn once(&mut self, keyword: Keyword) -> Result<(), u64> {
        if self.has(keyword) {
            return Err(PLACE);
        }
        self.0 |= 1 << keyword as u64;
        Ok(())
    }
}

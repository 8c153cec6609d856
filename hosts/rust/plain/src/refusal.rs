//! The numbers of refusal, under the names that go with them.
//! A refusal is one such number with the line it is given at.

/// A broken rule and where; line 0 where no line is to blame.
#[derive(Debug, Clone, Copy, PartialEq, Eq)]
pub(crate) struct Refusal {
    pub number: u64,
    pub line: u64,
}

pub(crate) const SIZE: u64 = 1;
pub(crate) const BYTE: u64 = 2;
pub(crate) const LONG: u64 = 3;
pub(crate) const UNENDED: u64 = 4;
pub(crate) const HEADER: u64 = 5;
pub(crate) const KEYWORD: u64 = 6;
pub(crate) const UNKNOWN: u64 = 7;
pub(crate) const LATER: u64 = 8;
pub(crate) const PLACE: u64 = 9;
pub(crate) const END: u64 = 10;
pub(crate) const ARGUMENT: u64 = 11;
pub(crate) const LINE: u64 = 12;
pub(crate) const NUMBER: u64 = 13;
pub(crate) const RANGE: u64 = 14;
pub(crate) const FORK: u64 = 15;
pub(crate) const SHAPE: u64 = 16;
pub(crate) const LIMIT: u64 = 17;
pub(crate) const ROOM: u64 = 18;
pub(crate) const TWICE: u64 = 19;
pub(crate) const LIST: u64 = 20;
pub(crate) const NO_MAP: u64 = 21;
pub(crate) const SIDE: u64 = 22;
pub(crate) const NO_SECTION: u64 = 23;
pub(crate) const METHOD: u64 = 24;
pub(crate) const KIND: u64 = 25;
pub(crate) const COUNT: u64 = 26;
pub(crate) const UNUSED: u64 = 27;
pub(crate) const SGR: u64 = 29;
pub(crate) const TABLE: u64 = 30;
pub(crate) const NO_SUCH: u64 = 31;

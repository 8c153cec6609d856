//! What a text says, part by part in the order of the text, with names as pieces of that text.
//! Lines are kept wherever a rule may have to point at one.

use crate::words::Piece;

/// The bounds on how many of each part a text may hold.
pub(crate) const MODELS_BOUND: usize = 64;
pub(crate) const STEPS_BOUND: usize = 4_096;
pub(crate) const MAPS_BOUND: usize = 64;
pub(crate) const PINS_BOUND: usize = 4_096;
pub(crate) const MAP_PINS_BOUND: usize = 256;
pub(crate) const SECTIONS_BOUND: usize = 256;
pub(crate) const MATRICES_BOUND: usize = 1_024;
pub(crate) const VALUES_BOUND: usize = 65_536;

/// The greatest row, column and conductor count.
pub(crate) const CONDUCTORS_BOUND: u64 = 256;
pub(crate) const BANDWIDTH_BOUND: u64 = 255;
pub(crate) const MULTIPLE_BOUND: u64 = 65_535;

/// How deep fork blocks may lie in each other.
pub(crate) const DEPTH_BOUND: u64 = 8;

#[derive(Debug, Default)]
pub(crate) struct Document<'a> {
    pub list: Vec<Named<'a>>,
    pub models: Vec<Model<'a>>,
    pub steps: Vec<Step<'a>>,
    pub maps: Vec<PinMap<'a>>,
    pub pins: Vec<Named<'a>>,
    pub sections: Vec<Section<'a>>,
    pub matrices: Vec<Matrix>,
    pub values: Vec<Value>,
}

/// A name and the line that gives it.
#[derive(Debug, Clone, Copy)]
pub(crate) struct Named<'a> {
    pub name: Piece<'a>,
    pub line: u64,
}

#[derive(Debug, Clone, Copy, PartialEq, Eq)]
pub(crate) enum ModelType {
    SingleGeneral,
    SingleQuiescent,
    Multiple,
}

#[derive(Debug)]
pub(crate) struct Model<'a> {
    pub named: Named<'a>,
    pub model_type: ModelType,
    /// The line of its SGR, if it has one.
    pub ratio_line: Option<u64>,
    pub first_step: usize,
    pub steps: usize,
}

#[derive(Debug, Clone, Copy)]
pub(crate) struct Step<'a> {
    pub action: Action<'a>,
    pub line: u64,
}

#[derive(Debug, Clone, Copy)]
pub(crate) enum Action<'a> {
    End { map: Piece<'a>, side: Option<Piece<'a>> },
    Section { section: Piece<'a>, amount: Amount },
    Fork,
    Endfork,
}

/// How often, or over what length (a value word), a path goes through a section.
#[derive(Debug, Clone, Copy)]
pub(crate) enum Amount {
    Multiple(u64),
    Length(u64),
}

#[derive(Debug, Clone, Copy, PartialEq, Eq)]
pub(crate) enum Order {
    Row,
    Column,
    Unordered,
}

#[derive(Debug, Clone, Copy)]
pub(crate) struct PinMap<'a> {
    pub named: Named<'a>,
    pub order: Order,
    pub rows: u64,
    pub columns: u64,
    pub first_pin: usize,
    pub pins: usize,
}

#[derive(Debug, Clone, Copy, PartialEq, Eq)]
pub(crate) enum Method {
    Lumped,
    Distributed,
}

#[derive(Debug)]
pub(crate) struct Section<'a> {
    pub named: Named<'a>,
    pub method: Method,
    /// N, which the first matrix settles.
    pub conductors: Option<u64>,
    /// The indexes of the R, L, G and C matrix.
    pub matrices: [Option<usize>; 4],
}

#[derive(Debug, Clone, Copy, PartialEq, Eq)]
pub(crate) enum Form {
    Diagonal,
    Banded,
    Sparse,
    Full,
}

#[derive(Debug, Clone, Copy)]
pub(crate) struct Matrix {
    pub form: Form,
    pub bandwidth: u64,
    pub first_value: usize,
    pub values: usize,
    pub line: u64,
}

/// A written entry: its place in the matrix and its value word.
#[derive(Debug, Clone, Copy)]
pub(crate) struct Value {
    pub row: u32,
    pub column: u32,
    pub word: u64,
}

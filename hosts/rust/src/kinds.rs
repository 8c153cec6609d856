// kinds.rs: the words that ICM chooses from: kinds and forms of matrix, types of model, orders of pins, methods of derivation.
// Each is listed in the order of the table's numbers, so that a number of the table is an index into ALL.
use std::fmt;

/// What a matrix is about; `kind as u64` is the number that [`raw`](crate::raw) takes.
#[derive(Clone, Copy, Debug, PartialEq, Eq, Hash, PartialOrd, Ord)]
pub enum Kind {
    /// R, `[Resistance Matrix]`.
    Resistance,
    /// L, `[Inductance Matrix]`.
    Inductance,
    /// G, `[Conductance Matrix]`.
    Conductance,
    /// C, `[Capacitance Matrix]`.
    Capacitance,
}

impl Kind {
    /// All kinds, in the order R, L, G, C.
    pub const ALL: [Kind; 4] = [Kind::Resistance, Kind::Inductance, Kind::Conductance, Kind::Capacitance];

    /// The letter of the kind: R, L, G or C.
    pub fn letter(self) -> char {
        ['R', 'L', 'G', 'C'][self as usize]
    }

    /// The kind of a letter.
    pub fn from_letter(letter: char) -> Option<Kind> {
        Kind::ALL.into_iter().find(|kind| kind.letter() == letter)
    }
}

/// Writes the letter.
impl fmt::Display for Kind {
    fn fmt(&self, out: &mut fmt::Formatter<'_>) -> fmt::Result {
        write!(out, "{}", self.letter())
    }
}

/// `ICM_model_type`.
#[derive(Clone, Copy, Debug, PartialEq, Eq, Hash)]
pub enum ModelType {
    /// `SLM_general`.
    SlmGeneral,
    /// `SLM_quiescent`.
    SlmQuiescent,
    /// `MLM`.
    Mlm,
}

impl ModelType {
    pub(crate) const ALL: [ModelType; 3] = [ModelType::SlmGeneral, ModelType::SlmQuiescent, ModelType::Mlm];
}

/// Writes the type as in a file.
impl fmt::Display for ModelType {
    fn fmt(&self, out: &mut fmt::Formatter<'_>) -> fmt::Result {
        out.write_str(["SLM_general", "SLM_quiescent", "MLM"][*self as usize])
    }
}

/// `Pin_order`.
#[derive(Clone, Copy, Debug, PartialEq, Eq, Hash)]
pub enum PinOrder {
    /// `Row_ordered`.
    RowOrdered,
    /// `Column_ordered`.
    ColumnOrdered,
    /// `Un_ordered`.
    UnOrdered,
}

impl PinOrder {
    pub(crate) const ALL: [PinOrder; 3] = [PinOrder::RowOrdered, PinOrder::ColumnOrdered, PinOrder::UnOrdered];
}

/// Writes the order as in a file.
impl fmt::Display for PinOrder {
    fn fmt(&self, out: &mut fmt::Formatter<'_>) -> fmt::Result {
        out.write_str(["Row_ordered", "Column_ordered", "Un_ordered"][*self as usize])
    }
}

/// `[Derivation Method]`.
#[derive(Clone, Copy, Debug, PartialEq, Eq, Hash)]
pub enum Method {
    /// `Lumped`: steps over the section have a Mult.
    Lumped,
    /// `Distributed`: steps over the section have a Len.
    Distributed,
}

impl Method {
    pub(crate) const ALL: [Method; 2] = [Method::Lumped, Method::Distributed];
}

/// Writes the method as in a file.
impl fmt::Display for Method {
    fn fmt(&self, out: &mut fmt::Formatter<'_>) -> fmt::Result {
        out.write_str(["Lumped", "Distributed"][*self as usize])
    }
}

/// The form in which a matrix is written. It does not matter for what the entries are.
#[derive(Clone, Copy, Debug, PartialEq, Eq, Hash)]
pub enum Form {
    /// `Diagonal_matrix`.
    Diagonal,
    /// `Banded_matrix`.
    Banded {
        /// How many entries right of the diagonal are written.
        bandwidth: usize,
    },
    /// `Sparse_matrix`.
    Sparse,
    /// `Full_matrix`.
    Full,
}

impl Form {
    pub(crate) fn new(number: usize, bandwidth: usize) -> Form {
        [Form::Diagonal, Form::Banded { bandwidth }, Form::Sparse, Form::Full][number]
    }
}

/// Writes the form as in a file.
impl fmt::Display for Form {
    fn fmt(&self, out: &mut fmt::Formatter<'_>) -> fmt::Result {
        out.write_str(match self {
            Form::Diagonal => "Diagonal_matrix",
            Form::Banded { .. } => "Banded_matrix",
            Form::Sparse => "Sparse_matrix",
            Form::Full => "Full_matrix",
        })
    }
}

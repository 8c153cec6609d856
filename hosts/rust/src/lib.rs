//! Reads ICM 1.1 interconnect model files by the proved intake of skumvari.
//! A file is accepted exactly when it breaks no rule; then every number in it is told exactly, as it is written.
//!
//! ```
//! use skumvari::{Intake, Kind};
//!
//! let file = Intake::open("tests/paper.icm")?; // the example of the paper
//! assert_eq!(file.entry("S", Kind::Inductance, 2, 1)?.to_string(), "8e-10");
//!
//! let section = file.section("S").expect("the example has a section S");
//! for row in section.matrix(Kind::Inductance).rows() {
//!     println!("{row:?}");
//! }
//! for walked in file.walk("A")? {
//!     println!("{:indent$}{}", "", walked.step, indent = 2 * walked.depth);
//! }
//! # Ok::<(), Box<dyn std::error::Error>>(())
//! ```
//!
//! What is wrong with a refused file is told by the paper's number and the line to blame:
//!
//! ```
//! let refusal = skumvari::Intake::read("x\n").unwrap_err();
//! assert_eq!(refusal.to_string(), "refused 5 HEADER: no [Begin Header] line");
//! ```
//!
//! [`Intake`] keeps text and table together and unchanged, so what it tells is always of an accepted file, and no
//! question judges the table again. [`raw`] has the proved functions for texts and tables that are kept elsewhere.
#![deny(unsafe_code)]
#![deny(unsafe_op_in_unsafe_fn)]
#![warn(missing_docs)]

mod intake;
mod kept;
mod kinds;
pub mod raw;
mod records;
mod refusal;
#[allow(unsafe_code)]
mod sys;
mod value;
mod walk;

pub use intake::Intake;
pub use kinds::{Form, Kind, Method, ModelType, PinOrder};
pub use records::{Amount, Matrix, Model, Number, PinMap, Section, Step, Written};
pub use refusal::{Error, QuestionError, Refusal};
pub use value::Value;
pub use walk::{Walk, Walked};

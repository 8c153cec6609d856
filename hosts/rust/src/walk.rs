// walk.rs: a walk along a model's path by the proved question, as an iterator.
// The place is handed in and handed back by value, so a walk holds nothing but where it is.
use std::fmt;

use crate::kept::Path;
use crate::raw::Place;
use crate::{Intake, Step};

/// A step of a walk.
#[derive(Clone, Copy, Debug, PartialEq, Eq)]
pub struct Walked<'a> {
    /// The step.
    pub step: Step<'a>,
    /// How many forks are open before it.
    pub depth: usize,
}

/// A walk along a model's path, from [`Intake::walk`]; ends after the path's last step.
#[derive(Clone)]
pub struct Walk<'a> {
    intake: &'a Intake,
    path: Path<'a>,
}

impl<'a> Walk<'a> {
    pub(crate) fn new(intake: &'a Intake, path: Path<'a>) -> Walk<'a> {
        Walk { intake, path }
    }

    /// The place where the walk is now.
    pub fn place(&self) -> Place {
        self.path.place()
    }
}

impl<'a> Iterator for Walk<'a> {
    type Item = Walked<'a>;

    fn next(&mut self) -> Option<Walked<'a>> {
        let depth = self.place().depth as usize;
        let words = self.path.step()?;
        Some(Walked { step: Step::new(self.intake, words), depth })
    }
}

impl std::iter::FusedIterator for Walk<'_> {}

/// Tells the place.
impl fmt::Debug for Walk<'_> {
    fn fmt(&self, out: &mut fmt::Formatter<'_>) -> fmt::Result {
        write!(out, "Walk {{ place: {:?} }}", self.place())
    }
}

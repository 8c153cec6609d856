// kept.rs: a text and the table that the intake left for it, kept together and never changed, so that questions are
// asked without judging the table anew. That the table of every accepted text is sound is proved.
//
// This file alone has to be read to see that its unsafe calls are right: the intake is the only way to a `Kept`, its
// fields are private, and no more is handed out of them than shared borrows.
use crate::raw::{self, MatrixError, Place, StepWords};
use crate::{Kind, Refusal, Value};

/// How many bytes of listing there is room for at first, for each word of the table.
const BYTES_A_WORD: usize = 8;

/// An accepted text with its table.
#[derive(Clone)]
pub(crate) struct Kept {
    text: Vec<u8>,
    table: Vec<u64>,
}

impl Kept {
    /// The intake of a text.
    pub fn read(text: Vec<u8>) -> Result<Kept, Refusal> {
        let mut table = vec![0; raw::table_words()];
        let used = raw::intake(&text, &mut table)?;
        // What stays is what the intake leaves in a table of so many words, so it is sound as well.
        table.truncate(used);
        table.shrink_to_fit();
        Ok(Kept { text, table })
    }

    pub fn text(&self) -> &[u8] {
        &self.text
    }

    /// The words of the table that are used.
    pub fn table(&self) -> &[u64] {
        &self.table
    }

    /// One entry; the question is refused where section, row or column is not there.
    #[allow(unsafe_code)]
    pub fn entry(&self, section: usize, kind: Kind, row: usize, column: usize) -> Result<Value, Refusal> {
        let [section, kind, row, column] = [section as u64, kind as u64, row as u64, column as u64];
        // SAFETY: the table is what the intake left for the text, so it is sound for it.
        unsafe { raw::entry_unjudged(&self.text, &self.table, section, kind, row, column) }
    }

    /// Every entry of a matrix, row by row, into N times N words.
    #[allow(unsafe_code)]
    pub fn matrix(&self, section: usize, kind: Kind, values: &mut [u64]) -> Result<usize, MatrixError> {
        // SAFETY: the table is what the intake left for the text, so it is sound for it.
        unsafe { raw::matrix_unjudged(&self.text, &self.table, section as u64, kind as u64, values) }
    }

    /// The path of a model from its start, if there is a model of this index. The table's first word is their number.
    pub fn path(&self, model: usize) -> Option<Path<'_>> {
        let model = model as u64;
        (model < self.table[0]).then(|| Path { kept: self, place: Place::start(model) })
    }

    /// The listing, as the proved function writes it. Where it fills its room there may be more, so it is written anew.
    pub fn listing(&self) -> String {
        let mut room = vec![0; BYTES_A_WORD * self.table.len()];
        loop {
            let length = raw::list(&self.text, &self.table, self.table.len(), &mut room);
            if length < room.len() {
                room.truncate(length);
                return String::from_utf8(room).expect("a listing is of printable ASCII, as names are");
            }
            room.resize(2 * room.len(), 0);
        }
    }
}

/// How far a walk along a model's path has come. The place is always in range: it is the start of a model that is
/// there, or what a step has handed back.
#[derive(Clone)]
pub(crate) struct Path<'a> {
    kept: &'a Kept,
    place: Place,
}

impl Path<'_> {
    pub fn place(&self) -> Place {
        self.place
    }

    /// The words of the next step; `None` at the end of the path.
    #[allow(unsafe_code)]
    pub fn step(&mut self) -> Option<StepWords> {
        // SAFETY: the table is what the intake left for the text, so it is sound for it; and the place is in range.
        let answer = unsafe { self.place.step_unjudged(&self.kept.text, &self.kept.table) };
        let (words, next) = answer.expect("over a sound table a place in range is never refused")?;
        self.place = next;
        Some(words)
    }
}

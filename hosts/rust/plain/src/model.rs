//! A model: its head of subparameters, then a path and perhaps a description.
//! The head ends at the model's first keyword, where a lacking part is told.

use crate::document::{ModelType, MULTIPLE_BOUND};
use crate::keyword::Keyword;
use crate::number;
use crate::path::PathReading;
use crate::reader::{Block, Reader, Taker};
use crate::refusal::{ARGUMENT, LINE, PLACE};
use crate::words::Piece;

/// The subparameters read so far.
#[derive(Debug, Default)]
pub(crate) struct ModelHead {
    model_type: Option<ModelType>,
    /// Where the SGR stands. Whether the model may have one is not judged here, since its type may stand below.
    ratio_line: Option<u64>,
    has_impedance: bool,
}

impl ModelHead {
    /// A wrong rest (11) goes before a repeated line (12), and that before a bad number (13, 14).
    pub fn take(&mut self, content: Piece, line: u64) -> Result<(), u64> {
        let (key, rest) = content.split_key();
        match key {
            b"ICM_model_type" => {
                let model_type = read_model_type(rest)?;
                once(self.model_type.is_some())?;
                self.model_type = Some(model_type);
            }
            b"SGR" => {
                let ratio = read_ratio(rest)?;
                once(self.ratio_line.is_some())?;
                self.ratio_line = Some(line);
                number::integer(ratio, 1, MULTIPLE_BOUND)?;
            }
            b"Ref_impedance" => {
                let impedance = rest.after_equals()?.single()?;
                once(self.has_impedance)?;
                self.has_impedance = true;
                number::value(impedance.bytes)?;
            }
            _ => return Err(LINE),
        }
        Ok(())
    }

    /// The type, once nothing is lacking.
    fn close(&self) -> Result<ModelType, u64> {
        match self.model_type {
            Some(ModelType::SingleGeneral) if self.ratio_line.is_none() => Err(PLACE),
            Some(model_type) => Ok(model_type),
            None => Err(PLACE),
        }
    }
}

fn once(repeated: bool) -> Result<(), u64> {
    if repeated {
        Err(LINE)
    } else {
        Ok(())
    }
}

fn read_model_type(rest: Piece) -> Result<ModelType, u64> {
    match rest.single()?.bytes {
        b"SLM_general" => Ok(ModelType::SingleGeneral),
        b"SLM_quiescent" => Ok(ModelType::SingleQuiescent),
        b"MLM" => Ok(ModelType::Multiple),
        _ => Err(ARGUMENT),
    }
}

/// The n of `n:1`, not judged yet.
fn read_ratio(rest: Piece<'_>) -> Result<&[u8], u64> {
    let (ratio, tail) = rest.single()?.split_before(|byte| byte == b':');
    if tail.bytes == b":1" {
        Ok(ratio.bytes)
    } else {
        Err(ARGUMENT)
    }
}

impl<'a> Reader<'a> {
    pub(crate) fn model_keyword(&mut self, keyword: Keyword, argument: Piece<'a>) -> Result<(), u64> {
        match &self.taker {
            Taker::Head(head) => {
                let model = self.document.models.last_mut().expect("a model is open");
                model.model_type = head.close()?;
                model.ratio_line = head.ratio_line;
            }
            Taker::Path(path) => path.close()?,
            _ => {}
        }
        self.seen.once(keyword)?;
        self.taker = Taker::Nothing;
        match keyword {
            Keyword::TreePath => {
                argument.nothing()?;
                self.taker = Taker::Path(PathReading::default());
            }
            Keyword::ModelDescription => self.taker = Taker::Text,
            Keyword::EndModel if self.seen.has(Keyword::TreePath) => {
                argument.nothing()?;
                let model = self.document.models.last_mut().expect("a model is open");
                model.steps = self.document.steps.len() - model.first_step;
                self.block = Block::Family;
            }
            _ => return Err(PLACE),
        }
        Ok(())
    }
}

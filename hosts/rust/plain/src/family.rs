//! The family: manufacturer and model list, then models, with pin maps anywhere between them.
//! A list line counts by its first word.

use crate::document::{Model, ModelType, Named, MAPS_BOUND, MODELS_BOUND};
use crate::keyword::{Keyword, Seen};
use crate::model::ModelHead;
use crate::pin_map::PinMapReading;
use crate::reader::{Block, Reader, Taker};
use crate::refusal::{LIMIT, PLACE};
use crate::words::Piece;

impl<'a> Reader<'a> {
    pub(crate) fn before_family_keyword(&mut self, keyword: Keyword, argument: Piece<'a>) -> Result<(), u64> {
        if keyword != Keyword::BeginFamily {
            return Err(PLACE);
        }
        argument.text()?;
        self.block = Block::Family;
        Ok(())
    }

    /// The order of the steps is that of the numbers: place 9, argument 11, shape 16 of the map that ends, limit 17.
    pub(crate) fn family_keyword(&mut self, keyword: Keyword, argument: Piece<'a>, line: u64) -> Result<(), u64> {
        if let Taker::PinMap(map) = &self.taker {
            map.check_complete(self.document.pins.len())?;
        }
        let taker = self.open_in_family(keyword, argument, line)?;
        if let Taker::PinMap(map) = &self.taker {
            self.document.maps.push(map.close(self.document.pins.len())?);
        }
        let opens_map = matches!(taker, Taker::PinMap(_));
        if self.document.models.len() > MODELS_BOUND || opens_map && self.document.maps.len() == MAPS_BOUND {
            return Err(LIMIT);
        }
        self.taker = taker;
        Ok(())
    }

    fn open_in_family(&mut self, keyword: Keyword, argument: Piece<'a>, line: u64) -> Result<Taker<'a>, u64> {
        let listed = self.family.has(Keyword::ModelList);
        match keyword {
            Keyword::Manufacturer if !listed => {
                self.family.once(keyword)?;
                argument.text()?;
                Ok(Taker::Nothing)
            }
            Keyword::FamilyDescription if !listed => {
                self.family.once(keyword)?;
                Ok(Taker::Text)
            }
            Keyword::ModelList => {
                self.family.once(keyword)?;
                argument.nothing()?;
                Ok(Taker::List)
            }
            Keyword::PinMap => {
                let named = Named { name: argument.name()?, line };
                Ok(Taker::PinMap(PinMapReading::open(named, self.document.pins.len())))
            }
            Keyword::BeginModel if listed => {
                self.open_model(Named { name: argument.name()?, line });
                Ok(Taker::Head(ModelHead::default()))
            }
            Keyword::EndFamily if self.family.has(Keyword::Manufacturer) && !self.document.models.is_empty() => {
                argument.nothing()?;
                self.block = Block::BetweenSections;
                Ok(Taker::Nothing)
            }
            _ => Err(PLACE),
        }
    }

    fn open_model(&mut self, named: Named<'a>) {
        let first_step = self.document.steps.len();
        // Type and SGR are settled by the model's head, the steps by its path.
        let model_type = ModelType::Multiple;
        self.document.models.push(Model { named, model_type, ratio_line: None, first_step, steps: 0 });
        self.block = Block::Model;
        self.seen = Seen::default();
    }
}

pub(crate) fn take_list_line<'a>(content: Piece<'a>, line: u64, list: &mut Vec<Named<'a>>) -> Result<(), u64> {
    let (word, _) = content.split_word();
    list.push(Named { name: word.name()?, line });
    Ok(())
}

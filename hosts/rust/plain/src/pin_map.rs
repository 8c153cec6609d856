//! A pin map: its order, the sizes of its grid if it has one, then its pins.
//! Places of the grid may stay without a pin. That there is a pin, and a place for each, is judged where the map ends.

use crate::document::{Named, Order, PinMap, CONDUCTORS_BOUND, MAP_PINS_BOUND, PINS_BOUND};
use crate::number;
use crate::refusal::{ARGUMENT, LIMIT, LINE, PLACE, SHAPE};
use crate::words::Piece;

#[derive(Debug)]
pub(crate) struct PinMapReading<'a> {
    named: Named<'a>,
    order: Option<Order>,
    rows: Option<u64>,
    columns: Option<u64>,
    lists_pins: bool,
    first_pin: usize,
}

impl<'a> PinMapReading<'a> {
    /// A map whose pins, if any come, begin at index `first_pin`.
    pub fn open(named: Named<'a>, first_pin: usize) -> PinMapReading<'a> {
        PinMapReading { named, order: None, rows: None, columns: None, lists_pins: false, first_pin }
    }

    pub fn take(&mut self, content: Piece<'a>, line: u64, pins: &mut Vec<Named<'a>>) -> Result<(), u64> {
        if self.lists_pins {
            return self.take_pin(content, line, pins);
        }
        let (key, rest) = content.split_key();
        match key {
            b"Pin_order" => self.take_order(rest),
            b"Num_of_rows" => {
                let word = rest.after_equals()?.single()?;
                self.check_size_place(self.rows)?;
                self.rows = Some(number::integer(word.bytes, 1, CONDUCTORS_BOUND)?);
                Ok(())
            }
            b"Num_of_columns" => {
                let word = rest.after_equals()?.single()?;
                self.check_size_place(self.columns)?;
                self.columns = Some(number::integer(word.bytes, 1, CONDUCTORS_BOUND)?);
                Ok(())
            }
            b"Pin_list" => self.open_list(rest),
            _ => Err(LINE),
        }
    }

    fn take_order(&mut self, rest: Piece) -> Result<(), u64> {
        let order = match rest.single()?.bytes {
            b"Row_ordered" => Order::Row,
            b"Column_ordered" => Order::Column,
            b"Un_ordered" => Order::Unordered,
            _ => return Err(ARGUMENT),
        };
        if self.order.is_some() {
            return Err(LINE);
        }
        self.order = Some(order);
        Ok(())
    }

    fn is_ordered(&self) -> bool {
        matches!(self.order, Some(Order::Row | Order::Column))
    }

    /// A size belongs to a map known to be ordered, once.
    fn check_size_place(&self, size: Option<u64>) -> Result<(), u64> {
        if self.is_ordered() && size.is_none() {
            Ok(())
        } else {
            Err(LINE)
        }
    }

    fn open_list(&mut self, rest: Piece) -> Result<(), u64> {
        rest.nothing()?;
        let sizes_lack = self.is_ordered() && (self.rows.is_none() || self.columns.is_none());
        if self.order.is_none() || sizes_lack {
            return Err(LINE);
        }
        self.lists_pins = true;
        Ok(())
    }

    /// A pin's name and perhaps a signal's, which is not kept.
    fn take_pin(&self, content: Piece<'a>, line: u64, pins: &mut Vec<Named<'a>>) -> Result<(), u64> {
        let (name, rest) = content.split_word();
        let (_signal, rest) = rest.split_word();
        rest.nothing()?;
        if pins.len() == PINS_BOUND || pins.len() - self.first_pin == MAP_PINS_BOUND {
            return Err(LIMIT);
        }
        pins.push(Named { name, line });
        Ok(())
    }

    /// The map ends with `pins` pins read in all: it must have at least one (which Pin_list goes before).
    pub fn check_complete(&self, pins: usize) -> Result<(), u64> {
        if pins > self.first_pin {
            Ok(())
        } else {
            Err(PLACE)
        }
    }

    /// The complete map, if its grid has a place for each of its pins.
    pub fn close(&self, pins: usize) -> Result<PinMap<'a>, u64> {
        let pins = pins - self.first_pin;
        let rows = self.rows.unwrap_or(0);
        let columns = self.columns.unwrap_or(0);
        if self.is_ordered() && pins as u64 > rows * columns {
            return Err(SHAPE);
        }
        let order = self.order.ok_or(PLACE)?;
        Ok(PinMap { named: self.named, order, rows, columns, first_pin: self.first_pin, pins })
    }
}

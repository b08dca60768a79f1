//! What a comparison of lines has met: without all of it, it compares less than it says.

use crate::frame::{Frame, DIGIT};
use std::collections::BTreeSet;

#[derive(Default)]
pub struct Met {
    numbers: BTreeSet<u32>,
    /// Where the first bad digit was.
    places: BTreeSet<u32>,
}

impl Met {
    pub fn answer(&mut self, number: u32, place: u32) {
        self.numbers.insert(number);
        if number == DIGIT {
            self.places.insert(place);
        }
    }

    /// What the reading of a line says.
    pub fn line(&mut self, line: &[u8]) {
        let (number, place) = Frame::read(line).map_or_else(|fault| (fault.number, fault.place), |_| (0, 0));
        self.answer(number, place);
    }

    /// These numbers and no other, and a bad digit at each of the 34 places.
    pub fn complete(&self, numbers: &[u32]) -> Result<(), String> {
        if !self.numbers.iter().eq(numbers) {
            Err(format!("the numbers {:?} were met, not {numbers:?}", self.numbers))
        } else if !self.places.iter().copied().eq(0..34) {
            Err(format!("bad digits were met at {:?} alone", self.places))
        } else {
            Ok(())
        }
    }
}

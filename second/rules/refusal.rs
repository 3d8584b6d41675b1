//! What a call that is refused says.

use std::fmt;

/// A refusal's number, and the places that it names: of a character "the place
/// from 1"; in a catalogue "the record's place from 1", before that of the
/// character; for 13 "later, then first"; in a spreadsheet's text the line. The
/// others name none.
#[derive(Debug, Clone, PartialEq, Eq)]
pub struct Refusal {
    pub number: u8,
    pub places: Vec<usize>,
}

impl Refusal {
    /// One that names no place.
    pub fn of(number: u8) -> Self {
        Refusal {
            number,
            places: Vec::new(),
        }
    }

    /// One that names a place.
    pub fn at(number: u8, place: usize) -> Self {
        Refusal {
            number,
            places: vec![place],
        }
    }

    /// The same in a catalogue, where "the record comes first".
    pub fn in_record(mut self, place: usize) -> Self {
        self.places.insert(0, place);
        self
    }
}

/// "A refusal that names places prints them after its number, a blank before
/// each."
impl fmt::Display for Refusal {
    fn fmt(&self, f: &mut fmt::Formatter) -> fmt::Result {
        write!(f, "{}", self.number)?;
        for place in &self.places {
            write!(f, " {place}")?;
        }
        Ok(())
    }
}

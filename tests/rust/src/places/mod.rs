//! Kinds of places in a bench text, by what a reader of words has read there: whether a byte is refused depends on its class and on its
//! place. The lengths of names and numbers are left aside.

pub mod coverage;

use crate::interpreter::bytes::{class, Class, CLASSES};

#[derive(Clone, Copy, Debug, PartialEq, Eq, PartialOrd, Ord)]
pub enum Place {
    /// Where a word may begin: first in the text, after a blank or a mark.
    Beginning,
    /// Inside or right after a name.
    Name,
    /// Right after digits that are no part of a name.
    Digits,
    /// Right after the `r` of a real.
    Real,
    Comment,
}

pub const PLACES: [Place; 5] = [Place::Beginning, Place::Name, Place::Digits, Place::Real, Place::Comment];

impl Place {
    /// Whether bytes of this class are read here; else they are refused by 12.
    pub fn takes(self, class: Class) -> bool {
        match class {
            Class::NotAllowed => false,
            Class::Comment => self == Place::Comment,
            Class::Underscore => matches!(self, Place::Name | Place::Comment),
            _ => true,
        }
    }

    /// The place after this byte; `None` if the byte is refused.
    pub fn after(self, byte: u8) -> Option<Place> {
        let class = class(byte);
        if !self.takes(class) {
            return None;
        }
        Some(match (self, class) {
            (Place::Comment, _) if byte != b'\n' => Place::Comment,
            (Place::Digits, _) if byte == b'r' => Place::Real,
            (_, Class::Letter) | (Place::Name, Class::Digit | Class::Underscore) => Place::Name,
            (_, Class::Digit) => Place::Digits,
            (_, Class::Hash) => Place::Comment,
            _ => Place::Beginning,
        })
    }
}

/// Every kind of place with every class.
pub fn pairs() -> impl Iterator<Item = (Place, Class)> {
    PLACES.into_iter().flat_map(|place| CLASSES.map(|class| (place, class)))
}

/// The place of each byte up to the first that is refused; if none is, also the place after the last.
pub fn places(text: &[u8]) -> Vec<Place> {
    let mut place = Place::Beginning;
    let mut places = vec![place];
    for &byte in text {
        let Some(next) = place.after(byte) else { break };
        place = next;
        places.push(place);
    }
    places
}

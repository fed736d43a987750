//! Counts of checked bench texts by the classes of their bytes at each kind of place, and those that a run must have. They are measured on
//! the texts and on what is answered, not taken from how the texts were made.

use super::{pairs, places, Place, PLACES};
use crate::interpreter::bytes::{class, Class, CLASSES};
use std::collections::{BTreeMap, BTreeSet};

/// What is answered to a text with a byte at a place.
#[derive(Clone, Copy, Debug, PartialEq, Eq, PartialOrd, Ord)]
pub enum Outcome {
    Accepted,
    /// Refused by 13 to 18 or 44: it has words.
    Words,
    /// Refused by 12, further on.
    Later,
    /// Refused by 12 at that byte.
    There,
}

const OUTCOMES: [Outcome; 4] = [Outcome::Accepted, Outcome::Words, Outcome::Later, Outcome::There];

/// A byte of a class at a kind of place, and what is answered.
pub type Tried = (Place, Class, Outcome);

#[derive(Clone, Debug, Default)]
pub struct Coverage {
    /// How many texts have it.
    counts: BTreeMap<Tried, u64>,
    /// The bytes that stand in comments of accepted texts.
    commented: BTreeSet<u8>,
}

impl Coverage {
    /// Counts a text and the answer to its check.
    pub fn take(&mut self, text: &[u8], answer: u64) {
        let refused = (answer >> 8) as usize;
        let (outcome, end) = match answer & 255 {
            0 => (Outcome::Accepted, text.len()),
            12 => (Outcome::Later, refused),
            13..=18 | 44 => (Outcome::Words, text.len()),
            _ => return,
        };
        let places = places(text);
        let mut seen = [[false; CLASSES.len()]; PLACES.len()];
        for (&place, &byte) in places.iter().zip(&text[..end]) {
            seen[place as usize][class(byte) as usize] = true;
            if outcome == Outcome::Accepted && place == Place::Comment {
                self.commented.insert(byte);
            }
        }
        for (place, class) in pairs().filter(|&(place, class)| seen[place as usize][class as usize]) {
            *self.counts.entry((place, class, outcome)).or_default() += 1;
        }
        // A run that is no word is refused at its first byte, which by its class could stand there.
        if outcome == Outcome::Later && places.len() == refused + 1 {
            *self.counts.entry((places[refused], class(text[refused]), Outcome::There)).or_default() += 1;
        }
    }

    pub fn count(&self, tried: Tried) -> u64 {
        self.counts.get(&tried).copied().unwrap_or(0)
    }

    pub fn add(&mut self, other: &Coverage) {
        for (&tried, &count) in &other.counts {
            *self.counts.entry(tried).or_default() += count;
        }
        self.commented.extend(&other.commented);
    }

    /// What a run lacks: what came up less than `least` times, and bytes that stood in no comment of an accepted text.
    pub fn lacking(&self, least: u64) -> Vec<String> {
        let few = required().into_iter().filter(|&tried| self.count(tried) < least);
        let mut lacking: Vec<String> = few.map(|tried| format!("texts, {}: less than {least}", name(tried))).collect();
        let uncommented = |byte: &u8| Place::Comment.takes(class(*byte)) && !self.commented.contains(byte);
        lacking.extend((0..=255).filter(uncommented).map(|byte| format!("byte {byte} is in no comment of an accepted text")));
        lacking
    }

    pub fn print(&self) {
        println!(
            "texts with a byte of a class at a place, accepted / refused by 13 to 18 or 44 / by 12 later / by 12 there, a text being in many:"
        );
        for place in PLACES {
            let counts = |class: Class| OUTCOMES.map(|outcome| self.count((place, class, outcome)).to_string()).join(" / ");
            let classes = CLASSES.map(|class| format!("{}: {}", class_name(class), counts(class)));
            println!("- {}: {}", place_name(place), classes.join("; "));
        }
        println!("{} bytes in comments of accepted texts", self.commented.len());
    }
}

/// Everything that a run must have: what can be read is in texts that are accepted and in others that are refused by 12 further on, what
/// cannot is refused by 12.
pub fn required() -> Vec<Tried> {
    let mut required = Vec::new();
    for (place, class) in pairs() {
        if !place.takes(class) {
            required.push((place, class, Outcome::There));
            continue;
        }
        // No grammatical file has a number right after a number.
        let never_accepted = (place, class) == (Place::Real, Class::Digit);
        required.push((place, class, if never_accepted { Outcome::Words } else { Outcome::Accepted }));
        required.push((place, class, Outcome::Later));
    }
    required
}

fn name((place, class, outcome): Tried) -> String {
    let outcome = match outcome {
        Outcome::Accepted => "accepted",
        Outcome::Words => "refused by 13 to 18 or 44",
        Outcome::Later => "refused by 12 later",
        Outcome::There => "refused by 12 there",
    };
    format!("{}, {}: {outcome}", place_name(place), class_name(class))
}

fn class_name(class: Class) -> &'static str {
    match class {
        Class::Letter => "letter",
        Class::Digit => "digit",
        Class::Underscore => "`_`",
        Class::Mark => "mark",
        Class::Blank => "blank",
        Class::Hash => "`#`",
        Class::Comment => "for comments only",
        Class::NotAllowed => "not allowed",
    }
}

pub fn place_name(place: Place) -> &'static str {
    match place {
        Place::Beginning => "beginning of a word",
        Place::Name => "in or after a name",
        Place::Digits => "after digits",
        Place::Real => "after a real",
        Place::Comment => "in a comment",
    }
}

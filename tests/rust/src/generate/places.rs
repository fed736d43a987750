//! Bytes of every class at every kind of place of a bench text.

use super::bench::{self, SMALL};
use super::case::{Call, Case, Step, EXACT};
use super::prng::Prng;
use crate::interpreter::bytes::{class, Class};
use crate::places::{pairs, places, Place, PLACES};

/// Texts with bytes put in are drawn from a source of their own.
const PUT_IN: u64 = 0x6279_7465_0000;

/// The check of a text with bytes put in, of this number.
pub fn case(seed: u64, number: u64) -> Case {
    let mut prng = Prng::for_case(seed ^ PUT_IN, number);
    checked(text(&mut prng), prng.draw())
}

/// A text with bytes put in.
pub fn text(prng: &mut Prng) -> Vec<u8> {
    let words = bench::bench(prng, SMALL).words;
    let mut text = bench::render(prng, &words);
    put_in(prng, &mut text);
    text
}

pub fn checked(text: Vec<u8>, fill: u64) -> Case {
    Case { text, fill, steps: vec![Step { call: Call::Check, lent: EXACT }] }
}

/// Often a byte that is refused where it stands, and others before it that are read.
fn put_in(prng: &mut Prng, text: &mut Vec<u8>) {
    let refused = prng.chance(65);
    if refused {
        put(prng, text, false);
    }
    // Each may hide the refused one in a comment, or take it into a name.
    let others = if refused { prng.below(3) } else { prng.between(1, 4) };
    for _ in 0..others {
        put(prng, text, true);
    }
}

/// Puts in a byte of any class, at any kind of place that takes it or, if it is to be refused, does not.
fn put(prng: &mut Prng, text: &mut Vec<u8>, taken: bool) {
    let fitting: Vec<(Place, Class)> = pairs().filter(|&(place, class)| place.takes(class) == taken).collect();
    let (place, class) = *prng.pick(&fitting);
    let at = find(prng, text, place);
    text.insert(at, byte_of(prng, class));
}

/// Such a place in a text, before the first byte that is refused. One that has none gets it.
fn find(prng: &mut Prng, text: &mut Vec<u8>, place: Place) -> usize {
    let known = places(text);
    let fitting: Vec<usize> = (0..known.len()).filter(|&at| known[at] == place).collect();
    if !fitting.is_empty() {
        return *prng.pick(&fitting);
    }
    let opener: &[u8] = match place {
        Place::Beginning => b" ",
        Place::Name => b"a",
        Place::Digits => b"1",
        Place::Real => b"1r",
        Place::Comment => b"#",
    };
    let at = find(prng, text, Place::Beginning);
    text.splice(at..at, opener.iter().copied());
    at + opener.len()
}

/// A byte of a class; as often as not one without neighbours of the class on both sides.
fn byte_of(prng: &mut Prng, wanted: Class) -> u8 {
    let is = |byte: u8| class(byte) == wanted;
    let inside = |byte: u8| byte.checked_sub(1).is_some_and(is) && byte.checked_add(1).is_some_and(is);
    let at_an_end = prng.chance(50);
    let bytes: Vec<u8> = (0..=255).filter(|&byte| is(byte) && !(at_an_end && inside(byte))).collect();
    *prng.pick(&bytes)
}

/// Every byte at every kind of place: the place, the byte, and the check of a text with it.
pub fn every() -> impl Iterator<Item = (Place, u8, Case)> {
    PLACES.into_iter().flat_map(|place| (0..=255).map(move |byte| (place, byte, checked(text_with(place, byte), u64::from(byte)))))
}

/// Without the byte the text is accepted.
fn text_with(place: Place, byte: u8) -> Vec<u8> {
    let (before, after) = match place {
        Place::Beginning => ("rules ", " end"),
        Place::Name => ("interface a", " { } rules end"),
        Place::Digits => ("interface I { attribute a : whole } entity e : I { a = 1", " } rules end"),
        Place::Real => ("interface I { attribute a : real } entity e : I { a = 1r", " } rules end"),
        Place::Comment => ("rules # a", "a\nend"),
    };
    [before.as_bytes(), &[byte], after.as_bytes()].concat()
}

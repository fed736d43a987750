//! Calls for entities' names: texts with many entities and with few, good and damaged, and numbers that are some entity's or none's.

use super::bench::{self, Size, LOOSE, SMALL};
use super::case::{Call, Case, Step, EXACT};
use super::damage::{self, find, is_name};
use super::prng::Prng;
use super::{limits, places, ranks};
use crate::interpreter::text::TEXT_MOST;
use crate::names::{shown, BITS};
use crate::places::{places as places_in, Place};

/// Calls for names are drawn from a source of their own.
const NAMES: u64 = 0x6e61_6d65_0000;

/// Many entities, little else.
const MANY: Size = Size { interfaces: 5, members: 1, entities: 32, rules: 2, clauses: 1, calls: 1, variables: 1, rivals: 0 };

/// Names that begin like `entity`, or are part of it.
const NEAR: [&str; 6] = ["entitys", "entity_1", "entity2", "Entity", "entit", "ent"];

/// Looks like an entity to who does not see that it is a comment.
const COMMENT: &[u8] = b" # entity a : a { }\n";

/// So many of a hundred texts are filled up with blanks.
const FILLED_PERCENT: usize = 8;

/// The calls on a text, of this number.
pub fn case(seed: u64, number: u64) -> Case {
    let mut prng = Prng::for_case(seed ^ NAMES, number);
    let mut text = text(&mut prng);
    for _ in 0..prng.weighted(&[70, 20, 10]) {
        put_in(&mut prng, &mut text, COMMENT);
    }
    if prng.chance(FILLED_PERCENT) {
        let most = TEXT_MOST.saturating_sub(text.len());
        let count = prng.below(most + 1) >> prng.below(4);
        put_in(&mut prng, &mut text, &vec![b' '; count]);
    }
    let step = |number: usize| Step { call: Call::Name { number }, lent: EXACT };
    let steps = numbers(&mut prng, shown(&text).len()).into_iter().map(step).collect();
    Case { text, fill: prng.draw(), steps }
}

fn text(prng: &mut Prng) -> Vec<u8> {
    match prng.weighted(&[45, 25, 8, 7, 7, 5, 3]) {
        0 => good(prng),
        1 => damaged(prng),
        2 => rendered(prng, limits::counted),
        3 => super::long(prng).0,
        4 => rendered(prng, ranks::faulty),
        5 => places::text(prng),
        _ => super::random_text(prng).0,
    }
}

fn rendered(prng: &mut Prng, make: fn(&mut Prng) -> Vec<String>) -> Vec<u8> {
    let words = make(prng);
    bench::render(prng, &words)
}

fn good(prng: &mut Prng) -> Vec<u8> {
    rendered(prng, words)
}

/// The words of a good text.
fn words(prng: &mut Prng) -> Vec<String> {
    let size = *prng.pick(&[SMALL, LOOSE, MANY]);
    let mut words = bench::bench(prng, size).words;
    if prng.chance(30) {
        rename(prng, &mut words);
    }
    words
}

/// Gives something, wherever it is named, a name near `entity`.
fn rename(prng: &mut Prng, words: &mut [String]) {
    let Some(at) = find(prng, words, |at| is_name(&words[at])) else { return };
    let (old, new) = (words[at].clone(), prng.pick(&NEAR).to_string());
    words.iter_mut().filter(|word| **word == old).for_each(|word| *word = new.clone());
}

/// A good text with one or two faults.
fn damaged(prng: &mut Prng) -> Vec<u8> {
    let mut words = words(prng);
    let kind = prng.weighted(&[20, 60, 20]);
    for _ in 0..prng.between(1, 2) {
        match kind {
            0 => damage::words(prng, &mut words),
            1 => damage::meaning(prng, &mut words),
            _ => {}
        }
    }
    let mut text = bench::render(prng, &words);
    if kind == 2 {
        damage::bytes(prng, &mut text);
    }
    text
}

/// Puts a comment or blanks where a word may begin.
fn put_in(prng: &mut Prng, text: &mut Vec<u8>, bytes: &[u8]) {
    let known = places_in(text);
    let fitting: Vec<usize> = (0..known.len()).filter(|&at| known[at] == Place::Beginning).collect();
    let at = *prng.pick(&fitting);
    text.splice(at..at, bytes.iter().copied());
}

/// The number of each of so many entities, the one after the last, and some that are too great, up to the greatest.
fn numbers(prng: &mut Prng, count: usize) -> Vec<usize> {
    let mut numbers: Vec<usize> = (0..=count).collect();
    for _ in 0..prng.between(3, 5) {
        numbers.push(match prng.below(4) {
            0 => count.saturating_add(prng.between(1, 40)),
            1 => usize::MAX - if prng.chance(50) { 0 } else { prng.below(40) },
            2 => prng.draw() as usize,
            // Some entity's in its low bits.
            _ => prng.below(count.max(1)) + (1 << prng.pick(&BITS)),
        });
    }
    numbers
}

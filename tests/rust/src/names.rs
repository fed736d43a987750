//! What the calls for an entity's name tried, and what they must have tried. It is measured on the texts and numbers, not taken from how
//! they were made.

use crate::counts::{Class, Seen};
use crate::interpreter::accept;
use crate::interpreter::bytes::{self, Class as Of};
use crate::interpreter::grammar::{Bench, Entity, Sort};
use crate::interpreter::text::{words, Refusal, Token, NAME_MOST, TEXT_MOST};
use std::collections::BTreeSet;
use std::ops::RangeInclusive;

const CALLS: &str = "calls";
const ENTITIES: &str = "names by the entity's number";
const NUMBERS: &str = "accepted texts by the number asked for";
const NAMES: &str = "names";
const REFUSED: &str = "refused texts";

/// The numbers of the refusals of a text.
const REFUSALS: [u8; 9] = [11, 12, 13, 14, 15, 16, 17, 18, 44];
/// Of these, those with a place that entities can stand after.
const PLACED: [u8; 7] = [12, 13, 14, 15, 16, 17, 18];
const ENTITIES_MOST: usize = 32;
/// A number that is too great may be taken for what it is in so many bits.
pub const BITS: [u32; 5] = [5, 8, 16, 32, 63];

/// An interface comes first, so few offsets are smaller; none is greater.
const OFFSET_BITS: RangeInclusive<u32> = 6..=15;

/// Every class that a run must have.
pub fn required() -> Vec<Class> {
    let listed = |names: &[&str]| names.iter().map(|name| name.to_string()).collect::<Vec<_>>();
    let each = |numbers: &[u8], what: &str| numbers.iter().map(|number| format!("{number}: {what}")).collect::<Vec<_>>();
    let groups = [
        (CALLS, listed(&OF_CALLS)),
        (ENTITIES, (0..ENTITIES_MOST).map(|number| number.to_string()).collect()),
        (NUMBERS, listed(&OF_NUMBERS)),
        (NUMBERS, BITS.iter().map(|&bits| low_bits(bits)).collect()),
        (NAMES, listed(&OF_NAMES)),
        (NAMES, OFFSET_BITS.map(offset_of).collect()),
        (REFUSED, each(&REFUSALS, BEFORE)),
        (REFUSED, each(&PLACED, AFTER)),
        (REFUSED, each(&REFUSALS, NONE)),
        (REFUSED, listed(&TOO_LONG)),
    ];
    groups.into_iter().flat_map(|(group, names)| names.into_iter().map(move |name| (group, name))).collect()
}

const OF_CALLS: [&str; 3] = ["a name", "no entity of that number", "a refused text"];

const OF_NUMBERS: [&str; 8] = [
    "the only entity",
    "the first of several",
    "one between others",
    "the last of several",
    "the number after the last",
    "a later number",
    "no entity in the text",
    "the greatest number",
];

const OF_NAMES: [&str; 21] = [
    "of 1 byte",
    "of 24 bytes",
    "its interface's name is the same",
    "its interface's name is longer",
    "its interface's name is shorter",
    "a word like it earlier",
    "its bytes earlier, but no word like it",
    "a space before it",
    "other blanks before it",
    "a comment before it",
    "`:` after it",
    "blanks after it",
    "a comment after it",
    "`entity` in a comment before it",
    "a name that begins `entity` before it",
    "another one by the order of interfaces",
    "another one by the order of names",
    "an interface of that number",
    "no interface of that number",
    "its interface has no action",
    "in a text of 32768 bytes",
];

const BEFORE: &str = "an entity of that number before the place";
const AFTER: &str = "an entity of that number after the place";
const NONE: &str = "no entity of that number";
const TOO_LONG: [&str; 2] = ["11: an entity of that number, fine but for its length", "11: one byte too long"];

fn low_bits(bits: u32) -> String {
    format!("an entity's in its low {bits} bits")
}

fn offset_of(bits: u32) -> String {
    format!("offset of {bits} bits")
}

/// The part of the text that an answer gives: offset and length.
pub fn part(answer: u64) -> (usize, usize) {
    ((answer >> 16) as usize, (answer >> 8 & 255) as usize)
}

/// An entity as a text shows it, refused or not: the place of the word `entity`, and offset and length of the name after it.
#[derive(Clone, Copy, Debug, PartialEq, Eq)]
pub struct Shown {
    pub word: usize,
    pub name: (usize, usize),
}

/// The entities that the runs of letters, digits and `_` outside comments show.
pub fn shown(text: &[u8]) -> Vec<Shown> {
    let runs = runs(text);
    let of = |(offset, length): (usize, usize)| &text[offset..offset + length];
    let pairs = runs.windows(2).filter(|pair| of(pair[0]) == b"entity" && of(pair[1])[0].is_ascii_alphabetic());
    pairs.map(|pair| Shown { word: pair[0].0, name: pair[1] }).collect()
}

/// Offset and length of each.
fn runs(text: &[u8]) -> Vec<(usize, usize)> {
    let mut runs: Vec<(usize, usize)> = Vec::new();
    let mut comment = false;
    for (at, &byte) in text.iter().enumerate() {
        comment = byte != b'\n' && (comment || byte == b'#');
        if comment || !in_name(byte) {
            continue;
        }
        match runs.last_mut() {
            Some((start, length)) if *start + *length == at => *length += 1,
            _ => runs.push((at, 1)),
        }
    }
    runs
}

fn in_name(byte: u8) -> bool {
    matches!(bytes::class(byte), Of::Letter | Of::Digit | Of::Underscore)
}

/// The classes of a call and its answer.
pub fn of_call(text: &[u8], number: usize, answer: u64) -> BTreeSet<Class> {
    let mut seen = Seen::default();
    match accept(text) {
        Err(refusal) => seen.refused(text, number, refusal),
        Ok(bench) => {
            seen.number(number, bench.entities.len());
            if let Some(entity) = bench.entities.get(number) {
                seen.name(&bench, number, entity, part(answer));
            }
        }
    }
    seen.0
}

impl Seen {
    fn refused(&mut self, text: &[u8], number: usize, refusal: Refusal) {
        self.add_if(true, CALLS, OF_CALLS[2]);
        let entity = shown(text).get(number).copied();
        let mut add = |is: bool, what: &str| self.add_if(is, REFUSED, &format!("{}: {what}", refusal.number));
        add(entity.is_some_and(|entity| entity.word < refusal.place), BEFORE);
        add(entity.is_some_and(|entity| entity.word > refusal.place), AFTER);
        add(entity.is_none(), NONE);
        let too_long = refusal.number == 11;
        self.add_if(too_long && entity.is_some() && fine_but_for_length(text), REFUSED, TOO_LONG[0]);
        self.add_if(too_long && text.len() == TEXT_MOST + 1, REFUSED, TOO_LONG[1]);
    }

    fn number(&mut self, number: usize, count: usize) {
        let mut add = |is: bool, name: &str| self.add_if(is, NUMBERS, name);
        let (there, several) = (number < count, count > 1);
        add(there && !several, "the only entity");
        add(several && number == 0, "the first of several");
        add(there && number > 0 && number + 1 < count, "one between others");
        add(there && several && number + 1 == count, "the last of several");
        add(count > 0 && number == count, "the number after the last");
        add(count > 0 && number > count, "a later number");
        add(count == 0, "no entity in the text");
        add(count > 0 && number == usize::MAX, "the greatest number");
        for bits in BITS {
            let low = number & ((1 << bits) - 1);
            add(low != number && low < count, &low_bits(bits));
        }
        self.add_if(there, CALLS, OF_CALLS[0]);
        self.add_if(there, ENTITIES, &number.to_string());
        self.add_if(!there, CALLS, OF_CALLS[1]);
    }

    fn name(&mut self, bench: &Bench, number: usize, entity: &Entity, (offset, length): (usize, usize)) {
        let mut add = |is: bool, name: &str| self.add_if(is, NAMES, name);
        let (before, name) = (&bench.text[..offset], &bench.text[offset..offset + length]);
        let interface = entity.interface.text;
        add(length == 1, "of 1 byte");
        add(length == NAME_MOST, "of 24 bytes");
        add(interface == name, "its interface's name is the same");
        add(interface.len() > length, "its interface's name is longer");
        add(interface.len() < length, "its interface's name is shorter");
        let earlier = words(before).unwrap_or_default();
        let like = earlier.iter().any(|word| word.token == Token::Name(name));
        add(like, "a word like it earlier");
        add(!like && before.windows(length).any(|bytes| bytes == name), "its bytes earlier, but no word like it");
        let gap = &bench.text[entity.place + "entity".len()..offset];
        add(gap == b" ", "a space before it");
        add(gap != b" " && !gap.contains(&b'#'), "other blanks before it");
        add(gap.contains(&b'#'), "a comment before it");
        let after = &bench.text[offset + length..entity.interface.place];
        add(after[0] == b':', "`:` after it");
        let to_mark = &after[..after.iter().position(|&byte| byte == b':' || byte == b'#').unwrap_or(0)];
        add(!to_mark.is_empty() && after[to_mark.len()] == b':', "blanks after it");
        add(after[to_mark.len()] == b'#', "a comment after it");
        add(true, &offset_of(usize::BITS - offset.leading_zeros()));
        add(comments(before).any(|comment| comment.windows(6).any(|bytes| bytes == b"entity")), "`entity` in a comment before it");
        let begins = |token: Token| matches!(token, Token::Name(name) if name.starts_with(b"entity"));
        add(earlier.iter().any(|word| begins(word.token)), "a name that begins `entity` before it");
        add(by_interface(bench)[number] != number, "another one by the order of interfaces");
        add(by_name(bench)[number] != number, "another one by the order of names");
        add(number < bench.interfaces.len(), "an interface of that number");
        add(number >= bench.interfaces.len(), "no interface of that number");
        add(bench.members_of(number).iter().all(|member| member.sort != Sort::Action), "its interface has no action");
        add(bench.text.len() == TEXT_MOST, "in a text of 32768 bytes");
    }
}

/// Whether a text that is too long would be accepted without its last or its first bytes.
fn fine_but_for_length(text: &[u8]) -> bool {
    let surplus = text.len() - TEXT_MOST;
    accept(&text[..TEXT_MOST]).is_ok() || accept(&text[surplus..]).is_ok()
}

/// The comments of a text, each from its `#` to the end of its line.
fn comments(text: &[u8]) -> impl Iterator<Item = &[u8]> {
    text.split(|&byte| byte == b'\n').filter_map(|line| line.iter().position(|&byte| byte == b'#').map(|at| &line[at..]))
}

/// The numbers of the entities as they would be if their interfaces came first; those of one stay in their order.
pub fn by_interface(bench: &Bench) -> Vec<usize> {
    let interface = |entity: usize| bench.interfaces.iter().position(|known| known.name.text == bench.entities[entity].interface.text);
    let mut numbers: Vec<usize> = (0..bench.entities.len()).collect();
    numbers.sort_by_key(|&entity| interface(entity));
    numbers
}

/// The numbers of the entities as they would be by their names.
pub fn by_name(bench: &Bench) -> Vec<usize> {
    let mut numbers: Vec<usize> = (0..bench.entities.len()).collect();
    numbers.sort_by_key(|&entity| bench.entities[entity].name.text);
    numbers
}

//! "Text of a bench file": bytes to words.

use super::bytes::{class, Class};

pub const TEXT_MOST: usize = 32_768;
pub const NAME_MOST: usize = 24;
const DIGITS_MOST: usize = 10;
const NUMBER_MOST: u64 = 2_147_483_647;

/// Document 01's list; order 6 of document 02: "`rank` becomes reserved."
pub const RESERVED: [&str; 22] = [
    "interface",
    "attribute",
    "event",
    "action",
    "entity",
    "rules",
    "when",
    "from",
    "with",
    "value",
    "changed",
    "trigger",
    "on",
    "end",
    "and",
    "or",
    "true",
    "false",
    "whole",
    "bool",
    "real",
    "rank",
];

/// A refusal of a bench text: the table's number and the place.
#[derive(Clone, Copy, Debug, PartialEq, Eq)]
pub struct Refusal {
    pub number: u8,
    pub place: usize,
}

pub fn refuse<T>(number: u8, place: usize) -> Result<T, Refusal> {
    Err(Refusal { number, place })
}

#[derive(Clone, Copy, Debug, PartialEq, Eq)]
pub enum Token<'t> {
    Name(&'t [u8]),
    Reserved(&'static str),
    Whole(i32),
    /// A whole with `r` after it.
    Real(i32),
    Mark(u8),
}

#[derive(Clone, Copy, Debug, PartialEq, Eq)]
pub struct Word<'t> {
    pub token: Token<'t>,
    pub place: usize,
}

/// All words of a text, or refusal 11 or 12.
pub fn words(text: &[u8]) -> Result<Vec<Word<'_>>, Refusal> {
    if text.len() > TEXT_MOST {
        return refuse(11, TEXT_MOST);
    }
    let mut found = Vec::new();
    let mut at = 0;
    while at < text.len() {
        match class(text[at]) {
            Class::Blank => at += 1,
            Class::Hash => at = comment_end(text, at)?,
            _ => {
                let (token, end) = word(text, at)?;
                found.push(Word { token, place: at });
                at = end;
            }
        }
    }
    Ok(found)
}

fn comment_end(text: &[u8], start: usize) -> Result<usize, Refusal> {
    let mut at = start;
    while at < text.len() && text[at] != b'\n' {
        if class(text[at]) == Class::NotAllowed {
            return refuse(12, at);
        }
        at += 1;
    }
    Ok(at)
}

fn word(text: &[u8], at: usize) -> Result<(Token<'_>, usize), Refusal> {
    match class(text[at]) {
        Class::Letter => name(text, at),
        Class::Digit => number(text, at),
        Class::Mark => Ok((Token::Mark(text[at]), at + 1)),
        _ => refuse(12, at),
    }
}

/// The end of the longest run of bytes of these classes.
fn run_end(text: &[u8], start: usize, classes: &[Class]) -> usize {
    let mut end = start;
    while end < text.len() && classes.contains(&class(text[end])) {
        end += 1;
    }
    end
}

fn name(text: &[u8], at: usize) -> Result<(Token<'_>, usize), Refusal> {
    let end = run_end(text, at, &[Class::Letter, Class::Digit, Class::Underscore]);
    if end - at > NAME_MOST {
        return refuse(12, at);
    }
    let run = &text[at..end];
    let token = match RESERVED.iter().find(|reserved| reserved.as_bytes() == run) {
        Some(reserved) => Token::Reserved(reserved),
        None => Token::Name(run),
    };
    Ok((token, end))
}

/// Whether bytes have the form of a name: "a letter, then letters, digits or `_`, 24 bytes at most". Reserved words have it too.
pub fn name_form(bytes: &[u8]) -> bool {
    let end = run_end(bytes, 0, &[Class::Letter, Class::Digit, Class::Underscore]);
    bytes.first().is_some_and(|&byte| class(byte) == Class::Letter) && end == bytes.len() && end <= NAME_MOST
}

fn number(text: &[u8], at: usize) -> Result<(Token<'_>, usize), Refusal> {
    let end = run_end(text, at, &[Class::Digit]);
    if end - at > DIGITS_MOST {
        return refuse(12, at);
    }
    let value = text[at..end].iter().fold(0u64, |sum, digit| sum * 10 + u64::from(digit - b'0'));
    if value > NUMBER_MOST {
        return refuse(12, at);
    }
    // The r belongs to the number whatever follows: words are as long as can be.
    if text.get(end) == Some(&b'r') {
        return Ok((Token::Real(value as i32), end + 1));
    }
    Ok((Token::Whole(value as i32), end))
}

//! Damage to a bench file, for each refusal of the table.

use super::bench::{kind_word, literal, KINDS};
use super::prng::Prng;
use crate::interpreter::text::RESERVED;

/// Words beside the reserved ones.
const OTHERS: [&str; 19] = ["{", "}", "(", ")", ":", "=", ",", ".", "+", "-", "*", "/", "a", "x", "n", "1", "2r", "0", "2147483647"];

fn any_word(prng: &mut Prng) -> String {
    let at = prng.below(RESERVED.len() + OTHERS.len());
    RESERVED.iter().chain(&OTHERS).nth(at).expect("a word of the two lists").to_string()
}

/// Words in any order.
pub fn soup(prng: &mut Prng) -> Vec<String> {
    let count = prng.below(30);
    (0..count).map(|_| any_word(prng)).collect()
}

/// Breaks the grammar, mostly: a word dropped, doubled, swapped, put in or replaced, or the rest cut off.
pub fn words(prng: &mut Prng, words: &mut Vec<String>) {
    if words.is_empty() {
        return words.push(any_word(prng));
    }
    let at = prng.below(words.len());
    match prng.below(7) {
        0 => drop(words.remove(at)),
        1 => words.insert(at, words[at].clone()),
        2 => {
            let other = (at + 1) % words.len();
            words.swap(at, other);
        }
        3 => words.insert(at, any_word(prng)),
        4 => words[at] = any_word(prng),
        5 => words.truncate(at),
        _ => words.push(any_word(prng)),
    }
}

/// Keeps the grammar, but not names or kinds: 15 to 18, mostly. Now and then it meets the number of a rank: 13 or 44.
pub fn meaning(prng: &mut Prng, words: &mut Vec<String>) {
    match prng.below(11) {
        0 | 1 => swap_name(prng, words),
        2 => unknown_name(prng, words),
        3 => swap_literal(prng, words),
        4 => swap_kind(prng, words),
        5 => drop_assignment(prng, words),
        6 => double_assignment(prng, words),
        7 => double_block(prng, words),
        8 | 9 => faulty_sum(prng, words),
        _ => turn_place(prng, words),
    }
}

pub fn is_name(word: &str) -> bool {
    word.as_bytes()[0].is_ascii_alphabetic() && !RESERVED.contains(&word)
}

fn is_literal(word: &str) -> bool {
    word == "true" || word == "false" || word.as_bytes()[0].is_ascii_digit()
}

/// A random index of a word that fits.
pub fn find(prng: &mut Prng, words: &[String], fits: impl Fn(usize) -> bool) -> Option<usize> {
    let fitting: Vec<usize> = (0..words.len()).filter(|&at| fits(at)).collect();
    (!fitting.is_empty()).then(|| *prng.pick(&fitting))
}

fn swap_name(prng: &mut Prng, words: &mut [String]) {
    let from = find(prng, words, |at| is_name(&words[at]));
    let to = find(prng, words, |at| is_name(&words[at]));
    if let (Some(from), Some(to)) = (from, to) {
        words[to] = words[from].clone();
    }
}

fn unknown_name(prng: &mut Prng, words: &mut [String]) {
    if let Some(at) = find(prng, words, |at| is_name(&words[at])) {
        words[at] = prng.pick(&["unknown", "q", "Q", "x", "a"]).to_string();
    }
}

fn swap_literal(prng: &mut Prng, words: &mut [String]) {
    let unsigned = |at: usize| at == 0 || words[at - 1] != "-";
    if let Some(at) = find(prng, words, |at| is_literal(&words[at]) && unsigned(at)) {
        let kind = *prng.pick(&KINDS);
        words[at] = literal(prng, kind);
    }
}

fn swap_kind(prng: &mut Prng, words: &mut [String]) {
    // `real` before a `(` is no kind but a factor.
    let is_kind = |at: usize| ["whole", "bool", "real"].contains(&&*words[at]) && words.get(at + 1).is_none_or(|next| next != "(");
    if let Some(at) = find(prng, words, is_kind) {
        words[at] = kind_word(*prng.pick(&KINDS));
    }
}

/// Puts a sum with faults in the place of a rule's literal: what has no kind, and bools at operators.
fn faulty_sum(prng: &mut Prng, words: &mut Vec<String>) {
    const SUMS: [&str; 12] = [
        "true + true",
        "1 + 2r",
        "- true",
        "real ( 1r )",
        "( 1 + 2r ) + true",
        "true * ( 1 / 2r )",
        "real ( 1 + 2r ) + 1",
        "- ( 1 - true ) * 2r",
        "real ( true ) + 1r",
        "1 + 2 * 3r",
        "1r * 2r + 3",
        "- - ( 1r + 1 ) + false",
    ];
    let rules = words.iter().position(|word| word == "rules").unwrap_or(words.len());
    let Some(at) = find(prng, words, |at| at > rules && is_literal(&words[at])) else { return };
    let sum: Vec<String> = prng.pick(&SUMS).split(' ').map(str::to_string).collect();
    words.splice(at..at + 1, sum);
}

/// The span of a random assignment: name, `=`, perhaps `-`, literal.
fn assignment(prng: &mut Prng, words: &[String]) -> Option<(usize, usize)> {
    let rules = words.iter().position(|word| word == "rules")?;
    let equals = find(prng, words, |at| at > 0 && at + 2 < rules && words[at] == "=")?;
    let sign = usize::from(words[equals + 1] == "-");
    Some((equals - 1, equals + 2 + sign))
}

fn drop_assignment(prng: &mut Prng, words: &mut Vec<String>) {
    if let Some((start, end)) = assignment(prng, words) {
        words.drain(start..end);
    }
}

fn double_assignment(prng: &mut Prng, words: &mut Vec<String>) {
    if let Some((start, end)) = assignment(prng, words) {
        let copy = words[start..end].to_vec();
        words.splice(end..end, copy);
    }
}

/// Doubles an interface, a member or an entity.
fn double_block(prng: &mut Prng, words: &mut Vec<String>) {
    let opens = ["interface", "entity", "attribute", "event", "action"];
    let rules = words.iter().position(|word| word == "rules").unwrap_or(0);
    let Some(start) = find(prng, words, |at| at < rules && opens.contains(&&*words[at])) else { return };
    let end = match &*words[start] {
        "attribute" | "event" => start + 4,
        "action" => start + 5,
        _ => words[start..].iter().position(|word| word == "}").map_or(words.len(), |close| start + close + 1),
    };
    if end <= words.len() {
        let copy = words[start..end].to_vec();
        words.splice(end..end, copy);
    }
}

/// Makes a bare place declare a variable, or a declaring place bare.
fn turn_place(prng: &mut Prng, words: &mut Vec<String>) {
    let Some(before) = find(prng, words, |at| at + 2 < words.len() && (words[at] == "from" || words[at] == "on")) else { return };
    if words[before + 2] == ":" {
        words.drain(before + 2..(before + 4).min(words.len()));
        return;
    }
    let Some(interface) = words.iter().position(|word| word == "interface").and_then(|at| words.get(at + 1)).cloned() else { return };
    words.splice(before + 2..before + 2, [":".to_string(), interface]);
}

/// Puts in bytes or runs that are no words.
pub fn bytes(prng: &mut Prng, text: &mut Vec<u8>) {
    let at = prng.below(text.len() + 1);
    let bad: Vec<u8> = match prng.below(10) {
        0 => vec![prng.draw() as u8],
        1 => vec![*prng.pick(&[0, 1, 11, 13, 31, 127, 128, 200, 255])],
        2 => vec![*prng.pick(b"_;!\"$%&'<>?@[\\]^`|~")],
        3 => vec![b'q'; prng.between(23, 27)],
        4 => b" 12345678901 ".to_vec(),
        5 => prng.pick(&[" 2147483648 ", " 9999999999r ", " 2147483647r ", " 00000000001 ", " 0000000000 "]).as_bytes().to_vec(),
        6 => b" # comment with \x7f in it\n".to_vec(),
        7 => b" # comment with \r\n".to_vec(),
        8 => b"\r\n".to_vec(),
        _ => b" # comment with \t ~ ; _ in it\n".to_vec(),
    };
    text.splice(at..at, bad);
}

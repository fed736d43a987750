//! Benches at and beyond each limit: counts, openers, lengths.

use super::bench::{parenthesised, push, render};
use super::prng::Prng;
use super::ranks;
use crate::interpreter::text::TEXT_MOST;

/// The words of a bench with one count at its limit, one below or beyond it.
pub fn counted(prng: &mut Prng) -> Vec<String> {
    let over = *prng.pick(&[-1isize, 0, 1, 1, 1, 2, 3]);
    let at = |most: usize| (most as isize + over) as usize;
    let base = Counts { interfaces: 1, members: 3, entities: 2, rules: 1, variables: 1, clauses: 1, calls: 1 };
    let counts = match prng.below(8) {
        0 => Counts { interfaces: at(16), ..base },
        1 => Counts { members: at(12), ..base },
        2 => Counts { entities: at(32), ..base },
        3 => Counts { rules: at(64), ..base },
        4 => Counts { variables: at(3), clauses: prng.between(1, 4), calls: 3, ..base },
        5 => Counts { clauses: at(8), ..base },
        6 => Counts { calls: at(8), ..base },
        // Two at once: the first in the text is refused.
        _ => Counts { variables: at(3), clauses: at(8), calls: at(8), entities: at(32), ..base },
    };
    let mut words = counts.words(prng);
    ranks::put_in(&mut prng.aside(), &mut words);
    words
}

#[derive(Clone, Copy)]
struct Counts {
    interfaces: usize,
    members: usize,
    entities: usize,
    rules: usize,
    variables: usize,
    clauses: usize,
    calls: usize,
}

impl Counts {
    fn words(&self, prng: &mut Prng) -> Vec<String> {
        let mut words = Vec::new();
        for interface in 0..self.interfaces {
            self.interface(interface, &mut words);
        }
        for entity in 0..self.entities {
            push(&mut words, &["entity", &format!("e{entity}"), ":", "i0", "{", "a0", "=", "1", "}"]);
        }
        words.push("rules".into());
        let big = prng.below(self.rules);
        for rule in 0..self.rules {
            // One rule takes the counts, the others are short.
            let counts = if rule == big { *self } else { Counts { variables: 0, clauses: 1, calls: 1, ..*self } };
            counts.rule(prng, &mut words);
        }
        words.push("end".into());
        words
    }

    fn interface(&self, number: usize, words: &mut Vec<String>) {
        push(words, &["interface", &format!("i{number}"), "{"]);
        let attributes = self.members.saturating_sub(2);
        for member in 0..attributes {
            // All but one are events, so that an entity sets one attribute.
            let sort = if member == 0 { "attribute" } else { "event" };
            push(words, &[sort, &format!("a{member}"), ":", "whole"]);
        }
        push(words, &["event", "x", ":", "whole", "action", "y", "(", "whole", ")", "}"]);
    }

    fn rule(&self, prng: &mut Prng, words: &mut Vec<String>) {
        let mut declared = 0;
        words.push("when".into());
        for clause in 0..self.clauses {
            if clause > 0 {
                words.push(prng.pick(&["and", "or"]).to_string());
            }
            push(words, &["event", "x", "from"]);
            self.place(prng, &mut declared, self.clauses - clause + self.calls, words);
            push(words, &["value", "changed"]);
        }
        words.push("trigger".into());
        for call in 0..self.calls {
            if call > 0 {
                words.push(",".into());
            }
            push(words, &["action", "y", "(", "1", ")", "on"]);
            self.place(prng, &mut declared, self.calls - call, words);
        }
        words.push("end".into());
    }

    /// An entity or a new variable, such that all variables find a place.
    fn place(&self, prng: &mut Prng, declared: &mut usize, places_left: usize, words: &mut Vec<String>) {
        let wanting = self.variables.saturating_sub(*declared);
        if wanting > 0 && (wanting >= places_left || prng.chance(50)) {
            // A repeated declaration counts too.
            let name = if *declared > 0 && prng.chance(5) { "v0".to_string() } else { format!("v{declared}") };
            push(words, &[&name, ":", "i0"]);
            *declared += 1;
        } else {
            push(words, &["e0"]);
        }
    }
}

/// The words of a bench whose openers nest about 16 deep.
pub fn nested(prng: &mut Prng) -> Vec<String> {
    let total = prng.between(14, 18);
    let outer = prng.below(total + 1);
    let mut clause = Vec::new();
    push(&mut clause, &["event", "x", "from", "e"]);
    if prng.chance(30) {
        push(&mut clause, &["with", "a", "="]);
        let depth = if prng.chance(50) { total - outer } else { 0 };
        clause.extend(opened(prng, depth));
    }
    push(&mut clause, &["value", "="]);
    clause.extend(opened(prng, total - outer));
    let mut condition = clause;
    for _ in 0..outer {
        condition = parenthesised(beside(prng, condition));
    }
    let mut words = Vec::new();
    push(&mut words, &["interface", "I", "{", "attribute", "a", ":", "whole", "event", "x", ":", "whole"]);
    push(&mut words, &["action", "y", "(", "whole", ")", "}", "entity", "e", ":", "I", "{", "a", "=", "1", "}", "rules", "when"]);
    words.extend(condition);
    push(&mut words, &["trigger", "action", "y", "("]);
    let depth = prng.between(0, 17);
    words.extend(opened(prng, depth));
    push(&mut words, &[")", "on", "e", "end", "end"]);
    ranks::put_in(&mut prng.aside(), &mut words);
    words
}

/// A whole sum with `depth` openers that enclose one another.
fn opened(prng: &mut Prng, depth: usize) -> Vec<String> {
    let mut words: Vec<String> = match prng.below(4) {
        0 => vec!["1".into()],
        1 => vec!["e".into(), ".".into(), "x".into()],
        2 => vec!["true".into()],
        _ => vec!["7".into(), "-".into(), "2".into()],
    };
    for _ in 0..depth {
        // Openers beside the nest do not count for it.
        let mut around: Vec<String> = Vec::new();
        if prng.chance(15) {
            push(&mut around, &["(", "1", ")", "+"]);
        }
        match prng.weighted(&[50, 45, 5]) {
            0 => words = parenthesised(words),
            1 => words.insert(0, "-".into()),
            _ => {
                words = parenthesised(words);
                words.insert(0, "real".into());
            }
        }
        // A `-` takes a factor, so what stands before it must not reach inside.
        around.extend(words);
        words = around;
    }
    words
}

fn beside(prng: &mut Prng, condition: Vec<String>) -> Vec<String> {
    if !prng.chance(8) {
        return condition;
    }
    let mut words = Vec::new();
    push(&mut words, &["event", "x", "from", "e", "value", "changed", *prng.pick(&["and", "or"])]);
    words.extend(condition);
    words
}

/// A text of about the greatest length: padded by blanks, comments or words.
pub fn long_text(prng: &mut Prng, words: &[String]) -> Vec<u8> {
    let length = TEXT_MOST + prng.below(5) - 2;
    let mut text = render(prng, words);
    text.truncate(length);
    let mut padding = match prng.below(3) {
        0 => vec![b' '; length - text.len()],
        1 => comment(length - text.len()),
        _ => prng.bytes(length - text.len()),
    };
    if prng.chance(50) {
        text.push(b'\n');
        text.append(&mut padding);
        text.truncate(length);
        return text;
    }
    padding.append(&mut text);
    padding
}

fn comment(length: usize) -> Vec<u8> {
    let mut text = vec![b'#'; length];
    if let Some(last) = text.last_mut() {
        *last = b'\n';
    }
    text
}

//! Benches for long files of readings. They are small where the lines are many, and wide where the lines are long.

use crate::generate::bench::{self, entity_words, interface_words, push, Plan, PlanEntity, PlanInterface, PlanMember, SMALL};
use crate::generate::lines::{self, Column};
use crate::generate::prng::Prng;
use crate::generate::{damage, limits, ranks};
use crate::interpreter::accept;
use crate::interpreter::grammar::Sort;
use crate::interpreter::text::TEXT_MOST;
use crate::interpreter::value::Kind;

/// Entities of one interface whose actions repeat its events, so that each reading shows in a row.
#[derive(Clone, Copy, Debug)]
pub struct Mirror {
    pub entities: usize,
    pub wholes: usize,
    pub reals: usize,
    pub actions: usize,
    /// The shortest and the longest name.
    pub names: (usize, usize),
}

pub const SHORT_NAMES: (usize, usize) = (1, 4);
pub const LONG_NAMES: (usize, usize) = (18, 24);
pub const LONGEST_NAMES: (usize, usize) = (24, 24);

/// A name of a length within the bounds; those with other numbers are other names.
fn name(prng: &mut Prng, letter: char, number: usize, (shortest, longest): (usize, usize)) -> String {
    let length = prng.between(shortest, longest);
    let start = format!("{letter}{number}");
    if start.len() >= length {
        return start;
    }
    // The `_` ends the number, so that what fills the name up makes no other name of it.
    format!("{:x<length$}", format!("{start}_"))
}

impl Mirror {
    pub fn plan(&self, prng: &mut Prng) -> Plan {
        let mut members = Vec::new();
        for number in 0..self.wholes + self.reals {
            let kind = if number < self.wholes { Kind::Whole } else { Kind::Real };
            members.push(PlanMember { sort: Sort::Event, name: name(prng, 'e', number, self.names), kind });
        }
        let events = members.clone();
        for number in 0..self.actions {
            let kind = events.get(number % events.len().max(1)).map_or(Kind::Bool, |event| event.kind);
            members.push(PlanMember { sort: Sort::Action, name: name(prng, 'a', number, self.names), kind });
        }
        let entity = |number: usize| PlanEntity { name: name(prng, 'd', number, self.names), interface: 0 };
        let entities = (0..self.entities).map(entity).collect();
        let mut plan = Plan { interfaces: vec![PlanInterface { name: "M".into(), members }], entities, words: Vec::new() };
        plan.words = self.words(prng, &plan, &events);
        plan
    }

    fn words(&self, prng: &mut Prng, plan: &Plan, events: &[PlanMember]) -> Vec<String> {
        let mut words = interface_words(plan);
        words.extend(entity_words(prng, plan));
        words.push("rules".into());
        let actions = plan.interfaces[0].members.iter().filter(|member| member.sort == Sort::Action);
        for (action, event) in actions.zip(events.iter().cycle()) {
            push(&mut words, &["when", "event", &event.name, "from", "v", ":", "M", "value", "changed", "trigger", "action"]);
            push(&mut words, &[&action.name, "(", "v", ".", &event.name, ")", "on", "v", "end"]);
        }
        words.push("end".into());
        words
    }
}

/// One entity with an event, and lamps with many actions that all repeat it: short lines, long rows.
pub fn panel(prng: &mut Prng, lamps: usize, actions: usize, kind: Kind, names: (usize, usize)) -> Plan {
    let event = PlanMember { sort: Sort::Event, name: "x".into(), kind };
    let action = |number: usize| PlanMember { sort: Sort::Action, name: name(prng, 'a', number, names), kind };
    let members: Vec<PlanMember> = (0..actions).map(action).collect();
    let mut entities = vec![PlanEntity { name: "p".into(), interface: 0 }];
    entities.extend((0..lamps).map(|number| PlanEntity { name: name(prng, 'l', number, names), interface: 1 }));
    let interface = |name: &str, members: Vec<PlanMember>| PlanInterface { name: name.into(), members };
    let interfaces = vec![interface("P", vec![event]), interface("L", members.clone())];
    let mut plan = Plan { interfaces, entities, words: Vec::new() };
    let mut words = interface_words(&plan);
    words.extend(entity_words(prng, &plan));
    words.push("rules".into());
    for member in &members {
        push(&mut words, &["when", "event", "x", "from", "p", "value", "changed", "trigger", "action", &member.name]);
        push(&mut words, &["(", "p", ".", "x", ")", "on", "v", ":", "L", "end"]);
    }
    words.push("end".into());
    plan.words = words;
    plan
}

/// A bench for many short lines.
pub fn small(prng: &mut Prng) -> Plan {
    if prng.chance(40) {
        return bench::bench(prng, SMALL);
    }
    let wholes = prng.between(1, 3);
    let mirror =
        Mirror { entities: prng.between(1, 2), wholes, reals: prng.below(2), actions: *prng.pick(&[0, 1, 1, 1, 2, 4]), names: SHORT_NAMES };
    mirror.plan(prng)
}

/// A bench for few long lines: most have hundreds of columns.
pub fn wide(prng: &mut Prng) -> Plan {
    let (wholes, actions) = (prng.below(2), prng.below(2));
    Mirror { entities: 32, wholes, reals: 12 - wholes - actions, actions, names: SHORT_NAMES }.plan(prng)
}

/// Some columns, one for a whole among them if there is any: its field takes any length from 1 to 11 bytes.
pub fn columns(prng: &mut Prng, plan: &Plan) -> Vec<Column> {
    let mut columns = lines::some_columns(prng, plan);
    let is_whole = |column: &Column| matches!(*column, Column::Event(entity, member) if plan.members(entity)[member].kind == Kind::Whole);
    if !columns.iter().any(is_whole) {
        columns.extend(lines::all_columns(plan).into_iter().find(is_whole));
    }
    columns
}

/// All events, and the presence of few entities: one that is absent has no values, so its lines are short.
pub fn event_columns(prng: &mut Prng, plan: &Plan) -> Vec<Column> {
    let mut columns = lines::all_columns(plan);
    columns.retain(|column| matches!(column, Column::Event(..)) || prng.chance(5));
    prng.shuffle(&mut columns);
    columns
}

/// A text of another length: blanks and comments before or after it, or between, cut into lines of any length.
pub fn padded(prng: &mut Prng, text: &[u8], length: usize) -> Vec<u8> {
    let room = length.saturating_sub(text.len());
    let before = match prng.below(3) {
        0 => 0,
        1 => room,
        _ => prng.below(room + 1),
    };
    let mut padded = padding(prng, before);
    padded.extend_from_slice(text);
    // Ends a comment at the end of the text, or stands for a blank.
    if padded.len() < length {
        padded.push(b'\n');
    }
    let after = padding(prng, length.saturating_sub(padded.len()));
    padded.extend(after);
    padded
}

/// Blanks or comments; the last byte is a line feed, so that no comment reaches further.
fn padding(prng: &mut Prng, length: usize) -> Vec<u8> {
    let comment = prng.chance(50);
    let mut bytes = Vec::with_capacity(length);
    while bytes.len() < length {
        let run = prng.between(1, 3000).min(length - bytes.len());
        let byte = if comment { b'#' } else { *prng.pick(b" \t\n ") };
        bytes.extend(std::iter::repeat_n(byte, run));
        *bytes.last_mut().expect("a run has a byte") = b'\n';
    }
    bytes
}

/// A text that is refused by this number, 11 to 18 or 44.
pub fn refused(prng: &mut Prng, number: u8) -> Vec<u8> {
    loop {
        let text = damaged(prng, number);
        if accept(&text).is_err_and(|refusal| refusal.number == number) {
            return text;
        }
    }
}

fn damaged(prng: &mut Prng, number: u8) -> Vec<u8> {
    let mut words = match number {
        14 => limits::counted(prng),
        44 => ranks::faulty(prng),
        _ => bench::bench(prng, SMALL).words,
    };
    match number {
        13 => damage::words(prng, &mut words),
        15..=18 => damage::meaning(prng, &mut words),
        _ => {}
    }
    let mut text = bench::render(prng, &words);
    match number {
        11 => text = padded(prng, &text, TEXT_MOST + 1),
        12 => damage::bytes(prng, &mut text),
        _ => {}
    }
    text
}

//! State memory as nobody's run left it: valid but unreachable states, slightly wrong ones, random bytes.

use super::bench::Plan;
use super::case::Call;
use super::lines::{self, Column, Line};
use super::prng::Prng;
use super::{senders, spoils};
use crate::image::{self, sender_at, state_bytes, COUNT_AT, NUMBER_AT, STATE_SIZE};
use crate::interpreter::grammar::{Bench, Member, Sort};
use crate::interpreter::line::SENDERS_MOST;
use crate::interpreter::machine::{Reading, Readings, Sender, State, Store};
use crate::interpreter::row::field;
use crate::interpreter::value::{Cell, Kind, Value};

/// Numbers that come near the last one, whose next ones have one more digit or byte, and the first.
const NUMBERS: [u32; 11] = [1, 1, 2, 7, 9, 255, 256, 1_000, u32::MAX - 1, u32::MAX - 1, u32::MAX];

/// Writes to the state's memory, which holds these bytes.
pub fn odd_state(prng: &mut Prng, bench: &Bench, memory: &[u8]) -> Call {
    let count = usize::from(memory[COUNT_AT]).min(SENDERS_MOST);
    let used = state_bytes(bench.entities.len(), count);
    match prng.weighted(&[5, 5, 15, 5, 30, 40]) {
        0 => Call::SetState { at: prng.below(used), bytes: prng.bytes(1) },
        1 => Call::SetState { at: prng.below(used), bytes: vec![prng.below(5) as u8] },
        2 if count > 0 => {
            let number = sender_at(bench.entities.len(), prng.below(count)) + NUMBER_AT;
            Call::SetState { at: number, bytes: prng.pick(&NUMBERS).to_le_bytes().to_vec() }
        }
        3 => Call::SetState { at: 0, bytes: prng.bytes(STATE_SIZE) },
        4 if count > 0 && image::decode_state(bench, memory).is_some() => {
            Call::SetState { at: 0, bytes: spoils::spoilt(prng, bench, memory[..used].to_vec()) }
        }
        _ => any_state(prng, bench),
    }
}

/// A random state of the bench, often with something spoilt or one attribute unset that had to be set one cycle before.
fn any_state(prng: &mut Prng, bench: &Bench) -> Call {
    let mut state = random_state(prng, bench);
    let unset = prng.chance(20);
    if unset {
        unset_before(prng, bench, &mut state.before);
    }
    let mut bytes = image::state_image(bench, &state);
    if !unset && prng.chance(50) {
        bytes = spoils::spoilt(prng, bench, bytes);
    }
    Call::SetState { at: 0, bytes }
}

pub fn random_state(prng: &mut Prng, bench: &Bench) -> State {
    let count = prng.weighted(&[8, 20, 16, 8, 5, 5, 5, 8, 25]);
    let names = senders::some(prng, &Plan::of(bench), count);
    let senders = names.iter().map(|name| sender(prng, bench, name)).collect();
    State { now: store(prng, bench, false), before: store(prng, bench, true), senders }
}

fn sender(prng: &mut Prng, bench: &Bench, name: &[u8]) -> Sender {
    let fired = |prng: &mut Prng, _: usize, member: &Member| {
        let fires = member.sort == Sort::Action && prng.chance(50);
        fires.then(|| value(prng, member.kind))
    };
    Sender { name: name.to_vec(), number: *prng.pick(&NUMBERS), last: readings(prng, bench), fired: each(prng, bench, fired) }
}

/// Gives `make` the number of the entity and its member.
fn each<T>(prng: &mut Prng, bench: &Bench, make: impl Fn(&mut Prng, usize, &Member) -> T) -> Vec<Vec<T>> {
    let row = |entity| bench.members_of(entity).iter().map(|member| make(prng, entity, member)).collect();
    (0..bench.entities.len()).map(row).collect()
}

/// Attributes are set, except some of entities that were absent one cycle before.
fn store(prng: &mut Prng, bench: &Bench, before: bool) -> Store {
    let present: Vec<bool> = bench.entities.iter().map(|_| prng.chance(75)).collect();
    let cells = each(prng, bench, |prng, entity, member| cell(prng, member, before && !present[entity]));
    Store { present, cells }
}

fn cell(prng: &mut Prng, member: &Member, attributes_unset: bool) -> Cell {
    let set = match (member.sort, attributes_unset) {
        (Sort::Attribute, false) => 100,
        (Sort::Attribute, true) => 35,
        _ => 70,
    };
    prng.chance(set).then(|| value(prng, member.kind))
}

/// Unsets one attribute of an entity that is present in the store one cycle before, if there is one: this is no state.
fn unset_before(prng: &mut Prng, bench: &Bench, before: &mut Store) {
    let mut attributes = Vec::new();
    for entity in (0..bench.entities.len()).filter(|&entity| before.present[entity]) {
        let members = bench.members_of(entity).iter().enumerate();
        attributes.extend(members.filter(|(_, member)| member.sort == Sort::Attribute).map(|(at, _)| (entity, at)));
    }
    if !attributes.is_empty() {
        let (entity, member) = *prng.pick(&attributes);
        before.cells[entity][member] = None;
    }
}

fn value(prng: &mut Prng, kind: Kind) -> Value {
    match kind {
        Kind::Whole => Value::Whole(lines::whole(prng)),
        Kind::Bool => Value::Bool(prng.chance(50)),
        Kind::Real => Value::Real(lines::real(prng)),
    }
}

fn readings(prng: &mut Prng, bench: &Bench) -> Readings {
    let presence = bench.entities.iter().map(|_| *prng.pick(&[None, None, Some(true), Some(false)])).collect();
    let reading = |prng: &mut Prng, _: usize, member: &Member| match prng.below(4) {
        _ if member.sort != Sort::Event => Reading::NotRead,
        0 => Reading::NotRead,
        1 => Reading::Unset,
        _ => Reading::Set(value(prng, member.kind)),
    };
    Readings { presence, cells: each(prng, bench, reading) }
}

/// The line that a state says was the last of a sender.
pub fn last_line(sender: &Sender) -> Line {
    let mut line = Line::default();
    for (entity, presence) in sender.last.presence.iter().enumerate() {
        line.columns.push(Column::Presence(entity));
        line.fields.push(presence.map_or("-".into(), |present| present.to_string()));
    }
    for (entity, cells) in sender.last.cells.iter().enumerate() {
        for (member, reading) in cells.iter().enumerate() {
            let text = match reading {
                Reading::NotRead => continue,
                Reading::Unset => "?".into(),
                Reading::Set(value) => String::from_utf8(field(Some(*value))).expect("fields are ASCII"),
            };
            line.columns.push(Column::Event(entity, member));
            line.fields.push(text);
        }
    }
    line
}

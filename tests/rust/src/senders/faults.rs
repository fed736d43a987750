//! What is wrong with memory that is no state, and by what numbers a line is refused or would be if the faults before were mended.

use crate::image::{cell_in_plane, fingerprint, sender_at, store_at, CELL, COUNT_AT, NAME_AT, NUMBER_AT, PLANE_AT};
use crate::interpreter::grammar::{Bench, Member, Sort};
use crate::interpreter::line::{self, SENDERS_MOST};
use crate::interpreter::machine::State;
use crate::interpreter::text::{name_form, NAME_MOST};
use crate::interpreter::value::Kind;

const MEMBERS: usize = 12;

// Memory.

/// Everything that keeps memory from being a state of the bench, each once.
pub fn of_state(bench: &Bench, memory: &[u8]) -> Vec<String> {
    let mut faults = Vec::new();
    let count = usize::from(memory[COUNT_AT]);
    let entities = bench.entities.len();
    if memory[..4] != fingerprint(bench.text).to_le_bytes() {
        faults.push("fingerprint".to_string());
    }
    for store in 0..2 {
        faults.extend(of_store(bench, &memory[store_at(entities, store)..], store));
    }
    if count > SENDERS_MOST {
        faults.push("more than eight senders".into());
    } else {
        let senders: Vec<&[u8]> = (0..count).map(|place| &memory[sender_at(entities, place)..]).collect();
        faults.extend(senders.iter().flat_map(|sender| of_sender(bench, sender)));
        let twice = |place: usize| senders[..place].iter().any(|sender| sender[..NUMBER_AT] == senders[place][..NUMBER_AT]);
        faults.extend((0..count).any(twice).then(|| "two senders of one name".to_string()));
    }
    faults.sort();
    faults.dedup();
    faults
}

fn of_store(bench: &Bench, bytes: &[u8], store: usize) -> Vec<String> {
    let entities = bench.entities.len();
    let mut faults = Vec::new();
    if bytes[..entities].iter().any(|&flag| flag > 1) {
        faults.push("flag in a store".to_string());
    }
    each_cell(bench, bytes, |entity, member, tag, payload| {
        let unset = tag == 0 && member.is_some_and(|member| member.sort == Sort::Attribute);
        let what = match (malformed(tag, payload), member) {
            (Some(what), _) => what,
            _ if tag == 4 => "no reading",
            (_, None) if tag != 0 => "value without a member",
            (_, Some(member)) if other_kind(tag, member.kind) => "another kind",
            _ if unset && store == 0 => "attribute unset now",
            _ if unset && bytes[entity] == 1 => "attribute unset before",
            _ => return,
        };
        faults.push(format!("store: {what}"));
    });
    faults
}

fn of_sender(bench: &Bench, bytes: &[u8]) -> Vec<String> {
    let entities = bench.entities.len();
    let length = usize::from(bytes[0]);
    let mut faults: Vec<&str> = Vec::new();
    match length {
        0 => faults.push("name of no byte"),
        1..=NAME_MOST => {
            let (name, zeros) = bytes[NAME_AT..NUMBER_AT].split_at(length);
            faults.extend((!name_form(name)).then_some("name ill formed"));
            faults.extend(zeros.iter().any(|&byte| byte != 0).then_some("bytes behind the name"));
        }
        _ => faults.push("name of more than 24 bytes"),
    }
    faults.extend((bytes[NUMBER_AT..PLANE_AT] == [0; 4]).then_some("number 0"));
    let plane = &bytes[PLANE_AT..];
    faults.extend(plane[..entities].iter().any(|&flag| flag > 2).then_some("flag that was read"));
    let mut faults: Vec<String> = faults.into_iter().map(str::to_string).collect();
    each_cell(bench, plane, |_, member, tag, payload| {
        let what = malformed(tag, payload).or_else(|| kept_fault(member, tag));
        faults.extend(what.map(|what| format!("sender: {what}")));
    });
    faults
}

fn kept_fault(member: Option<&Member>, tag: u8) -> Option<&'static str> {
    match member.map(|member| (member.sort, member.kind)) {
        Some((Sort::Event, kind)) => other_kind(tag, kind).then_some("another kind at an event"),
        Some((Sort::Action, _)) if tag == 4 => Some("no reading at an action"),
        Some((Sort::Action, kind)) => other_kind(tag, kind).then_some("another kind at an action"),
        Some((Sort::Attribute, _)) if tag == 0 => Some("unset at an attribute"),
        Some((Sort::Attribute, _)) => (tag != 4).then_some("value at an attribute"),
        None if tag == 0 => Some("unset without a member"),
        None => (tag != 4).then_some("value without a member"),
    }
}

/// Hands on each cell of a plane: its entity, the member if there is one, tag and payload.
fn each_cell(bench: &Bench, plane: &[u8], mut look: impl FnMut(usize, Option<&Member>, u8, u64)) {
    for entity in 0..bench.entities.len() {
        for member in 0..MEMBERS {
            let at = cell_in_plane(bench.entities.len(), entity, member);
            let payload = u64::from_le_bytes(plane[at + 1..at + CELL].try_into().expect("eight bytes"));
            look(entity, bench.members_of(entity).get(member), plane[at], payload);
        }
    }
}

/// What is wrong with a cell wherever it stands.
fn malformed(tag: u8, payload: u64) -> Option<&'static str> {
    match (tag, payload) {
        (0 | 4, 1..) => Some("payload where none is"),
        (1, payload) if payload >= 1 << 32 => Some("whole beyond 32 bits"),
        (2, 2..) => Some("bool above 1"),
        (3, payload) if !f64::from_bits(payload).is_finite() => Some("real not finite"),
        (5.., _) => Some("tag above 4"),
        _ => None,
    }
}

fn other_kind(tag: u8, kind: Kind) -> bool {
    matches!((tag, kind), (1, Kind::Bool | Kind::Real) | (2, Kind::Whole | Kind::Real) | (3, Kind::Whole | Kind::Bool))
}

// Lines.

/// A number by which a line is refused; the absent-entity part of 23 stands apart.
#[derive(Clone, Copy, Debug, PartialEq, Eq)]
pub enum Fault {
    Number(u8),
    Absent,
}

impl Fault {
    pub fn name(self) -> String {
        match self {
            Fault::Number(number) => number.to_string(),
            Fault::Absent => "23 for absence".into(),
        }
    }
}

/// All faults of a line in the order in which they are looked for, as far as those before let them be seen.
pub fn of_line(bench: &Bench, state: &State, names: &[u8], values: &[u8]) -> Vec<Fault> {
    let columns = line::columns(bench, names);
    let count = names.split(|&byte| byte == b' ').count().saturating_sub(2);
    let record = line::record(values, columns.as_ref().map_or(count, Vec::len));
    let mut fields = values.split(|&byte| byte == b' ');
    let (sender, number) = (fields.next().unwrap_or(b""), fields.next().and_then(line::line_number));
    let mut faults = Vec::new();
    let mut fault = |is: bool, fault: Fault| faults.extend(is.then_some(fault));
    fault(columns.is_none(), Fault::Number(22));
    fault(record.is_none(), Fault::Number(21));
    fault(!sender.is_empty() && !name_form(sender), Fault::Number(43));
    let known = state.sender(sender);
    fault(!sender.is_empty() && known.is_none() && state.senders.len() == SENDERS_MOST, Fault::Number(42));
    let readings = columns.as_ref().zip(record.as_ref()).map(|(columns, record)| line::readings(bench, columns, &record.fields));
    fault(matches!(readings, Some(None)), Fault::Number(23));
    let readings = readings.flatten();
    let last = known.map_or(0, |place| u64::from(state.senders[place].number));
    let same = known.zip(readings.as_ref()).is_some_and(|(place, readings)| readings.same_bits(&state.senders[place].last));
    let resent = same && number == Some(last);
    fault(!resent && readings.as_ref().is_some_and(|readings| line::reads_absent(state, readings)), Fault::Absent);
    let Some(number) = number else { return faults };
    let mut fault = |is: bool, fault: Fault| faults.extend(is.then_some(fault));
    fault(number == 0 || number > u64::from(u32::MAX) || (number != last && number != last + 1), Fault::Number(24));
    fault(number == last && last > 0 && !resent, Fault::Number(25));
    faults
}

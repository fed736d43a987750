//! Lines of readings, with senders as order 5 of document 02 has them: 22, 21, 43, 42, 23, 24, 25, or a line that is taken, with the rules
//! that it tries.

use super::grammar::{Bench, Sort};
use super::machine::{after, writes_of, Given, Reading, Readings, State, RIGHT};
use super::rest;
use super::text::{name_form, TEXT_MOST};
use super::value::{Kind, Value};

const NAMES_MOST: usize = TEXT_MOST;
pub const VALUES_MOST: usize = 8_192;
const NUMBER_DIGITS_MOST: usize = 10;
/// "Up to eight senders are known".
pub const SENDERS_MOST: usize = 8;

#[derive(Clone, Copy, Debug, PartialEq, Eq)]
pub enum Column {
    Presence(usize),
    Event(usize, usize),
}

/// How an accepted line leaves the state.
pub enum Taken {
    /// The last line of the sender in this place, sent again: the state stays.
    Resent(usize),
    /// The state after the line, the place of its sender, and the set of the rules that are tried, as order 7 has it: the others rest.
    Next(State, usize, u64),
}

/// The lines of a file: a last line feed closes the last line and opens none.
pub fn lines(file: &[u8]) -> impl Iterator<Item = &[u8]> {
    file.strip_suffix(b"\n").unwrap_or(file).split(|&byte| byte == b'\n')
}

/// Takes a line, or gives the refusal's number.
pub fn take(bench: &Bench, state: &State, names: &[u8], values: &[u8]) -> Result<Taken, u8> {
    let columns = columns(bench, names).ok_or(22)?;
    take_values(bench, state, &columns, values)
}

/// Takes a line of values whose names are already read.
pub fn take_values(bench: &Bench, state: &State, columns: &[Column], values: &[u8]) -> Result<Taken, u8> {
    let record = record(values, columns.len()).ok_or(21)?;
    let known = known(state, record.sender)?;
    let readings = readings(bench, columns, &record.fields).ok_or(23)?;
    // "Being resent is tested before the check on absent entities, so the absent-entity part of refusal 23 then covers every other line."
    if let Some(place) = known.filter(|&place| resent(state, place, record.number, &readings)) {
        return Ok(Taken::Resent(place));
    }
    if reads_absent(state, &readings) {
        return Err(23);
    }
    let number = next_number(known.map_or(0, |place| state.senders[place].number), record.number)?;
    let line = Given { sender: record.sender, number, readings: &readings };
    let (seen, writes) = writes_of(RIGHT, bench, state, &readings).expect("the machine never stops on an accepted bench");
    let tried = rest::tried(bench, &seen, &state.before);
    assert!(rest::only_these_write(tried, &writes), "a rule at rest writes");
    let next = after(RIGHT, bench, state, line, seen, &writes);
    let place = next.sender(record.sender).expect("a sender is known from its first taken line");
    Ok(Taken::Next(next, place, tried))
}

/// The place of a sender that is known. "A ninth is refused by 42, and an ill-formed sender by 43, both after 21 and before 23, with 43
/// first."
fn known(state: &State, sender: &[u8]) -> Result<Option<usize>, u8> {
    if !name_form(sender) {
        return Err(43);
    }
    let place = state.sender(sender);
    if place.is_none() && state.senders.len() == SENDERS_MOST {
        return Err(42);
    }
    Ok(place)
}

/// Whether a line is the last of a known sender.
fn resent(state: &State, place: usize, number: u64, readings: &Readings) -> bool {
    let sender = &state.senders[place];
    number == u64::from(sender.number) && readings.same_bits(&sender.last)
}

/// The number of a line that is not resent, if it may come after the sender's last.
fn next_number(last: u32, number: u64) -> Result<u32, u8> {
    let number = u32::try_from(number).ok().filter(|&number| number != 0).ok_or(24)?;
    if number == last {
        return Err(25);
    }
    if u64::from(number) != u64::from(last) + 1 {
        return Err(24);
    }
    Ok(number)
}

/// The columns of a line of names; `None` if it is ill formed.
pub fn columns(bench: &Bench, names: &[u8]) -> Option<Vec<Column>> {
    if names.len() > NAMES_MOST {
        return None;
    }
    let mut fields = names.split(|&byte| byte == b' ');
    if fields.next() != Some(b"by") || fields.next() != Some(b"n") {
        return None;
    }
    let mut columns = Vec::new();
    for field in fields {
        let column = column(bench, field)?;
        if columns.contains(&column) {
            return None;
        }
        columns.push(column);
    }
    Some(columns)
}

/// Names hold no other bytes than names have, so an odd byte makes a column unknown.
fn column(bench: &Bench, field: &[u8]) -> Option<Column> {
    let Some(dot) = field.iter().position(|&byte| byte == b'.') else {
        return bench.entity(field).map(Column::Presence);
    };
    let entity = bench.entity(&field[..dot])?;
    let member = bench.interface_of(entity)?.member_of_sort(&field[dot + 1..], &[Sort::Event])?;
    Some(Column::Event(entity, member))
}

/// A line of values, as far as 21 looks at it.
pub struct Record<'v> {
    /// Of any form, but not empty.
    pub sender: &'v [u8],
    pub number: u64,
    /// One for each column.
    pub fields: Vec<&'v [u8]>,
}

/// The parts of a line of values; `None` for 21.
pub fn record(values: &[u8], columns: usize) -> Option<Record<'_>> {
    if values.len() > VALUES_MOST || values.contains(&b'\n') {
        return None;
    }
    let mut fields: Vec<&[u8]> = values.split(|&byte| byte == b' ').collect();
    if fields.len() != columns + 2 || fields.iter().any(|field| field.is_empty()) {
        return None;
    }
    let sender = fields.remove(0);
    let number = line_number(fields.remove(0))?;
    Some(Record { sender, number, fields })
}

pub fn line_number(field: &[u8]) -> Option<u64> {
    if field.len() > NUMBER_DIGITS_MOST {
        return None;
    }
    digits(field)
}

/// A whole number without sign: digits, no leading zero unless it is 0.
fn digits(field: &[u8]) -> Option<u64> {
    let plain = !field.is_empty() && field.iter().all(u8::is_ascii_digit);
    if !plain || (field[0] == b'0' && field.len() > 1) || field.len() > NUMBER_DIGITS_MOST {
        return None;
    }
    Some(field.iter().fold(0, |sum, digit| sum * 10 + u64::from(digit - b'0')))
}

/// The readings of a line; `None` if a value is ill formed or of another kind.
pub fn readings(bench: &Bench, columns: &[Column], fields: &[&[u8]]) -> Option<Readings> {
    let mut readings = Readings::none(bench);
    for (column, field) in columns.iter().zip(fields) {
        match *column {
            Column::Presence(entity) => readings.presence[entity] = presence(field)?,
            Column::Event(entity, member) => readings.cells[entity][member] = reading(bench.members_of(entity)[member].kind, field)?,
        }
    }
    Some(readings)
}

/// Whether an entity that is absent after the line is read.
pub fn reads_absent(state: &State, readings: &Readings) -> bool {
    readings.cells.iter().enumerate().any(|(entity, cells)| {
        let present = readings.presence[entity].unwrap_or(state.now.present[entity]);
        !present && cells.iter().any(|reading| !matches!(reading, Reading::NotRead))
    })
}

fn presence(field: &[u8]) -> Option<Option<bool>> {
    match field {
        b"-" => Some(None),
        _ => boolean(field).map(Some),
    }
}

fn reading(kind: Kind, field: &[u8]) -> Option<Reading> {
    match field {
        b"-" => Some(Reading::NotRead),
        b"?" => Some(Reading::Unset),
        _ => value(kind, field).map(Reading::Set),
    }
}

fn value(kind: Kind, field: &[u8]) -> Option<Value> {
    match kind {
        Kind::Whole => whole(field).map(Value::Whole),
        Kind::Bool => boolean(field).map(Value::Bool),
        Kind::Real => real(field).map(Value::Real),
    }
}

fn boolean(field: &[u8]) -> Option<bool> {
    match field {
        b"true" => Some(true),
        b"false" => Some(false),
        _ => None,
    }
}

fn whole(field: &[u8]) -> Option<i32> {
    let (negative, plain) = match field.strip_prefix(b"-") {
        Some(plain) => (true, plain),
        None => (false, field),
    };
    let size = i64::try_from(digits(plain)?).ok()?;
    if negative && size == 0 {
        return None;
    }
    i32::try_from(if negative { -size } else { size }).ok()
}

fn real(field: &[u8]) -> Option<f64> {
    if field.len() != 16 {
        return None;
    }
    let mut bits = 0u64;
    for &byte in field {
        let digit = match byte {
            b'0'..=b'9' => byte - b'0',
            b'a'..=b'f' => byte - b'a' + 10,
            _ => return None,
        };
        bits = bits << 4 | u64::from(digit);
    }
    let value = f64::from_bits(bits);
    value.is_finite().then_some(value)
}

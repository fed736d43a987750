//! Rows: the row of names, and a line's sender and number with every action cell.

use super::grammar::{Bench, Sort};
use super::machine::{Sender, State};
use super::value::{Cell, Value};

/// All action cells, in entity and member order.
fn actions<'b>(bench: &'b Bench) -> impl Iterator<Item = (usize, usize)> + 'b {
    (0..bench.entities.len()).flat_map(move |entity| {
        let members = bench.members_of(entity).iter().enumerate();
        members.filter(|(_, member)| member.sort == Sort::Action).map(move |(member, _)| (entity, member))
    })
}

/// The row of names, without a line feed.
pub fn header(bench: &Bench) -> Vec<u8> {
    let mut row = b"by n".to_vec();
    for (entity, member) in actions(bench) {
        row.push(b' ');
        row.extend_from_slice(bench.entities[entity].name.text);
        row.push(b'.');
        row.extend_from_slice(bench.members_of(entity)[member].name.text);
    }
    row
}

/// The row of a sender's last line: its name, the number and the actions then fired, without a line feed.
pub fn row(bench: &Bench, sender: &Sender) -> Vec<u8> {
    let mut row = sender.name.clone();
    row.extend_from_slice(format!(" {}", sender.number).as_bytes());
    for (entity, member) in actions(bench) {
        row.push(b' ');
        row.extend(field(sender.fired[entity][member]));
    }
    row
}

/// The row that a state keeps for a name: of one that is not known, number 0 and nothing fired.
pub fn row_of(bench: &Bench, state: &State, name: &[u8]) -> Vec<u8> {
    match state.sender(name) {
        Some(place) => row(bench, &state.senders[place]),
        None => row(bench, &Sender::new(bench, name)),
    }
}

/// A cell in the form of readings, or `-`.
pub fn field(cell: Cell) -> Vec<u8> {
    match cell {
        None => b"-".to_vec(),
        Some(Value::Whole(value)) => value.to_string().into_bytes(),
        Some(Value::Bool(value)) => value.to_string().into_bytes(),
        Some(Value::Real(value)) => format!("{:016x}", value.to_bits()).into_bytes(),
    }
}

//! The day sheet of order 3 of document 02: the taken lines of a day on 80 columns, then what each real column showed. Order 5: "the day
//! sheet shows the number alone", whoever sent the line.

use super::grammar::Bench;
use super::line::{self, Taken};
use super::machine::State;
use super::row::field;
use super::value::{Cell, Kind, Value};
use std::iter::repeat_n;

/// "80 columns, each line filled with spaces to exactly 80 and closed by a line feed."
const WIDTH: usize = 80;
/// "Column 1 to 10 holds the line number".
const NUMBER_WIDTH: usize = 10;
/// "up to five chosen cells [..] of 14 columns each".
const CELL_WIDTH: usize = 14;
const CELLS_MOST: usize = 5;
/// "reals as their 16 digits over two rows of 8".
const ROW_DIGITS: usize = 8;

/// A chosen cell: a member, of any sort, of an entity.
#[derive(Clone, Copy, Debug, PartialEq, Eq)]
pub struct Chosen {
    pub entity: usize,
    pub member: usize,
    pub kind: Kind,
}

/// What becomes of a line of a day.
#[derive(Clone, Copy, Debug, PartialEq, Eq)]
pub enum Passed {
    /// By this number: it is passed over.
    Refused(u8),
    /// "A resent line isn't printed." Its sender's place.
    Resent(usize),
    /// Its sender's place.
    Printed(usize),
}

/// The sheet of a day that runs on from this state, or the number 41 or 22.
pub fn sheet(bench: &Bench, state: &State, readings: &[u8], cells: &[u8]) -> Result<Vec<u8>, u8> {
    let chosen = chosen(bench, cells).ok_or(41)?;
    let mut sheet = Vec::new();
    let mut shown: Vec<Vec<Cell>> = vec![Vec::new(); chosen.len()];
    day(bench, state, readings, &mut |passed, after| {
        if let Passed::Printed(sender) = passed {
            let cells: Vec<Cell> = chosen.iter().map(|cell| after.now.read(cell.entity, cell.member)).collect();
            print_line(&mut sheet, after.senders[sender].number, &cells);
            shown.iter_mut().zip(cells).for_each(|(column, cell)| column.push(cell));
        }
    })?;
    for (column, _) in chosen.iter().enumerate().filter(|(_, cell)| cell.kind == Kind::Real) {
        close_column(&mut sheet, column, &shown[column]);
    }
    Ok(sheet)
}

/// "No cell, more than five, or an unknown one, is refused by 41": then `None`.
pub fn chosen(bench: &Bench, cells: &[u8]) -> Option<Vec<Chosen>> {
    let chosen = cells.split(|&byte| byte == b' ').map(|field| cell(bench, field)).collect::<Option<Vec<Chosen>>>()?;
    (chosen.len() <= CELLS_MOST).then_some(chosen)
}

/// Names hold no dot, so the first one parts entity and member.
fn cell(bench: &Bench, field: &[u8]) -> Option<Chosen> {
    let dot = field.iter().position(|&byte| byte == b'.')?;
    let entity = bench.entity(&field[..dot])?;
    let interface = bench.interface_of(entity)?;
    let member = interface.member(&field[dot + 1..])?;
    Some(Chosen { entity, member, kind: interface.members[member].kind })
}

/// Runs a day's lines on from a state: "a text like `readings.txt`", of which only the line of names can refuse. Tells what becomes of
/// each line of values, and the state after it.
pub fn day(bench: &Bench, state: &State, readings: &[u8], tell: &mut dyn FnMut(Passed, &State)) -> Result<(), u8> {
    let mut lines = line::lines(readings);
    let columns = line::columns(bench, lines.next().unwrap_or(b"")).ok_or(22)?;
    let mut state = state.clone();
    for values in lines {
        let passed = match line::take_values(bench, &state, &columns, values) {
            Err(number) => Passed::Refused(number),
            Ok(Taken::Resent(sender)) => Passed::Resent(sender),
            Ok(Taken::Next(next, sender, _)) => {
                state = next;
                Passed::Printed(sender)
            }
        };
        tell(passed, &state);
    }
    Ok(())
}

/// "The second row, otherwise spaces, is there only for a line with a set real."
fn print_line(sheet: &mut Vec<u8>, number: u32, cells: &[Cell]) {
    print_row(sheet, &number.to_string(), cells.iter().map(|&cell| upper(cell)));
    if cells.iter().any(|&cell| real(cell).is_some()) {
        print_row(sheet, "", cells.iter().map(|&cell| lower(cell)));
    }
}

/// "unset as `-`, reals as their 16 digits over two rows of 8, the first 8 above".
fn upper(cell: Cell) -> String {
    real(cell).map_or(text(cell), |value| halves(value).0)
}

fn lower(cell: Cell) -> String {
    real(cell).map_or(String::new(), |value| halves(value).1)
}

fn text(cell: Cell) -> String {
    String::from_utf8(field(cell)).expect("fields are ASCII")
}

fn real(cell: Cell) -> Option<f64> {
    match cell {
        Some(Value::Real(value)) => Some(value),
        _ => None,
    }
}

/// The first 8 digits of a real, and the last 8.
fn halves(value: f64) -> (String, String) {
    let mut first = text(Some(Value::Real(value)));
    let last = first.split_off(ROW_DIGITS);
    (first, last)
}

/// A number, or nothing, and the fields of the first columns, all "right aligned"; the rest is filled with spaces.
fn print_row(sheet: &mut Vec<u8>, number: &str, fields: impl Iterator<Item = String>) {
    let fields: String = fields.map(|field| format!("{field:>CELL_WIDTH$}")).collect();
    let row = format!("{number:>NUMBER_WIDTH$}{fields}");
    sheet.extend_from_slice(format!("{row:<WIDTH$}\n").as_bytes());
}

/// "for each real column the lowest, highest and last set value, each in that column over two rows, or three rows of `-` if none was set".
fn close_column(sheet: &mut Vec<u8>, column: usize, shown: &[Cell]) {
    let values: Vec<f64> = shown.iter().filter_map(|&cell| real(cell)).collect();
    let mut print = |field: String| print_row(sheet, "", repeat_n(String::new(), column).chain([field]));
    let Some(&last) = values.last() else {
        (0..3).for_each(|_| print(text(None)));
        return;
    };
    for value in [earliest(&values, |a, b| a < b), earliest(&values, |a, b| a > b), last] {
        let (first, last) = halves(value);
        print(first);
        print(last);
    }
}

/// The earliest value that none comes before: "For lowest and highest, equal zeros count as one value, the earlier bits shown."
fn earliest(values: &[f64], before: fn(f64, f64) -> bool) -> f64 {
    values.iter().copied().reduce(|best, value| if before(value, best) { value } else { best }).expect("a value")
}

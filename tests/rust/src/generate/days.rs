//! Days for a sheet: texts like `readings.txt` that run on from a state, good and damaged.

use super::bench::Plan;
use super::cells::PlanCell;
use super::lines::{self, Column, Line};
use super::prng::Prng;
use super::run::Run;
use super::senders;
use crate::interpreter::machine::State;
use crate::interpreter::value::Kind;

/// What the real columns of some days read: the two zeros, alone or with values on one side of them, so that they are the lowest, the
/// highest or both.
const ZEROS: [&[f64]; 3] = [&[0.0, -0.0], &[0.0, -0.0, 1.0], &[0.0, -0.0, -1.0]];

/// A text for these cells, mostly one with several lines that are taken.
pub fn text(prng: &mut Prng, plan: &Plan, state: &State, cells: &[PlanCell], lines_most: usize) -> Vec<u8> {
    let mut day = Day::new(prng, plan, state, cells);
    let records = day.records(prng, lines_most);
    let mut names = day.names();
    if prng.chance(6) {
        lines::damage_names(prng, plan, &mut names);
    }
    let mut text = [vec![names], records].concat().join(&b'\n');
    if prng.chance(65) {
        text.push(b'\n');
    }
    if prng.chance(5) {
        damage(prng, &mut text);
    }
    text
}

/// A day in the making: one line of names for all its lines.
struct Day<'p> {
    run: Run<'p>,
    /// The entities whose presence is read.
    switchable: Vec<usize>,
    zeros: Option<&'static [f64]>,
    /// The last line that the lent state keeps of some sender comes first.
    resent_first: bool,
}

impl<'p> Day<'p> {
    fn new(prng: &mut Prng, plan: &'p Plan, state: &State, cells: &[PlanCell]) -> Day<'p> {
        let mut columns = lines::some_columns(prng, plan);
        for &(entity, _) in cells {
            if prng.chance(60) {
                lines::complete(prng, plan, entity, &mut columns);
            }
            // Who is never absent has values to show.
            if prng.chance(50) {
                columns.retain(|column| *column != Column::Presence(entity));
            }
        }
        let count = *prng.pick(&[1, 1, 2, 3]);
        let mut run = Run::with(plan, Vec::new(), senders::some(prng, plan, count));
        run.follow(state);
        let resent_first = !run.known.is_empty() && prng.chance(45);
        if resent_first {
            run.known.iter().for_each(|sent| add_read_columns(prng, &sent.last, &mut columns));
        }
        run.known.iter_mut().for_each(|sent| sent.last = on_columns(&sent.last, &columns));
        let presence = |column: &Column| matches!(column, Column::Presence(_)).then(|| column.entity());
        let switchable = columns.iter().filter_map(presence).collect();
        let zeros = prng.chance(30).then(|| *prng.pick(&ZEROS));
        run.columns = columns;
        Day { run, switchable, zeros, resent_first }
    }

    fn names(&self) -> Vec<u8> {
        Line { columns: self.run.columns.clone(), fields: Vec::new() }.names(self.run.plan)
    }

    fn records(&mut self, prng: &mut Prng, most: usize) -> Vec<Vec<u8>> {
        let mut records = Vec::new();
        if self.resent_first {
            records.push(self.run.again(prng));
        }
        let count = if prng.chance(7) { 0 } else { prng.between(1, most) };
        records.extend((0..count).map(|_| self.record(prng)));
        records
    }

    /// A valid line mostly, else a resent or damaged one.
    fn record(&mut self, prng: &mut Prng) -> Vec<u8> {
        self.run.pass(prng);
        match prng.weighted(&[71, 9, 4, 4, 4, 4, 2, 2]) {
            0 => self.next(prng),
            1 => self.run.again(prng),
            2 => self.run.other_readings(prng).1,
            3 => self.run.other_number(prng).1,
            4 => self.run.bad_values(prng).1,
            5 => self.run.bad_field(prng).1,
            6 => self.run.bad_sender(prng).1,
            _ => Vec::new(),
        }
    }

    fn next(&mut self, prng: &mut Prng) -> Vec<u8> {
        let switched =
            if prng.chance(12) { lines::to_switch(prng, self.run.plan, &self.run.present, self.switchable.clone()) } else { None };
        let mut present = self.run.present.clone();
        let mut line = lines::line_switching(prng, self.run.plan, &self.run.columns, &mut present, switched);
        self.put_zeros(prng, &mut line);
        self.run.go_on(line, present)
    }

    /// Where reals are read, reads those of `zeros`.
    fn put_zeros(&self, prng: &mut Prng, line: &mut Line) {
        let Some(zeros) = self.zeros else { return };
        for (column, field) in line.columns.iter().zip(&mut line.fields) {
            let Column::Event(entity, member) = *column else { continue };
            if self.run.plan.members(entity)[member].kind == Kind::Real && field.len() == 16 {
                *field = format!("{:016x}", prng.pick(zeros).to_bits());
            }
        }
    }
}

/// Puts in the columns that a line reads, so that it can be sent again.
fn add_read_columns(prng: &mut Prng, line: &Line, columns: &mut Vec<Column>) {
    for (column, field) in line.columns.iter().zip(&line.fields) {
        if field != "-" && !columns.contains(column) {
            columns.insert(prng.below(columns.len() + 1), *column);
        }
    }
}

/// What of a line stands in these columns; `-` where it reads nothing.
fn on_columns(line: &Line, columns: &[Column]) -> Line {
    let field = |column: &Column| line.columns.iter().position(|known| known == column).map_or("-".into(), |at| line.fields[at].clone());
    Line { columns: columns.to_vec(), fields: columns.iter().map(field).collect() }
}

/// Damage to a whole text.
fn damage(prng: &mut Prng, text: &mut Vec<u8>) {
    let at = prng.below(text.len() + 1);
    match prng.below(9) {
        0 | 1 => text.clear(),
        2 => text.insert(0, b'\n'),
        3 => text.truncate(at),
        4 => *text = text.iter().flat_map(|&byte| if byte == b'\n' { vec![b'\r', b'\n'] } else { vec![byte] }).collect(),
        5 => text.insert(at, *prng.pick(b"\n \0\r")),
        6 => text.extend_from_slice(b"\n\n"),
        7 => *text = prng.bytes(at),
        _ => *text = b"\n".to_vec(),
    }
}

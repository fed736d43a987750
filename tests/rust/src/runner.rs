//! The bench runner of "Rows and names", on the interpreter alone.

use crate::interpreter::accept;
use crate::interpreter::grammar::Bench;
use crate::interpreter::line::{self, Column, Taken};
use crate::interpreter::machine::{self, State};
use crate::interpreter::row as rows;
use std::io::{self, Write};

/// Prints the rows for a bench text and a file of readings.
pub fn run(bench: &[u8], readings: &[u8], out: &mut impl Write) -> io::Result<()> {
    let bench = match accept(bench) {
        Ok(bench) => bench,
        Err(refusal) => return writeln!(out, "refused {} {}", refusal.number, refusal.place),
    };
    let mut lines = line::lines(readings);
    let Some(columns) = line::columns(&bench, lines.next().unwrap_or(b"")) else {
        return writeln!(out, "refused 22");
    };
    print(out, &rows::header(&bench))?;
    let mut state = machine::fresh(&bench).expect("the machine never stops on an accepted bench");
    for values in lines {
        state = run_line(&bench, state, &columns, values, out)?;
    }
    Ok(())
}

fn run_line(bench: &Bench, state: State, columns: &[Column], values: &[u8], out: &mut impl Write) -> io::Result<State> {
    let (state, sender) = match line::take_values(bench, &state, columns, values) {
        Err(number) => {
            writeln!(out, "refused {number}")?;
            return Ok(state);
        }
        Ok(Taken::Resent(sender)) => (state, sender),
        Ok(Taken::Next(next, sender, _)) => (next, sender),
    };
    print(out, &rows::row(bench, &state.senders[sender]))?;
    Ok(state)
}

fn print(out: &mut impl Write, row: &[u8]) -> io::Result<()> {
    out.write_all(row)?;
    out.write_all(b"\n")
}

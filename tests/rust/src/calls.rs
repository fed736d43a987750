//! The seven calls on lent memory as the interpreter answers them, and that of the test archive. Each is a function of the lent bytes and
//! numbers alone. One more, a byte's class, lends nothing: it is the interpreter's own function.

use crate::image::{self, sheet_size, BENCH_SIZE, ROW_SIZE, STATE_SIZE, TRIED_SIZE};
use crate::interpreter::grammar::Bench;
use crate::interpreter::line::{self, Taken};
use crate::interpreter::machine::{self, State};
use crate::interpreter::text::name_form;
use crate::interpreter::{accept, entity_part, rest, row as rows, sheet as sheets};

/// The number in the low 8 bits, the offset or length above.
pub fn answer(number: u8, rest: usize) -> u64 {
    (rest as u64) << 8 | u64::from(number)
}

pub fn bench_check(text: &[u8], bench: &mut [u8]) -> u64 {
    if bench.len() < BENCH_SIZE {
        return answer(31, 0);
    }
    if let Err(refusal) = accept(text) {
        return answer(refusal.number, refusal.place);
    }
    image::encode_bench(text, bench);
    answer(0, 0)
}

/// Where an entity's name stands in a text; refuses nothing.
pub fn bench_entity_name(text: &[u8], number: usize) -> u64 {
    let (offset, length) = entity_part(text, number);
    65_536 * offset as u64 + 256 * length as u64
}

pub fn bench_fresh(bench: &[u8], state: &mut [u8]) -> u64 {
    if bench.len() < BENCH_SIZE || state.len() < STATE_SIZE {
        return answer(31, 0);
    }
    let Some(bench) = checked(bench) else { return answer(32, 0) };
    let fresh = machine::fresh(&bench).expect("the machine never stops on an accepted bench");
    image::encode_state(&bench, &fresh, state);
    answer(0, 0)
}

pub fn bench_line(bench: &[u8], state: &mut [u8], names: &[u8], values: &[u8], row: &mut [u8]) -> u64 {
    if bench.len() < BENCH_SIZE || state.len() < STATE_SIZE || row.len() < ROW_SIZE {
        return answer(31, 0);
    }
    let (bench, before) = match checked_state(bench, state) {
        Ok(both) => both,
        Err(number) => return answer(number, 0),
    };
    match line::take(&bench, &before, names, values) {
        Err(number) => answer(number, 0),
        // A line sent again leaves the state's memory alone.
        Ok(Taken::Resent(sender)) => write(&rows::row(&bench, &before.senders[sender]), row),
        Ok(Taken::Next(next, sender, _)) => {
            image::encode_state(&bench, &next, state);
            write(&rows::row(&bench, &next.senders[sender]), row)
        }
    }
}

pub fn bench_header(bench: &[u8], row: &mut [u8]) -> u64 {
    if bench.len() < BENCH_SIZE || row.len() < ROW_SIZE {
        return answer(31, 0);
    }
    match checked(bench) {
        None => answer(32, 0),
        Some(bench) => write(&rows::header(&bench), row),
    }
}

pub fn bench_row(bench: &[u8], state: &[u8], sender: &[u8], row: &mut [u8]) -> u64 {
    if bench.len() < BENCH_SIZE || state.len() < STATE_SIZE || row.len() < ROW_SIZE {
        return answer(31, 0);
    }
    match checked_state(bench, state) {
        Err(number) => answer(number, 0),
        Ok(_) if !name_form(sender) => answer(43, 0),
        Ok((bench, state)) => write(&rows::row_of(&bench, &state, sender), row),
    }
}

pub fn bench_sheet(bench: &[u8], state: &[u8], readings: &[u8], cells: &[u8], sheet: &mut [u8]) -> u64 {
    if bench.len() < BENCH_SIZE || state.len() < STATE_SIZE || sheet.len() < sheet_size(readings) {
        return answer(31, 0);
    }
    match checked_state(bench, state).and_then(|(bench, state)| sheets::sheet(&bench, &state, readings, cells)) {
        Err(number) => answer(number, 0),
        Ok(printed) => write(&printed, sheet),
    }
}

/// The rules that a line tries that leads from one state to another, as 8 bytes, the lowest first.
pub fn rules_tried(bench: &[u8], before: &[u8], after: &[u8], tried: &mut [u8]) -> u64 {
    if bench.len() < BENCH_SIZE || before.len() < STATE_SIZE || after.len() < STATE_SIZE || tried.len() < TRIED_SIZE {
        return answer(31, 0);
    }
    let Some(bench) = checked(bench) else { return answer(32, 0) };
    let (Some(before), Some(after)) = (image::decode_state(&bench, before), image::decode_state(&bench, after)) else {
        return answer(33, 0);
    };
    tried[..TRIED_SIZE].copy_from_slice(&rest::tried_between(&bench, &before, &after).to_le_bytes());
    answer(0, 0)
}

fn checked(memory: &[u8]) -> Option<Bench<'_>> {
    accept(image::decode_bench(memory)?).ok()
}

fn checked_state<'b>(bench: &'b [u8], state: &[u8]) -> Result<(Bench<'b>, State), u8> {
    let bench = checked(bench).ok_or(32)?;
    let state = image::decode_state(&bench, state).ok_or(33)?;
    Ok((bench, state))
}

/// Writes a row or a sheet.
fn write(text: &[u8], memory: &mut [u8]) -> u64 {
    memory[..text.len()].copy_from_slice(text);
    answer(0, text.len())
}

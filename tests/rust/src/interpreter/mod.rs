//! The interpreter: each file is one part of document 01. Order 1 of document 02 changes one of them, the machine; order 2 another, the
//! values; order 3 adds one, the day sheet; order 4 one that parts the bytes into classes, by which the text is then read; order 5 changes
//! the lines and the rows, which then name their senders, and what the machine keeps of them; order 6 ranks the rules, from their words to
//! the writes that stand; order 7 adds one that says which rules rest.

pub mod bytes;
pub mod check;
pub mod grammar;
pub mod line;
pub mod machine;
pub mod rest;
pub mod row;
pub mod sheet;
pub mod text;
pub mod value;

use grammar::Bench;
use std::cell::Cell;
use text::Refusal;

thread_local! {
    static TEXTS_READ: Cell<u64> = const { Cell::new(0) };
}

/// How many bench texts this interpreter has read in this thread. It must stand still while the engine answers: if it moves, the engine
/// is this interpreter in disguise.
pub fn texts_read() -> u64 {
    TEXTS_READ.get()
}

/// An accepted bench, or the first refusal in the order of document 01's table.
pub fn accept(text: &[u8]) -> Result<Bench<'_>, Refusal> {
    TEXTS_READ.set(texts_read() + 1);
    let bench = grammar::read(text)?;
    check::check(&bench)?;
    Ok(bench)
}

/// Where an entity's name stands in the text, offset and length: "An entity's name, found by its number (from 0, file order), is a part of
/// the bench text, empty if there is none or the text is refused." The empty part is that at offset 0.
pub fn entity_part(text: &[u8], number: usize) -> (usize, usize) {
    let Ok(bench) = accept(text) else { return (0, 0) };
    bench.entities.get(number).map_or((0, 0), |entity| (entity.name.place, entity.name.text.len()))
}

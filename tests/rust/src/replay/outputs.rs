//! Files for which a chosen number of bytes is printed, and long stretches of lines that are refused or sent again.

use super::draft::{self, Draft};
use super::{benches, exact, Files, CHUNK};
use crate::generate::bench::Plan;
use crate::generate::prng::Prng;
use crate::interpreter::value::Kind;
use benches::{Mirror, LONGEST_NAMES, SHORT_NAMES};

const LENGTHS: [usize; 13] = [4_096, 8_192, 16_384, 32_767, 32_768, 32_769, 65_535, 65_536, 65_537, 131_071, 131_072, 131_073, 196_608];

/// Prints exactly a length of the list, and stops there or goes on.
pub fn outputs(prng: &mut Prng, turn: usize) -> Files {
    let length = LENGTHS[turn % LENGTHS.len()];
    // The row of names of a wide bench alone may be longer than the lesser lengths.
    let sorts = if length < 30_000 { 3 } else { 5 };
    let plan = plan(prng, (turn + turn / LENGTHS.len()) % sorts);
    let columns = benches::columns(prng, &plan);
    draft::files(prng, &plan, columns, |prng, draft| {
        draft.print_up_to(prng, length);
        if turn / LENGTHS.len() % 2 == 1 {
            let count = prng.between(1, 12);
            draft.some(prng, count);
        }
        if prng.chance(15) {
            let next = (draft.printed + 1).next_multiple_of(CHUNK);
            draft.print_up_to(prng, next);
        }
        if prng.chance(50) {
            draft.drop_last_feed();
        }
    })
}

/// A bench with no action cell, with one, or with hundreds.
fn plan(prng: &mut Prng, sort: usize) -> Plan {
    let mirror = Mirror { entities: 1, wholes: 2, reals: 1, actions: 1, names: SHORT_NAMES };
    match sort {
        0 => Mirror { actions: 0, ..mirror }.plan(prng),
        1 => mirror.plan(prng),
        2 => benches::small(prng),
        3 => {
            let (lamps, actions) = (prng.between(10, 31), prng.between(8, 12));
            benches::panel(prng, lamps, actions, Kind::Real, SHORT_NAMES)
        }
        _ => benches::panel(prng, 31, 12, Kind::Whole, LONGEST_NAMES),
    }
}

/// A thousand lines or more, all refused or all sent again.
pub fn stretches(prng: &mut Prng, turn: usize) -> Files {
    let plan = benches::small(prng);
    let columns = benches::columns(prng, &plan);
    draft::files(prng, &plan, columns, |prng, draft| {
        let line = draft.good(prng);
        draft.push(&line);
        draft.some(prng, 20);
        stretch(prng, draft, turn);
        draft.some(prng, 20);
    })
}

fn stretch(prng: &mut Prng, draft: &mut Draft, turn: usize) {
    let count = prng.between(1_000, 4_000);
    match turn % 4 {
        0 => (0..count).for_each(|_| draft.push(&exact::refused(prng))),
        // More than a chunk of them, every other time.
        1 if turn % 8 == 1 => (0..CHUNK / draft.resent().len() + 2).for_each(|_| draft.push(&draft.resent())),
        1 => (0..count).for_each(|_| draft.push(&draft.late(prng))),
        // More than a chunk of empty lines.
        2 if turn % 8 == 2 => (0..CHUNK + 5).for_each(|_| draft.push(b"")),
        2 => (0..count).for_each(|_| draft.push(&exact::long_field(prng, &draft.run, 50))),
        _ => {
            let line = draft.run.bad_field(prng).1;
            (0..count).for_each(|_| draft.push(&line));
        }
    }
}

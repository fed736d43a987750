//! Puts calls for a sheet between the steps of a case, each made for the memory that it finds there.

use super::bench::Plan;
use super::case::{Call, Case, Step, EXACT, LONGER_MOST};
use super::prng::Prng;
use super::{cells, days, lent, put_between, sometimes_short};
use crate::image::{self, sender_at, NUMBER_AT, SHEET_LEAST, SHEET_MORE};
use crate::interpreter::accept;
use crate::interpreter::grammar::Bench;
use crate::interpreter::machine::{self, State};
use crate::memory::Memory;

/// So many of a hundred sheets for memory that holds no bench, or one without cells, are kept: all of them are refused by 32 or 41.
const NO_CELL_PERCENT: usize = 10;
/// So many of a hundred sheets start from a state of which some sender's last number is set to another.
const OTHER_NUMBER_PERCENT: usize = 8;
/// The most lines of a day; of one with a great many; of one for a bench with many rules and entities.
const LINES_MOST: usize = 12;
const LINES_MOST_LONG: usize = 120;
const LINES_MOST_LARGE: usize = 3;
/// So many of a hundred days may have a great many lines.
const LONG_PERCENT: usize = 2;
/// A bench with more entities times rules is called large.
const LARGE: usize = 64;

/// None of the other steps changes: a sheet leaves bench and state as they are, and a number that is set for it is set back.
pub fn put_in(prng: &mut Prng, case: &mut Case) {
    let places = places(prng, case.steps.len());
    put_between(case, &places, |text, memory| steps(prng, text, memory));
}

/// Before which of the steps sheets come: right after the first two, which are a check and a fresh state, at the end, or anywhere.
fn places(prng: &mut Prng, steps: usize) -> Vec<usize> {
    let count = prng.weighted(&[60, 30, 10]) + 1;
    let place = |prng: &mut Prng| match prng.weighted(&[20, 30, 45, 5]) {
        0 => 2.min(steps),
        1 => steps,
        2 => prng.between(2.min(steps), steps),
        _ => prng.below(steps + 1),
    };
    (0..count).map(|_| place(prng)).collect()
}

/// A sheet for this memory, now and then with another last number; no step if it would only be one of too many refused ones.
fn steps(prng: &mut Prng, text: &[u8], memory: &mut Memory) -> Vec<Step> {
    let Some(at) = number_place(prng, memory).filter(|_| prng.chance(OTHER_NUMBER_PERCENT)) else {
        return sheet(prng, text, memory).into_iter().collect();
    };
    let number = memory.state[at..at + 4].to_vec();
    let set = |bytes: Vec<u8>| Step { call: Call::SetState { at, bytes }, lent: EXACT };
    let other = other_number(prng).to_le_bytes();
    memory.state[at..at + 4].copy_from_slice(&other);
    let sheet = sheet(prng, text, memory);
    memory.state[at..at + 4].copy_from_slice(&number);
    sheet.map_or(Vec::new(), |sheet| vec![set(other.to_vec()), sheet, set(number)])
}

/// Where the last number of some known sender stands, if there is one.
fn number_place(prng: &mut Prng, memory: &Memory) -> Option<usize> {
    let bench = image::decode_bench(&memory.bench).and_then(|text| accept(text).ok())?;
    let senders = image::decode_state(&bench, &memory.state)?.senders.len();
    (senders > 0).then(|| sender_at(bench.entities.len(), prng.below(senders)) + NUMBER_AT)
}

/// Numbers whose next ones have more digits, the last numbers, and any.
fn other_number(prng: &mut Prng) -> u32 {
    let any = prng.draw() as u32;
    *prng.pick(&[9, 98, 999_999_997, 999_999_999, 2_147_483_646, u32::MAX - 9, u32::MAX - 2, u32::MAX - 1, u32::MAX, any])
}

/// A sheet for this memory, or for the text of the case where the memory holds no bench.
fn sheet(prng: &mut Prng, text: &[u8], memory: &Memory) -> Option<Step> {
    let held = image::decode_bench(&memory.bench).and_then(|text| accept(text).ok());
    let has_cells = |bench: &Bench| (0..bench.entities.len()).any(|entity| !bench.members_of(entity).is_empty());
    if !held.as_ref().is_some_and(has_cells) && !prng.chance(NO_CELL_PERCENT) {
        return None;
    }
    let state = held.as_ref().and_then(|bench| image::decode_state(bench, &memory.state));
    let call = match held.or_else(|| accept(text).ok()) {
        Some(bench) => call(prng, &bench, state),
        None => Call::Sheet { readings: b"by n\na 1\n".to_vec(), cells: b"a.b".to_vec(), over: over(prng, 2) },
    };
    let lent = lent(prng);
    Some(Step { call, lent: sometimes_short(prng, lent) })
}

/// A sheet for a bench, and for its fresh state where the memory holds none.
fn call(prng: &mut Prng, bench: &Bench, state: Option<State>) -> Call {
    let state = state.unwrap_or_else(|| machine::fresh(bench).expect("the machine never stops on an accepted bench"));
    let plan = Plan::of(bench);
    let chosen = cells::good(prng, &plan);
    let most = lines_most(prng, bench);
    let readings = days::text(prng, &plan, &state, &chosen, most);
    let cells = if prng.chance(15) { cells::damaged(prng, &plan, &chosen) } else { cells::text(&plan, &chosen) };
    let feeds = readings.iter().filter(|&&byte| byte == b'\n').count();
    Call::Sheet { readings, cells, over: over(prng, feeds) }
}

fn lines_most(prng: &mut Prng, bench: &Bench) -> usize {
    if bench.entities.len() * bench.rules.len() > LARGE {
        LINES_MOST_LARGE
    } else if prng.chance(LONG_PERCENT) {
        LINES_MOST_LONG
    } else {
        LINES_MOST
    }
}

/// By how much the sheet's memory is longer than its stated size.
fn over(prng: &mut Prng, feeds: usize) -> isize {
    match prng.weighted(&[60, 34, 3, 3]) {
        0 => 0,
        1 => prng.between(1, LONGER_MOST) as isize,
        2 => -1,
        // Less than a row, or as if some lines were not counted, or any.
        _ => match prng.below(3) {
            0 => -(prng.between(1, 80) as isize),
            1 => -((SHEET_MORE * prng.between(0, feeds)) as isize) - 1,
            _ => -(prng.between(1, SHEET_LEAST + SHEET_MORE * feeds) as isize),
        },
    }
}

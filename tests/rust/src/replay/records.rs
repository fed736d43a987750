//! Records about 8,192 bytes long and far longer ones, within a chunk and across its end; and long ones that are taken.
//!
//! No record of more than 6,723 bytes is taken: 32 entities have at most 384 events, a real takes 17 bytes with its space, a presence 5
//! with its entity there, the sender 24, the number 11 with its space. So a record of 8,192 bytes can get 21, 43, 42 and 23, but neither 24
//! nor 25.

use super::draft::{self, Draft};
use super::{benches, exact, Files, CHUNKS};
use crate::generate::prng::Prng;

/// A file is not made longer beyond this.
const BYTES_MOST: usize = 330_000;

const LENGTHS: [usize; 15] =
    [8_191, 8_192, 8_193, 8_194, 8_192, 8_193, 8_195, 9_000, 20_000, 65_535, 65_536, 65_537, 70_000, 131_073, 200_000];

pub fn records(prng: &mut Prng, turn: usize) -> Files {
    let wide = turn % 2 == 1;
    let plan = if wide { benches::wide(prng) } else { benches::small(prng) };
    let columns = if wide { benches::event_columns(prng, &plan) } else { benches::columns(prng, &plan) };
    draft::files(prng, &plan, columns, |prng, draft| {
        draft.sparse = true;
        for number in 0..prng.between(2, 5) {
            one(prng, draft, LENGTHS[(turn / 2 + 4 * number) % LENGTHS.len()], wide);
        }
        if prng.chance(50) {
            draft.drop_last_feed();
        }
    })
}

/// A record that is long in one way or another, and some lines after it that show whether it was read right.
fn one(prng: &mut Prng, draft: &mut Draft, length: usize, wide: bool) {
    if draft.bytes.len() > BYTES_MOST {
        return;
    }
    match prng.below(8) {
        0 => good_tail(prng, draft),
        1 | 2 if wide => long_line(prng, draft),
        _ => long_record(prng, draft, length),
    }
    let count = prng.between(1, 5);
    draft.some(prng, count);
    let line = draft.good(prng);
    draft.push(&line);
}

/// The first byte of some chunk such that at least `room` bytes can be written before it.
fn chunk_after(prng: &mut Prng, draft: &Draft, room: usize) -> usize {
    let chunk = if prng.chance(60) { CHUNKS[3] } else { *prng.pick(&CHUNKS) };
    (draft.bytes.len() + room).next_multiple_of(chunk)
}

/// A record of this length that lies at a chunk's end in one of many ways.
fn long_record(prng: &mut Prng, draft: &mut Draft, length: usize) {
    let before = match prng.below(5) {
        0 => 0,
        1 => 1,
        2 => *prng.pick(&[8_191, 8_192, 8_193, 8_194]),
        3 => *prng.pick(&[length - 1, length, length + 1]),
        _ => prng.below(length),
    };
    let first = chunk_after(prng, draft, before + 1);
    draft.reach(prng, first - before - 1);
    // Mostly with one bad field only, so that the length decides between 21 and 23, or 43.
    let record = match prng.weighted(&[50, 15, 35]) {
        0 => exact::long_field(prng, &draft.run, length),
        1 => exact::long_sender(prng, &draft.run, length),
        _ => exact::bad(prng, &draft.run, length),
    };
    draft.push(&record);
}

/// A line too long, of which the part in the last chunk alone would be good.
fn good_tail(prng: &mut Prng, draft: &mut Draft) {
    let before = *prng.pick(&[8_193, 8_200, 10_000, 40_000, 65_536, 70_000]);
    let first = chunk_after(prng, draft, before + 1);
    draft.reach(prng, first - before - 1);
    let mut record = exact::bad(prng, &draft.run, before);
    record.extend(draft.run.values(&draft.run.aside(prng)));
    draft.push(&record);
}

/// A line of some thousand bytes across a chunk's end: good, or refused for its number or readings.
fn long_line(prng: &mut Prng, draft: &mut Draft) {
    let before = prng.between(1, 4_000);
    let first = chunk_after(prng, draft, before + 1);
    draft.reach(prng, first - before - 1);
    let line = match prng.below(6) {
        0 | 1 => draft.good(prng),
        2 => draft.run.other_number(prng).1,
        3 => draft.run.other_readings(prng).1,
        4 => draft.run.bad_field(prng).1,
        _ => draft.late(prng),
    };
    draft.push(&line);
}

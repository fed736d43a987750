//! Long lines of names. No good one has more than 20,004 bytes: 384 events at 50 bytes, 32 presences at 25, and `by n`.

use super::{benches, draft, exact, files, Files, CHUNKS};
use crate::generate::bench::{render, Plan};
use crate::generate::lines::{all_columns, damage_names, Column, Line};
use crate::generate::prng::Prng;
use benches::{Mirror, LONGEST_NAMES, LONG_NAMES};

const GOOD_LENGTHS: [usize; 13] = [4_094, 4_095, 4_096, 4_097, 8_191, 8_192, 8_193, 12_288, 16_383, 16_384, 16_385, LONGEST, LONGEST];
const LONGEST: usize = 20_004;

/// `by n`
const HEAD: usize = 4;

const BAD_LENGTHS: [usize; 13] =
    [32_767, 32_768, 32_769, 32_770, 65_535, 65_536, 65_537, 98_304, 131_071, 131_072, 131_073, 200_000, 300_000];

pub fn headers(prng: &mut Prng, turn: usize) -> Files {
    let (sort, turn) = (turn % 4, turn / 4);
    match sort {
        0 => good(prng, GOOD_LENGTHS[turn % GOOD_LENGTHS.len()]),
        1 => bad(prng, BAD_LENGTHS[turn % BAD_LENGTHS.len()]),
        2 => good_tail(prng),
        _ => short(prng, turn),
    }
}

/// A good line of names of this length, and lines of values after it.
fn good(prng: &mut Prng, length: usize) -> Files {
    let names = if length == LONGEST { LONGEST_NAMES } else { LONG_NAMES };
    let events = if length > 12_000 { 12 } else { 10 };
    let mirror = Mirror { entities: 32, wholes: events / 2, reals: events / 2, actions: 12 - events, names };
    loop {
        let plan = mirror.plan(prng);
        if let Some(columns) = columns_of_length(prng, &plan, length) {
            return files::few_lines(prng, &plan, columns, 12);
        }
    }
}

/// Columns whose line of names has this length.
fn columns_of_length(prng: &mut Prng, plan: &Plan, length: usize) -> Option<Vec<Column>> {
    let mut columns = all_columns(plan);
    prng.shuffle(&mut columns);
    let takes = |column: &Column| Line { columns: vec![*column], fields: Vec::new() }.names(plan).len() - HEAD;
    // For each length that some of the columns so far make: the last of them.
    let mut last: Vec<Option<usize>> = vec![None; length];
    for (number, column) in columns.iter().enumerate() {
        let width = takes(column);
        for sum in (width..length).rev() {
            if last[sum].is_none() && (sum == width || last[sum - width].is_some()) {
                last[sum] = Some(number);
            }
        }
    }
    let mut chosen = Vec::new();
    let mut sum = length - HEAD;
    while sum > 0 {
        let column = columns[last[sum]?];
        sum -= takes(&column);
        chosen.push(column);
    }
    prng.shuffle(&mut chosen);
    Some(chosen)
}

/// A line of names of this length that is too long or ill formed; mostly with lines after it that would be good.
fn bad(prng: &mut Prng, length: usize) -> Files {
    let (text, names, after) = good_parts(prng);
    let mut readings = match prng.below(3) {
        0 => exact::resized(names, length, *prng.pick(b" xn\0\r")),
        1 => repeated(&names, length),
        _ => exact::noise(prng, length),
    };
    if prng.chance(50) {
        readings.extend(after);
    }
    (Some(text), Some(readings))
}

/// A line of names too long, of which the part in the last chunk alone would be good, and good lines after it.
fn good_tail(prng: &mut Prng) -> Files {
    let (text, names, after) = good_parts(prng);
    let chunks = *prng.pick(&CHUNKS) * prng.between(1, 3);
    let readings = [exact::noise(prng, chunks), names, after].concat();
    (Some(text), Some(readings))
}

/// A bench, a good line of names, and the rest of the file from the line feed on.
fn good_parts(prng: &mut Prng) -> (Vec<u8>, Vec<u8>, Vec<u8>) {
    let plan = benches::small(prng);
    let columns = benches::columns(prng, &plan);
    let (text, readings) = draft::files(prng, &plan, columns, |prng, draft| draft.some(prng, 8));
    let (text, mut names) = (text.unwrap_or_default(), readings.unwrap_or_default());
    let feed = names.iter().position(|&byte| byte == b'\n').expect("the line of names has a line feed");
    let after = names.split_off(feed);
    (text, names, after)
}

/// The names again and again, so that all are known but none new.
fn repeated(names: &[u8], length: usize) -> Vec<u8> {
    let columns = if names.len() > HEAD { &names[HEAD..] } else { b" n" };
    let mut bytes = names.to_vec();
    while bytes.len() < length {
        bytes.extend_from_slice(columns);
    }
    exact::resized(bytes, length, b' ')
}

/// A short line of names, good or damaged, often without anything after it.
fn short(prng: &mut Prng, turn: usize) -> Files {
    const ENDS: [&[u8]; 5] = [b"", b"\n", b"\n\n", b"\na 1", b"\r\na 1\r\n"];
    let plan = benches::small(prng);
    let text = render(prng, &plan.words);
    let line = Line { columns: benches::columns(prng, &plan), fields: Vec::new() };
    let mut readings = line.names(&plan);
    if turn % 2 == 1 {
        damage_names(prng, &plan, &mut readings);
    }
    readings.extend_from_slice(ENDS[turn % ENDS.len()]);
    (Some(text), Some(readings))
}

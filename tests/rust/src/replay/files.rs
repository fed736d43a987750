//! Bench texts of every length and refusal, missing and empty files, noise, and many small folders.

use super::required::TEXT_REFUSALS;
use super::{benches, draft, exact, Files, CHUNKS};
use crate::generate::bench::{self, Plan, LOOSE, SMALL};
use crate::generate::lines::Column;
use crate::generate::prng::Prng;

const TEXT_LENGTHS: [usize; 18] = [
    4_095, 4_096, 4_097, 8_192, 16_384, 32_767, 32_768, 32_769, 32_767, 32_768, 32_769, 32_770, 65_535, 65_536, 65_537, 98_304, 131_073,
    250_000,
];

/// Any small bench with a few lines.
pub fn small(prng: &mut Prng, _turn: usize) -> Files {
    let size = if prng.chance(70) { SMALL } else { LOOSE };
    let plan = bench::bench(prng, size);
    let columns = benches::columns(prng, &plan);
    few_lines(prng, &plan, columns, 50)
}

/// A line of names and at most so many lines of any sort; the last line feed is left out as often as not.
pub fn few_lines(prng: &mut Prng, plan: &Plan, columns: Vec<Column>, most: usize) -> Files {
    draft::files(prng, plan, columns, |prng, draft| {
        let count = prng.between(0, most);
        draft.some(prng, count);
        if prng.chance(50) {
            draft.drop_last_feed();
        }
    })
}

/// The files of a small bench with at most a dozen lines.
fn good(prng: &mut Prng) -> (Vec<u8>, Vec<u8>) {
    let plan = benches::small(prng);
    let columns = benches::columns(prng, &plan);
    let (text, readings) = few_lines(prng, &plan, columns, 12);
    (text.unwrap_or_default(), readings.unwrap_or_default())
}

/// A bench text of a size at a chunk's end, of about the greatest length, or far longer; some have a fault besides.
pub fn texts(prng: &mut Prng, turn: usize) -> Files {
    let (mut text, readings) = good(prng);
    if turn / TEXT_LENGTHS.len() % 3 == 1 {
        text = benches::refused(prng, 13);
    }
    let text = benches::padded(prng, &text, TEXT_LENGTHS[turn % TEXT_LENGTHS.len()]);
    (Some(text), Some(readings))
}

/// A refused bench, each number in turn; its readings do not matter, however long they are.
pub fn refused(prng: &mut Prng, turn: usize) -> Files {
    let text = benches::refused(prng, TEXT_REFUSALS[turn % TEXT_REFUSALS.len()]);
    let readings = match prng.below(5) {
        0 => None,
        1 => Some(Vec::new()),
        2 => Some(exact::noise(prng, 70_000)),
        _ => Some(b"by n\na 1\na 2\n".to_vec()),
    };
    (Some(text), readings)
}

/// Each way in which a file or both are missing or empty, and files of one byte.
pub fn missing(prng: &mut Prng, turn: usize) -> Files {
    let (text, readings) = good(prng);
    let byte = *prng.pick(b"\n nbr#\0");
    let file = |state: usize, good: Vec<u8>| match state {
        0 => None,
        1 => Some(Vec::new()),
        2 => Some(vec![byte]),
        _ => Some(good),
    };
    let turn = turn % 15;
    (file(turn / 4, text), file(turn % 4, readings))
}

/// A good line of names, or none, and then bytes without sense; of a size at a chunk's end.
pub fn noise(prng: &mut Prng, turn: usize) -> Files {
    const ALPHABETS: [&[u8]; 4] = [b"", b"ab0123456789 -?\n", b"a1 \n", b"\n\r\0 "];
    let (text, mut readings) = good(prng);
    if !readings.ends_with(b"\n") {
        readings.push(b'\n');
    }
    if prng.chance(15) {
        readings.clear();
    }
    let chunk = CHUNKS[turn % CHUNKS.len()];
    let size = chunk * prng.between(1, 2) + prng.below(3) - 1;
    let alphabet = *prng.pick(&ALPHABETS);
    while readings.len() < size {
        readings.push(if alphabet.is_empty() { prng.draw() as u8 } else { *prng.pick(alphabet) });
    }
    (Some(text), Some(readings))
}

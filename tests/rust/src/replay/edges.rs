//! Files whose lines, line feeds and numbers meet the ends of chunks.

use super::draft::{self, Draft};
use super::{benches, exact, Files, CHUNKS};
use crate::generate::prng::Prng;

/// Lines so near a chunk's end come from one sender.
const NEAR: usize = 300;

/// The most bytes of a file before its last chunk.
const BYTES_MOST: usize = 340_000;

/// How a line lies at the first byte of a chunk.
#[derive(Clone, Copy, Debug, PartialEq, Eq)]
enum Edge {
    /// The line feed is the last byte of the chunk before.
    FeedLast,
    /// The line feed is the first byte of the chunk.
    FeedFirst,
    /// Only the line's first byte is in the chunk before.
    OneByteBefore,
    /// Only the line's last byte is in the chunk.
    OneByteAfter,
    /// An empty line: the line feed before it is the last byte of the chunk before, its own the first of the chunk.
    EmptyLine,
    SenderSplit,
    NumberSplit,
    ValueSplit,
}

const EDGES: [Edge; 8] = [
    Edge::FeedLast,
    Edge::FeedFirst,
    Edge::OneByteBefore,
    Edge::OneByteAfter,
    Edge::EmptyLine,
    Edge::SenderSplit,
    Edge::NumberSplit,
    Edge::ValueSplit,
];

/// A file with an edge at each of some chunk ends; its size is a multiple of the chunk, one less or one more.
pub fn edges(prng: &mut Prng, turn: usize) -> Files {
    let (chunk, turn) = (CHUNKS[turn % CHUNKS.len()], turn / CHUNKS.len());
    let plan = benches::small(prng);
    let columns = benches::columns(prng, &plan);
    draft::files(prng, &plan, columns, |prng, draft| {
        let chunks = prng.between(1, (BYTES_MOST / chunk).min(9));
        // Files of short lines throughout take long, so most of the large ones have long lines too.
        draft.sparse = prng.chance(if chunk * chunks > 70_000 { 90 } else { 40 });
        for number in 1..=chunks {
            cross(prng, draft, number * chunk, EDGES[(turn + number) % EDGES.len()]);
        }
        draft.end_at(prng, (chunks + 1) * chunk + turn % 3 - 1, (turn / 3).is_multiple_of(2));
    })
}

fn cross(prng: &mut Prng, draft: &mut Draft, first: usize, edge: Edge) {
    match edge {
        Edge::FeedLast => draft.reach(prng, first - 1),
        Edge::FeedFirst => draft.reach(prng, first),
        Edge::OneByteBefore => draft.reach(prng, first - 2),
        Edge::OneByteAfter => draft.reach(prng, first + 1),
        Edge::EmptyLine => {
            draft.reach(prng, first - 1);
            draft.push(b"");
        }
        Edge::SenderSplit | Edge::NumberSplit | Edge::ValueSplit => split(prng, draft, first, edge),
    }
    // What comes after shows whether the line was read right.
    if prng.chance(30) {
        again(prng, draft);
    }
    let line = exact::good(prng, &draft.run, exact::shortest(&draft.run)).unwrap_or_default();
    draft.push(&line);
}

/// The last new line again, mostly after a line of somebody else.
fn again(prng: &mut Prng, draft: &mut Draft) {
    let line = draft.resent();
    draft.run.pass(prng);
    let next = draft.good(prng);
    draft.push(&next);
    draft.push(&line);
}

/// Writes a good line across the first byte of a chunk, split in its sender, in its number or in a value after them.
fn split(prng: &mut Prng, draft: &mut Draft, first: usize, edge: Edge) {
    // Whoever is near the chunk's end sends the lines up to it, so their names and numbers are known but for one digit more.
    draft.reach(prng, first - NEAR.min(first - draft.bytes.len()));
    if edge == Edge::SenderSplit {
        draft.settle_long(prng);
    }
    let (name, digits) = (draft.run.sender().len(), (draft.run.number() + 20).to_string().len());
    let before = match edge {
        Edge::SenderSplit => prng.between(1, name.max(2) - 1),
        Edge::NumberSplit => name + 1 + prng.between(1, digits.max(2) - 1),
        _ => name + 1 + digits + 1 + prng.between(1, 9),
    };
    draft.reach(prng, first - before - 1);
    let length = exact::shortest(&draft.run) + 10;
    let line = exact::good(prng, &draft.run, length).unwrap_or_else(|| draft.good(prng));
    draft.push(&line);
}

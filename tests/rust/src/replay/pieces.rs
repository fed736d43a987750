//! Readings that come in pieces: where a file is cut, so that reads come short at many places.

use crate::generate::prng::Prng;
use crate::interpreter::line::VALUES_MOST;
use crate::interpreter::text::NAME_MOST;

/// The writer waits before each piece until the one before is read, so a file has at most so many.
pub const PIECES_MOST: usize = 60;
/// So many of the cuts are made for records that are too long.
const TAILS_MOST: usize = 10;
/// Likely sizes of a read.
pub const READS: [usize; 5] = [4_096, 8_192, 16_384, 32_768, 65_536];

/// Cuts a file anywhere and where a reader can go wrong. The places ascend.
pub fn cuts(prng: &mut Prng, readings: &[u8]) -> Vec<usize> {
    let mut cuts = walk(prng, readings);
    cuts.extend(tails(prng, readings));
    cuts.sort();
    cuts.dedup();
    cuts
}

/// Cuts anywhere, at line feeds, in numbers, at likely sizes of a read.
fn walk(prng: &mut Prng, readings: &[u8]) -> Vec<usize> {
    let mut cuts = Vec::new();
    let mut at = 0;
    let most = prng.between(1, PIECES_MOST - 1 - TAILS_MOST);
    while cuts.len() < most && at + 1 < readings.len() {
        let next = at + step(prng, &readings[at..], at);
        // A step beyond the end is not taken: another one is drawn.
        if next < readings.len() {
            cuts.push(next);
            at = next;
        }
    }
    cuts
}

/// How many bytes of the rest, which starts at this offset, come next: one or more.
fn step(prng: &mut Prng, rest: &[u8], at: usize) -> usize {
    let feed = rest.iter().position(|&byte| byte == b'\n').unwrap_or(rest.len());
    let read = *prng.pick(&READS);
    match prng.weighted(&[2, 2, 2, 6, 2, 2, 2, 2, 2, 1]) {
        0 => 1,
        1 => prng.between(2, 20),
        2 => prng.between(1_000, 6_000),
        // One byte short of a full read, or one byte more.
        3 => *prng.pick(&[read - 1, read + 1]),
        // The same for a reader that gathers full chunks of the file.
        4 => (at + 2).next_multiple_of(read) - at + prng.below(3) - 1,
        // Right before a line feed, if that is not where the rest starts.
        5 => feed.max(1),
        6 => feed + 1,
        7 => feed + 2,
        // In the next line's sender or number, if they have as many bytes.
        8 => feed + 1 + prng.between(1, 6),
        _ => prng.between(1, rest.len()),
    }
}

/// Cuts in records that are too long: whoever forgets what came before may take the rest for a line of its own.
fn tails(prng: &mut Prng, readings: &[u8]) -> Vec<usize> {
    let mut lines = readings.split(|&byte| byte == b'\n');
    let names = lines.next().unwrap_or(b"");
    let fields = names.split(|&byte| byte == b' ').count();
    let mut start = names.len() + 1;
    let mut cuts = Vec::new();
    for line in lines {
        if line.len() > VALUES_MOST && cuts.len() < TAILS_MOST && prng.chance(80) {
            cuts.extend(tail(prng, line, fields).map(|at| start + at));
        }
        start += line.len() + 1;
    }
    cuts
}

/// A place such that the rest has so many fields, the first of them a sender if letters stand there.
fn tail(prng: &mut Prng, line: &[u8], fields: usize) -> Option<usize> {
    let mut ends = (0..line.len()).rev().filter(|&at| line[at] == b' ');
    let end = if fields == 1 { line.len() } else { ends.nth(fields - 2)? };
    let letters = line[..end].iter().rev().take(NAME_MOST).take_while(|byte| byte.is_ascii_alphabetic()).count();
    end.checked_sub(prng.between(1, letters.max(1)))
}

/// The parts of some bytes between the cuts.
pub fn pieces<'a>(bytes: &'a [u8], cuts: &[usize]) -> Vec<&'a [u8]> {
    let mut pieces = Vec::new();
    let mut start = 0;
    for &end in cuts.iter().chain([&bytes.len()]) {
        pieces.push(&bytes[start..end]);
        start = end;
    }
    pieces
}

/// A line with its line feed, and the places in it behind which it is cut.
#[derive(Clone, Debug, PartialEq, Eq)]
pub struct CutLine {
    bytes: Vec<u8>,
    cuts: Vec<usize>,
}

/// The lines of a file, each with its own cuts, so that a line takes them along.
pub fn lines(readings: &[u8], cuts: &[usize]) -> Vec<CutLine> {
    let mut lines = Vec::new();
    let mut start = 0;
    for bytes in readings.split_inclusive(|&byte| byte == b'\n') {
        let end = start + bytes.len();
        let within = cuts.iter().filter(|&&cut| start < cut && cut <= end);
        lines.push(CutLine { bytes: bytes.to_vec(), cuts: within.map(|cut| cut - start).collect() });
        start = end;
    }
    lines
}

/// The file of these lines, and its cuts. None is left at its end.
pub fn joined(lines: &[CutLine]) -> (Vec<u8>, Vec<usize>) {
    let mut readings = Vec::new();
    let mut cuts = Vec::new();
    for line in lines {
        cuts.extend(line.cuts.iter().map(|cut| readings.len() + cut));
        readings.extend_from_slice(&line.bytes);
    }
    cuts.retain(|&cut| cut < readings.len());
    (readings, cuts)
}

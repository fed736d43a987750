//! Lines of a chosen length, good ones and others.

use crate::generate::lines::{Column, Line};
use crate::generate::prng::Prng;
use crate::generate::run::Run;
use crate::interpreter::value::Kind;

/// The length of the shortest line that is taken next: `-` in every field.
pub fn shortest(run: &Run) -> usize {
    run.values(&Line::default()).len() + 2 * run.columns.len()
}

/// A line of this length that is taken next, if there is one: fields for wholes take 1 to 11 bytes, those for reals 1 or 16.
pub fn good(prng: &mut Prng, run: &Run, length: usize) -> Option<Vec<u8>> {
    let mut rest = length.checked_sub(shortest(run))?;
    let mut fields = vec!["-".to_string(); run.columns.len()];
    for wanted in [Kind::Real, Kind::Whole] {
        for (field, _) in fields.iter_mut().zip(&run.columns).filter(|(_, column)| takes(run, column, wanted)) {
            *field = longer(prng, wanted, rest);
            rest -= field.len() - 1;
        }
    }
    let line = Line { columns: run.columns.clone(), fields };
    (rest == 0).then(|| run.values(&line))
}

/// Whether a column takes values of this kind.
fn takes(run: &Run, column: &Column, kind: Kind) -> bool {
    matches!(*column, Column::Event(entity, member) if run.present[entity] && run.plan.members(entity)[member].kind == kind)
}

/// A field of a kind that is at most `more` bytes longer than one byte.
fn longer(prng: &mut Prng, kind: Kind, more: usize) -> String {
    match kind {
        Kind::Real if more >= 15 => format!("{:016x}", f64::from(prng.draw() as i32).to_bits()),
        Kind::Whole if more >= 10 => format!("-{}", digits(prng, 10)),
        Kind::Whole => digits(prng, 1 + more),
        _ => "-".into(),
    }
}

/// A number of so many digits, at most ten, that a whole can be.
fn digits(prng: &mut Prng, count: usize) -> String {
    let digit = |place: usize| if place == 0 { "1".into() } else { prng.below(10).to_string() };
    (0..count).map(digit).collect()
}

/// Bytes of any value but the line feed's.
pub fn noise(prng: &mut Prng, length: usize) -> Vec<u8> {
    let mut bytes = prng.bytes(length);
    bytes.iter_mut().filter(|byte| **byte == b'\n').for_each(|byte| *byte = b'\r');
    bytes
}

/// A short line that every bench and state refuses.
pub fn refused(prng: &mut Prng) -> Vec<u8> {
    const LINES: [&[u8]; 14] = [b"", b"x", b"0", b" ", b"-", b"?", b"\0", b"\r", b"\xff", b"01", b"a", b"a 0", b"1 1", b"a 01"];
    prng.pick(&LINES).to_vec()
}

/// A line of this length that is refused, unless by chance.
pub fn bad(prng: &mut Prng, run: &Run, length: usize) -> Vec<u8> {
    match prng.below(7) {
        0 => noise(prng, length),
        1 => vec![*prng.pick(b" -0x1\0\r\xff"); length],
        2 => long_field(prng, run, length),
        3 => many_fields(prng, run, length),
        4 => good_head(prng, run, length),
        5 => long_sender(prng, run, length),
        _ => cut(prng, run, length),
    }
}

/// The line that would come next, with one field so long that the line has this length. Only that field is bad, or the length.
pub fn long_field(prng: &mut Prng, run: &Run, length: usize) -> Vec<u8> {
    let mut line = run.aside(prng);
    let room = length.saturating_sub(run.values(&line).len());
    if let Some(at) = (!line.fields.is_empty()).then(|| prng.below(line.fields.len())) {
        line.fields[at].extend(std::iter::repeat_n(*prng.pick(&['0', '1', 'x', '-']), room));
    }
    resized(run.values(&line), length, b'0')
}

/// The line that would come next, with so many letters before its sender's that it has this length: who forgets them takes it.
pub fn long_sender(prng: &mut Prng, run: &Run, length: usize) -> Vec<u8> {
    let line = run.values(&run.aside(prng));
    let mut bytes = vec![*prng.pick(b"xyZ"); length.saturating_sub(line.len())];
    bytes.extend(line);
    resized(bytes, length, b'0')
}

/// The sender and the number that would come next, and fields of one byte, of which there are too many or too few.
fn many_fields(prng: &mut Prng, run: &Run, length: usize) -> Vec<u8> {
    let mut bytes = run.values(&Line::default());
    let field = *prng.pick(&[" -", " ?", " 1", "  "]);
    while bytes.len() < length {
        bytes.extend_from_slice(field.as_bytes());
    }
    resized(bytes, length, b'-')
}

/// The line that would come next, and more after it: who stops reading too early takes it.
fn good_head(prng: &mut Prng, run: &Run, length: usize) -> Vec<u8> {
    let mut bytes = run.values(&run.aside(prng));
    bytes.push(*prng.pick(b"\0\r\t  x"));
    let byte = *prng.pick(b"\0 -x");
    resized(bytes, length, byte)
}

/// The line that would come next, cut off.
fn cut(prng: &mut Prng, run: &Run, length: usize) -> Vec<u8> {
    let mut bytes = run.values(&run.aside(prng));
    bytes.truncate(length);
    resized(bytes, length, b' ')
}

pub fn resized(mut bytes: Vec<u8>, length: usize, byte: u8) -> Vec<u8> {
    bytes.resize(length, byte);
    bytes
}

//! Makes a mismatching case smaller while it still mismatches: fewer steps, rules, entities, words, columns, lines and cells of sheets.

use crate::compare::{self, Mismatch};
use crate::generate::case::{Call, Case, Step, EXACT};
use crate::image::fingerprint;
use crate::interpreter::line;
use crate::thin::{smaller_text, thin};
use std::time::{Duration, Instant};

/// Shrinking is a courtesy to the reader: it ends after this time.
const PATIENCE: Duration = Duration::from_secs(6);

pub fn shrink(case: &Case) -> Option<(Case, Box<Mismatch>)> {
    let mut best = case.clone();
    let mut found = compare::run(&best).err()?;
    let deadline = Instant::now() + PATIENCE;
    loop {
        let before = best.clone();
        best.steps.truncate(found.step + 1);
        let mut still = |case: &Case| Instant::now() < deadline && compare::run(case).is_err();
        fewer_steps(&mut best, &mut still);
        plain_sizes(&mut best, &mut still);
        let longer = best.clone();
        let text = smaller_text(&best.text, &mut |text| still(&with_text(&longer, text)));
        best = with_text(&longer, &text);
        fewer_columns(&mut best, &mut still);
        smaller_sheets(&mut best, &mut still);
        found = compare::run(&best).err()?;
        if best == before || Instant::now() >= deadline {
            return Some((best, found));
        }
    }
}

/// The case with another text. States that are written for the old one are written for the new.
fn with_text(case: &Case, text: &[u8]) -> Case {
    let mut changed = Case { text: text.to_vec(), ..case.clone() };
    for step in &mut changed.steps {
        let images = match &mut step.call {
            Call::SetState { at: 0, bytes } => vec![bytes],
            Call::Tried { before, after, .. } => vec![before, after],
            _ => Vec::new(),
        };
        for image in images {
            if image.starts_with(&fingerprint(&case.text).to_le_bytes()) {
                image[..4].copy_from_slice(&fingerprint(text).to_le_bytes());
            }
        }
    }
    changed
}

fn fewer_steps(case: &mut Case, still: &mut dyn FnMut(&Case) -> bool) {
    let (text, fill) = (case.text.clone(), case.fill);
    case.steps = thin(case.steps.clone(), &mut |steps| still(&Case { text: text.clone(), fill, steps: steps.to_vec() }));
    // A line between others can go only if those of its sender after it count one less.
    for at in (0..case.steps.len()).rev() {
        let mut fewer = case.clone();
        let Call::Line { values, .. } = fewer.steps.remove(at).call else { continue };
        fewer.steps[at..].iter_mut().for_each(|step| count_one_less(step, sender(&values)));
        if still(&fewer) {
            *case = fewer;
        }
    }
}

fn sender(values: &[u8]) -> &[u8] {
    values.split(|&byte| byte == b' ').next().unwrap_or(b"")
}

fn count_one_less(step: &mut Step, sender: &[u8]) {
    match &mut step.call {
        Call::Line { values, .. } => one_less(values, sender),
        Call::Sheet { readings, .. } => each_line(readings, 1, |values| one_less(values, sender)),
        _ => {}
    }
}

/// Changes the lines of a text from this one on.
fn each_line(text: &mut Vec<u8>, first: usize, change: impl Fn(&mut Vec<u8>)) {
    let mut lines = split(text, b'\n');
    lines.iter_mut().skip(first).for_each(change);
    *text = lines.join(&b'\n');
}

fn split(text: &[u8], separator: u8) -> Vec<Vec<u8>> {
    text.split(|&byte| byte == separator).map(<[u8]>::to_vec).collect()
}

/// Lessens the number of a line of this sender.
fn one_less(values: &mut Vec<u8>, by: &[u8]) {
    let mut fields = split(values, b' ');
    let number = fields.get(1).and_then(|field| std::str::from_utf8(field).ok()).and_then(|number| number.parse::<u64>().ok());
    if let Some(number) = number.filter(|&number| number > 0 && sender(values) == by) {
        fields[1] = (number - 1).to_string().into_bytes();
        *values = fields.join(&b' ');
    }
}

fn plain_sizes(case: &mut Case, still: &mut dyn FnMut(&Case) -> bool) {
    for at in 0..case.steps.len() {
        let mut plain = case.clone();
        plain.steps[at].lent = EXACT;
        match &mut plain.steps[at].call {
            Call::Sheet { over, .. } => *over = 0,
            Call::Tried { over, .. } => *over = [0; 3],
            _ => {}
        }
        if plain != *case && still(&plain) {
            *case = plain;
        }
    }
}

/// Drops a column of one line at a time, or of all lines with the same names.
fn fewer_columns(case: &mut Case, still: &mut dyn FnMut(&Case) -> bool) {
    let widest = case.steps.iter().map(|step| columns(&step.call)).max().unwrap_or(0);
    // The first two are `by` and `n`, sender and number.
    for column in (2..widest).rev() {
        for only in std::iter::once(None).chain((0..case.steps.len()).map(Some)) {
            let mut fewer = case.clone();
            for (at, step) in fewer.steps.iter_mut().enumerate() {
                if only.is_none_or(|only| only == at) {
                    drop_column(&mut step.call, column);
                }
            }
            if fewer != *case && still(&fewer) {
                *case = fewer;
            }
        }
    }
}

fn columns(call: &Call) -> usize {
    let names = match call {
        Call::Line { names, .. } => names,
        Call::Sheet { readings, .. } => line::lines(readings).next().unwrap_or(b""),
        _ => return 0,
    };
    // Lines of thousands of blanks are left as they are.
    if names.len() < 2000 {
        split(names, b' ').len()
    } else {
        0
    }
}

fn drop_column(call: &mut Call, column: usize) {
    match call {
        Call::Line { names, values } => [names, values].into_iter().for_each(|line| drop_field(line, column)),
        Call::Sheet { readings, .. } => each_line(readings, 0, |line| drop_field(line, column)),
        _ => {}
    }
}

fn drop_field(line: &mut Vec<u8>, column: usize) {
    let mut fields = split(line, b' ');
    if column < fields.len() {
        fields.remove(column);
        *line = fields.join(&b' ');
    }
}

/// Drops lines and cells of sheets.
fn smaller_sheets(case: &mut Case, still: &mut dyn FnMut(&Case) -> bool) {
    for at in 0..case.steps.len() {
        let Call::Sheet { readings, cells, over } = case.steps[at].call.clone() else { continue };
        let mut still_with = |readings: &[Vec<u8>], cells: &[Vec<u8>]| {
            let mut smaller = case.clone();
            smaller.steps[at].call = Call::Sheet { readings: readings.join(&b'\n'), cells: cells.join(&b' '), over };
            still(&smaller)
        };
        let cells = split(&cells, b' ');
        let lines = fewer_lines(split(&readings, b'\n'), &mut |lines| still_with(lines, &cells));
        let cells = thin(cells, &mut |cells| still_with(&lines, cells));
        case.steps[at].call = Call::Sheet { readings: lines.join(&b'\n'), cells: cells.join(&b' '), over };
    }
}

/// Drops lines of values; those of its sender after one that goes count one less, if that keeps the mismatch.
fn fewer_lines(lines: Vec<Vec<u8>>, still: &mut dyn FnMut(&[Vec<u8>]) -> bool) -> Vec<Vec<u8>> {
    let mut lines = thin(lines, still);
    for at in (1..lines.len()).rev() {
        let mut fewer = lines.clone();
        let gone = fewer.remove(at);
        fewer[at..].iter_mut().for_each(|line| one_less(line, sender(&gone)));
        if still(&fewer) {
            lines = fewer;
        }
    }
    lines
}

//! The classes that a folder belongs to, measured on its bytes and on what is printed for it.

use super::pieces::READS;
use super::required::*;
use super::{Folder, CHUNK, CHUNKS};
use crate::counts::Class;
use crate::interpreter::accept;
use crate::interpreter::grammar::{Bench, Sort};
use crate::interpreter::line::{line_number, VALUES_MOST};
use crate::interpreter::text::{name_form, NAME_MOST, RESERVED, TEXT_MOST};
use std::collections::{BTreeMap, BTreeSet};

/// The numbers that refuse lines of values.
const REFUSALS: [&str; 6] = ["21", "43", "42", "23", "24", "25"];

/// A line of the file and what is printed for it.
struct Line<'a> {
    start: usize,
    bytes: &'a [u8],
    row: &'a [u8],
    feed: bool,
}

impl Line<'_> {
    /// Where its line feed stands, or would stand.
    fn end(&self) -> usize {
        self.start + self.bytes.len()
    }

    /// Whether a cut after so many of its bytes has digits on both sides.
    fn in_digits(&self, at: usize) -> bool {
        self.bytes[at - 1].is_ascii_digit() && self.bytes[at].is_ascii_digit()
    }

    /// Whether a cut after so many of its bytes has bytes of a name on both sides.
    fn in_name(&self, at: usize) -> bool {
        let is = |byte: u8| byte.is_ascii_alphanumeric() || byte == b'_';
        is(self.bytes[at - 1]) && is(self.bytes[at])
    }

    /// What a cut after so many of its bytes splits: the sender, the number or a value of digits.
    fn split(&self, at: usize) -> Option<&'static str> {
        match self.bytes[..at].iter().filter(|&&byte| byte == b' ').count() {
            0 => self.in_name(at).then_some("sender"),
            1 => self.in_digits(at).then_some("number"),
            _ => self.in_digits(at).then_some("value"),
        }
    }

    /// Sender and number, as far as they are there.
    fn head(&self) -> (&[u8], &[u8]) {
        let mut fields = self.bytes.split(|&byte| byte == b' ');
        (fields.next().unwrap_or(b""), fields.next().unwrap_or(b""))
    }

    /// Those of the cuts that have a byte of the line on both sides.
    fn inside(&self, cuts: &[usize]) -> Vec<usize> {
        cuts.iter().copied().filter(|&cut| self.start < cut && cut < self.end()).collect()
    }

    /// The number by which it is refused. Where there is no action, the row of somebody called `refused` can look like that.
    fn refusal(&self) -> Option<&str> {
        let number = std::str::from_utf8(self.row.strip_prefix(b"refused ")?).ok()?;
        let known = if self.start == 0 { number == "22" } else { REFUSALS.contains(&number) };
        known.then_some(number)
    }

    fn taken(&self) -> bool {
        self.refusal().is_none()
    }

    /// Whether the first byte of some chunk of this size stands in the line behind its first byte.
    fn across(&self, chunk: usize) -> bool {
        !self.bytes.is_empty() && self.start / chunk != (self.end() - 1) / chunk
    }
}

/// All classes of a folder, each once.
pub fn of(folder: &Folder, printed: &[u8]) -> BTreeSet<Class> {
    let mut seen = Seen { classes: BTreeSet::new(), in_chunks: folder.cuts.is_none() };
    seen.files(folder);
    seen.input(folder);
    seen.text(folder.bench_text());
    if let Ok(bench) = accept(folder.bench_text()) {
        let lines = lines(folder.readings_text(), printed);
        seen.names(&lines);
        if lines[0].taken() {
            seen.readings(folder.readings_text(), &lines);
            seen.printed(printed);
            seen.rows(&bench, &lines);
            seen.senders(&lines[1..]);
        }
    }
    if let Some(cuts) = &folder.cuts {
        seen.pipe(folder, cuts, printed);
    }
    seen.classes
}

/// Each line with its row. A refused line of names is the only one with a row.
fn lines<'a>(readings: &'a [u8], printed: &'a [u8]) -> Vec<Line<'a>> {
    let mut rows = printed.split(|&byte| byte == b'\n');
    let mut lines = Vec::new();
    let mut start = 0;
    let closed = readings.strip_suffix(b"\n").unwrap_or(readings);
    for bytes in closed.split(|&byte| byte == b'\n') {
        let end = start + bytes.len();
        lines.push(Line { start, bytes, row: rows.next().unwrap_or(b""), feed: end < readings.len() });
        start = end + 1;
    }
    lines
}

struct Seen {
    classes: BTreeSet<Class>,
    /// Whether reads end where the chunks of the file do. Those of a pipe end with its pieces, so it is in no class of a chunk's end.
    in_chunks: bool,
}

impl Seen {
    fn note(&mut self, group: &'static str, name: impl Into<String>) {
        self.classes.insert((group, name.into()));
    }

    fn note_if(&mut self, holds: bool, group: &'static str, name: &str) {
        if holds {
            self.note(group, name);
        }
    }

    fn files(&mut self, folder: &Folder) {
        let state = |file: &Option<Vec<u8>>| match file {
            None => "missing",
            Some(bytes) if bytes.is_empty() => "empty",
            Some(_) => "there",
        };
        self.note(FILES, both(state(&folder.bench), state(&folder.readings)));
    }

    fn input(&mut self, folder: &Folder) {
        let state = if folder.closed_input { "closed" } else { "null" };
        self.note(INPUT, state);
        self.note_if(folder.readings_text().len() > CHUNK, INPUT, &format!("{state}, readings of several chunks"));
        self.note_if(folder.bench.is_none(), INPUT, &format!("{state}, no bench"));
        self.note_if(folder.readings.is_none(), INPUT, &format!("{state}, no readings"));
    }

    fn text(&mut self, text: &[u8]) {
        let number = accept(text).map_or_else(|refusal| refusal.number, |_| 0);
        self.note(TEXTS, answered(number));
        if TEXT_LENGTHS.contains(&text.len()) {
            self.note(TEXTS, format!("{} bytes: {}", text.len(), answered(number)));
        }
        for chunks in 1..=2 {
            self.note_if(text.len() > chunks * CHUNK, TEXTS, &more_than(chunks));
        }
        let hidden = text.len() > TEXT_MOST && accept(&text[..TEXT_MOST]).is_ok();
        self.note_if(hidden, TEXTS, "too long, but accepted if cut");
    }

    fn names(&mut self, lines: &[Line]) {
        let names = &lines[0];
        let answer = if names.taken() { "taken" } else { "refused" };
        self.note(NAMES, answer);
        self.note_if(!names.feed, NAMES, &format!("{answer}, no line feed in the file"));
        for length in NAMES_BEYOND {
            self.note_if(names.bytes.len() > length, NAMES, &format!("{answer}, more than {length} bytes"));
        }
        self.note_if(!names.feed && names.bytes.len() > CHUNK, NAMES, "refused, several chunks without a line feed");
        let off = near(names.end(), 4_096);
        if self.in_chunks && names.taken() && names.end() > 4_000 && off.abs() <= 2 {
            self.note(NAMES, format!("taken, line feed at {off:+} of 4096"));
        }
        if !names.taken() && NAMES_REFUSED.contains(&names.bytes.len()) {
            self.note(NAMES, format!("refused, {} bytes", names.bytes.len()));
        }
    }

    fn readings(&mut self, readings: &[u8], lines: &[Line]) {
        self.size(readings);
        for chunk in CHUNKS {
            self.ends(chunk, lines);
        }
        for line in &lines[1..] {
            self.record(line, lines[0].bytes);
        }
        for byte in ODD_BYTES {
            self.note_if(readings.contains(&byte), BYTES, &byte.to_string());
        }
        let all: BTreeSet<u8> = readings.iter().copied().collect();
        self.note_if(all.len() == 256, BYTES, "all 256");
    }

    fn size(&mut self, readings: &[u8]) {
        let feed = readings.ends_with(b"\n");
        for chunk in CHUNKS {
            let off = near(readings.len(), chunk);
            if self.in_chunks && off.abs() <= 1 && readings.len() > chunk / 2 {
                self.note(SIZES, size_name(chunk, off, feed));
            }
        }
        self.note_if(readings.len() > CHUNK, SIZES, "several chunks");
        self.note_if(readings.len() > 300_000, SIZES, "more than 300000 bytes");
        self.note_if(readings.ends_with(b"\n\n"), SIZES, "an empty last line");
        self.note_if(lines_of(readings) == 1, SIZES, "one line");
    }

    /// How lines lie at the ends of chunks of one size. A line that is taken shows that it was read right, so only such lines count.
    fn ends(&mut self, chunk: usize, lines: &[Line]) {
        if !self.in_chunks {
            return;
        }
        let taken = |line: &Line| line.taken() && line.start > 0;
        for pair in lines.windows(2) {
            let (line, next) = (&pair[0], &pair[1]);
            let off = near(line.end(), chunk);
            if off.abs() > 2 {
                continue;
            }
            self.note_if(off == -1 && taken(line) && taken(next), ENDS, &end_name(chunk, "line feed last"));
            self.note_if(off == 0 && taken(line), ENDS, &end_name(chunk, "line feed first"));
            self.note_if(off == -2 && taken(next), ENDS, &end_name(chunk, "one byte before"));
            self.note_if(off == 1 && taken(line), ENDS, &end_name(chunk, "one byte after"));
            self.note_if(off == -1 && next.bytes.is_empty() && next.feed, ENDS, &end_name(chunk, "empty line across"));
        }
        for line in lines[1..].iter().filter(|line| line.taken() && line.across(chunk)) {
            let at = line.end().saturating_sub(1) / chunk * chunk - line.start;
            if let Some(what) = line.split(at) {
                self.note(ENDS, end_name(chunk, &format!("{what} split")));
            }
        }
    }

    /// Who sent, and what was sent again.
    fn senders(&mut self, lines: &[Line]) {
        // Of each sender the last new line, and which of the new lines it was.
        let mut last: BTreeMap<&[u8], (&Line, usize)> = BTreeMap::new();
        let mut count = 0;
        for line in lines.iter().filter(|line| line.taken()) {
            let (sender, number) = line.head();
            match last.get(sender) {
                Some((taken, place)) if taken.head().1 == number => self.resent(taken, line, count - place),
                _ => {
                    last.insert(sender, (line, count));
                    count += 1;
                }
            }
            self.note_if(sender.len() == NAME_MOST, SENDERS, "a name of 24 bytes");
            self.note_if(RESERVED.iter().any(|word| word.as_bytes() == sender), SENDERS, "a reserved word");
        }
        self.note_if(!last.is_empty(), SENDERS, &format!("{} known", last.len()));
    }

    /// `ago`: 1 for the last new line, 2 for the one before.
    fn resent(&mut self, taken: &Line, line: &Line, ago: usize) {
        self.note(SENDERS, if ago == 1 { "the last new line again" } else { "an earlier line again" });
        self.note_if(ago > 1 && line.start > taken.start + CHUNK, SENDERS, "an earlier line again, a chunk later");
        self.note_if(ago > 1 && taken.across(CHUNK), SENDERS, "an earlier line again that lay across chunks");
    }

    fn record(&mut self, line: &Line, names: &[u8]) {
        let length = line.bytes.len();
        let answer = line.refusal().unwrap_or("taken");
        self.note(ANSWERS, answer);
        if length <= LONG {
            return;
        }
        if RECORDS.contains(&length) {
            self.note(ANSWERS, format!("{length} bytes: {answer}"));
        }
        if regular(line.bytes, names) {
            self.note_if(length < VALUES_MOST, ANSWERS, &format!("4097 to 8191 bytes, regular: {answer}"));
            self.note_if(length == VALUES_MOST + 1, ANSWERS, &format!("8193 bytes, else regular: {answer}"));
            self.note_if(length > VALUES_MOST + 1, ANSWERS, &format!("more than 8193 bytes, else regular: {answer}"));
        }
        self.long_record(line);
    }

    fn long_record(&mut self, line: &Line) {
        if !self.in_chunks {
            return;
        }
        let length = line.bytes.len();
        let place = if line.across(CHUNK) { ACROSS } else { WITHIN };
        if RECORDS.contains(&length) {
            self.note(LENGTHS, format!("{length}, {place}"));
        }
        self.note_if(line.taken(), LENGTHS, &format!("4097 or more and taken, {place}"));
        self.note_if(length > VALUES_MOST + 2 && length <= CHUNK, LENGTHS, &format!("8195 to 65536, {place}"));
        for chunks in 1..=2 {
            self.note_if(length > chunks * CHUNK, LENGTHS, &more_than(chunks));
        }
    }

    fn printed(&mut self, printed: &[u8]) {
        if PRINTED_EXACTLY.contains(&printed.len()) {
            self.note(PRINTED, exactly(printed.len()));
        }
        self.note_if(printed.len() < CHUNK, PRINTED, "less than 65536 bytes");
        for chunks in 1..=4 {
            self.note_if(printed.len() > chunks * CHUNK, PRINTED, &more_than(chunks));
        }
        for first in (CHUNK..printed.len()).step_by(CHUNK) {
            let full = printed[first - 1] == b'\n';
            self.note(PRINTED, if full { "a row ends with a chunk, more follow" } else { "a row lies across chunks" });
        }
    }

    fn rows(&mut self, bench: &Bench, lines: &[Line]) {
        let actions = |entity: usize| bench.members_of(entity).iter().filter(|member| member.sort == Sort::Action).count();
        let cells: usize = (0..bench.entities.len()).map(actions).sum();
        let long = lines.iter().filter(|line| line.taken()).map(|line| line.row.len()).max().unwrap_or(0);
        self.note_if(cells <= 1, ROWS, if cells == 0 { "no cell" } else { "one cell" });
        self.note_if(cells >= MANY_CELLS, ROWS, "a hundred cells or more");
        self.note_if(long > 4_096, ROWS, "more than 4096 bytes");
        self.note_if(long > 16_384, ROWS, "more than 16384 bytes");
        self.stretch("refused", lines, |_, line| !line.taken());
        self.stretch("resent", lines, |before, line| line.taken() && line.bytes == before.bytes);
    }

    /// Notes a thousand lines in a row of some sort, and a chunk of them.
    fn stretch(&mut self, name: &str, lines: &[Line], of_sort: impl Fn(&Line, &Line) -> bool) {
        let (mut start, mut count, mut bytes) = (1, 0, 0);
        for at in 2..lines.len() {
            if !of_sort(&lines[at - 1], &lines[at]) {
                start = at;
            }
            count = count.max(at - start);
            bytes = bytes.max(lines[at].end() - lines[start].end());
        }
        self.note_if(count >= STRETCH, STRETCHES, &format!("{STRETCH} lines {name}"));
        self.note_if(bytes > CHUNK, STRETCHES, &format!("more than {CHUNK} bytes {name}"));
    }

    fn pipe(&mut self, folder: &Folder, cuts: &[usize], printed: &[u8]) {
        self.note(PIPES, ANY_PIPE);
        if accept(folder.bench_text()).is_err() {
            return self.note(PIPES, "refused bench");
        }
        let lines = lines(folder.readings_text(), printed);
        if !lines[0].taken() {
            return self.note(PIPES, "refused line of names");
        }
        self.note_if(!lines[0].inside(cuts).is_empty(), PIPES, "cut inside a line of names");
        for line in &lines[1..] {
            self.cut_line(line, cuts, lines[0].bytes);
        }
        self.pieces(folder, &lines);
    }

    /// How a line of values is cut. As at the ends of chunks only lines that are taken count, but for those that are too long.
    fn cut_line(&mut self, line: &Line, cuts: &[usize], names: &[u8]) {
        let inside = line.inside(cuts);
        let rest_regular = |cut: &usize| cut - line.start > VALUES_MOST && regular(&line.bytes[cut - line.start..], names);
        self.note_if(inside.iter().any(rest_regular), PIPES, "a record too long before a cut, regular after it");
        self.note_if(line.bytes.len() > VALUES_MOST && !inside.is_empty(), PIPES, "a record of more than 8192 bytes, cut");
        if !line.taken() {
            return;
        }
        let splits = |what: &str| inside.iter().any(|cut| line.split(cut - line.start) == Some(what));
        self.note_if(inside.len() >= 2, PIPES, "a line in three pieces or more");
        self.note_if(inside.contains(&(line.start + 1)), PIPES, "cut after a line's first byte");
        self.note_if(splits("sender"), PIPES, "cut within a line's sender");
        self.note_if(splits("number"), PIPES, "cut within a line's number");
        self.note_if(line.feed && cuts.contains(&line.end()), PIPES, "cut right before a line feed");
        self.note_if(cuts.contains(&line.start), PIPES, "cut right after a line feed");
    }

    fn pieces(&mut self, folder: &Folder, lines: &[Line]) {
        let mut start = 0;
        for piece in folder.pieces() {
            for read in READS {
                let off = piece.len() as isize - read as isize;
                self.note_if(off.abs() == 1, PIPES, &piece_name(read, off));
            }
            let in_taken = |line: &Line| line.taken() && line.start <= start && start <= line.end();
            self.note_if(piece.len() == 1 && lines.iter().any(in_taken), PIPES, "a piece of one byte");
            start += piece.len();
        }
    }
}

/// How far a place is from the nearest multiple of a chunk.
fn near(place: usize, chunk: usize) -> isize {
    let off = (place % chunk) as isize;
    if off > chunk as isize / 2 {
        off - chunk as isize
    } else {
        off
    }
}

fn lines_of(readings: &[u8]) -> usize {
    readings.strip_suffix(b"\n").unwrap_or(readings).split(|&byte| byte == b'\n').count()
}

/// The right count of fields, none empty, a good sender and a good number: only the length or a value can be bad.
fn regular(values: &[u8], names: &[u8]) -> bool {
    let fields = |bytes: &[u8]| bytes.split(|&byte| byte == b' ').count();
    let mut first = values.split(|&byte| byte == b' ');
    let (sender, number) = (first.next().unwrap_or(b""), first.next().unwrap_or(b""));
    let good_number = line_number(number).is_some_and(|number| number > 0);
    name_form(sender) && good_number && fields(values) == fields(names) && first.all(|field| !field.is_empty())
}

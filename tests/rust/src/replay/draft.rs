//! A file of readings under way. The interpreter follows each line, so that the next one can be made to fit: a good one, one that brings
//! a line feed to a chosen place, or one that brings what is printed to a chosen length.

use super::{exact, Files};
use crate::generate::bench::{render, Plan};
use crate::generate::lines::{Column, Line};
use crate::generate::prng::Prng;
use crate::generate::run::Run;
use crate::generate::senders;
use crate::interpreter::accept;
use crate::interpreter::grammar::Bench;
use crate::interpreter::line::{self, Taken};
use crate::interpreter::machine::{self, State};
use crate::interpreter::row as rows;

/// `refused`, a number of two digits and a line feed.
const REFUSED_LINE: usize = 11;

/// Lines near a chosen place are short; farther off they may be long, to get there in few lines.
const NEAR: usize = 400;

pub struct Draft<'p> {
    bench: &'p Bench<'p>,
    columns: Vec<line::Column>,
    state: State,
    /// Who sends, and what comes next.
    pub run: Run<'p>,
    /// For each known sender its last line.
    lines: Vec<Vec<u8>>,
    /// Whose line was the last that was new.
    last: usize,
    /// Whether lines far from a chosen place are long.
    pub sparse: bool,
    pub bytes: Vec<u8>,
    /// How many bytes are printed for what is written.
    pub printed: usize,
}

/// The text of a plan, and a file of readings with these columns as `write` fills it.
pub fn files(prng: &mut Prng, plan: &Plan, columns: Vec<Column>, write: impl FnOnce(&mut Prng, &mut Draft)) -> Files {
    let text = render(prng, &plan.words);
    let bench = accept(&text).expect("generated benches are accepted");
    let count = senders::count(prng);
    let mut draft = Draft::new(plan, &bench, columns, senders::some(prng, plan, count));
    write(prng, &mut draft);
    let readings = draft.bytes;
    (Some(text), Some(readings))
}

impl<'p> Draft<'p> {
    /// Starts with the line of names.
    pub fn new(plan: &'p Plan, bench: &'p Bench<'p>, columns: Vec<Column>, senders: Vec<Vec<u8>>) -> Draft<'p> {
        let mut bytes = Line { columns: columns.clone(), fields: Vec::new() }.names(plan);
        let known = line::columns(bench, &bytes).expect("the names are good");
        bytes.push(b'\n');
        let state = machine::fresh(bench).expect("the machine never stops on an accepted bench");
        let printed = rows::header(bench).len() + 1;
        let run = Run::with(plan, columns, senders);
        Draft { bench, columns: known, state, run, lines: Vec::new(), last: 0, sparse: false, bytes, printed }
    }

    /// Writes a line. A line feed inside it makes it two.
    pub fn push(&mut self, values: &[u8]) {
        self.bytes.extend_from_slice(values);
        self.bytes.push(b'\n');
        for line in values.split(|&byte| byte == b'\n') {
            self.printed += self.follow(line);
        }
    }

    /// Follows a line and gives the length of what it prints. Damage can leave a line good, so the run goes by what was taken.
    fn follow(&mut self, values: &[u8]) -> usize {
        match line::take_values(self.bench, &self.state, &self.columns, values) {
            Err(_) => REFUSED_LINE,
            Ok(Taken::Resent(sender)) => self.row_length(sender),
            Ok(Taken::Next(next, sender, _)) => {
                self.state = next;
                self.run.follow(&self.state);
                self.lines.resize(self.state.senders.len(), Vec::new());
                self.lines[sender] = values.to_vec();
                self.last = sender;
                self.row_length(sender)
            }
        }
    }

    /// Bytes of a sender's row with its line feed.
    fn row_length(&self, sender: usize) -> usize {
        rows::row(self.bench, &self.state.senders[sender]).len() + 1
    }

    /// The last line that was new, for sending it again; none if there was none.
    pub fn resent(&self) -> Vec<u8> {
        self.lines.get(self.last).cloned().unwrap_or_default()
    }

    /// The last line of any sender, for sending it again however long ago it was.
    pub fn late(&self, prng: &mut Prng) -> Vec<u8> {
        if self.lines.is_empty() {
            return Vec::new();
        }
        prng.pick(&self.lines).clone()
    }

    /// A line that is taken next.
    pub fn good(&mut self, prng: &mut Prng) -> Vec<u8> {
        self.settle(prng);
        self.run.values(&self.run.aside(prng))
    }

    /// Gives the turn to somebody whose next line can be taken.
    pub fn settle(&mut self, prng: &mut Prng) {
        if self.run.is_ninth() {
            self.run.pass_to_known(prng);
        }
    }

    /// Gives the turn to somebody whose next line can be taken and whose name can be split, if there is one.
    pub fn settle_long(&mut self, prng: &mut Prng) {
        for _ in 0..20 {
            self.run.pass(prng);
            self.settle(prng);
            if self.run.sender().len() > 1 {
                return;
            }
        }
    }

    /// Any line of anybody: good ones mostly, but every refusal too.
    pub fn any(&mut self, prng: &mut Prng) -> Vec<u8> {
        self.run.pass(prng);
        match prng.weighted(&[53, 6, 8, 5, 6, 7, 6, 3, 3, 3, 2]) {
            0 => self.good(prng),
            1 => self.resent(),
            2 => self.late(prng),
            3 => self.run.other_readings(prng).1,
            4 => self.run.other_number(prng).1,
            5 => self.run.bad_values(prng).1,
            6 => self.run.bad_field(prng).1,
            7 => self.run.bad_sender(prng).1,
            // That of a ninth sender, perhaps.
            8 => self.run.values(&self.run.aside(prng)),
            9 => Vec::new(),
            _ => {
                let length = prng.below(40);
                exact::noise(prng, length)
            }
        }
    }

    /// Writes so many lines of any sort.
    pub fn some(&mut self, prng: &mut Prng, count: usize) {
        for _ in 0..count {
            let line = self.any(prng);
            self.push(&line);
        }
    }

    /// Writes a line of any sort that takes at most this many bytes, with its line feed.
    fn fill(&mut self, prng: &mut Prng, most: usize) {
        let line = if self.sparse && prng.chance(80) {
            let length = prng.between(200, 8_000);
            exact::bad(prng, &self.run, length)
        } else {
            self.any(prng)
        };
        if line.len() < most {
            return self.push(&line);
        }
        let length = prng.below(most);
        let line = exact::bad(prng, &self.run, length);
        self.push(&line);
    }

    /// Writes lines up to the one whose line feed stands at this offset; that one is good if it can be.
    pub fn reach(&mut self, prng: &mut Prng, offset: usize) {
        let near = NEAR + 4 * exact::shortest(&self.run);
        while self.bytes.len() + near < offset {
            self.fill(prng, offset - self.bytes.len() - near / 2);
        }
        self.settle(prng);
        while self.bytes.len() <= offset {
            let length = self.step_towards(prng, offset - self.bytes.len());
            let line = exact::good(prng, &self.run, length).unwrap_or_else(|| exact::bad(prng, &self.run, length));
            self.push(&line);
        }
    }

    /// The length of the next line on the way to a line feed that stands `gap` bytes ahead.
    fn step_towards(&self, prng: &mut Prng, gap: usize) -> usize {
        // One byte more, as the next number may have one more digit.
        let shortest = exact::shortest(&self.run) + 1;
        if gap < 2 * shortest + 1 || exact::good(prng, &self.run, gap).is_some() {
            return gap;
        }
        prng.between(shortest, (gap - shortest - 1).min(shortest + 12))
    }

    /// Ends the file at this size, with a last line feed or without.
    pub fn end_at(&mut self, prng: &mut Prng, size: usize, last_feed: bool) {
        if last_feed {
            return self.reach(prng, size - 1);
        }
        self.reach(prng, size);
        self.drop_last_feed();
    }

    /// Leaves out the last line feed, unless the last line would go with it.
    pub fn drop_last_feed(&mut self) {
        if !self.bytes.ends_with(b"\n\n") {
            self.bytes.pop();
        }
    }

    /// Bytes of the last new line's row with its line feed, or of the row of somebody who has sent nothing.
    fn last_row_length(&self) -> usize {
        let name = self.state.senders.get(self.last).map_or(self.run.sender(), |sender| &sender.name);
        rows::row_of(self.bench, &self.state, name).len() + 1
    }

    /// Writes lines until exactly this many bytes are printed, as far as the rows' lengths let it.
    pub fn print_up_to(&mut self, prng: &mut Prng, length: usize) {
        while self.printed + 12 * self.last_row_length() + 200 < length {
            // A refused line of a byte or two prints eleven: without them the file would get far longer than what it prints.
            let line = if prng.chance(60) { exact::refused(prng) } else { self.any(prng) };
            self.push(&line);
        }
        for _ in 0..40 {
            let rest = length.saturating_sub(self.printed);
            if let Some((refused, resent)) = self.split(rest) {
                return self.finish_printing(prng, refused, resent);
            }
            // Another row may have a length that goes into the rest.
            let line = self.good(prng);
            self.push(&line);
        }
    }

    /// How many refused and how many resent lines together print this many bytes.
    fn split(&self, rest: usize) -> Option<(usize, usize)> {
        let row = self.last_row_length();
        if self.lines.is_empty() {
            return (rest == 0).then_some((0, 0));
        }
        let refused = (0..row).find(|refused| refused * REFUSED_LINE <= rest && (rest - refused * REFUSED_LINE).is_multiple_of(row))?;
        Some((refused, (rest - refused * REFUSED_LINE) / row))
    }

    fn finish_printing(&mut self, prng: &mut Prng, refused: usize, resent: usize) {
        let mut lines = vec![false; refused];
        lines.resize(refused + resent, true);
        prng.shuffle(&mut lines);
        for again in lines {
            let line = if again { self.resent() } else { exact::refused(prng) };
            self.push(&line);
        }
    }
}

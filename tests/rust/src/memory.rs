//! Lent memory and the eight calls on it, the same for both sides of a comparison.

use crate::calls;
use crate::counts::Counts;
use crate::cycles::Cycle;
use crate::generate::case::{Call, Case, Lent, Step, LONGER_MOST};
use crate::generate::prng::Prng;
use crate::image::{BENCH_SIZE, ROW_SIZE, STATE_SIZE};
use crate::names;
use crate::places::coverage::Coverage as Places;
use crate::ranks;
use crate::resent;
use crate::rests;
use crate::senders::coverage::Coverage as Senders;
use crate::sheets::coverage::Coverage as Sheets;
use std::collections::BTreeMap;

/// Bytes past everything that is ever lent: nobody may touch them.
const CANARY: usize = 64;

#[derive(Clone, PartialEq, Eq)]
pub struct Memory {
    pub bench: Vec<u8>,
    pub state: Vec<u8>,
    pub row: Vec<u8>,
    /// Lent anew for each sheet.
    pub sheet: Vec<u8>,
    /// Two states and a set of rules, lent anew for each call that asks for one.
    pub states: [Vec<u8>; 2],
    pub tried: Vec<u8>,
    fill: u64,
}

impl Memory {
    pub fn new(fill: u64) -> Memory {
        let mut prng = Prng::new(fill);
        let mut filled = |size: usize| prng.bytes(size + LONGER_MOST + CANARY);
        Memory {
            bench: filled(BENCH_SIZE),
            state: filled(STATE_SIZE),
            row: filled(ROW_SIZE),
            sheet: Vec::new(),
            states: Default::default(),
            tried: Vec::new(),
            fill,
        }
    }

    /// The memory that is there for this step alone, filled anew: that of a sheet, whose size follows from the readings, or that of two
    /// states and a set of rules.
    pub fn lend(&mut self, step: &Step) {
        let filled = |size: usize| Prng::new(!self.fill).bytes(size + CANARY);
        let holding = |image: &[u8], size: usize| {
            let mut memory = filled(size.max(image.len()));
            memory[..image.len()].copy_from_slice(image);
            memory
        };
        (self.sheet, self.states, self.tried) = Default::default();
        match &step.call {
            Call::Sheet { .. } => self.sheet = filled(step.lent_sheet()),
            Call::Tried { before, after, .. } => {
                let [before_size, after_size, tried_size] = step.lent_tried();
                self.states = [holding(before, before_size), holding(after, after_size)];
                self.tried = filled(tried_size);
            }
            _ => {}
        }
    }
}

/// A text between bytes that are not lent: nobody may touch any of them.
#[derive(Clone, PartialEq, Eq)]
pub struct LentText {
    memory: Vec<u8>,
    length: usize,
}

impl LentText {
    pub fn new(text: &[u8], fill: u64) -> LentText {
        let guards = Prng::new(fill).bytes(2 * CANARY);
        LentText { memory: [&guards[..CANARY], text, &guards[CANARY..]].concat(), length: text.len() }
    }

    pub fn lent(&self) -> &[u8] {
        &self.memory[CANARY..CANARY + self.length]
    }
}

/// Bench, state, names, values, row.
type LineCall = fn(&[u8], &mut [u8], &[u8], &[u8], &mut [u8]) -> u64;

/// Bench, state, sender, row.
type RowCall = fn(&[u8], &[u8], &[u8], &mut [u8]) -> u64;

/// Bench, state, readings, cells, sheet.
type SheetCall = fn(&[u8], &[u8], &[u8], &[u8], &mut [u8]) -> u64;

/// Bench, state before, state after, rules.
type TriedCall = fn(&[u8], &[u8], &[u8], &mut [u8]) -> u64;

/// The eight calls of one side.
pub struct Side {
    pub check: fn(&[u8], &mut [u8]) -> u64,
    pub name: fn(&[u8], usize) -> u64,
    pub fresh: fn(&[u8], &mut [u8]) -> u64,
    pub line: LineCall,
    pub header: fn(&[u8], &mut [u8]) -> u64,
    pub row: RowCall,
    pub sheet: SheetCall,
    pub tried: TriedCall,
}

/// The interpreter's side.
pub const OURS: Side = Side {
    check: calls::bench_check,
    name: calls::bench_entity_name,
    fresh: calls::bench_fresh,
    line: calls::bench_line,
    header: calls::bench_header,
    row: calls::bench_row,
    sheet: calls::bench_sheet,
    tried: calls::rules_tried,
};

impl Side {
    /// One call; `None` for a step that only writes memory. What is there for the step alone is lent before.
    pub fn answer(&self, text: &[u8], step: &Step, memory: &mut Memory) -> Option<u64> {
        let Lent { bench, state, row } = step.lent;
        let (bench, state, row) = (&mut memory.bench[..bench], &mut memory.state[..state], &mut memory.row[..row]);
        match &step.call {
            Call::Check => Some((self.check)(text, bench)),
            Call::Name { number } => Some((self.name)(text, *number)),
            Call::Fresh => Some((self.fresh)(bench, state)),
            Call::Header => Some((self.header)(bench, row)),
            Call::Row { sender } => Some((self.row)(bench, state, sender, row)),
            Call::Line { names, values } => Some((self.line)(bench, state, names, values, row)),
            Call::Sheet { readings, cells, .. } => {
                Some((self.sheet)(bench, state, readings, cells, &mut memory.sheet[..step.lent_sheet()]))
            }
            Call::Tried { .. } => {
                let ([before, after], sizes) = (&memory.states, step.lent_tried());
                Some((self.tried)(bench, &before[..sizes[0]], &after[..sizes[1]], &mut memory.tried[..sizes[2]]))
            }
            Call::SetBench { at, bytes } => overwrite(&mut memory.bench, *at, bytes),
            Call::SetState { at, bytes } => overwrite(&mut memory.state, *at, bytes),
        }
    }
}

fn overwrite(memory: &mut [u8], at: usize, bytes: &[u8]) -> Option<u64> {
    memory[at..at + bytes.len()].copy_from_slice(bytes);
    None
}

/// Every number that the table knows, but for 41, which only a sheet gets; and acceptance.
pub const NUMBERS: [u8; 20] = [0, 11, 12, 13, 14, 15, 16, 17, 18, 21, 22, 23, 24, 25, 31, 32, 33, 42, 43, 44];

/// How often each number was answered.
#[derive(Clone, Debug, Default)]
pub struct Tally {
    /// Of all calls but those for a name, a sheet or a set of rules.
    pub answers: BTreeMap<u8, u64>,
    pub calls: u64,
    /// Accepted lines that gave some fired action.
    pub fired: u64,
    pub sheets: Sheets,
    pub senders: Senders,
    pub resent: resent::Seen,
    /// Of the texts that were checked.
    pub places: Places,
    /// Of texts and lines.
    pub ranks: Counts,
    /// Of lines, and of calls for a set of rules.
    pub rests: Counts,
    /// Of calls for an entity's name.
    pub names: Counts,
}

impl Tally {
    pub fn add(&mut self, other: &Tally) {
        for (&number, &count) in &other.answers {
            *self.answers.entry(number).or_default() += count;
        }
        self.calls += other.calls;
        self.fired += other.fired;
        self.sheets.add(&other.sheets);
        self.senders.add(&other.senders);
        self.resent.add(other.resent);
        self.places.add(&other.places);
        self.ranks.add(&other.ranks);
        self.rests.add(&other.rests);
        self.names.add(&other.names);
    }

    /// Counts one step and its answer, with the bench text and the memory before and after it.
    pub fn count(&mut self, text: &[u8], step: &Step, answer: Option<u64>, before: &Memory, after: &Memory) {
        let Some(answer) = answer else { return self.senders.written(step, before, after) };
        if matches!(step.call, Call::Check) {
            self.places.take(text, answer);
            self.ranks.take(ranks::of_text(text, answer));
        }
        if let Call::Name { number } = step.call {
            return self.names.take(names::of_call(text, number, answer));
        }
        if matches!(step.call, Call::Sheet { .. }) {
            return self.sheets.take(step, answer, after);
        }
        if matches!(step.call, Call::Tried { .. }) {
            return self.rests.take(rests::of_call(text, step, answer, after));
        }
        self.senders.take(step, answer, before);
        if let Some(cycle) = Cycle::of(step, answer, before, after) {
            let writes = cycle.writes();
            self.ranks.take(ranks::of_writes(&writes));
            self.rests.take(rests::of_cycle(&cycle, &writes));
        }
        let row = &after.row;
        self.calls += 1;
        *self.answers.entry((answer & 255) as u8).or_default() += 1;
        if matches!(step.call, Call::Line { .. }) && answer & 255 == 0 && fires(&row[..(answer >> 8) as usize]) {
            self.fired += 1;
        }
    }
}

/// Whether a row has a fired action.
fn fires(row: &[u8]) -> bool {
    row.split(|&byte| byte == b' ').skip(2).any(|field| field != b"-")
}

/// What the interpreter alone answers to a case: no comparison, but it shows what a case is good for.
pub fn answers(case: &Case) -> Tally {
    let mut memory = Memory::new(case.fill);
    let mut tally = Tally::default();
    let mut rows = resent::Rows::default();
    for step in &case.steps {
        memory.lend(step);
        let before = memory.clone();
        let answer = OURS.answer(&case.text, step, &mut memory);
        tally.count(&case.text, step, answer, &before, &memory);
        assert_eq!(rows.follow(step, answer, &before, &memory), None);
    }
    tally.resent = rows.seen;
    tally
}

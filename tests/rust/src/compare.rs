//! Runs both sides on a case and compares answers and every lent byte.

use crate::generate::case::{Call, Case, Lent, Step};
use crate::image::{BENCH_SIZE, ROW_SIZE, STATE_SIZE, TRIED_SIZE};
use crate::interpreter::bytes::bench_byte_class;
use crate::memory::{LentText, Memory, Side, Tally, OURS};
use crate::resent::Rows;
use crate::show::show_bytes;
use crate::{archive, interpreter, names};

/// The first step at which the two sides part.
#[derive(Clone, Debug)]
pub struct Mismatch {
    pub step: usize,
    pub what: String,
    pub ours: Option<u64>,
    pub theirs: Option<u64>,
    /// The row or sheet of an accepted call, the set of rules or the name.
    pub our_text: Vec<u8>,
    pub their_text: Vec<u8>,
}

/// The engine's side.
const THEIRS: Side = Side {
    check: archive::bench_check,
    name: archive::bench_entity_name,
    fresh: archive::bench_fresh,
    line: archive::bench_line,
    header: archive::bench_header,
    row: archive::bench_row,
    sheet: archive::bench_sheet,
    tried: archive::rules_tried,
};

/// Both sides under way on one bench text.
pub struct Sides {
    text: Vec<u8>,
    fill: u64,
    ours: Memory,
    theirs: Memory,
    steps: usize,
    /// What the engine's lines gave.
    rows: Rows,
    tally: Tally,
}

impl Sides {
    pub fn new(text: &[u8], fill: u64) -> Sides {
        let memory = Memory::new(fill);
        Sides { text: text.to_vec(), fill, ours: memory.clone(), theirs: memory, steps: 0, rows: Rows::default(), tally: Tally::default() }
    }

    /// The engine's state memory.
    pub fn state(&self) -> &[u8] {
        &self.theirs.state
    }

    /// The engine's row memory.
    pub fn row(&self) -> &[u8] {
        &self.theirs.row
    }

    /// Does one step on both sides; gives the answer that both gave.
    pub fn step(&mut self, step: &Step) -> Result<Option<u64>, Box<Mismatch>> {
        self.ours.lend(step);
        self.theirs.lend(step);
        let before = self.theirs.clone();
        // Copies, to see that the engine leaves even what it only reads.
        let (text, lent_step) = (LentText::new(&self.text, self.fill), step.clone());
        let ours = OURS.answer(&self.text, step, &mut self.ours);
        let texts_read = interpreter::texts_read();
        let theirs = THEIRS.answer(text.lent(), &lent_step, &mut self.theirs);
        assert_eq!(interpreter::texts_read(), texts_read, "the engine's calls end in the interpreter: it is compared with itself");
        let fault = if text != LentText::new(&self.text, self.fill) || lent_step != *step {
            Some("text, what lies around it, names, values, sender, readings or cells were written to")
        } else if ours != theirs {
            Some("the answers differ")
        } else {
            self.fault(&before, step, theirs).or_else(|| self.rows.follow(step, theirs, &before, &self.theirs))
        };
        if let Some(what) = fault {
            return Err(Box::new(self.mismatch(step, what, ours, theirs)));
        }
        if matches!(step.call, Call::Line { .. }) {
            self.rules_tried(&before)?;
        }
        self.steps += 1;
        self.tally.count(&self.text, step, theirs, &before, &self.theirs);
        Ok(theirs)
    }

    /// Asks both sides which rules a line tried, whatever became of it: one that is refused or sent again leaves the state, so none.
    fn rules_tried(&self, before: &Memory) -> Result<(), Box<Mismatch>> {
        let ours = tried(&OURS, before, &self.ours);
        let texts_read = interpreter::texts_read();
        let theirs = tried(&THEIRS, before, &self.theirs);
        assert_eq!(interpreter::texts_read(), texts_read, "the test archive's call ends in the interpreter: it is compared with itself");
        if ours == theirs {
            return Ok(());
        }
        Err(Box::new(Mismatch {
            step: self.steps,
            what: "the rules that a line tries differ".into(),
            ours: Some(ours.0),
            theirs: Some(theirs.0),
            our_text: show_set(&ours.1),
            their_text: show_set(&theirs.1),
        }))
    }

    /// What the steps so far were.
    pub fn tally(self) -> Tally {
        Tally { resent: self.rows.seen, ..self.tally }
    }

    /// What is wrong with the memory after a call, if anything.
    fn fault(&self, before: &Memory, step: &Step, answer: Option<u64>) -> Option<&'static str> {
        let refused = answer.is_some_and(|answer| answer & 255 != 0);
        if refused && self.theirs != *before {
            return Some("a refused call changed memory");
        }
        if answer.is_some() && !self.ends_kept(before, step) {
            return Some("bytes past a stated size or past the lent memory changed");
        }
        if self.ours.bench != self.theirs.bench {
            return Some("the memories of the bench differ");
        }
        if self.ours.state != self.theirs.state {
            return Some("the memories of the state differ");
        }
        if self.ours.row != self.theirs.row {
            return Some("the memories of the row differ");
        }
        if self.ours.sheet != self.theirs.sheet {
            return Some("the memories of the sheet differ");
        }
        (self.ours.tried != self.theirs.tried).then_some("the sets of rules differ")
    }

    fn ends_kept(&self, before: &Memory, step: &Step) -> bool {
        let lent = step.lent;
        let kept = |now: &[u8], before: &[u8], size: usize| now[size..] == before[size..];
        kept(&self.theirs.bench, &before.bench, lent.bench.min(BENCH_SIZE))
            && kept(&self.theirs.state, &before.state, lent.state.min(STATE_SIZE))
            && kept(&self.theirs.row, &before.row, lent.row.min(ROW_SIZE))
            && kept(&self.theirs.sheet, &before.sheet, step.lent_sheet())
            && self.theirs.states == before.states
            && kept(&self.theirs.tried, &before.tried, step.lent_tried()[2].min(TRIED_SIZE))
    }

    fn mismatch(&self, step: &Step, what: &str, ours: Option<u64>, theirs: Option<u64>) -> Mismatch {
        let written = |memory: &Memory, answer: Option<u64>| {
            if let Call::Tried { .. } = step.call {
                return show_set(&memory.tried);
            }
            if let Call::Name { .. } = step.call {
                return named(&self.text, answer);
            }
            let length = answer.filter(|answer| answer & 255 == 0).map_or(0, |answer| answer >> 8) as usize;
            let memory = if matches!(step.call, Call::Sheet { .. }) { &memory.sheet } else { &memory.row };
            memory[..length.min(memory.len())].to_vec()
        };
        Mismatch {
            step: self.steps,
            what: what.to_string(),
            ours,
            theirs,
            our_text: written(&self.ours, ours),
            their_text: written(&self.theirs, theirs),
        }
    }
}

/// One side's answer to which rules a line tried, with the memory of the set and as many bytes after it.
fn tried(side: &Side, before: &Memory, after: &Memory) -> (u64, [u8; 2 * TRIED_SIZE]) {
    let mut tried = [0xa5; 2 * TRIED_SIZE];
    let (before_state, after_state) = (&before.state[..STATE_SIZE], &after.state[..STATE_SIZE]);
    let answer = (side.tried)(&before.bench[..BENCH_SIZE], before_state, after_state, &mut tried[..TRIED_SIZE]);
    (answer, tried)
}

/// Runs a whole case.
pub fn run(case: &Case) -> Result<Tally, Box<Mismatch>> {
    let mut sides = Sides::new(&case.text, case.fill);
    for step in &case.steps {
        sides.step(step)?;
    }
    Ok(sides.tally())
}

/// The bytes whose classes differ, each with the interpreter's class and the engine's.
pub fn other_classes() -> Vec<(u8, u64, u64)> {
    let classes = |byte: u8| (byte, bench_byte_class(byte), archive::bench_byte_class(byte));
    (0..=255).map(classes).filter(|(_, ours, theirs)| ours != theirs).collect()
}

// What a reader sees of a mismatch.

/// The part of the text that an answer gives, as far as there is one.
fn named(text: &[u8], answer: Option<u64>) -> Vec<u8> {
    let Some(answer) = answer else { return Vec::new() };
    let (offset, length) = names::part(answer);
    text.iter().skip(offset).take(length).copied().collect()
}

/// A set of rules as the bytes that stand for it.
fn show_set(memory: &[u8]) -> Vec<u8> {
    memory.iter().take(TRIED_SIZE).map(|byte| format!("{byte:02x} ")).collect::<String>().into_bytes()
}

pub fn show_answer(answer: Option<u64>) -> String {
    match answer {
        None => "no answer".into(),
        Some(answer) => format!("{} with {}", answer & 255, answer >> 8),
    }
}

pub fn show_step(step: &Step) -> String {
    let call = match &step.call {
        Call::Check => "bench_check".to_string(),
        Call::Name { number } => format!("bench_entity_name {number}"),
        Call::Fresh => "bench_fresh".to_string(),
        Call::Header => "bench_header".to_string(),
        Call::Row { sender } => format!("bench_row [{}]", show_bytes(sender)),
        Call::Line { names, values } => format!("bench_line [{}] [{}]", show_bytes(names), show_bytes(values)),
        Call::Sheet { readings, cells, .. } => {
            format!("bench_sheet [{}] [{}] for a sheet of {} bytes", show_bytes(readings), show_bytes(cells), step.lent_sheet())
        }
        Call::Tried { before, after, .. } => format!("rules_tried of {:?} bytes: {before:02x?}, {after:02x?}", step.lent_tried()),
        Call::SetBench { at, bytes } => format!("write to the bench's memory at {at}: [{}]", show_bytes(bytes)),
        Call::SetState { at, bytes } => format!("write to the state's memory at {at}: {bytes:02x?}"),
    };
    let Lent { bench, state, row } = step.lent;
    format!("{call} (lent: bench {bench}, state {state}, row {row})")
}

pub fn show(case: &Case, mismatch: &Mismatch) -> String {
    let mut shown = format!("bench text, {} bytes: [{}]\n", case.text.len(), show_bytes(&case.text));
    if let Err(refusal) = interpreter::accept(&case.text) {
        shown.push_str(&format!("(the interpreter refuses it: {} at {})\n", refusal.number, refusal.place));
    }
    for (number, step) in case.steps.iter().enumerate().take(mismatch.step + 1) {
        shown.push_str(&format!("step {number}: {}\n", show_step(step)));
    }
    shown.push_str(&format!("at step {}: {}\n", mismatch.step, mismatch.what));
    shown.push_str(&format!("interpreter: {} {}\n", show_answer(mismatch.ours), show_lines(&mismatch.our_text)));
    shown.push_str(&format!("engine:      {} {}\n", show_answer(mismatch.theirs), show_lines(&mismatch.their_text)));
    shown
}

/// A row on one line; the rows of a sheet on lines of their own.
fn show_lines(text: &[u8]) -> String {
    let rows: Vec<String> = text.split_inclusive(|&byte| byte == b'\n').map(|row| format!("[{}]", show_bytes(row))).collect();
    match &rows[..] {
        [] => "[]".into(),
        [row] => row.clone(),
        _ => format!("\n{}", rows.join("\n")),
    }
}

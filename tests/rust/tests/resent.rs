//! The means to see what lines, rows and states tried: what is wrong with lines sent again is noticed, and the faults of lines and states,
//! found by a reader of their own, are those of the interpreter.

use second::generate;
use second::generate::case::{Call, Step, EXACT};
use second::image::{decode_bench, decode_state};
use second::interpreter::accept;
use second::memory::{Memory, OURS};
use second::resent::{Rows, Seen};
use second::senders::faults::{of_line, of_state, Fault};

/// A run of calls that somebody answers: rows, and whether the state changes.
struct Told {
    rows: Rows,
    memory: Memory,
}

impl Told {
    fn new() -> Told {
        Told { rows: Rows::default(), memory: Memory::new(1) }
    }

    fn call(&mut self, call: Call, row: &str, changes: bool) -> Option<&'static str> {
        let before = self.memory.clone();
        self.memory.row[..row.len()].copy_from_slice(row.as_bytes());
        self.memory.state[7] ^= u8::from(changes);
        let step = Step { call, lent: EXACT };
        self.rows.follow(&step, Some((row.len() as u64) << 8), &before, &self.memory)
    }

    fn line(&mut self, values: &str, row: &str, changes: bool) -> Option<&'static str> {
        self.call(Call::Line { names: b"by n".to_vec(), values: values.as_bytes().to_vec() }, row, changes)
    }

    fn row(&mut self, sender: &str, row: &str) -> Option<&'static str> {
        self.call(Call::Row { sender: sender.as_bytes().to_vec() }, row, false)
    }
}

#[test]
fn wrong_lines_sent_again_are_noticed() {
    let mut told = Told::new();
    assert_eq!(told.line("a 1", "a 1 5", true), None);
    assert_eq!(told.line("b 1", "b 1 -", true), None);
    assert_eq!(told.line("a 1", "a 1 5", false), None);
    assert_eq!(told.row("a", "a 1 5"), None);
    assert_eq!(told.row("c", "c 0 -"), None);
    assert_eq!(told.rows.seen, Seen { again: 1, late: 1, asked: 1 });
    assert!(told.line("a 1", "a 1 -", false).is_some_and(|what| what.contains("another row")));
    assert!(told.line("b 1", "b 1 -", true).is_some_and(|what| what.contains("changed the state")));
    assert!(told.row("a", "a 1 -").is_some_and(|what| what.contains("asked for")));
    // The next line of a sender takes the place of the last.
    assert_eq!(told.line("a 2", "a 2 6", true), None);
    assert_eq!(told.row("a", "a 2 6"), None);
    assert_eq!(told.line("a 2", "a 2 6", false), None);
    // Another state knows nothing of it.
    assert_eq!(told.call(Call::Fresh, "", true), None);
    assert_eq!(told.line("a 1", "a 1 7", true), None);
    assert_eq!(told.line("a 1", "a 1 7", false), None);
}

/// Hands on each line and row of some cases with the memory before it.
fn each_call(mut look: impl FnMut(&Step, u64, &Memory)) {
    for number in 0..1_500 {
        for case in [generate::without_sheets(8, number), generate::spoils::case(8, number)] {
            let mut memory = Memory::new(case.fill);
            for step in &case.steps {
                let before = memory.clone();
                let answer = OURS.answer(&case.text, step, &mut memory);
                if let (Some(answer), Call::Line { .. } | Call::Row { .. }) = (answer, &step.call) {
                    look(step, answer & 255, &before);
                }
            }
        }
    }
}

#[test]
fn faults_of_states_are_those_of_the_interpreter() {
    let mut states = [0, 0];
    each_call(|_, _, memory| {
        let Some(bench) = decode_bench(&memory.bench).and_then(|text| accept(text).ok()) else { return };
        let faults = of_state(&bench, &memory.state);
        let is_state = decode_state(&bench, &memory.state).is_some();
        assert_eq!(faults.is_empty(), is_state, "{faults:?}");
        states[usize::from(is_state)] += 1;
    });
    assert!(states[0] > 1_000 && states[1] > 5_000, "{states:?}");
}

#[test]
fn faults_of_lines_are_those_of_the_interpreter() {
    let (mut accepted, mut refused) = (0, 0);
    each_call(|step, answer, memory| {
        let Call::Line { names, values } = &step.call else { return };
        let Some(bench) = decode_bench(&memory.bench).and_then(|text| accept(text).ok()) else { return };
        let Some(state) = decode_state(&bench, &memory.state).filter(|_| answer != 31) else { return };
        let first = of_line(&bench, &state, names, values).first().map_or(0, |fault| match fault {
            Fault::Number(number) => u64::from(*number),
            Fault::Absent => 23,
        });
        assert_eq!(first, answer, "{step:?}");
        accepted += u64::from(answer == 0);
        refused += u64::from(answer != 0);
    });
    assert!(accepted > 3_000 && refused > 3_000, "{accepted} accepted, {refused} refused");
}

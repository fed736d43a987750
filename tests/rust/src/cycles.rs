//! A line that was taken and is no line sent again, read back from the memory before it and after it.

use crate::generate::case::{Call, Step};
use crate::image::{decode_bench, decode_state};
use crate::interpreter::accept;
use crate::interpreter::grammar::Bench;
use crate::interpreter::machine::{writes_of, Sender, State, Write, RIGHT};
use crate::memory::Memory;

pub struct Cycle<'m> {
    pub bench: Bench<'m>,
    pub before: State,
    pub after: State,
}

impl<'m> Cycle<'m> {
    /// `None` for every other step.
    pub fn of(step: &Step, answer: u64, before: &'m Memory, after: &Memory) -> Option<Cycle<'m>> {
        let taken = matches!(step.call, Call::Line { .. }) && answer & 255 == 0;
        // The number of its sender is another, so the memory of the state is.
        if !taken || before.state == after.state {
            return None;
        }
        let bench = decode_bench(&before.bench).and_then(|text| accept(text).ok())?;
        let [before, after] = [before, after].map(|memory| decode_state(&bench, &memory.state));
        Some(Cycle { before: before?, after: after?, bench })
    }

    /// Who sent the line, as the state after it has it: the only one with another number.
    pub fn sender(&self) -> Option<&Sender> {
        let number = |sender: &Sender| self.before.sender(&sender.name).map_or(0, |place| self.before.senders[place].number);
        self.after.senders.iter().find(|sender| number(sender) != sender.number)
    }

    /// All writes of its rules, in order.
    pub fn writes(&self) -> Vec<Write> {
        let readings = self.sender().map(|sender| &sender.last);
        let written = readings.and_then(|readings| writes_of(RIGHT, &self.bench, &self.before, readings).ok());
        written.map_or(Vec::new(), |(_, writes)| writes)
    }
}

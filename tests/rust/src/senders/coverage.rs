//! Counts of lines, rows and states by class.

use super::classes::{self, History};
use super::required::required;
use crate::counts::{Class, Counts};
use crate::generate::case::Step;
use crate::memory::Memory;

#[derive(Clone, Debug, Default)]
pub struct Coverage {
    counts: Counts,
    /// Of the case under way.
    history: History,
}

impl Coverage {
    /// Counts a call and its answer, with the memory before it.
    pub fn take(&mut self, step: &Step, answer: u64, before: &Memory) {
        self.counts.take(classes::of(step, answer, before, &mut self.history));
    }

    /// Memory was written by somebody else.
    pub fn written(&mut self, step: &Step, before: &Memory, after: &Memory) {
        self.history.written(step, before, after);
    }

    pub fn add(&mut self, other: &Coverage) {
        self.counts.add(&other.counts);
    }

    pub fn count(&self, class: &Class) -> u64 {
        self.counts.count(class)
    }

    /// The classes that came up less than `least` times.
    pub fn lacking(&self, least: u64) -> Vec<String> {
        let few = self.counts.lacking(required(), least).into_iter();
        few.map(|class| format!("senders, {}: {}: less than {least}", class.0, class.1)).collect()
    }

    pub fn print(&self) {
        println!("lines and rows by class, a call being in many:");
        self.counts.print();
    }
}

//! Counts of sheets by class, and the classes that a run must have: without one of them it has not tried what it is there to try.

use super::classes::{self, Seen};
use crate::counts::{Class, Counts};
use crate::generate::case::Step;
use crate::memory::Memory;

#[derive(Clone, Debug, Default)]
pub struct Coverage {
    pub compared: u64,
    pub accepted: u64,
    /// Those with several printed lines and closing rows.
    pub full: u64,
    pub printed_lines: u64,
    counts: Counts,
}

impl Coverage {
    /// Counts a sheet and its answer, with the memory after it.
    pub fn take(&mut self, step: &Step, answer: u64, memory: &Memory) {
        let Seen { classes, printed, full } = classes::of(step, answer, memory);
        self.compared += 1;
        self.accepted += u64::from(answer & 255 == 0);
        self.full += u64::from(full);
        self.printed_lines += printed;
        self.counts.take(classes);
    }

    pub fn add(&mut self, other: &Coverage) {
        self.compared += other.compared;
        self.accepted += other.accepted;
        self.full += other.full;
        self.printed_lines += other.printed_lines;
        self.counts.add(&other.counts);
    }

    pub fn count(&self, class: &Class) -> u64 {
        self.counts.count(class)
    }

    /// What a run of sheets lacks: too few that are accepted or full, and the classes that came up less than `least` times.
    pub fn lacking(&self, least: u64) -> Vec<String> {
        let mut lacking = Vec::new();
        if self.accepted * 2 < self.compared || self.accepted == 0 {
            lacking.push(format!("only {} of {} sheets were accepted", self.accepted, self.compared));
        }
        if self.full * 5 < self.compared || self.full == 0 {
            lacking.push(format!("only {} of {} sheets had several printed lines and closing rows", self.full, self.compared));
        }
        for class in self.counts.lacking(classes::required(), least) {
            lacking.push(format!("sheets, {}: {}: less than {least}", class.0, class.1));
        }
        lacking
    }

    pub fn print(&self) {
        println!(
            "sheets: {} compared, {} accepted, {} printed lines; {} with several printed lines and closing rows",
            self.compared, self.accepted, self.printed_lines, self.full
        );
        println!("sheets by class, a sheet being in many:");
        self.counts.print();
    }
}

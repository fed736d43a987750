//! What the folders of a run covered. It is measured on their bytes and on what is printed for them, not taken from how they were made.

use super::required::{exactly, required, ANY_PIPE, INPUT, PIPES, PRINTED, SIZES};
use super::{classes, Folder, CHUNK};
use crate::counts::{Class, Counts};
use std::collections::BTreeMap;

#[derive(Default)]
pub struct Coverage {
    counts: Counts,
    readings_bytes: usize,
    printed_bytes: usize,
    /// Those of all pipes together.
    pieces: usize,
    recipes: BTreeMap<&'static str, u64>,
}

impl Coverage {
    pub fn take(&mut self, folder: &Folder, printed: &[u8]) {
        self.readings_bytes += folder.readings_text().len();
        self.printed_bytes += printed.len();
        self.pieces += folder.cuts.as_ref().map_or(0, |cuts| cuts.len() + 1);
        *self.recipes.entry(folder.recipe).or_default() += 1;
        self.counts.take(classes::of(folder, printed));
    }

    pub fn count(&self, class: &Class) -> u64 {
        self.counts.count(class)
    }

    /// The classes that a run must have and that this one has not.
    pub fn lacking(&self) -> Vec<Class> {
        self.counts.lacking(required(), 1)
    }

    pub fn print(&self) {
        println!("{} bytes of readings, {} bytes printed", self.readings_bytes, self.printed_bytes);
        let count = |group: &'static str, name: &str| self.count(&(group, name.into()));
        let (several, closed) = (count(SIZES, "several chunks"), count(INPUT, "closed"));
        println!(
            "{several} files of several chunks, {closed} runs with closed input, {} outputs of exactly {CHUNK} bytes",
            count(PRINTED, &exactly(CHUNK))
        );
        println!("{} runs with readings through a pipe, in {} pieces together", count(PIPES, ANY_PIPE), self.pieces);
        let recipes: Vec<String> = self.recipes.iter().map(|(name, count)| format!("{name}: {count}")).collect();
        println!("folders by recipe: {}", recipes.join("; "));
        println!("folders by class, a folder being in many:");
        self.counts.print();
    }
}

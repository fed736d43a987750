//! The words after a program's name. Both comparisons take all of them, so that `run` can hand on what it is given.

use std::ops::Range;

pub const USAGE: &str = "[--cases N] [--folders N] [--seed S] [--only CASE] [--only-folder FOLDER]";

const CASES: u64 = 10_000;
const FOLDERS: u64 = 2_400;
const SEED: u64 = 0x5eed_0001;

#[derive(Clone, Copy, Debug, PartialEq, Eq)]
pub struct Options {
    /// How many cases the comparison of calls runs.
    pub cases: u64,
    /// How many folders the comparison of the runner runs.
    pub folders: u64,
    pub seed: u64,
    /// This case alone, to find one that ends the program; then no folder is run.
    pub only: Option<u64>,
    /// This folder alone; then no case is run.
    pub only_folder: Option<u64>,
}

impl Options {
    /// `None` if the words are not understood.
    pub fn read(words: impl Iterator<Item = String>) -> Option<Options> {
        let mut options = Options { cases: CASES, folders: FOLDERS, seed: SEED, only: None, only_folder: None };
        let mut words = words.peekable();
        // The program's name may stand before its options.
        if words.peek().is_some_and(|first| !first.starts_with("--")) {
            words.next();
        }
        while let Some(word) = words.next() {
            let number = words.next()?.parse().ok()?;
            match &*word {
                "--cases" => options.cases = number,
                "--folders" => options.folders = number,
                "--seed" => options.seed = number,
                "--only" => options.only = Some(number),
                "--only-folder" => options.only_folder = Some(number),
                _ => return None,
            }
        }
        Some(options)
    }

    /// Whether one thing alone is wanted: then nothing can be said about what all of them cover.
    pub fn single(&self) -> bool {
        self.only.is_some() || self.only_folder.is_some()
    }

    pub fn case_numbers(&self) -> Range<u64> {
        numbers(self.only, self.single(), self.cases)
    }

    pub fn folder_numbers(&self) -> Range<u64> {
        numbers(self.only_folder, self.single(), self.folders)
    }
}

fn numbers(only: Option<u64>, single: bool, count: u64) -> Range<u64> {
    match only {
        Some(number) => number..number + 1,
        None if single => 0..0,
        None => 0..count,
    }
}

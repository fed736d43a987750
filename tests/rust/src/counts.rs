//! How often each class of what a run tries came up.

use std::collections::{BTreeMap, BTreeSet};

/// A group and a name in it.
pub type Class = (&'static str, String);

/// The classes that one thing belongs to.
#[derive(Default)]
pub struct Seen(pub BTreeSet<Class>);

impl Seen {
    pub fn add_if(&mut self, is: bool, group: &'static str, name: &str) {
        if is {
            self.0.insert((group, name.into()));
        }
    }
}

#[derive(Clone, Debug, Default)]
pub struct Counts(BTreeMap<Class, u64>);

impl Counts {
    pub fn take(&mut self, classes: impl IntoIterator<Item = Class>) {
        for class in classes {
            *self.0.entry(class).or_default() += 1;
        }
    }

    pub fn add(&mut self, other: &Counts) {
        for (class, &count) in &other.0 {
            *self.0.entry(class.clone()).or_default() += count;
        }
    }

    pub fn count(&self, class: &Class) -> u64 {
        self.0.get(class).copied().unwrap_or(0)
    }

    /// Those of the required classes that came up less than `least` times.
    pub fn lacking(&self, required: Vec<Class>, least: u64) -> Vec<Class> {
        required.into_iter().filter(|class| self.count(class) < least).collect()
    }

    /// A line for each group.
    pub fn print(&self) {
        let mut groups: BTreeMap<&str, Vec<String>> = BTreeMap::new();
        for ((group, name), count) in &self.0 {
            groups.entry(group).or_default().push(format!("{name}: {count}"));
        }
        for (group, counts) in &groups {
            println!("- {group}: {}", counts.join("; "));
        }
    }
}

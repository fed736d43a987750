//! What the lines of a run tried of rules at rest, and what the calls did that ask which rules are tried; and what both must have. It is
//! measured on the stores that the rules saw, not taken from how lines were made.

use crate::counts::{Class, Seen};
use crate::cycles::Cycle;
use crate::generate::case::{Call, Step};
use crate::image::{decode_bench, decode_state, BENCH_SIZE, STATE_SIZE, TRIED_SIZE};
use crate::interpreter::accept;
use crate::interpreter::grammar::{Bench, Sort};
use crate::interpreter::machine::{Readings, Store, Write};
use crate::interpreter::rest::{reads, By, Part, Read, RIGHT};
use crate::interpreter::value::{Cell, Value};
use crate::memory::Memory;
use std::collections::BTreeSet;

const LINES: &str = "lines by the rules that they try";
const TRIED: &str = "rules that are tried";
const RESTING: &str = "rules that rest";
const CALLS: &str = "calls that ask for the rules";

/// Every class that a run must have.
pub fn required() -> Vec<Class> {
    let groups: [(&'static str, &[&str]); 4] = [(LINES, &OF_LINES), (TRIED, &OF_TRIED), (RESTING, &OF_RESTING), (CALLS, &OF_CALLS)];
    groups.into_iter().flat_map(|(group, names)| names.iter().map(move |name| (group, name.to_string()))).collect()
}

const OF_LINES: [&str; 7] = [
    "a rule rests, another is tried",
    "all rules rest",
    "all of several rules are tried",
    "all rules rest in a first line",
    "all rules rest in a line that reads something",
    "a rule from the 33rd on rests, another is tried",
    "the 64th rule is tried",
];

/// "Only" means that nothing else moved of what the rule's condition reads.
const OF_TRIED: [&str; 20] = [
    "only events of clauses moved",
    "only attributes of filters moved",
    "only expressions of filters moved",
    "only what filters read moved",
    "only expressions after `value =` moved",
    "an action moved",
    "only actions moved",
    "an action that was unset moved",
    "an action that is unset moved",
    "only attributes moved",
    "only at a variable of a clause",
    "only at a variable of a call",
    "only at a variable of a call, in a filter",
    "only at an entity that left",
    "only at an entity that came",
    "only at an entity that is not the clause's",
    "in the first line",
    "from one value to another",
    "it writes",
    "it writes nothing",
];

const OF_RESTING: [&str; 9] = [
    "the two zeros in turn",
    "the two zeros in turn, other rules tried",
    "what a call reads moved",
    "another cell of an entity moved",
    "an entity left",
    "an entity came",
    "an action that it reads is fired in the line",
    "the values of an absent entity stay",
    "it reads no cell",
];

const OF_CALLS: [&str; 19] = [
    "31: the bench",
    "31: the state before",
    "31: the state after",
    "31: the set",
    "31: no bench either",
    "32",
    "32: no states either",
    "33: the state before",
    "33: the state after",
    "33: both states",
    "memory longer than stated",
    "one image twice",
    "other images, all rules rest",
    "some rules rest",
    "several rules, none rests",
    "a fresh state before",
    "a fresh state after",
    "cells that differ at an absent entity",
    "the two zeros",
];

// Lines.

/// The classes of a line with all its writes.
pub fn of_cycle(cycle: &Cycle, writes: &[Write]) -> BTreeSet<Class> {
    let mut seen = Seen::default();
    let looks: Vec<Look> = (0..cycle.bench.rules.len()).map(|rule| Look::at(cycle, rule)).collect();
    let tried = looks.iter().filter(|look| look.is_tried()).count();
    let (first, count) = (is_first(&cycle.before.before), looks.len());
    let reads_something = cycle.sender().is_some_and(|sender| sender.last.differing(&Readings::none(&cycle.bench)) > 0);
    let mut add = |is: bool, name: &str| seen.add_if(is, LINES, name);
    add(tried > 0 && tried < count, "a rule rests, another is tried");
    add(tried == 0 && count > 0, "all rules rest");
    add(tried == count && count > 1, "all of several rules are tried");
    add(tried == 0 && count > 0 && first, "all rules rest in a first line");
    add(tried == 0 && count > 0 && reads_something, "all rules rest in a line that reads something");
    add(tried > 0 && looks.iter().skip(32).any(|look| !look.is_tried()), "a rule from the 33rd on rests, another is tried");
    add(looks.get(63).is_some_and(Look::is_tried), "the 64th rule is tried");
    for look in &looks {
        if look.is_tried() {
            look.tried(&mut seen, first, writes.iter().any(|write| write.rule == look.rule));
        } else {
            look.resting(&mut seen, tried > 0);
        }
    }
    seen.0
}

/// Before the first cycle all are absent.
fn is_first(before: &Store) -> bool {
    !before.present.contains(&true)
}

/// One rule in a line.
struct Look<'c> {
    cycle: &'c Cycle<'c>,
    rule: usize,
    /// All that its text reads, the calls' reads too.
    reads: Vec<Read>,
    /// What moved of what its condition reads.
    moved: Vec<Read>,
}

impl<'c> Look<'c> {
    fn at(cycle: &'c Cycle, rule: usize) -> Look<'c> {
        let reads = reads(&cycle.bench, &cycle.bench.rules[rule]);
        let moves = |read: &&Read| RIGHT.moves(read, &cycle.after.before, &cycle.before.before);
        let moved = reads.iter().filter(moves).copied().collect();
        Look { cycle, rule, reads, moved }
    }

    fn is_tried(&self) -> bool {
        !self.moved.is_empty()
    }

    /// What the rules saw in the line.
    fn seen(&self) -> &Store {
        &self.cycle.after.before
    }

    /// What they saw in the cycle before.
    fn seen_before(&self) -> &Store {
        &self.cycle.before.before
    }

    fn sort(&self, (entity, member): (usize, usize)) -> Sort {
        self.cycle.bench.members_of(entity)[member].sort
    }

    fn left(&self, entity: usize) -> bool {
        self.seen_before().present[entity] && !self.seen().present[entity]
    }

    fn came(&self, entity: usize) -> bool {
        !self.seen_before().present[entity] && self.seen().present[entity]
    }

    /// What a cell reads now, and what it read in the cycle before.
    fn both(&self, (entity, member): (usize, usize)) -> (Cell, Cell) {
        (self.seen().read(entity, member), self.seen_before().read(entity, member))
    }

    fn condition(&self) -> impl Iterator<Item = &Read> {
        self.reads.iter().filter(|read| read.part != Part::Call)
    }

    fn tried(&self, seen: &mut Seen, first: bool, writes: bool) {
        let mut add = |is: bool, name: &str| seen.add_if(is, TRIED, name);
        let only = |fits: &dyn Fn(&Read) -> bool| self.moved.iter().all(fits);
        let any = |fits: &dyn Fn(&Read) -> bool| self.moved.iter().any(fits);
        let in_filter = |read: &Read| matches!(read.part, Part::Attribute | Part::Filter);
        let is_action = |read: &Read| self.sort(read.cell) == Sort::Action;
        add(only(&|read| read.part == Part::Event), "only events of clauses moved");
        // The entity's own event is unset both times, or not of it.
        add(only(&|read| read.part == Part::Attribute), "only attributes of filters moved");
        add(only(&|read| read.part == Part::Filter), "only expressions of filters moved");
        add(only(&in_filter), "only what filters read moved");
        add(only(&|read| read.part == Part::Test), "only expressions after `value =` moved");
        add(any(&is_action), "an action moved");
        add(only(&is_action), "only actions moved");
        add(only(&|read| is_action(read) && self.both(read.cell).1.is_none()), "an action that was unset moved");
        add(only(&|read| is_action(read) && self.both(read.cell).0.is_none()), "an action that is unset moved");
        add(only(&|read| self.sort(read.cell) == Sort::Attribute), "only attributes moved");
        add(only(&|read| read.by == By::OfClause), "only at a variable of a clause");
        add(only(&|read| read.by == By::OfCall), "only at a variable of a call");
        add(only(&|read| read.by == By::OfCall && in_filter(read)), "only at a variable of a call, in a filter");
        add(!first && only(&|read| self.left(read.cell.0)), "only at an entity that left");
        add(!first && only(&|read| self.came(read.cell.0)), "only at an entity that came");
        let targets: BTreeSet<usize> = self.reads.iter().filter(|read| read.part == Part::Event).map(|read| read.cell.0).collect();
        add(only(&|read| !targets.contains(&read.cell.0)), "only at an entity that is not the clause's");
        add(first, "in the first line");
        add(only(&|read| matches!(self.both(read.cell), (Some(_), Some(_)))), "from one value to another");
        add(writes, "it writes");
        add(!writes, "it writes nothing");
    }

    fn resting(&self, seen: &mut Seen, others_tried: bool) {
        let mut add = |is: bool, name: &str| seen.add_if(is, RESTING, name);
        let any = |fits: &dyn Fn(&Read) -> bool| self.condition().any(fits);
        let zeros = any(&|read| two_zeros(self.both(read.cell)));
        add(zeros, "the two zeros in turn");
        add(zeros && others_tried, "the two zeros in turn, other rules tried");
        let moved = |cell: (usize, usize)| {
            let (now, before) = self.both(cell);
            (RIGHT.moved)(now, before)
        };
        add(self.reads.iter().any(|read| read.part == Part::Call && moved(read.cell)), "what a call reads moved");
        let other = |entity: usize| (0..self.cycle.bench.members_of(entity).len()).any(|member| moved((entity, member)));
        add(any(&|read| other(read.cell.0)), "another cell of an entity moved");
        add(any(&|read| self.left(read.cell.0)), "an entity left");
        add(any(&|read| self.came(read.cell.0)), "an entity came");
        let fired = |read: &Read| self.sort(read.cell) == Sort::Action && self.cycle.after.now.read(read.cell.0, read.cell.1).is_some();
        add(any(&fired), "an action that it reads is fired in the line");
        let absent = |entity: usize| !self.seen().present[entity] && !self.seen_before().present[entity];
        add(
            any(&|read| absent(read.cell.0) && self.seen().cells[read.cell.0][read.cell.1].is_some()),
            "the values of an absent entity stay",
        );
        add(self.condition().next().is_none(), "it reads no cell");
    }
}

/// Both zero, but not bit by bit.
fn two_zeros(cells: (Cell, Cell)) -> bool {
    matches!(cells, (Some(Value::Real(a)), Some(Value::Real(b))) if a == 0.0 && b == 0.0 && a.to_bits() != b.to_bits())
}

// Calls.

/// The classes of a call that asks for the rules, with the text that the case checked and the memory after the call.
pub fn of_call(text: &[u8], step: &Step, answer: u64, after: &Memory) -> BTreeSet<Class> {
    let mut seen = Seen::default();
    let number = answer & 255;
    seen.sizes(step, number);
    let checked = decode_bench(&after.bench).and_then(|text| accept(text).ok());
    seen.add_if(number == 31 && checked.is_none(), CALLS, "31: no bench either");
    // Where the memory holds no bench, or another one, the states are asked whether they are any of the text.
    let Some(bench) = accept(text).ok() else { return seen.0 };
    let states = [0, 1].map(|at| decode_state(&bench, &after.states[at]));
    match (number, &states) {
        (32, _) => {
            seen.add_if(true, CALLS, "32");
            seen.add_if(states.iter().any(Option::is_none), CALLS, "32: no states either");
        }
        (33, [None, Some(_)]) => seen.add_if(true, CALLS, "33: the state before"),
        (33, [Some(_), None]) => seen.add_if(true, CALLS, "33: the state after"),
        (33, [None, None]) => seen.add_if(true, CALLS, "33: both states"),
        (0, [Some(before), Some(now)]) => seen.given(step, &bench, [&now.before, &before.before], tried_rules(after)),
        _ => {}
    }
    seen.0
}

/// How many rules are in the set that a call left.
fn tried_rules(after: &Memory) -> usize {
    after.tried[..TRIED_SIZE].iter().map(|byte| byte.count_ones() as usize).sum()
}

impl Seen {
    fn sizes(&mut self, step: &Step, number: u64) {
        let [before, after, tried] = step.lent_tried();
        let sizes = [(step.lent.bench, BENCH_SIZE), (before, STATE_SIZE), (after, STATE_SIZE), (tried, TRIED_SIZE)];
        let names = ["31: the bench", "31: the state before", "31: the state after", "31: the set"];
        let alone = sizes.iter().filter(|(lent, stated)| lent < stated).count() == 1;
        for ((lent, stated), name) in sizes.iter().zip(names) {
            self.add_if(number == 31 && alone && lent < stated, CALLS, name);
        }
        self.add_if(sizes.iter().all(|(lent, stated)| lent > stated), CALLS, "memory longer than stated");
    }

    /// A call that gave so many rules. The stores are what the rules saw, now and in the cycle before.
    fn given(&mut self, step: &Step, bench: &Bench, [now, before]: [&Store; 2], tried: usize) {
        let Call::Tried { before: first, after: second, .. } = &step.call else { return };
        let rules = bench.rules.len();
        let mut add = |is: bool, name: &str| self.add_if(is && rules > 0, CALLS, name);
        add(first == second, "one image twice");
        add(first != second && tried == 0, "other images, all rules rest");
        add(tried > 0 && tried < rules, "some rules rest");
        add(tried == rules && rules > 1, "several rules, none rests");
        add(is_first(before), "a fresh state before");
        add(is_first(now), "a fresh state after");
        for entity in 0..bench.entities.len() {
            let cells = || now.cells[entity].iter().copied().zip(before.cells[entity].iter().copied());
            let there = (now.present[entity], before.present[entity]);
            let differs = cells().any(|(now, before)| (RIGHT.moved)(now, before));
            add(there == (false, false) && differs, "cells that differ at an absent entity");
            add(there == (true, true) && cells().any(two_zeros), "the two zeros");
        }
    }
}

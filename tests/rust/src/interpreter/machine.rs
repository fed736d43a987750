//! The bare machine of document 01, its clause filters as order 1 of document 02 has them, its whole `/` as order 2, what it keeps of each
//! sender as order 5, which of its writes stand as order 6. It looks names up at each step and runs any grammatical bench, until it stops.

use super::check::READABLE;
use super::grammar::{Bench, Clause, Condition, Filter, Interface, Link, Name, Rule, Sort, Sum, Test};
use super::value::{differ, equal, negate, operate, quotient, to_real, Cell, Stop, Value};
use std::collections::BTreeMap;

#[derive(Clone, Debug)]
pub struct Store {
    pub present: Vec<bool>,
    /// For each entity a cell for each member.
    pub cells: Vec<Vec<Cell>>,
}

#[derive(Clone, Copy, Debug)]
pub enum Reading {
    /// `-`, or no column.
    NotRead,
    /// `?`
    Unset,
    Set(Value),
}

/// What a line reads.
#[derive(Clone, Debug)]
pub struct Readings {
    pub presence: Vec<Option<bool>>,
    pub cells: Vec<Vec<Reading>>,
}

/// What a state keeps of a sender: "its last number, last readings and the actions then fired".
#[derive(Clone, Debug)]
pub struct Sender {
    pub name: Vec<u8>,
    pub number: u32,
    pub last: Readings,
    /// For each entity a cell for each member, unset but for the fired actions.
    pub fired: Vec<Vec<Cell>>,
}

#[derive(Clone, Debug)]
pub struct State {
    pub now: Store,
    /// The store as the rules saw it one cycle before.
    pub before: Store,
    /// The known senders, in the order of their first taken lines.
    pub senders: Vec<Sender>,
}

impl Store {
    /// While absent, an entity's every member reads unset.
    pub fn read(&self, entity: usize, member: usize) -> Cell {
        if self.present[entity] {
            self.cells[entity][member]
        } else {
            None
        }
    }
}

impl Reading {
    fn same_bits(self, other: Reading) -> bool {
        match (self, other) {
            (Reading::NotRead, Reading::NotRead) | (Reading::Unset, Reading::Unset) => true,
            (Reading::Set(a), Reading::Set(b)) => a.same_bits(b),
            _ => false,
        }
    }
}

impl Readings {
    pub fn none(bench: &Bench) -> Readings {
        let cells = |entity| vec![Reading::NotRead; bench.members_of(entity).len()];
        Readings { presence: vec![None; bench.entities.len()], cells: (0..bench.entities.len()).map(cells).collect() }
    }

    pub fn same_bits(&self, other: &Readings) -> bool {
        self.differing(other) == 0
    }

    /// In how many cells and presences they differ, bit by bit.
    pub fn differing(&self, other: &Readings) -> usize {
        let cells = self.cells.iter().flatten().zip(other.cells.iter().flatten());
        let presence = self.presence.iter().zip(&other.presence);
        cells.filter(|(a, b)| !a.same_bits(**b)).count() + presence.filter(|(a, b)| a != b).count()
    }
}

impl Sender {
    /// A sender that has sent nothing.
    pub fn new(bench: &Bench, name: &[u8]) -> Sender {
        Sender { name: name.to_vec(), number: 0, last: Readings::none(bench), fired: unset_cells(bench) }
    }
}

impl State {
    /// The place of a known sender.
    pub fn sender(&self, name: &[u8]) -> Option<usize> {
        self.senders.iter().position(|sender| sender.name == name)
    }
}

fn unset_cells(bench: &Bench) -> Vec<Vec<Cell>> {
    (0..bench.entities.len()).map(|entity| vec![None; bench.members_of(entity).len()]).collect()
}

/// The fresh state: all present, attributes set, the rest unset; before it all absent; no sender known.
pub fn fresh(bench: &Bench) -> Result<State, Stop> {
    let count = bench.entities.len();
    let empty = unset_cells(bench);
    let mut cells = empty.clone();
    for (entity, row) in cells.iter_mut().enumerate() {
        set_attributes(bench, entity, row)?;
    }
    Ok(State {
        now: Store { present: vec![true; count], cells },
        before: Store { present: vec![false; count], cells: empty },
        senders: Vec::new(),
    })
}

fn set_attributes(bench: &Bench, entity: usize, cells: &mut [Cell]) -> Result<(), Stop> {
    let interface = bench.interface_of(entity).ok_or(Stop)?;
    for assignment in &bench.entities[entity].assignments {
        let member = interface.member_of_sort(assignment.name.text, &[Sort::Attribute]).ok_or(Stop)?;
        if interface.members[member].kind != assignment.value.kind() {
            return Err(Stop);
        }
        cells[member] = Some(assignment.value);
    }
    Ok(())
}

/// Where a sum stands.
#[derive(Clone, Copy, Debug, PartialEq, Eq)]
pub enum Stands {
    /// After `with` and its `=`.
    Filter,
    /// After `value` and its `=`.
    Test,
    /// In a call's parentheses.
    Parameter,
}

/// What document 02 changed, each as some machine has it. Tests ask whether generated cases tell a wrong machine from the right one.
#[derive(Clone, Copy)]
pub struct Variant<'v> {
    /// Whether the `with` of a clause at this entity reads the cycle before. Document 01 had all of them so, order 1 has none.
    pub late: &'v dyn Fn(usize) -> bool,
    /// What `/` gives for two wholes in a sum that stands there.
    pub over: &'v dyn Fn(Stands, i64, i64) -> Cell,
    /// Of all writes of a cycle, in their order, the one that stands in each cell.
    pub standing: &'v dyn Fn(&[Write]) -> Standing,
}

/// The machine of the documents.
pub const RIGHT: Variant<'static> = Variant { late: &|_| false, over: &|_, a, b| quotient(a, b), standing: &standing };

/// A line as the machine gets it.
#[derive(Clone, Copy, Debug)]
pub struct Given<'g> {
    pub sender: &'g [u8],
    pub number: u32,
    pub readings: &'g Readings,
}

/// One cycle: the state after a line.
pub fn cycle(bench: &Bench, state: &State, line: Given) -> Result<State, Stop> {
    cycle_of(RIGHT, bench, state, line)
}

/// One cycle of a machine that may be wrong.
pub fn cycle_of(variant: Variant, bench: &Bench, state: &State, line: Given) -> Result<State, Stop> {
    let (seen, writes) = writes_of(variant, bench, state, line.readings)?;
    Ok(after(variant, bench, state, line, seen, &writes))
}

/// The state after a line in which the rules saw this store and wrote this.
pub fn after(variant: Variant, bench: &Bench, state: &State, line: Given, seen: Store, writes: &[Write]) -> State {
    let mut now = seen.clone();
    unset(bench, &mut now, None, &[Sort::Action]);
    for ((entity, member), write) in (variant.standing)(writes) {
        now.cells[entity][member] = Some(write.value);
    }
    let senders = keep(state, line, fired(bench, &now));
    State { now, before: seen, senders }
}

/// The store as the rules see it in a line with these readings, and all their writes, in order.
pub fn writes_of(variant: Variant, bench: &Bench, state: &State, readings: &Readings) -> Result<(Store, Vec<Write>), Stop> {
    let mut seen = state.now.clone();
    apply_presence(bench, &mut seen, readings);
    apply_readings(bench, &mut seen, readings)?;
    let writes = fire(variant, bench, &seen, &state.before)?;
    Ok((seen, writes))
}

/// The cells of a store that are actions; the others unset.
fn fired(bench: &Bench, store: &Store) -> Vec<Vec<Cell>> {
    let mut fired = unset_cells(bench);
    for (entity, cells) in fired.iter_mut().enumerate() {
        for ((cell, member), stored) in cells.iter_mut().zip(bench.members_of(entity)).zip(&store.cells[entity]) {
            if member.sort == Sort::Action {
                *cell = *stored;
            }
        }
    }
    fired
}

/// The senders after a line: its own is known from then on, in its place or as the last.
fn keep(state: &State, line: Given, fired: Vec<Vec<Cell>>) -> Vec<Sender> {
    let sent = Sender { name: line.sender.to_vec(), number: line.number, last: line.readings.clone(), fired };
    let mut senders = state.senders.clone();
    match state.sender(line.sender) {
        Some(place) => senders[place] = sent,
        None => senders.push(sent),
    }
    senders
}

fn apply_presence(bench: &Bench, store: &mut Store, readings: &Readings) {
    for (entity, reading) in readings.presence.iter().enumerate() {
        let Some(present) = *reading else { continue };
        if store.present[entity] && !present {
            unset(bench, store, Some(entity), &READABLE);
        }
        store.present[entity] = present;
    }
}

/// Unsets members of these sorts, of one entity or of all.
fn unset(bench: &Bench, store: &mut Store, only: Option<usize>, sorts: &[Sort]) {
    for (entity, cells) in store.cells.iter_mut().enumerate() {
        if only.is_some_and(|chosen| chosen != entity) {
            continue;
        }
        for (cell, member) in cells.iter_mut().zip(bench.members_of(entity)) {
            if sorts.contains(&member.sort) {
                *cell = None;
            }
        }
    }
}

fn apply_readings(bench: &Bench, store: &mut Store, readings: &Readings) -> Result<(), Stop> {
    for (entity, cells) in readings.cells.iter().enumerate() {
        for (member, reading) in cells.iter().enumerate() {
            match *reading {
                Reading::NotRead => {}
                Reading::Unset => store.cells[entity][member] = None,
                Reading::Set(value) if value.kind() == bench.members_of(entity)[member].kind => store.cells[entity][member] = Some(value),
                Reading::Set(_) => return Err(Stop),
            }
        }
    }
    Ok(())
}

#[derive(Clone, Copy, Debug)]
pub struct Write {
    /// The entity and its member.
    pub cell: (usize, usize),
    pub value: Value,
    /// That of its rule.
    pub rank: i32,
    /// The places of its rule in the file and of its call in the rule.
    pub rule: usize,
    pub call: usize,
}

/// For each cell that is written, the write that stands.
pub type Standing = BTreeMap<(usize, usize), Write>;

/// Document 02, order 6: "The write of the highest rank stands; among equal ranks the earliest write does, no longer the last."
pub fn standing(writes: &[Write]) -> Standing {
    let mut standing = Standing::new();
    for write in writes {
        let stands = standing.entry(write.cell).or_insert(*write);
        if write.rank > stands.rank {
            *stands = *write;
        }
    }
    standing
}

/// All writes, by rule, choice, call.
fn fire(variant: Variant, bench: &Bench, now: &Store, before: &Store) -> Result<Vec<Write>, Stop> {
    let mut writes = Vec::new();
    for number in 0..bench.rules.len() {
        let rule = &bench.rules[number];
        let variables = rule.variables();
        let clauses = rule.clauses();
        let mut trial = Trial { variant, bench, now, before, number, rule, clauses, variables, choice: Vec::new() };
        trial.choose(&mut writes)?;
    }
    Ok(writes)
}

/// One rule under trial, with the entities chosen so far for its variables.
struct Trial<'b, 't> {
    variant: Variant<'b>,
    bench: &'b Bench<'t>,
    now: &'b Store,
    before: &'b Store,
    /// The rule's place in the file.
    number: usize,
    rule: &'b Rule<'t>,
    clauses: Vec<&'b Clause<'t>>,
    variables: Vec<(Name<'t>, Name<'t>)>,
    choice: Vec<usize>,
}

impl<'b, 't> Trial<'b, 't> {
    /// The first declared variable turns slowest, entities in file order.
    fn choose(&mut self, writes: &mut Vec<Write>) -> Result<(), Stop> {
        if self.choice.len() == self.variables.len() {
            return self.try_choice(writes);
        }
        let wanted = self.variables[self.choice.len()].1.text;
        self.bench.interface(wanted).ok_or(Stop)?;
        for entity in 0..self.bench.entities.len() {
            if self.now.present[entity] && self.bench.entities[entity].interface.text == wanted {
                self.choice.push(entity);
                self.choose(writes)?;
                self.choice.pop();
            }
        }
        Ok(())
    }

    fn try_choice(&self, writes: &mut Vec<Write>) -> Result<(), Stop> {
        // Every clause is worked out, whatever the others give.
        let truths = self.clauses.iter().map(|clause| self.clause(clause)).collect::<Result<Vec<_>, _>>()?;
        if !holds(&self.rule.condition, &mut truths.into_iter()) {
            return Ok(());
        }
        for number in 0..self.rule.calls.len() {
            writes.extend(self.call(number)?);
        }
        Ok(())
    }

    fn entity(&self, name: Name) -> Result<usize, Stop> {
        if let Some(entity) = self.bench.entity(name.text) {
            return Ok(entity);
        }
        let variable = self.variables.iter().position(|(variable, _)| variable.text == name.text).ok_or(Stop)?;
        Ok(self.choice[variable])
    }

    fn interface(&self, entity: usize) -> Result<&'b Interface<'t>, Stop> {
        self.bench.interface_of(entity).ok_or(Stop)
    }

    fn clause(&self, clause: &Clause) -> Result<bool, Stop> {
        let entity = self.entity(clause.from.name)?;
        let member = self.interface(entity)?.member_of_sort(clause.event.text, &READABLE).ok_or(Stop)?;
        // Document 02, order 1: "From now on a clause's `with` reads the present cycle, as a call's does; `value = X` and `changed` still
        // compare two cycles."
        let filtered = self.filter(entity, &clause.filter, if (self.variant.late)(entity) { self.before } else { self.now })?;
        let now = self.now.read(entity, member);
        let before = self.before.read(entity, member);
        let met = match &clause.test {
            Test::Changed => differ(now, before)?,
            Test::Equals(_, sum) => {
                let equal_now = equal(now, self.sum(sum, self.now, Stands::Test)?)?;
                let equal_before = equal(before, self.sum(sum, self.before, Stands::Test)?)?;
                equal_now && !equal_before
            }
        };
        Ok(self.now.present[entity] && filtered && met)
    }

    fn filter(&self, entity: usize, filter: &Option<Filter>, store: &Store) -> Result<bool, Stop> {
        let Some(filter) = filter else { return Ok(true) };
        let member = self.interface(entity)?.member_of_sort(filter.attribute.text, &[Sort::Attribute]).ok_or(Stop)?;
        equal(store.read(entity, member), self.sum(&filter.sum, store, Stands::Filter)?)
    }

    fn call(&self, number: usize) -> Result<Option<Write>, Stop> {
        let call = &self.rule.calls[number];
        let entity = self.entity(call.on.name)?;
        let interface = self.interface(entity)?;
        let member = interface.member_of_sort(call.action.text, &[Sort::Action]).ok_or(Stop)?;
        let filtered = self.filter(entity, &call.filter, self.now)?;
        let Some(value) = self.sum(&call.parameter, self.now, Stands::Parameter)? else { return Ok(None) };
        if value.kind() != interface.members[member].kind {
            return Err(Stop);
        }
        let written = self.now.present[entity] && filtered;
        Ok(written.then_some(Write { cell: (entity, member), value, rank: self.rule.rank(), rule: self.number, call: number }))
    }

    fn sum(&self, sum: &Sum, store: &Store, stands: Stands) -> Result<Cell, Stop> {
        match sum {
            Sum::Literal(value) => Ok(Some(*value)),
            Sum::Member(owner, member) => {
                let entity = self.entity(*owner)?;
                let member = self.interface(entity)?.member(member.text).ok_or(Stop)?;
                Ok(store.read(entity, member))
            }
            Sum::Real(_, inner) => to_real(self.sum(inner, store, stands)?),
            Sum::Minus(_, inner) => negate(self.sum(inner, store, stands)?),
            Sum::Chain(first, rest) => self.chain(first, rest, store, stands),
        }
    }

    fn chain(&self, first: &Sum, rest: &[Link], store: &Store, stands: Stands) -> Result<Cell, Stop> {
        let over = |a, b| (self.variant.over)(stands, a, b);
        let mut left = self.sum(first, store, stands)?;
        for link in rest {
            left = operate(link.operator, left, self.sum(&link.right, store, stands)?, over)?;
        }
        Ok(left)
    }
}

/// Whether a condition holds, its clauses' truths given in the order of the text.
#[allow(clippy::unnecessary_fold)]
fn holds(condition: &Condition, truths: &mut impl Iterator<Item = bool>) -> bool {
    match condition {
        Condition::Clause(_) => truths.next().expect("a truth for each clause"),
        // Folds without a short cut: each part must take its truths.
        Condition::All(parts) => parts.iter().fold(true, |all, part| holds(part, truths) && all),
        Condition::Any(parts) => parts.iter().fold(false, |any, part| holds(part, truths) || any),
    }
}

//! Rules at rest, order 7 of document 02: "Where every cell read by a rule's condition reads the same now as in the cycle before (both unset
//! counts as same, and so do the two zeros), no clause can hold, so the rule is passed over without a choice being tried." The machine of
//! this interpreter tries all rules whatever this says: a rule at rest must then write nothing.

use super::grammar::{Bench, Clause, Filter, Name, Rule, Sum, Test};
use super::machine::{State, Store, Write};
use super::value::{differ, Cell};

/// In which part of a rule something is read.
#[derive(Clone, Copy, Debug, PartialEq, Eq)]
pub enum Part {
    /// A clause's event, at its target.
    Event,
    /// The attribute of a clause's filter, at its target.
    Attribute,
    /// The expression of a clause's filter.
    Filter,
    /// The expression after `value =`.
    Test,
    /// A call's filter or parameter, which are no part of the condition.
    Call,
}

/// By what name an entity is read.
#[derive(Clone, Copy, Debug, PartialEq, Eq)]
pub enum By {
    Itself,
    /// A variable that a clause declares.
    OfClause,
    /// A variable that only a call declares.
    OfCall,
}

#[derive(Clone, Copy, Debug)]
pub struct Read {
    /// The entity and its member.
    pub cell: (usize, usize),
    pub part: Part,
    pub by: By,
}

/// "Keep for each rule the list of cells it reads, by the interface of its variables". Those of the calls are listed too, for whoever counts
/// them. Only the text of an accepted bench says what is read, not what a choice happens to read.
pub fn reads(bench: &Bench, rule: &Rule) -> Vec<Read> {
    let clauses = rule.clauses();
    let declared = clauses.iter().filter(|clause| clause.from.interface.is_some()).count();
    let mut reader = Reader { bench, variables: rule.variables(), declared, reads: Vec::new() };
    clauses.into_iter().for_each(|clause| reader.clause(clause));
    for call in &rule.calls {
        reader.filter(call.on.name, &call.filter, [Part::Call; 2]);
        reader.sum(&call.parameter, Part::Call);
    }
    reader.reads
}

struct Reader<'b, 't> {
    bench: &'b Bench<'t>,
    variables: Vec<(Name<'t>, Name<'t>)>,
    /// So many of the variables, which are the first, are declared by clauses.
    declared: usize,
    reads: Vec<Read>,
}

impl Reader<'_, '_> {
    fn clause(&mut self, clause: &Clause) {
        self.member(clause.from.name, clause.event, Part::Event);
        self.filter(clause.from.name, &clause.filter, [Part::Attribute, Part::Filter]);
        if let Test::Equals(_, sum) = &clause.test {
            self.sum(sum, Part::Test);
        }
    }

    /// What a filter reads at the place that it stands at; the parts are those of its attribute and of its expression.
    fn filter(&mut self, owner: Name, filter: &Option<Filter>, [attribute, expression]: [Part; 2]) {
        if let Some(filter) = filter {
            self.member(owner, filter.attribute, attribute);
            self.sum(&filter.sum, expression);
        }
    }

    fn sum(&mut self, sum: &Sum, part: Part) {
        match sum {
            Sum::Literal(_) => {}
            Sum::Member(owner, member) => self.member(*owner, *member, part),
            Sum::Real(_, inner) | Sum::Minus(_, inner) => self.sum(inner, part),
            Sum::Chain(first, rest) => {
                self.sum(first, part);
                rest.iter().for_each(|link| self.sum(&link.right, part));
            }
        }
    }

    /// A member of an entity or, at a variable, that member of every entity of the variable's interface, there or not.
    fn member(&mut self, owner: Name, member: Name, part: Part) {
        if let Some(entity) = self.bench.entity(owner.text) {
            return self.cell(entity, member, part, By::Itself);
        }
        let variable = self.variables.iter().position(|(variable, _)| variable.text == owner.text).expect("names are checked");
        let by = if variable < self.declared { By::OfClause } else { By::OfCall };
        let interface = self.variables[variable].1.text;
        for entity in 0..self.bench.entities.len() {
            if self.bench.entities[entity].interface.text == interface {
                self.cell(entity, member, part, by);
            }
        }
    }

    fn cell(&mut self, entity: usize, member: Name, part: Part, by: By) {
        let number = self.bench.interface_of(entity).and_then(|interface| interface.member(member.text));
        self.reads.push(Read { cell: (entity, number.expect("names are checked")), part, by });
    }
}

/// How it is told that a rule rests. Tests ask whether generated cases tell wrong ways from the right one.
#[derive(Clone, Copy)]
pub struct Way<'w> {
    /// Whether a read counts.
    pub counts: &'w dyn Fn(&Read) -> bool,
    /// What a cell of a store reads.
    pub cell: &'w dyn Fn(&Store, (usize, usize)) -> Cell,
    /// Whether a cell that reads the first now and read the second in the cycle before has moved.
    pub moved: &'w dyn Fn(Cell, Cell) -> bool,
}

/// The way of the documents: a condition's reads alone; a cell of an absent entity reads unset; what `changed` compares as differing moved.
pub const RIGHT: Way<'static> = Way {
    counts: &|read| read.part != Part::Call,
    cell: &|store, (entity, member)| store.read(entity, member),
    moved: &|now, before| differ(now, before).expect("a cell keeps its kind"),
};

impl Way<'_> {
    /// Whether a read counts and its cell has moved between two stores as the rules saw them.
    pub fn moves(&self, read: &Read, now: &Store, before: &Store) -> bool {
        (self.counts)(read) && (self.moved)((self.cell)(now, read.cell), (self.cell)(before, read.cell))
    }

    /// The rules that do not rest: bit k stands for the rule whose place in the file, from 0, is k.
    pub fn tried(&self, bench: &Bench, now: &Store, before: &Store) -> u64 {
        let tried = |rule: &Rule| reads(bench, rule).iter().any(|read| self.moves(read, now, before));
        (0..bench.rules.len()).filter(|&number| tried(&bench.rules[number])).fold(0, |set, number| set | 1 << number)
    }
}

/// The rules that are tried in a cycle that sees the first of these stores, the cycle before it having seen the second.
pub fn tried(bench: &Bench, now: &Store, before: &Store) -> u64 {
    RIGHT.tried(bench, now, before)
}

/// The rules that a line tries that leads from one state to another. Each state keeps what the rules saw in its last cycle.
pub fn tried_between(bench: &Bench, before: &State, after: &State) -> u64 {
    tried(bench, &after.before, &before.before)
}

/// Whether only rules of this set write.
pub fn only_these_write(tried: u64, writes: &[Write]) -> bool {
    writes.iter().all(|write| tried >> write.rule & 1 == 1)
}

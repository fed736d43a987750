//! Ranks (44), counts (14), names (15 to 17) and kinds (18). Each pass gathers its faults; the earliest place is refused.

use super::grammar::{Bench, Call, Clause, Entity, Filter, Interface, Link, Member, Name, Place, Rule, Sort, Sum, Test};
use super::text::Refusal;
use super::value::Kind;

const RANK_MOST: i32 = 9;
const INTERFACES_MOST: usize = 16;
const MEMBERS_MOST: usize = 12;
const ENTITIES_MOST: usize = 32;
const RULES_MOST: usize = 64;
const VARIABLES_MOST: usize = 3;
const CLAUSES_MOST: usize = 8;
const CALLS_MOST: usize = 8;

/// The passes in their order, each giving all of its faults. Document 02, order 6, has 44 "after 13 and before 14".
pub const PASSES: [fn(&Bench) -> Vec<Refusal>; 4] = [ranks, counts, names, kinds];

pub fn check(bench: &Bench) -> Result<(), Refusal> {
    PASSES.iter().try_for_each(|pass| earliest(pass(bench)))
}

fn earliest(faults: Vec<Refusal>) -> Result<(), Refusal> {
    match faults.into_iter().min_by_key(|fault| fault.place) {
        None => Ok(()),
        Some(fault) => Err(fault),
    }
}

// Lookup. A name means its first declaration.

impl<'t> Bench<'t> {
    pub fn interface(&self, name: &[u8]) -> Option<&Interface<'t>> {
        self.interfaces.iter().find(|interface| interface.name.text == name)
    }

    pub fn entity(&self, name: &[u8]) -> Option<usize> {
        self.entities.iter().position(|entity| entity.name.text == name)
    }

    pub fn interface_of(&self, entity: usize) -> Option<&Interface<'t>> {
        self.interface(self.entities[entity].interface.text)
    }

    /// An entity's members; none where its interface is unknown.
    pub fn members_of(&self, entity: usize) -> &[Member<'t>] {
        self.interface_of(entity).map_or(&[], |interface| &interface.members)
    }
}

impl<'t> Interface<'t> {
    pub fn member(&self, name: &[u8]) -> Option<usize> {
        self.members.iter().position(|member| member.name.text == name)
    }

    /// A member by name, if its sort is one of these.
    pub fn member_of_sort(&self, name: &[u8], sorts: &[Sort]) -> Option<usize> {
        self.member(name).filter(|&member| sorts.contains(&self.members[member].sort))
    }
}

impl<'t> Rule<'t> {
    /// Declared variables with their interfaces' names, in the order of the text; repeated ones included.
    pub fn variables(&self) -> Vec<(Name<'t>, Name<'t>)> {
        self.places().into_iter().filter_map(|place| place.interface.map(|interface| (place.name, interface))).collect()
    }
}

/// What an action's name and an event's name are both readable as.
pub const READABLE: [Sort; 2] = [Sort::Event, Sort::Action];

// Ranks.

/// Document 02, order 6: "The first rank above 9 is refused by 44, at its place".
fn ranks(bench: &Bench) -> Vec<Refusal> {
    let above = bench.rules.iter().filter_map(|rule| rule.ranked).filter(|rank| rank.value > RANK_MOST);
    above.map(|rank| Refusal { number: 44, place: rank.place }).collect()
}

// Counts.

fn counts(bench: &Bench) -> Vec<Refusal> {
    let mut faults = Vec::new();
    beyond(bench.interfaces.iter().map(|interface| interface.place), INTERFACES_MOST, &mut faults);
    for interface in &bench.interfaces {
        beyond(interface.members.iter().map(|member| member.place), MEMBERS_MOST, &mut faults);
    }
    beyond(bench.entities.iter().map(|entity| entity.place), ENTITIES_MOST, &mut faults);
    beyond(bench.rules.iter().map(|rule| rule.place), RULES_MOST, &mut faults);
    for rule in &bench.rules {
        beyond(rule.variables().into_iter().map(|(name, _)| name.place), VARIABLES_MOST, &mut faults);
        beyond(rule.clauses().into_iter().map(|clause| clause.place), CLAUSES_MOST, &mut faults);
        beyond(rule.calls.iter().map(|call| call.place), CALLS_MOST, &mut faults);
    }
    faults
}

fn beyond(mut places: impl Iterator<Item = usize>, most: usize, faults: &mut Vec<Refusal>) {
    if let Some(place) = places.nth(most) {
        faults.push(Refusal { number: 14, place });
    }
}

// Names.

fn names(bench: &Bench) -> Vec<Refusal> {
    let mut faults = Vec::new();
    repeated(bench.interfaces.iter().map(|interface| interface.name), &mut faults);
    for interface in &bench.interfaces {
        repeated(interface.members.iter().map(|member| member.name), &mut faults);
    }
    repeated(bench.entities.iter().map(|entity| entity.name), &mut faults);
    for entity in &bench.entities {
        entity_names(bench, entity, &mut faults);
    }
    for rule in &bench.rules {
        Names { bench, variables: rule.variables(), faults: &mut faults }.rule(rule);
    }
    faults
}

fn repeated<'t>(names: impl Iterator<Item = Name<'t>>, faults: &mut Vec<Refusal>) {
    let mut seen: Vec<&[u8]> = Vec::new();
    for name in names {
        if seen.contains(&name.text) {
            faults.push(Refusal { number: 15, place: name.place });
        }
        seen.push(name.text);
    }
}

fn entity_names(bench: &Bench, entity: &Entity, faults: &mut Vec<Refusal>) {
    repeated(entity.assignments.iter().map(|assignment| assignment.name), faults);
    let Some(interface) = bench.interface(entity.interface.text) else {
        faults.push(Refusal { number: 16, place: entity.interface.place });
        return;
    };
    for assignment in &entity.assignments {
        if interface.member_of_sort(assignment.name.text, &[Sort::Attribute]).is_none() {
            faults.push(Refusal { number: 16, place: assignment.name.place });
        }
    }
    let set = |member: &Member| entity.assignments.iter().any(|assignment| assignment.name.text == member.name.text);
    if interface.members.iter().any(|member| member.sort == Sort::Attribute && !set(member)) {
        faults.push(Refusal { number: 17, place: entity.close });
    }
}

/// What a name in a rule stands for.
enum Meaning<'b, 't> {
    Unknown,
    /// Declared, but its interface is not known.
    Bare,
    Known(&'b Interface<'t>),
}

/// An entity comes before a variable of the same name; of variables the first declared counts.
fn meaning<'b, 't>(bench: &'b Bench<'t>, variables: &[(Name<'t>, Name<'t>)], name: &[u8]) -> Meaning<'b, 't> {
    let interface = match bench.entity(name) {
        Some(entity) => bench.interface_of(entity),
        None => match variables.iter().find(|(variable, _)| variable.text == name) {
            Some((_, interface)) => bench.interface(interface.text),
            None => return Meaning::Unknown,
        },
    };
    interface.map_or(Meaning::Bare, Meaning::Known)
}

struct Names<'b, 't, 'f> {
    bench: &'b Bench<'t>,
    variables: Vec<(Name<'t>, Name<'t>)>,
    faults: &'f mut Vec<Refusal>,
}

impl<'t> Names<'_, 't, '_> {
    fn fault(&mut self, number: u8, place: usize) {
        self.faults.push(Refusal { number, place });
    }

    fn rule(&mut self, rule: &Rule<'t>) {
        self.declarations();
        for clause in rule.clauses() {
            self.clause(clause);
        }
        for call in &rule.calls {
            self.call(call);
        }
    }

    fn declarations(&mut self) {
        repeated(self.variables.iter().map(|(name, _)| *name), self.faults);
        for (name, interface) in self.variables.clone() {
            if self.bench.entity(name.text).is_some() {
                self.fault(15, name.place);
            }
            if self.bench.interface(interface.text).is_none() {
                self.fault(16, interface.place);
            }
        }
    }

    fn clause(&mut self, clause: &Clause<'t>) {
        self.place(&clause.from);
        self.member(clause.from.name, clause.event, &READABLE);
        self.filter(clause.from.name, &clause.filter);
        if let Test::Equals(_, sum) = &clause.test {
            self.sum(sum);
        }
    }

    fn call(&mut self, call: &Call<'t>) {
        self.place(&call.on);
        self.member(call.on.name, call.action, &[Sort::Action]);
        self.sum(&call.parameter);
        self.filter(call.on.name, &call.filter);
    }

    fn place(&mut self, place: &Place<'t>) {
        if let Meaning::Unknown = meaning(self.bench, &self.variables, place.name.text) {
            self.fault(16, place.name.place);
        }
    }

    fn member(&mut self, owner: Name<'t>, member: Name<'t>, sorts: &[Sort]) {
        if let Meaning::Known(interface) = meaning(self.bench, &self.variables, owner.text) {
            if interface.member_of_sort(member.text, sorts).is_none() {
                self.fault(16, member.place);
            }
        }
    }

    fn filter(&mut self, owner: Name<'t>, filter: &Option<Filter<'t>>) {
        if let Some(filter) = filter {
            self.member(owner, filter.attribute, &[Sort::Attribute]);
            self.sum(&filter.sum);
        }
    }

    fn sum(&mut self, sum: &Sum<'t>) {
        match sum {
            Sum::Literal(_) => {}
            Sum::Member(owner, member) => {
                if let Meaning::Unknown = meaning(self.bench, &self.variables, owner.text) {
                    self.fault(16, owner.place);
                }
                self.member(*owner, *member, &[Sort::Attribute, Sort::Event, Sort::Action]);
            }
            Sum::Real(_, inner) | Sum::Minus(_, inner) => self.sum(inner),
            Sum::Chain(first, rest) => {
                self.sum(first);
                rest.iter().for_each(|link| self.sum(&link.right));
            }
        }
    }
}

// Kinds. They are looked at only once all names are known.

fn kinds(bench: &Bench) -> Vec<Refusal> {
    let mut faults = Vec::new();
    for (number, entity) in bench.entities.iter().enumerate() {
        for assignment in &entity.assignments {
            let attribute = bench.interface_of(number).and_then(|interface| kind_in(interface, assignment.name.text));
            fit(attribute, Some(assignment.value.kind()), assignment.equals, &mut faults);
        }
    }
    for rule in &bench.rules {
        Kinds { bench, variables: rule.variables(), faults: &mut faults }.rule(rule);
    }
    faults
}

fn kind_in(interface: &Interface, member: &[u8]) -> Option<Kind> {
    interface.member(member).map(|member| interface.members[member].kind)
}

/// `None`, the kind of a sum with a fault inside, fits anywhere.
fn fit(a: Option<Kind>, b: Option<Kind>, place: usize, faults: &mut Vec<Refusal>) {
    if a.is_some() && b.is_some() && a != b {
        faults.push(Refusal { number: 18, place });
    }
}

struct Kinds<'b, 't, 'f> {
    bench: &'b Bench<'t>,
    variables: Vec<(Name<'t>, Name<'t>)>,
    faults: &'f mut Vec<Refusal>,
}

impl<'t> Kinds<'_, 't, '_> {
    fn rule(&mut self, rule: &Rule<'t>) {
        for clause in rule.clauses() {
            self.filter(clause.from.name, &clause.filter);
            if let Test::Equals(equals, sum) = &clause.test {
                let event = self.member(clause.from.name, clause.event);
                let sum = self.sum(sum);
                fit(event, sum, *equals, self.faults);
            }
        }
        for call in &rule.calls {
            let action = self.member(call.on.name, call.action);
            let parameter = self.sum(&call.parameter);
            fit(action, parameter, call.open, self.faults);
            self.filter(call.on.name, &call.filter);
        }
    }

    fn member(&self, owner: Name<'t>, member: Name<'t>) -> Option<Kind> {
        match meaning(self.bench, &self.variables, owner.text) {
            Meaning::Known(interface) => kind_in(interface, member.text),
            _ => None,
        }
    }

    fn filter(&mut self, owner: Name<'t>, filter: &Option<Filter<'t>>) {
        if let Some(filter) = filter {
            let attribute = self.member(owner, filter.attribute);
            let sum = self.sum(&filter.sum);
            fit(attribute, sum, filter.equals, self.faults);
        }
    }

    fn fault(&mut self, place: usize) -> Option<Kind> {
        self.faults.push(Refusal { number: 18, place });
        None
    }

    fn sum(&mut self, sum: &Sum<'t>) -> Option<Kind> {
        match sum {
            Sum::Literal(value) => Some(value.kind()),
            Sum::Member(owner, member) => self.member(*owner, *member),
            Sum::Real(place, inner) => match self.sum(inner) {
                Some(Kind::Whole) => Some(Kind::Real),
                None => None,
                Some(_) => self.fault(*place),
            },
            Sum::Minus(place, inner) => match self.sum(inner) {
                Some(Kind::Bool) => self.fault(*place),
                kind => kind,
            },
            Sum::Chain(first, rest) => self.chain(first, rest),
        }
    }

    fn chain(&mut self, first: &Sum<'t>, rest: &[Link<'t>]) -> Option<Kind> {
        let mut left = self.sum(first);
        for link in rest {
            let right = self.sum(&link.right);
            left = self.operator(left, right, link.place);
        }
        left
    }

    fn operator(&mut self, left: Option<Kind>, right: Option<Kind>, place: usize) -> Option<Kind> {
        if left == Some(Kind::Bool) || right == Some(Kind::Bool) {
            return self.fault(place);
        }
        match (left, right) {
            (Some(a), Some(b)) if a != b => self.fault(place),
            (Some(a), Some(_)) => Some(a),
            _ => None,
        }
    }
}

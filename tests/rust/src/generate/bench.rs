//! Valid benches: a plan of interfaces and entities, and the words of the file.

use super::prng::Prng;
use super::{quotients, ranks};
use crate::interpreter::grammar::{Bench, Entity, Interface, Member, Name, Sort};
use crate::interpreter::value::Kind;

pub const KINDS: [Kind; 3] = [Kind::Whole, Kind::Bool, Kind::Real];

/// How many bytes a comment has between `#` and line feed.
const COMMENT_BYTES: usize = 14;

/// Few short names for everything, so that names of different things often meet; some look like reserved words or numbers.
const NAMES: [&str; 23] = [
    "a",
    "b",
    "c",
    "d",
    "e",
    "ranks",
    "rank_1",
    "ran",
    "n",
    "by",
    "x",
    "Rank",
    "r",
    "End",
    "rule",
    "reals",
    "A",
    "a1",
    "a_",
    "z9_Z",
    "e1",
    "eventx",
    "abcdefghijklmnopqrstuvwx",
];

#[derive(Clone, Debug)]
pub struct PlanMember {
    pub sort: Sort,
    pub name: String,
    pub kind: Kind,
}

#[derive(Clone, Debug)]
pub struct PlanInterface {
    pub name: String,
    pub members: Vec<PlanMember>,
}

#[derive(Clone, Debug)]
pub struct PlanEntity {
    pub name: String,
    pub interface: usize,
}

/// What is known of a generated bench: enough to make readings for it.
#[derive(Clone, Debug, Default)]
pub struct Plan {
    pub interfaces: Vec<PlanInterface>,
    pub entities: Vec<PlanEntity>,
    pub words: Vec<String>,
}

/// How large a bench may get.
#[derive(Clone, Copy, Debug)]
pub struct Size {
    pub interfaces: usize,
    pub members: usize,
    pub entities: usize,
    pub rules: usize,
    pub clauses: usize,
    pub calls: usize,
    pub variables: usize,
    /// So many of a hundred rules have a rival.
    pub rivals: usize,
}

pub const SMALL: Size = Size { interfaces: 3, members: 2, entities: 5, rules: 5, clauses: 3, calls: 3, variables: 3, rivals: 30 };
/// Rivals could make it too long.
pub const LARGE: Size = Size { interfaces: 16, members: 4, entities: 32, rules: 24, clauses: 8, calls: 8, variables: 2, rivals: 0 };
/// Many entities, few of them bound together by a rule: it leaves small closed sets.
pub const LOOSE: Size = Size { interfaces: 6, members: 2, entities: 9, rules: 4, clauses: 2, calls: 2, variables: 1, rivals: 70 };

impl Plan {
    /// The plan of a bench that was read, without its words.
    pub fn of(bench: &Bench) -> Plan {
        let text = |name: Name| String::from_utf8(name.text.to_vec()).expect("names are ASCII");
        let member = |member: &Member| PlanMember { sort: member.sort, name: text(member.name), kind: member.kind };
        let interface =
            |interface: &Interface| PlanInterface { name: text(interface.name), members: interface.members.iter().map(member).collect() };
        let number = |name: Name| bench.interfaces.iter().position(|interface| interface.name.text == name.text);
        let entity = |entity: &Entity| PlanEntity {
            name: text(entity.name),
            interface: number(entity.interface).expect("an accepted bench has the interfaces of its entities"),
        };
        Plan {
            interfaces: bench.interfaces.iter().map(interface).collect(),
            entities: bench.entities.iter().map(entity).collect(),
            words: Vec::new(),
        }
    }

    pub fn members(&self, entity: usize) -> &[PlanMember] {
        &self.interfaces[self.entities[entity].interface].members
    }
}

/// Names without repetition: from the small stock, then made up.
pub fn distinct_names(prng: &mut Prng, count: usize, taken: &[String]) -> Vec<String> {
    let mut stock: Vec<String> = NAMES.iter().map(|name| name.to_string()).filter(|name| !taken.contains(name)).collect();
    prng.shuffle(&mut stock);
    stock.truncate(count);
    while stock.len() < count {
        stock.push(format!("m{}", stock.len()));
    }
    stock
}

pub fn bench(prng: &mut Prng, size: Size) -> Plan {
    let mut plan = Plan { interfaces: interfaces(prng, size), ..Plan::default() };
    plan.entities = entities(prng, size, &plan);
    let mut words = interface_words(&plan);
    words.extend(entity_words(prng, &plan));
    words.push("rules".into());
    let rules = if prng.chance(5) { 0 } else { prng.between(1, size.rules) };
    for _ in 0..rules {
        words.extend(rule(prng, &plan, size).unwrap_or_default());
    }
    words.push("end".into());
    ranks::put_in(&mut prng.aside(), &mut words);
    plan.words = words;
    plan
}

fn interfaces(prng: &mut Prng, size: Size) -> Vec<PlanInterface> {
    let count = if prng.chance(2) { 0 } else { prng.between(1, size.interfaces) };
    let names = distinct_names(prng, count, &[]);
    names.into_iter().map(|name| PlanInterface { name, members: members(prng, size) }).collect()
}

fn members(prng: &mut Prng, size: Size) -> Vec<PlanMember> {
    // Without events and actions little happens, so few interfaces lack them.
    let some = |prng: &mut Prng| if prng.chance(20) { 0 } else { prng.between(1, size.members) };
    let counts = [prng.between(0, size.members), some(prng), some(prng)];
    let names = distinct_names(prng, counts.iter().sum(), &[]);
    let sorts = [Sort::Attribute, Sort::Event, Sort::Action];
    let sorts = sorts.into_iter().zip(counts).flat_map(|(sort, count)| std::iter::repeat_n(sort, count));
    // Often one kind throughout, so that sums find members to read.
    let main = *prng.pick(&KINDS);
    names.into_iter().zip(sorts).map(|(name, sort)| PlanMember { sort, name, kind: near(prng, main) }).collect()
}

fn near(prng: &mut Prng, main: Kind) -> Kind {
    if prng.chance(60) {
        main
    } else {
        *prng.pick(&KINDS)
    }
}

fn entities(prng: &mut Prng, size: Size, plan: &Plan) -> Vec<PlanEntity> {
    if plan.interfaces.is_empty() {
        return Vec::new();
    }
    let count = if prng.chance(3) { 0 } else { prng.between(1, size.entities) };
    let names = distinct_names(prng, count, &[]);
    names.into_iter().map(|name| PlanEntity { name, interface: prng.below(plan.interfaces.len()) }).collect()
}

pub fn kind_word(kind: Kind) -> String {
    match kind {
        Kind::Whole => "whole".into(),
        Kind::Bool => "bool".into(),
        Kind::Real => "real".into(),
    }
}

pub fn push(words: &mut Vec<String>, more: &[&str]) {
    words.extend(more.iter().map(|word| word.to_string()));
}

pub fn interface_words(plan: &Plan) -> Vec<String> {
    let mut words = Vec::new();
    for interface in &plan.interfaces {
        push(&mut words, &["interface", &interface.name, "{"]);
        for member in &interface.members {
            let kind = kind_word(member.kind);
            match member.sort {
                Sort::Attribute => push(&mut words, &["attribute", &member.name, ":", &kind]),
                Sort::Event => push(&mut words, &["event", &member.name, ":", &kind]),
                Sort::Action => push(&mut words, &["action", &member.name, "(", &kind, ")"]),
            }
        }
        push(&mut words, &["}"]);
    }
    words
}

pub fn entity_words(prng: &mut Prng, plan: &Plan) -> Vec<String> {
    let mut words = Vec::new();
    for entity in &plan.entities {
        let interface = &plan.interfaces[entity.interface];
        push(&mut words, &["entity", &entity.name, ":", &interface.name, "{"]);
        let mut attributes: Vec<_> = interface.members.iter().filter(|member| member.sort == Sort::Attribute).collect();
        prng.shuffle(&mut attributes);
        for attribute in attributes {
            push(&mut words, &[&attribute.name, "="]);
            if attribute.kind != Kind::Bool && prng.chance(40) {
                push(&mut words, &["-"]);
            }
            words.push(literal(prng, attribute.kind));
        }
        push(&mut words, &["}"]);
    }
    words
}

/// A literal without sign. Small ones mostly, so that values often meet; the large ones overflow and round.
pub fn literal(prng: &mut Prng, kind: Kind) -> String {
    const NUMBERS: [&str; 13] =
        ["0", "1", "2", "3", "7", "10", "46341", "65536", "0000000001", "1000000007", "2147483646", "2147483647", "99999"];
    let number = if prng.chance(70) { prng.pick(&NUMBERS[..4]) } else { prng.pick(&NUMBERS) };
    match kind {
        Kind::Bool => if prng.chance(50) { "true" } else { "false" }.into(),
        Kind::Whole => number.to_string(),
        Kind::Real => format!("{number}r"),
    }
}

/// Where a rule's clause or call points: the interface, and the words of the place.
#[derive(Clone)]
struct Target {
    name: String,
    interface: usize,
    declares: bool,
}

/// A rule under way: what its sums may read, each member with its owner's name.
struct Scope<'p> {
    plan: &'p Plan,
    readable: Vec<(String, PlanMember)>,
}

/// A rule, now and then with a rival after it: the same condition, and calls of the same places, so that both write, often to one cell.
/// None if the plan has nothing to fire.
fn rule(prng: &mut Prng, plan: &Plan, size: Size) -> Option<Vec<String>> {
    let (mut clauses, mut calls, named) = targets(prng, plan, size);
    fill(prng, plan, &named, &[Sort::Event, Sort::Action], size.clauses, &mut clauses)?;
    fill(prng, plan, &named, &[Sort::Action], size.calls, &mut calls)?;
    let scope = Scope { plan, readable: readable(plan, &named) };
    let condition = scope.condition(prng, &clauses, 0);
    let mut words = scope.rule(prng, &condition, &calls);
    let mut aside = prng.aside();
    if aside.chance(size.rivals) {
        words.extend(scope.rule(&mut aside, &condition, &calls));
    }
    Some(words)
}

/// Declares some variables, each at a clause or a call; gives also everything that has a name.
fn targets(prng: &mut Prng, plan: &Plan, size: Size) -> (Vec<Target>, Vec<Target>, Vec<Target>) {
    let mut named: Vec<Target> = Vec::new();
    let bare = |entity: &PlanEntity| Target { name: entity.name.clone(), interface: entity.interface, declares: false };
    named.extend(plan.entities.iter().map(bare));
    let taken: Vec<String> = plan.entities.iter().map(|entity| entity.name.clone()).collect();
    let count = prng.weighted(&[50, 30, 15, 5]).min(size.variables);
    let (mut clauses, mut calls) = (Vec::new(), Vec::new());
    for name in distinct_names(prng, count, &taken) {
        let interface = prng.below(plan.interfaces.len().max(1));
        let has = |sorts: &[Sort]| !of_sorts(plan, interface, sorts).is_empty();
        let variable = Target { name, interface, declares: true };
        if has(&[Sort::Action]) && (prng.chance(40) || !has(&[Sort::Event])) && calls.len() < size.calls {
            calls.push(variable.clone());
        } else if has(&[Sort::Event, Sort::Action]) && clauses.len() < size.clauses {
            clauses.push(variable.clone());
        } else {
            continue;
        }
        named.push(Target { declares: false, ..variable });
    }
    (clauses, calls, named)
}

fn of_sorts<'p>(plan: &'p Plan, interface: usize, sorts: &[Sort]) -> Vec<&'p PlanMember> {
    let Some(interface) = plan.interfaces.get(interface) else { return Vec::new() };
    interface.members.iter().filter(|member| sorts.contains(&member.sort)).collect()
}

/// Adds bare places until there are enough; `None` if there is no place at all.
fn fill(prng: &mut Prng, plan: &Plan, named: &[Target], sorts: &[Sort], most: usize, targets: &mut Vec<Target>) -> Option<()> {
    let fitting: Vec<&Target> = named.iter().filter(|target| !of_sorts(plan, target.interface, sorts).is_empty()).collect();
    let wanted = prng.between(1, most).max(targets.len());
    while targets.len() < wanted && !fitting.is_empty() {
        targets.push((*prng.pick(&fitting)).clone());
    }
    prng.shuffle(targets);
    (!targets.is_empty()).then_some(())
}

fn readable(plan: &Plan, named: &[Target]) -> Vec<(String, PlanMember)> {
    let members = |target: &Target| {
        let owner = target.name.clone();
        let members = plan.interfaces[target.interface].members.clone();
        members.into_iter().map(move |member| (owner.clone(), member))
    };
    named.iter().flat_map(members).collect()
}

impl Scope<'_> {
    fn rule(&self, prng: &mut Prng, condition: &[String], calls: &[Target]) -> Vec<String> {
        let mut words = joined(&["when"], condition.to_vec());
        words.push("trigger".into());
        for (index, call) in calls.iter().enumerate() {
            if index > 0 {
                words.push(",".into());
            }
            words.extend(self.call(prng, call));
        }
        words.push("end".into());
        words
    }

    fn condition(&self, prng: &mut Prng, clauses: &[Target], depth: usize) -> Vec<String> {
        if depth < 8 && prng.chance(20) {
            return parenthesised(self.condition(prng, clauses, depth + 1));
        }
        if clauses.len() == 1 {
            return self.clause(prng, &clauses[0]);
        }
        let middle = prng.between(1, clauses.len() - 1);
        let mut words = self.condition(prng, &clauses[..middle], depth + 1);
        words.push(prng.pick(&["and", "or", "or"]).to_string());
        words.extend(self.condition(prng, &clauses[middle..], depth + 1));
        words
    }

    fn clause(&self, prng: &mut Prng, target: &Target) -> Vec<String> {
        // Events are read from lines, so rules on them fire more often than rules on actions.
        let mut choices = of_sorts(self.plan, target.interface, &[Sort::Event]);
        if choices.is_empty() || prng.chance(25) {
            choices = of_sorts(self.plan, target.interface, &[Sort::Event, Sort::Action]);
        }
        let event = (*prng.pick(&choices)).clone();
        let mut words = Vec::new();
        push(&mut words, &["event", &event.name, "from"]);
        self.place(prng, target, 35, &mut words);
        words.push("value".into());
        if prng.chance(35) {
            words.push("changed".into());
            return words;
        }
        words.push("=".into());
        if event.kind == Kind::Whole && prng.chance(15) {
            words.extend(quotients::with_rest(prng, member_of(&target.name, &event)));
        } else {
            let fuel = prng.weighted(&[60, 20, 15, 5]);
            words.extend(self.sum(prng, event.kind, fuel));
        }
        words
    }

    fn call(&self, prng: &mut Prng, target: &Target) -> Vec<String> {
        let action = (*prng.pick(&of_sorts(self.plan, target.interface, &[Sort::Action]))).clone();
        let mut words = Vec::new();
        push(&mut words, &["action", &action.name, "("]);
        let fuel = prng.weighted(&[30, 30, 25, 15]);
        words.extend(self.sum(prng, action.kind, fuel));
        push(&mut words, &[")", "on"]);
        self.place(prng, target, 25, &mut words);
        words
    }

    /// A place and sometimes its filter.
    fn place(&self, prng: &mut Prng, target: &Target, percent: usize, words: &mut Vec<String>) {
        words.push(target.name.clone());
        if target.declares {
            push(words, &[":", &self.plan.interfaces[target.interface].name]);
        }
        let attributes = of_sorts(self.plan, target.interface, &[Sort::Attribute]);
        if attributes.is_empty() || !prng.chance(percent) {
            return;
        }
        let attribute = *prng.pick(&attributes);
        push(words, &["with", &attribute.name, "="]);
        let leaf = match prng.weighted(&[30, 40, 15, 15]) {
            // Certain to hold where the entity is there.
            0 => member_of(&target.name, attribute),
            // May start or cease to hold in the very line that reads the event.
            1 => self.leaf(prng, attribute.kind, &[Sort::Event]),
            2 => self.literal_or_member(prng, attribute.kind),
            _ => return words.extend(self.sum(prng, attribute.kind, 1)),
        };
        words.extend(sometimes_rounded(prng, 60, attribute.kind, leaf));
    }

    /// A sum of a kind; `fuel` bounds how deep it nests.
    fn sum(&self, prng: &mut Prng, kind: Kind, fuel: usize) -> Vec<String> {
        if fuel == 0 {
            let leaf = self.literal_or_member(prng, kind);
            return sometimes_rounded(prng, 15, kind, leaf);
        }
        match (kind, prng.below(8)) {
            (_, 0) => parenthesised(self.sum(prng, kind, fuel - 1)),
            (Kind::Bool, _) => self.literal_or_member(prng, kind),
            (_, 1) => joined(&["-"], self.sum(prng, kind, fuel - 1)),
            (Kind::Real, 2 | 3) => joined(&["real"], parenthesised(self.sum(prng, Kind::Whole, fuel - 1))),
            (Kind::Whole, 2 | 3) => self.quotient(prng, fuel - 1),
            _ => {
                let mut words = self.sum(prng, kind, fuel - 1);
                words.push(prng.pick(&["+", "-", "*", "/"]).to_string());
                words.extend(self.sum(prng, kind, fuel - 1));
                words
            }
        }
    }

    /// A quotient of wholes.
    fn quotient(&self, prng: &mut Prng, fuel: usize) -> Vec<String> {
        match prng.weighted(&[40, 30, 15, 15]) {
            0 => {
                let leaf = self.leaf(prng, Kind::Whole, &[Sort::Attribute, Sort::Event]);
                quotients::rounded(prng, leaf)
            }
            1 => {
                let dividend = self.factor(prng, fuel);
                quotients::divided(prng, dividend)
            }
            2 => [self.factor(prng, fuel), vec!["/".into()], self.factor(prng, 0)].concat(),
            _ => quotients::at_the_ends(prng),
        }
    }

    /// A whole factor.
    fn factor(&self, prng: &mut Prng, fuel: usize) -> Vec<String> {
        if fuel == 0 {
            return self.literal_or_member(prng, Kind::Whole);
        }
        parenthesised(self.sum(prng, Kind::Whole, fuel))
    }

    fn literal_or_member(&self, prng: &mut Prng, kind: Kind) -> Vec<String> {
        if prng.chance(45) {
            return signed_literal(prng, kind);
        }
        self.leaf(prng, kind, &[Sort::Attribute, Sort::Event, Sort::Action])
    }

    /// A member of a kind and one of these sorts; a literal if there is none.
    fn leaf(&self, prng: &mut Prng, kind: Kind, sorts: &[Sort]) -> Vec<String> {
        let fits = |member: &PlanMember| member.kind == kind && sorts.contains(&member.sort);
        let fitting: Vec<_> = self.readable.iter().filter(|(_, member)| fits(member)).collect();
        if fitting.is_empty() {
            return vec![literal(prng, kind)];
        }
        let (owner, member) = *prng.pick(&fitting);
        member_of(owner, member)
    }
}

fn member_of(owner: &str, member: &PlanMember) -> Vec<String> {
    vec![owner.to_string(), ".".into(), member.name.clone()]
}

/// A literal of a sum; wholes have a sign now and then, as they have in readings.
fn signed_literal(prng: &mut Prng, kind: Kind) -> Vec<String> {
    let literal = vec![literal(prng, kind)];
    if kind == Kind::Whole && prng.chance(25) {
        return joined(&["-"], literal);
    }
    literal
}

/// Rounds a whole factor so many times in a hundred. Unless it is very great the factor itself comes out, so what is equal stays so.
fn sometimes_rounded(prng: &mut Prng, percent: usize, kind: Kind, factor: Vec<String>) -> Vec<String> {
    if kind == Kind::Whole && prng.chance(percent) {
        return quotients::rounded(prng, factor);
    }
    factor
}

pub fn parenthesised(words: Vec<String>) -> Vec<String> {
    let mut all = joined(&["("], words);
    all.push(")".into());
    all
}

fn joined(before: &[&str], words: Vec<String>) -> Vec<String> {
    let mut all: Vec<String> = before.iter().map(|word| word.to_string()).collect();
    all.extend(words);
    all
}

/// The text of words: sometimes with as few blanks as can be, sometimes with comments.
pub fn render(prng: &mut Prng, words: &[String]) -> Vec<u8> {
    let style = prng.below(4);
    let mut text = Vec::new();
    for (index, word) in words.iter().enumerate() {
        if index > 0 {
            separate(prng, style, &words[index - 1], word, &mut text);
        }
        text.extend_from_slice(word.as_bytes());
    }
    if prng.chance(20) {
        text.extend_from_slice(prng.pick(&["\n", " ", "#", "\n# the end\n", "\t \n"]).as_bytes());
    }
    text
}

fn separate(prng: &mut Prng, style: usize, before: &str, after: &str, text: &mut Vec<u8>) {
    match style {
        0 | 1 => text.push(b' '),
        2 if !clash(before, after) => {}
        2 => text.push(b' '),
        _ => match *prng.pick(&[" ", " ", " ", "\n", "\t", "  ", "#", "#\n"]) {
            "#" => text.extend(comment(&mut prng.aside())),
            other => text.extend_from_slice(other.as_bytes()),
        },
    }
}

/// A comment of any bytes that are allowed in it.
fn comment(prng: &mut Prng) -> Vec<u8> {
    let mut text = b" #".to_vec();
    text.extend((0..COMMENT_BYTES).map(|_| if prng.chance(5) { b'\t' } else { prng.between(32, 126) as u8 }));
    text.push(b'\n');
    text
}

/// Whether two words without a blank between would be read otherwise.
fn clash(before: &str, after: &str) -> bool {
    let first = after.as_bytes()[0];
    let letter_first = before.as_bytes()[0].is_ascii_alphabetic();
    let digit_first = before.as_bytes()[0].is_ascii_digit();
    if letter_first {
        return first.is_ascii_alphanumeric() || first == b'_';
    }
    digit_first && !before.ends_with('r') && (first.is_ascii_digit() || first == b'r')
}

//! The promise about two runs: on a closed set of entities, the same readings by the same senders give the same values and fired actions,
//! whatever is read elsewhere and whatever calls are refused in between. The fired actions are those that each line gives, or gives again.

use crate::calls::answer;
use crate::compare::{show_step, Mismatch, Sides};
use crate::generate::bench::{self, Plan, LOOSE, SMALL};
use crate::generate::case::{Call, Case, Step, EXACT};
use crate::generate::lines::{self, Column, Line};
use crate::generate::prng::Prng;
use crate::generate::senders;
use crate::image;
use crate::interpreter::accept;
use crate::interpreter::grammar::{Bench, Filter, Rule, Sort, Sum, Test};
use crate::interpreter::line::SENDERS_MOST;
use crate::interpreter::machine::{writes_of, Reading, Readings, State, Store, RIGHT};
use crate::interpreter::value::{Cell, Value};
use crate::memory::Tally;
use crate::show::show_bytes;
use crate::{ranks, thin};

/// In so many of a hundred lines an entity of the set comes with its readings, or goes so that it can come later.
const SWITCH_PERCENT: usize = 30;
/// So many of a hundred pairs are lines sent again.
const AGAIN_PERCENT: usize = 25;

/// Names and values of one call.
type Lent = (Vec<u8>, Vec<u8>);

#[derive(Clone, Debug)]
enum Event {
    /// A line for each run, both accepted.
    Pair([Lent; 2]),
    /// A call in one run, refused.
    Aside(usize, Lent),
}

#[derive(Clone, Debug)]
pub struct Trial {
    text: Vec<u8>,
    /// Names of the set's entities.
    set: Vec<Vec<u8>>,
    fill: u64,
    events: Vec<Event>,
}

/// What a trial showed.
pub enum Verdict {
    Holds(Box<Shown>),
    /// The two runs part on the set.
    Fails(String),
    /// The engine and the interpreter part in one run.
    Parts(Case, Box<Mismatch>),
    /// No trial of the promise: the set is not closed, or lines are not accepted in pairs.
    Void(&'static str),
}

#[derive(Clone, Debug, Default)]
pub struct Shown {
    pub tally: Tally,
    /// The set is neither empty nor all entities.
    pub proper: bool,
    /// Some action of the set fired.
    pub fired: bool,
    /// Some action of the set fired in a line in which an entity of the set came.
    pub fired_joining: bool,
    /// Readings outside the set differed.
    pub differing: bool,
    pub pairs: u64,
    /// Pairs of lines sent again, and those of them that come after new lines of others.
    pub again: u64,
    pub late: u64,
    /// One of the latter gave a fired action of the set again.
    pub fired_late: bool,
    pub senders: usize,
    /// A rule with a rank above 0 can write to the set.
    pub ranked: bool,
    /// Some write to a cell of the set gave way to one of a higher rank.
    pub gave_way: bool,
}

// Closed sets.

/// All entities that a rule names, and all of its variables' interfaces.
fn needed(bench: &Bench, rule: &Rule) -> Vec<usize> {
    let mut names: Vec<&[u8]> = rule.places().iter().map(|place| place.name.text).collect();
    for clause in rule.clauses() {
        filter_names(&clause.filter, &mut names);
        if let Test::Equals(_, sum) = &clause.test {
            sum_names(sum, &mut names);
        }
    }
    for call in &rule.calls {
        filter_names(&call.filter, &mut names);
        sum_names(&call.parameter, &mut names);
    }
    let interfaces: Vec<&[u8]> = rule.variables().iter().map(|(_, interface)| interface.text).collect();
    let wanted = |entity: &usize| {
        let entity = &bench.entities[*entity];
        names.contains(&entity.name.text) || interfaces.contains(&entity.interface.text)
    };
    (0..bench.entities.len()).filter(wanted).collect()
}

fn filter_names<'t>(filter: &Option<Filter<'t>>, names: &mut Vec<&'t [u8]>) {
    if let Some(filter) = filter {
        sum_names(&filter.sum, names);
    }
}

fn sum_names<'t>(sum: &Sum<'t>, names: &mut Vec<&'t [u8]>) {
    match sum {
        Sum::Literal(_) => {}
        Sum::Member(owner, _) => names.push(owner.text),
        Sum::Real(_, inner) | Sum::Minus(_, inner) => sum_names(inner, names),
        Sum::Chain(first, rest) => {
            sum_names(first, names);
            rest.iter().for_each(|link| sum_names(&link.right, names));
        }
    }
}

/// The entities that a rule's calls can point at.
fn called(bench: &Bench, rule: &Rule) -> Vec<usize> {
    let variables = rule.variables();
    let can_be = |entity: usize, name: &[u8]| {
        let known = &bench.entities[entity];
        let variable = variables.iter().find(|(variable, _)| variable.text == name);
        known.name.text == name || variable.is_some_and(|(_, interface)| interface.text == known.interface.text)
    };
    let any_call = |entity: &usize| rule.calls.iter().any(|call| can_be(*entity, call.on.name.text));
    (0..bench.entities.len()).filter(any_call).collect()
}

/// Adds to a set what it lacks to be closed; true if that was something.
fn close_once(bench: &Bench, set: &mut [bool]) -> bool {
    let mut grown = false;
    for rule in &bench.rules {
        if called(bench, rule).iter().any(|&entity| set[entity]) {
            for entity in needed(bench, rule) {
                grown |= !set[entity];
                set[entity] = true;
            }
        }
    }
    grown
}

/// A closed set around a random entity: a proper one if a few tries find one.
fn closed_set(prng: &mut Prng, bench: &Bench) -> Vec<bool> {
    let mut targets: Vec<usize> = bench.rules.iter().flat_map(|rule| called(bench, rule)).collect();
    if targets.is_empty() || prng.chance(5) {
        targets = (0..bench.entities.len()).collect();
    }
    let mut set = Vec::new();
    for _ in 0..12 {
        set = vec![false; bench.entities.len()];
        set[*prng.pick(&targets)] = true;
        if prng.chance(15) {
            set[*prng.pick(&targets)] = true;
        }
        while close_once(bench, &mut set) {}
        if set.contains(&false) {
            break;
        }
    }
    set
}

// Making a trial.

/// A random trial; benches without entities have none.
pub fn trial(seed: u64, number: u64) -> Trial {
    let mut prng = Prng::for_case(seed, number);
    loop {
        let size = if prng.chance(90) { LOOSE } else { SMALL };
        let plan = bench::bench(&mut prng, size);
        let text = bench::render(&mut prng, &plan.words);
        let bench = accept(&text).expect("generated benches are valid");
        if bench.entities.is_empty() || bench.rules.is_empty() {
            continue;
        }
        let set = closed_set(&mut prng, &bench);
        let names = bench.entities.iter().zip(&set).filter(|(_, &inside)| inside).map(|(entity, _)| entity.name.text.to_vec());
        let names = names.collect();
        let events = Maker::new(&mut prng, &plan, &set).events(&mut prng);
        return Trial { text, set: names, fill: prng.draw(), events };
    }
}

/// A sender, known or not, and its last line in each run.
#[derive(Clone, Debug)]
struct Sending {
    name: Vec<u8>,
    number: u64,
    last: [Line; 2],
}

/// Two runs in the making.
struct Maker<'p> {
    plan: &'p Plan,
    set: &'p [bool],
    set_columns: Vec<Column>,
    other_columns: [Vec<Column>; 2],
    present: [Vec<bool>; 2],
    senders: Vec<Sending>,
}

impl<'p> Maker<'p> {
    fn new(prng: &mut Prng, plan: &'p Plan, set: &'p [bool]) -> Maker<'p> {
        let mut part = |inside: bool| {
            let mut columns = lines::some_columns(prng, plan);
            columns.retain(|column| set[column.entity()] == inside);
            columns
        };
        let set_columns = part(true);
        let other_columns = [part(false), part(false)];
        let present = vec![true; set.len()];
        let count = senders::count(prng);
        let sending = |name| Sending { name, number: 0, last: Default::default() };
        let senders = senders::some(prng, plan, count).into_iter().map(sending).collect();
        Maker { plan, set, set_columns, other_columns, present: [present.clone(), present], senders }
    }

    fn events(&mut self, prng: &mut Prng) -> Vec<Event> {
        let mut events = Vec::new();
        for _ in 0..prng.between(3, 12) + self.senders.len() {
            if prng.chance(25) {
                events.push(self.aside(prng));
            }
            let known = self.known();
            let again = !known.is_empty() && prng.chance(AGAIN_PERCENT);
            events.push(if again {
                let sender = *prng.pick(&known);
                self.pair(prng, sender)
            } else {
                self.next(prng)
            });
        }
        // However long ago a sender sent last.
        let mut known = self.known();
        prng.shuffle(&mut known);
        events.extend(known.into_iter().map(|sender| self.pair(prng, sender)));
        events
    }

    fn known(&self) -> Vec<usize> {
        (0..self.senders.len()).filter(|&sender| self.senders[sender].number > 0).collect()
    }

    /// A sender's last line in both runs.
    fn pair(&self, prng: &mut Prng, sender: usize) -> Event {
        let Sending { name, number, last } = &self.senders[sender];
        let mut lent = |run: usize| {
            // Another form of the same readings, so that even the names differ between the runs.
            let line = lines::same_readings(prng, self.plan, &last[run]);
            (line.names(self.plan), line.values(name, *number))
        };
        Event::Pair([lent(0), lent(1)])
    }

    /// Who sends a new line: anybody, as long as not too many are known.
    fn sender(&self, prng: &mut Prng) -> usize {
        let known = self.known();
        let sender = prng.below(self.senders.len());
        if known.len() == SENDERS_MOST && !known.contains(&sender) {
            return *prng.pick(&known);
        }
        sender
    }

    /// An entity of the set for the next line to switch, now and then; then its columns are there.
    fn choose_switched(&mut self, prng: &mut Prng) -> Option<usize> {
        if !prng.chance(SWITCH_PERCENT) {
            return None;
        }
        let inside = (0..self.set.len()).filter(|&entity| self.set[entity]).collect();
        let entity = lines::to_switch(prng, self.plan, &self.present[0], inside)?;
        lines::complete(prng, self.plan, entity, &mut self.set_columns);
        Some(entity)
    }

    fn next(&mut self, prng: &mut Prng) -> Event {
        let to_switch = self.choose_switched(prng);
        let shared = lines::line_switching(prng, self.plan, &self.set_columns, &mut self.present[0], to_switch);
        for entity in (0..self.set.len()).filter(|&entity| self.set[entity]) {
            self.present[1][entity] = self.present[0][entity];
        }
        let sender = self.sender(prng);
        for run in 0..2 {
            let mut line = lines::line(prng, self.plan, &self.other_columns[run], &mut self.present[run]);
            line.columns.extend(shared.columns.iter());
            line.fields.extend(shared.fields.iter().cloned());
            self.senders[sender].last[run] = line;
        }
        self.senders[sender].number += 1;
        self.pair(prng, sender)
    }

    /// A call in one run that is refused whatever the bench is.
    fn aside(&self, prng: &mut Prng) -> Event {
        let run = prng.below(2);
        let Sending { name, number, last } = prng.pick(&self.senders);
        let plain = |sender: &[u8], number: u64| (b"by n".to_vec(), Line::default().values(sender, number));
        let reads = last[run].fields.iter().any(|field| field != "-");
        let lent = match prng.below(8) {
            0 => plain(name, 0),
            1 => plain(name, number + 2),
            2 => (b"by n".to_vec(), [name, &b" 01"[..]].concat()),
            3 => (b"by n n. ".to_vec(), plain(name, number + 1).1),
            4 => plain(&senders::ill_formed(prng, name), number + 1),
            // A ninth sender, or a number that does not come next.
            5 if self.known().len() == SENDERS_MOST => plain(b"zz_ninth", 1),
            // The last number, but nothing is read.
            6 if reads => plain(name, *number),
            _ => (last[run].names(self.plan), prng.bytes(9)),
        };
        Event::Aside(run, lent)
    }
}

// Judging a trial.

fn line_step((names, values): &Lent) -> Step {
    Step { call: Call::Line { names: names.clone(), values: values.clone() }, lent: EXACT }
}

/// The steps of one run.
fn steps(trial: &Trial, run: usize) -> Vec<Step> {
    let mut steps = vec![Step { call: Call::Check, lent: EXACT }, Step { call: Call::Fresh, lent: EXACT }];
    for event in &trial.events {
        match event {
            Event::Pair(pair) => steps.push(line_step(&pair[run])),
            Event::Aside(of, lent) if *of == run => steps.push(line_step(lent)),
            Event::Aside(..) => {}
        }
    }
    steps
}

pub fn judge(trial: &Trial) -> Verdict {
    let Ok(bench) = accept(&trial.text) else { return Verdict::Void("the bench is refused") };
    let find = |name: &Vec<u8>| bench.entity(name);
    let Some(set) = trial.set.iter().map(find).collect::<Option<Vec<usize>>>() else {
        return Verdict::Void("an entity of the set is missing");
    };
    let mut inside = vec![false; bench.entities.len()];
    set.iter().for_each(|&entity| inside[entity] = true);
    if close_once(&bench, &mut inside.clone()) {
        return Verdict::Void("the set is not closed");
    }
    let mut judge = Judge { trial, bench: &bench, inside, runs: runs(trial), sent: Vec::new(), shown: Shown::default() };
    match judge.run() {
        Ok(()) => Verdict::Holds(Box::new(judge.finish())),
        Err(verdict) => *verdict,
    }
}

fn runs(trial: &Trial) -> [Sides; 2] {
    // Each run gets other bytes at first: they must not matter.
    [Sides::new(&trial.text, trial.fill), Sides::new(&trial.text, trial.fill ^ 1)]
}

struct Judge<'a> {
    trial: &'a Trial,
    bench: &'a Bench<'a>,
    inside: Vec<bool>,
    runs: [Sides; 2],
    /// Who sent the new lines so far.
    sent: Vec<Vec<u8>>,
    shown: Shown,
}

/// Sender and number of a line.
fn head((_, values): &Lent) -> Vec<&[u8]> {
    values.split(|&byte| byte == b' ').take(2).collect()
}

impl Judge<'_> {
    fn run(&mut self) -> Result<(), Box<Verdict>> {
        for run in 0..2 {
            for step in steps(self.trial, run).iter().take(2) {
                self.step(run, step)?;
            }
        }
        for event in &self.trial.events {
            match event {
                Event::Pair(pair) => self.pair(pair)?,
                Event::Aside(run, lent) => {
                    if self.step(*run, &line_step(lent))? & 255 == 0 {
                        return Err(Box::new(Verdict::Void("a call meant to be refused is accepted")));
                    }
                }
            }
        }
        self.rows()
    }

    /// Asks for every sender's row, which must be the same on the set.
    fn rows(&mut self) -> Result<(), Box<Verdict>> {
        let states = [self.state(0)?, self.state(1)?];
        self.shown.senders = states[0].senders.len();
        for sender in &states[0].senders {
            let step = Step { call: Call::Row { sender: sender.name.clone() }, lent: EXACT };
            let answers = [self.step(0, &step)?, self.step(1, &step)?];
            self.compare(&states, answers, &sender.name)?;
        }
        Ok(())
    }

    fn step(&mut self, run: usize, step: &Step) -> Result<u64, Box<Verdict>> {
        match self.runs[run].step(step) {
            Ok(given) => Ok(given.unwrap_or(answer(0, 0))),
            Err(mismatch) => {
                let case = Case { text: self.trial.text.clone(), fill: self.trial.fill ^ run as u64, steps: steps(self.trial, run) };
                Err(Box::new(Verdict::Parts(case, mismatch)))
            }
        }
    }

    fn pair(&mut self, pair: &[Lent; 2]) -> Result<(), Box<Verdict>> {
        if head(&pair[0]) != head(&pair[1]) {
            return Err(Box::new(Verdict::Void("senders or numbers differ")));
        }
        let sender = head(&pair[0])[0].to_vec();
        let before = self.state(0)?;
        let first = self.step(0, &line_step(&pair[0]))?;
        let second = self.step(1, &line_step(&pair[1]))?;
        if first & 255 != 0 || second & 255 != 0 {
            return Err(Box::new(Verdict::Void("a line is not accepted in both runs")));
        }
        let states = [self.state(0)?, self.state(1)?];
        let Some(readings) = last_readings(&states, &sender) else {
            return Err(Box::new(Verdict::Fails(format!("{} is not known after its line", show_bytes(&sender)))));
        };
        if !self.same_readings(readings, true) {
            return Err(Box::new(Verdict::Void("the readings of the set differ")));
        }
        self.shown.differing |= !self.same_readings(readings, false);
        let fired = self.compare(&states, [first, second], &sender)?;
        self.shown.fired |= fired;
        self.shown.fired_joining |= fired && self.joins(&before, &states[0]);
        self.shown.pairs += 1;
        if number(&before, &sender) == number(&states[0], &sender) {
            self.again(sender, fired);
        } else {
            self.shown.gave_way |= self.gives_way(&before, readings[0]);
            self.sent.push(sender);
        }
        Ok(())
    }

    /// Whether in a new line with these readings a write to a cell of the set gives way to one of a higher rank.
    fn gives_way(&self, before: &State, readings: &Readings) -> bool {
        let (_, writes) = writes_of(RIGHT, self.bench, before, readings).expect("the machine never stops on an accepted bench");
        ranks::by_cell(&writes).iter().any(|(cell, writes)| self.inside[cell.0] && ranks::gives_way(writes))
    }

    /// Counts lines sent again.
    fn again(&mut self, sender: Vec<u8>, fired: bool) {
        let late = self.sent.last() != Some(&sender);
        self.shown.again += 1;
        self.shown.late += u64::from(late);
        self.shown.fired_late |= late && fired;
    }

    /// Whether an entity of the set was absent and came.
    fn joins(&self, before: &State, after: &State) -> bool {
        let came = |entity: usize| !before.now.present[entity] && after.now.present[entity];
        (0..self.inside.len()).any(|entity| self.inside[entity] && came(entity))
    }

    fn state(&self, run: usize) -> Result<State, Box<Verdict>> {
        let state = image::decode_state(self.bench, self.runs[run].state());
        state.ok_or_else(|| Box::new(Verdict::Fails("the engine left no state of the bench".into())))
    }

    /// Whether the readings of two lines agree inside the set, or outside it.
    fn same_readings(&self, readings: [&Readings; 2], inside: bool) -> bool {
        let same = |entity: usize| {
            let cells = readings[0].cells[entity].iter().zip(&readings[1].cells[entity]);
            readings[0].presence[entity] == readings[1].presence[entity] && cells.into_iter().all(|(a, b)| same_reading(*a, *b))
        };
        (0..self.inside.len()).filter(|&entity| self.inside[entity] == inside).all(same)
    }

    /// Compares values of the set, and its fired actions in the rows of a sender; gives whether any fired.
    fn compare(&self, states: &[State; 2], answers: [u64; 2], sender: &[u8]) -> Result<bool, Box<Verdict>> {
        let rows = [0, 1].map(|run| self.row(run, answers[run]));
        let mut column = 0;
        let mut fired = false;
        for entity in 0..self.inside.len() {
            let actions = self.bench.members_of(entity).iter().filter(|member| member.sort == Sort::Action).count();
            let fields = [&rows[0][column..column + actions], &rows[1][column..column + actions]];
            column += actions;
            if !self.inside[entity] {
                continue;
            }
            fired |= fields[0].iter().any(|field| field != b"-");
            let same_values =
                same_store(&states[0].now, &states[1].now, entity) && same_store(&states[0].before, &states[1].before, entity);
            if !same_values || fields[0] != fields[1] {
                let name = show_bytes(self.bench.entities[entity].name.text);
                let what = format!("entity {name} parts after {} pairs, in a row of {}", self.shown.pairs, show_bytes(sender));
                return Err(Box::new(Verdict::Fails(what)));
            }
        }
        Ok(fired)
    }

    /// The fields of the row that the engine wrote, without sender and number.
    fn row(&self, run: usize, answer: u64) -> Vec<Vec<u8>> {
        let row = &self.runs[run].row()[..(answer >> 8) as usize];
        row.split(|&byte| byte == b' ').skip(2).map(<[u8]>::to_vec).collect()
    }

    fn finish(mut self) -> Shown {
        self.shown.proper = self.inside.contains(&true) && self.inside.contains(&false);
        let at_set = |rule: &Rule| called(self.bench, rule).iter().any(|&entity| self.inside[entity]);
        self.shown.ranked = self.bench.rules.iter().any(|rule| rule.rank() > 0 && at_set(rule));
        self.runs.into_iter().for_each(|sides| self.shown.tally.add(&sides.tally()));
        self.shown
    }
}

/// A sender's last number, if it is known.
fn number(state: &State, sender: &[u8]) -> Option<u32> {
    state.sender(sender).map(|place| state.senders[place].number)
}

/// What the two states keep of a sender's readings, if both know it.
fn last_readings<'s>(states: &'s [State; 2], sender: &[u8]) -> Option<[&'s Readings; 2]> {
    let last = |state: &'s State| state.sender(sender).map(|place| &state.senders[place].last);
    Some([last(&states[0])?, last(&states[1])?])
}

fn same_reading(a: Reading, b: Reading) -> bool {
    match (a, b) {
        (Reading::NotRead, Reading::NotRead) | (Reading::Unset, Reading::Unset) => true,
        (Reading::Set(a), Reading::Set(b)) => Value::same_bits(a, b),
        _ => false,
    }
}

fn same_cell(a: Cell, b: Cell) -> bool {
    match (a, b) {
        (None, None) => true,
        (Some(a), Some(b)) => a.same_bits(b),
        _ => false,
    }
}

fn same_store(a: &Store, b: &Store, entity: usize) -> bool {
    let cells = a.cells[entity].iter().zip(&b.cells[entity]);
    a.present[entity] == b.present[entity] && cells.into_iter().all(|(a, b)| same_cell(*a, *b))
}

// Showing a trial that fails.

/// A smaller trial that still fails: fewer rules, entities and words.
pub fn smaller(trial: &Trial) -> Trial {
    let fails = |trial: &Trial| matches!(judge(trial), Verdict::Fails(_));
    let mut best = trial.clone();
    best.events = thin::thin(best.events.clone(), &mut |events| fails(&Trial { events: events.to_vec(), ..trial.clone() }));
    let base = best.clone();
    best.text = thin::smaller_text(&best.text, &mut |text| fails(&Trial { text: text.to_vec(), ..base.clone() }));
    best
}

pub fn show(trial: &Trial) -> String {
    let set: Vec<String> = trial.set.iter().map(|name| show_bytes(name)).collect();
    let mut shown = format!("bench text: [{}]\nclosed set: {}\n", show_bytes(&trial.text), set.join(" "));
    for run in 0..2 {
        for step in steps(trial, run) {
            shown.push_str(&format!("run {run}: {}\n", show_step(&step)));
        }
    }
    shown
}

//! Rules at rest: benches whose conditions read in every way, lines that move little, and calls that ask which rules are tried between two
//! states of a run, near ones, unreachable ones and damaged ones.

use super::bench::{self, Plan, PlanEntity, PlanInterface, PlanMember, KINDS};
use super::case::{Call, Case, Lent, Step, EXACT, LONGER_MOST};
use super::lines::{self, Column, Line};
use super::prng::Prng;
use super::run::Run;
use super::{odd_image, ranks, senders, set_bench, spoils, states};
use crate::image::{self, state_bytes, state_image, BENCH_SIZE, COUNT_AT, STATE_SIZE, TRIED_SIZE};
use crate::interpreter::accept;
use crate::interpreter::grammar::{Bench, Sort};
use crate::interpreter::machine::{State, Store};
use crate::interpreter::value::{Kind, Value};
use crate::memory::{Memory, OURS};

/// These cases are drawn from a source of their own.
const RESTS: u64 = 0x7265_7374_0000;

/// So many of a hundred benches have more rules than half a set holds.
const MANY_RULES_PERCENT: usize = 4;

/// The case of this number: a run of lines that move little, then calls that ask which rules are tried.
pub fn case(seed: u64, number: u64) -> Case {
    let mut prng = Prng::for_case(seed ^ RESTS, number);
    let prng = &mut prng;
    let plan = plan(prng);
    let text = bench::render(prng, &plan.words);
    let mut quiet = Quiet::new(prng, &plan);
    let mut calls = vec![Call::Check, Call::Fresh];
    calls.extend((0..prng.between(4, 12)).map(|_| quiet.call(prng)));
    let steps = calls.into_iter().map(|call| Step { call, lent: EXACT }).collect();
    let mut case = Case { text, fill: prng.draw(), steps };
    let images = images(&case);
    for _ in 0..prng.between(1, 4) {
        let asked = asked(prng, &case.text, &images);
        case.steps.extend(asked);
    }
    case
}

/// The images of the states that a run goes through.
fn images(case: &Case) -> Vec<Vec<u8>> {
    let entities = accept(&case.text).expect("generated benches are valid").entities.len();
    let mut memory = Memory::new(case.fill);
    let mut images: Vec<Vec<u8>> = Vec::new();
    for step in &case.steps {
        OURS.answer(&case.text, step, &mut memory);
        if !matches!(step.call, Call::Check) {
            let image = &memory.state[..state_bytes(entities, usize::from(memory.state[COUNT_AT]))];
            if images.last().is_none_or(|last| last != image) {
                images.push(image.to_vec());
            }
        }
    }
    images
}

// Benches.

/// Two interfaces with entities, and one without.
const WITHOUT: usize = 2;

fn plan(prng: &mut Prng) -> Plan {
    let main = KINDS[prng.weighted(&[35, 20, 45])];
    let names = bench::distinct_names(prng, 3, &[]);
    let interfaces = names.into_iter().map(|name| PlanInterface { name, members: members(prng, main) }).collect();
    let (first, second) = (prng.between(1, 3), prng.between(1, 2));
    let names = bench::distinct_names(prng, first + second, &[]);
    let entity = |(at, name): (usize, String)| PlanEntity { name, interface: usize::from(at >= first) };
    let mut plan = Plan { interfaces, entities: names.into_iter().enumerate().map(entity).collect(), ..Plan::default() };
    let mut words = bench::interface_words(&plan);
    words.extend(bench::entity_words(prng, &plan));
    words.push("rules".into());
    let count = if prng.chance(MANY_RULES_PERCENT) { *prng.pick(&[33, 40, 64, 64]) } else { prng.between(1, 6) };
    (0..count).for_each(|_| words.extend(rule(prng, &plan)));
    words.push("end".into());
    ranks::put_in(&mut prng.aside(), &mut words);
    plan.words = words;
    plan
}

/// Mostly of one kind, so that anything can be compared with anything.
fn members(prng: &mut Prng, main: Kind) -> Vec<PlanMember> {
    let counts = [prng.between(1, 2), prng.between(1, 2), prng.between(1, 2)];
    let names = bench::distinct_names(prng, counts.iter().sum(), &[]);
    let sorts = [Sort::Attribute, Sort::Event, Sort::Action];
    let sorts = sorts.into_iter().zip(counts).flat_map(|(sort, count)| std::iter::repeat_n(sort, count));
    let kind = |prng: &mut Prng| if prng.chance(80) { main } else { *prng.pick(&KINDS) };
    names.into_iter().zip(sorts).map(|(name, sort)| PlanMember { sort, name, kind: kind(prng) }).collect()
}

/// Something that a rule can read at or call on.
#[derive(Clone)]
struct Owner {
    name: String,
    interface: usize,
    /// Whether the place that names it declares it.
    declares: bool,
}

/// A rule's names: the entities, the variables of its clauses, those of its calls.
struct Names<'p> {
    plan: &'p Plan,
    entities: Vec<Owner>,
    clause: Vec<Owner>,
    call: Vec<Owner>,
}

fn rule(prng: &mut Prng, plan: &Plan) -> Vec<String> {
    let taken: Vec<String> = plan.entities.iter().map(|entity| entity.name.clone()).collect();
    let entity = |entity: &PlanEntity| Owner { name: entity.name.clone(), interface: entity.interface, declares: false };
    let (of_clause, of_call) = (prng.weighted(&[65, 30, 5]), prng.weighted(&[50, 50]));
    let mut variables = bench::distinct_names(prng, of_clause + of_call, &taken).into_iter().map(|name| {
        let interface = if prng.chance(8) { WITHOUT } else { prng.below(WITHOUT) };
        Owner { name, interface, declares: true }
    });
    let clause: Vec<Owner> = variables.by_ref().take(of_clause).collect();
    let call: Vec<Owner> = variables.collect();
    Names { plan, entities: plan.entities.iter().map(entity).collect(), clause, call }.rule(prng)
}

impl Names<'_> {
    fn rule(&self, prng: &mut Prng) -> Vec<String> {
        let clauses: Vec<Vec<String>> = self.targets(prng, &self.clause).iter().map(|target| self.clause(prng, target)).collect();
        let calls: Vec<Vec<String>> = self.targets(prng, &self.call).iter().map(|target| self.trigger(prng, target)).collect();
        let mut words = vec!["when".to_string()];
        for (at, clause) in clauses.into_iter().enumerate() {
            if at > 0 {
                words.push(prng.pick(&["and", "or", "or"]).to_string());
            }
            words.extend(clause);
        }
        words.push("trigger".into());
        words.extend(calls.join(&",".to_string()));
        words.push("end".into());
        words
    }

    /// The places of clauses, or of calls: each variable that they declare, then others.
    fn targets(&self, prng: &mut Prng, declared: &[Owner]) -> Vec<Owner> {
        let mut targets = declared.to_vec();
        for _ in 0..if targets.is_empty() { prng.weighted(&[0, 75, 25]) } else { prng.weighted(&[70, 30]) } {
            targets.push(self.someone(prng));
        }
        targets
    }

    fn bare<'o>(owners: &'o [Owner]) -> impl Iterator<Item = Owner> + 'o {
        owners.iter().map(|owner| Owner { declares: false, ..owner.clone() })
    }

    /// Anything with a name; those that only calls declare not seldom.
    fn someone(&self, prng: &mut Prng) -> Owner {
        let [entities, clause, call] = [&self.entities, &self.clause, &self.call].map(|owners| Self::bare(owners).collect::<Vec<_>>());
        match prng.weighted(&[50, 20, 30]) {
            1 if !clause.is_empty() => prng.pick(&clause).clone(),
            2 if !call.is_empty() => prng.pick(&call).clone(),
            _ => prng.pick(&entities).clone(),
        }
    }

    fn members(&self, owner: &Owner, sort: Sort) -> Vec<&PlanMember> {
        self.plan.interfaces[owner.interface].members.iter().filter(|member| member.sort == sort).collect()
    }

    fn clause(&self, prng: &mut Prng, target: &Owner) -> Vec<String> {
        let sort = if prng.chance(30) { Sort::Action } else { Sort::Event };
        let event = *prng.pick(&self.members(target, sort));
        let mut words = Vec::new();
        bench::push(&mut words, &["event", &event.name, "from"]);
        self.place(prng, target, 50, &mut words);
        words.push("value".into());
        if prng.chance(35) {
            words.push("changed".into());
        } else {
            words.push("=".into());
            words.extend(self.sum(prng, event.kind));
        }
        words
    }

    fn trigger(&self, prng: &mut Prng, target: &Owner) -> Vec<String> {
        let action = *prng.pick(&self.members(target, Sort::Action));
        let mut words = Vec::new();
        bench::push(&mut words, &["action", &action.name, "("]);
        words.extend(self.sum(prng, action.kind));
        bench::push(&mut words, &[")", "on"]);
        self.place(prng, target, 20, &mut words);
        words
    }

    /// A place, so many times in a hundred with a filter.
    fn place(&self, prng: &mut Prng, target: &Owner, percent: usize, words: &mut Vec<String>) {
        words.push(target.name.clone());
        if target.declares {
            bench::push(words, &[":", &self.plan.interfaces[target.interface].name]);
        }
        if !prng.chance(percent) {
            return;
        }
        let attribute = *prng.pick(&self.members(target, Sort::Attribute));
        bench::push(words, &["with", &attribute.name, "="]);
        words.extend(if prng.chance(25) { member_of(target, attribute) } else { self.sum(prng, attribute.kind) });
    }

    /// A member of anybody mostly, now and then a literal or two members.
    fn sum(&self, prng: &mut Prng, kind: Kind) -> Vec<String> {
        match prng.weighted(&[60, 25, 15]) {
            0 => self.member(prng, kind),
            2 if kind != Kind::Bool => {
                let operator = prng.pick(&["+", "-", "*", "/"]).to_string();
                [self.member(prng, kind), vec![operator], self.member(prng, kind)].concat()
            }
            _ => vec![bench::literal(prng, kind)],
        }
    }

    /// A member of this kind, of any sort; a literal if the one that is asked has none.
    fn member(&self, prng: &mut Prng, kind: Kind) -> Vec<String> {
        let owner = self.someone(prng);
        let sort = [Sort::Event, Sort::Attribute, Sort::Action][prng.weighted(&[45, 35, 20])];
        let fitting: Vec<&PlanMember> = self.members(&owner, sort).into_iter().filter(|member| member.kind == kind).collect();
        match fitting.is_empty() {
            true => vec![bench::literal(prng, kind)],
            false => member_of(&owner, fitting[prng.below(fitting.len())]),
        }
    }
}

fn member_of(owner: &Owner, member: &PlanMember) -> Vec<String> {
    vec![owner.name.clone(), ".".into(), member.name.clone()]
}

// Lines.

/// A run whose lines mostly say what is known already.
struct Quiet<'p> {
    plan: &'p Plan,
    run: Run<'p>,
    /// The events that lines read. Others never do, so that of some clauses only what they compare with moves.
    events: Vec<Column>,
    /// What each event reads now.
    held: Vec<Vec<Option<String>>>,
}

impl<'p> Quiet<'p> {
    fn new(prng: &mut Prng, plan: &'p Plan) -> Quiet<'p> {
        let mut events = lines::all_columns(plan);
        let percent = *prng.pick(&[100, 80, 50]);
        events.retain(|column| matches!(column, Column::Event(..)) && prng.chance(percent));
        let count = prng.between(1, 3);
        let names = senders::some(prng, plan, count);
        let held = (0..plan.entities.len()).map(|entity| vec![None; plan.members(entity).len()]).collect();
        Quiet { plan, run: Run::with(plan, events.clone(), names), events, held }
    }

    fn call(&mut self, prng: &mut Prng) -> Call {
        self.run.pass(prng);
        let (names, values) = match prng.weighted(&[88, 6, 2, 2, 2]) {
            0 => self.next(prng),
            1 => self.run.resent(prng),
            2 => self.run.other_readings(prng),
            3 => self.run.bad_field(prng),
            _ => self.run.other_number(prng),
        };
        Call::Line { names, values }
    }

    fn next(&mut self, prng: &mut Prng) -> (Vec<u8>, Vec<u8>) {
        let mut present = self.run.present.clone();
        let mut line = Line::default();
        self.moving(prng, &mut present, &mut line);
        self.filling(prng, &present, &mut line);
        for (column, field) in line.columns.iter().zip(&line.fields) {
            self.hold(*column, field);
        }
        let names = line.names(self.plan);
        (names, self.run.go_on(line, present))
    }

    /// What the line shall move.
    fn moving(&self, prng: &mut Prng, present: &mut [bool], line: &mut Line) {
        let there: Vec<Column> = self.events.iter().copied().filter(|column| present[column.entity()]).collect();
        match prng.weighted(&[12, 20, 18, 16, 26, 8]) {
            // Nothing.
            0 => {}
            // One cell, one device, or all.
            1 if !there.is_empty() => {
                let column = *prng.pick(&there);
                self.read(prng, column, line);
            }
            2 if !there.is_empty() => {
                let device = prng.pick(&there).entity();
                there.into_iter().filter(|column| column.entity() == device).for_each(|column| self.read(prng, column, line));
            }
            3 => self.turn_zeros(prng, &there, line),
            4 => self.switch(prng, present, line),
            _ => there.into_iter().for_each(|column| self.read(prng, column, line)),
        }
    }

    fn read(&self, prng: &mut Prng, column: Column, line: &mut Line) {
        let field = if prng.chance(10) { "?".into() } else { self.value(prng, column) };
        put(line, column, field);
    }

    /// A value of few, so that one often comes again.
    fn value(&self, prng: &mut Prng, column: Column) -> String {
        match self.kind(column) {
            Kind::Bool => prng.chance(50).to_string(),
            Kind::Whole => prng.below(3).to_string(),
            Kind::Real => format!("{:016x}", prng.pick(&[0.0_f64, -0.0, 1.0]).to_bits()),
        }
    }

    fn kind(&self, column: Column) -> Kind {
        match column {
            Column::Event(entity, member) => self.plan.members(entity)[member].kind,
            Column::Presence(_) => Kind::Bool,
        }
    }

    /// The other zero wherever one is read; where none is, a zero.
    fn turn_zeros(&self, prng: &mut Prng, there: &[Column], line: &mut Line) {
        let reals: Vec<Column> = there.iter().copied().filter(|&column| self.kind(column) == Kind::Real).collect();
        let is_zero =
            |column: &Column| self.held(*column).is_some_and(|field| field.trim_start_matches('8').bytes().all(|byte| byte == b'0'));
        let zeros: Vec<Column> = reals.iter().copied().filter(is_zero).collect();
        for column in zeros.iter().filter(|_| prng.chance(75)) {
            put(line, *column, lines::negated(self.held(*column).expect("a zero")));
        }
        if zeros.is_empty() && !reals.is_empty() {
            put(line, *prng.pick(&reals), "8000000000000000".into());
        }
    }

    /// Somebody who is away comes, with readings or without; else somebody goes.
    fn switch(&self, prng: &mut Prng, present: &mut [bool], line: &mut Line) {
        let away: Vec<usize> = (0..present.len()).filter(|&entity| !present[entity]).collect();
        let entity = if away.is_empty() || prng.chance(25) { prng.below(present.len()) } else { *prng.pick(&away) };
        present[entity] = !present[entity];
        put(line, Column::Presence(entity), present[entity].to_string());
        if present[entity] && prng.chance(50) {
            let own = self.events.iter().filter(|column| column.entity() == entity);
            own.for_each(|&column| self.read(prng, column, line));
        }
    }

    /// What is known already: said again, said by `-`, or not at all.
    fn filling(&self, prng: &mut Prng, present: &[bool], line: &mut Line) {
        let way = prng.below(4);
        for &column in self.events.iter().filter(|column| present[column.entity()]) {
            if line.columns.contains(&column) {
                continue;
            }
            match way {
                0 => put(line, column, "-".into()),
                1 => put(line, column, self.held(column).unwrap_or("?").into()),
                2 if prng.chance(50) => put(line, column, self.held(column).unwrap_or("-").into()),
                _ => {}
            }
        }
        if prng.chance(20) {
            let entity = prng.below(present.len());
            if !line.columns.contains(&Column::Presence(entity)) {
                put(line, Column::Presence(entity), present[entity].to_string());
            }
        }
    }

    fn held(&self, column: Column) -> Option<&str> {
        match column {
            Column::Event(entity, member) => self.held[entity][member].as_deref(),
            Column::Presence(_) => None,
        }
    }

    fn hold(&mut self, column: Column, field: &str) {
        match (column, field) {
            (Column::Presence(entity), "false") => self.held[entity].fill(None),
            (Column::Presence(_), _) | (_, "-") => {}
            (Column::Event(entity, member), "?") => self.held[entity][member] = None,
            (Column::Event(entity, member), _) => self.held[entity][member] = Some(field.into()),
        }
    }
}

fn put(line: &mut Line, column: Column, field: String) {
    line.columns.push(column);
    line.fields.push(field);
}

// Calls that ask for the rules.

/// A call that asks which rules are tried between two images, now and then in memory whose bench is none; then it is put back.
fn asked(prng: &mut Prng, text: &[u8], images: &[Vec<u8>]) -> Vec<Step> {
    let bench = accept(text).expect("generated benches are valid");
    let (before, after) = pair(prng, &bench, images);
    let odd = prng.chance(9);
    let over = over(prng, if odd { 30 } else { 9 });
    let lent = Lent { bench: EXACT.bench.saturating_add_signed(over[3]), ..EXACT };
    let asked = Step { call: Call::Tried { before, after, over: [over[0], over[1], over[2]] }, lent };
    if !odd {
        return vec![asked];
    }
    let set = |call: Call| Step { call, lent: EXACT };
    vec![set(odd_image(prng, text)), asked, set(set_bench(text))]
}

/// By how many bytes the memories of the two states, of the set and of the bench are longer than stated; one of them is shorter, so many
/// times in a hundred.
fn over(prng: &mut Prng, short_percent: usize) -> [isize; 4] {
    let longer = if prng.chance(40) { LONGER_MOST } else { 0 };
    let mut over = [0; 4].map(|_: isize| prng.below(longer + 1) as isize);
    if prng.chance(short_percent) {
        let at = prng.below(4);
        let most = [STATE_SIZE, STATE_SIZE, TRIED_SIZE, BENCH_SIZE][at];
        let short = if prng.chance(60) { 1 } else { prng.between(1, most) };
        over[at] = -(short as isize);
    }
    over
}

/// Two images: mostly states of the run in any order, often nearly the same, now and then none.
fn pair(prng: &mut Prng, bench: &Bench, images: &[Vec<u8>]) -> (Vec<u8>, Vec<u8>) {
    let some = |prng: &mut Prng| prng.pick(images).clone();
    let (mut before, mut after) = match prng.weighted(&[40, 35, 15, 5, 5]) {
        0 => (some(prng), some(prng)),
        1 => {
            let image = some(prng);
            let near = near(prng, bench, &image);
            (image, near)
        }
        2 => (any(prng, bench), any(prng, bench)),
        3 => (some(prng), any(prng, bench)),
        _ => {
            let image = some(prng);
            (image.clone(), image)
        }
    };
    if prng.chance(50) {
        std::mem::swap(&mut before, &mut after);
    }
    let which = prng.weighted(&[82, 7, 7, 4]);
    if which & 1 == 1 {
        before = damaged(prng, bench, before);
    }
    if which & 2 == 2 {
        after = damaged(prng, bench, after);
    }
    (before, after)
}

fn any(prng: &mut Prng, bench: &Bench) -> Vec<u8> {
    state_image(bench, &states::random_state(prng, bench))
}

/// Most are no state any more.
fn damaged(prng: &mut Prng, bench: &Bench, image: Vec<u8>) -> Vec<u8> {
    match prng.below(8) {
        0 => prng.bytes(image.len()),
        1 => image[..prng.below(image.len())].to_vec(),
        _ => spoils::spoilt(prng, bench, image),
    }
}

/// The state with one or two cells or presences of one of its stores otherwise; what the rules saw last rather than what is now.
fn near(prng: &mut Prng, bench: &Bench, image: &[u8]) -> Vec<u8> {
    let Some(mut state) = image::decode_state(bench, image) else { return image.to_vec() };
    for _ in 0..prng.between(1, 2) {
        let State { now, before, .. } = &mut state;
        let is_now = prng.chance(15);
        nudge(prng, bench, if is_now { now } else { before }, is_now);
    }
    state_image(bench, &state)
}

fn nudge(prng: &mut Prng, bench: &Bench, store: &mut Store, is_now: bool) {
    let entity = prng.below(bench.entities.len());
    let members = bench.members_of(entity);
    if prng.chance(25) || members.is_empty() {
        // Who was absent before the first line has attributes that are not set.
        let unset = members.iter().zip(&store.cells[entity]).any(|(member, cell)| member.sort == Sort::Attribute && cell.is_none());
        store.present[entity] = !store.present[entity] && !unset;
        return;
    }
    let member = prng.below(members.len());
    let must_be_set = members[member].sort == Sort::Attribute && (is_now || store.present[entity]);
    let cell = &mut store.cells[entity][member];
    *cell = match *cell {
        Some(Value::Real(value)) if value == 0.0 && prng.chance(70) => Some(Value::Real(-value)),
        Some(_) if !must_be_set && prng.chance(40) => None,
        _ => Some(match members[member].kind {
            Kind::Bool => Value::Bool(prng.chance(50)),
            Kind::Whole => Value::Whole(prng.below(3) as i32),
            Kind::Real => Value::Real(*prng.pick(&[0.0, -0.0, 1.0])),
        }),
    };
}

//! Rules at rest: wrong ways to tell them, each with one flaw, are told from the right one by the lines of the generator, and by the pairs
//! of states that its calls ask about.

use second::cycles::Cycle;
use second::generate;
use second::generate::case::Call;
use second::image::decode_state;
use second::interpreter::accept;
use second::interpreter::grammar::{Bench, Sort};
use second::interpreter::machine::{State, Store};
use second::interpreter::rest::{reads, tried, tried_between, By, Part, Read, Way, RIGHT};
use second::interpreter::value::Cell;
use second::memory::{Memory, Tally, OURS};
use second::rests;

const SEED: u64 = 3;
/// So many cases must show every flaw; a run has several times as many.
const CASES: u64 = 500;

/// The rules that are tried between two states.
type Tried = fn(&Bench, &State, &State) -> u64;

/// The right way with other reads.
fn counting(bench: &Bench, before: &State, after: &State, counts: &dyn Fn(&Read) -> bool) -> u64 {
    Way { counts, ..RIGHT }.tried(bench, &after.before, &before.before)
}

/// The right way with another comparison.
fn moving(bench: &Bench, before: &State, after: &State, moved: &dyn Fn(Cell, Cell) -> bool) -> u64 {
    Way { moved, ..RIGHT }.tried(bench, &after.before, &before.before)
}

/// The right way without the reads of a condition that are not wanted.
fn only(bench: &Bench, before: &State, after: &State, wanted: fn(&Read) -> bool) -> u64 {
    counting(bench, before, after, &|read| (RIGHT.counts)(read) && wanted(read))
}

fn same_bits(now: Cell, before: Cell) -> bool {
    match (now, before) {
        (Some(now), Some(before)) => now.same_bits(before),
        (now, before) => now.is_none() && before.is_none(),
    }
}

/// Cells of absent entities read as what they hold.
fn held(bench: &Bench, before: &State, after: &State) -> u64 {
    let cell = |store: &Store, (entity, member): (usize, usize)| store.cells[entity][member];
    Way { cell: &cell, ..RIGHT }.tried(bench, &after.before, &before.before)
}

/// Of those that a variable stands for only the first is read.
fn first_entity_alone(bench: &Bench, before: &State, after: &State) -> u64 {
    let first = |read: &Read| {
        let interface = bench.entities[read.cell.0].interface.text;
        bench.entities.iter().position(|entity| entity.interface.text == interface) == Some(read.cell.0)
    };
    counting(bench, before, after, &|read| (RIGHT.counts)(read) && (read.by == By::Itself || first(read)))
}

/// The rules one of whose reads moves as somebody sees it.
fn each_rule(bench: &Bench, tried: impl Fn(&[Read]) -> bool) -> u64 {
    let condition = |rule: usize| reads(bench, &bench.rules[rule]).into_iter().filter(RIGHT.counts).collect::<Vec<Read>>();
    (0..bench.rules.len()).filter(|&rule| tried(&condition(rule))).fold(0, |set, rule| set | 1 << rule)
}

/// Only entities that are there now are looked at.
fn present_alone(bench: &Bench, before: &State, after: &State) -> u64 {
    let moves = |read: &Read| after.before.present[read.cell.0] && RIGHT.moves(read, &after.before, &before.before);
    each_rule(bench, |reads| reads.iter().any(moves))
}

/// A rule is tried if an entity that it reads has moved in any cell.
fn by_entity(bench: &Bench, before: &State, after: &State) -> u64 {
    let cells = |entity: usize| (0..bench.members_of(entity).len()).map(move |member| (entity, member));
    let read = |cell: (usize, usize)| ((RIGHT.cell)(&after.before, cell), (RIGHT.cell)(&before.before, cell));
    let moved = |entity: usize| cells(entity).map(read).any(|(now, before)| (RIGHT.moved)(now, before));
    each_rule(bench, |reads| reads.iter().any(|read| moved(read.cell.0)))
}

/// A rule is tried only if all that it reads has moved.
fn all_moved(bench: &Bench, before: &State, after: &State) -> u64 {
    each_rule(bench, |reads| reads.iter().all(|read| RIGHT.moves(read, &after.before, &before.before)))
}

fn is_action(bench: &Bench, read: &Read) -> bool {
    bench.members_of(read.cell.0)[read.cell.1].sort == Sort::Action
}

fn every_rule(bench: &Bench) -> u64 {
    each_rule(bench, |_| true)
}

/// Every flaw, and how many cases at least must show it: by their lines, and by the pairs of states that are asked about.
const FLAWS: [(&str, Tried, [usize; 2]); 22] = [
    ("no filter's attribute", |bench, a, b| only(bench, a, b, |read| read.part != Part::Attribute), [220, 70]),
    ("no filter's expression", |bench, a, b| only(bench, a, b, |read| read.part != Part::Filter), [95, 40]),
    ("no event", |bench, a, b| only(bench, a, b, |read| read.part != Part::Event), [270, 170]),
    ("no expression after `value =`", |bench, a, b| only(bench, a, b, |read| read.part != Part::Test), [170, 70]),
    ("the calls' reads too", |bench, a, b| counting(bench, a, b, &|_| true), [260, 110]),
    ("no variable of a call", |bench, a, b| only(bench, a, b, |read| read.by != By::OfCall), [140, 75]),
    ("no variable of a clause", |bench, a, b| only(bench, a, b, |read| read.by != By::OfClause), [220, 135]),
    ("no action", |bench, a, b| counting(bench, a, b, &|read| (RIGHT.counts)(read) && !is_action(bench, read)), [80, 70]),
    ("the first entity of an interface alone", first_entity_alone, [140, 65]),
    ("bit by bit", |bench, a, b| moving(bench, a, b, &|now, before| !same_bits(now, before)), [70, 8]),
    ("unset moves", |bench, a, b| moving(bench, a, b, &|now, before| now.is_none() || (RIGHT.moved)(now, before)), [390, 310]),
    (
        "to and from unset is no move",
        |bench, a, b| moving(bench, a, b, &|now, before| now.is_some() && before.is_some() && (RIGHT.moved)(now, before)),
        [375, 255],
    ),
    ("the stores after the actions", |bench, a, b| tried(bench, &b.now, &a.now), [330, 175]),
    ("against the store after the actions", |bench, a, b| tried(bench, &b.before, &a.now), [330, 150]),
    ("against what the rules saw in this cycle", |bench, _, b| tried(bench, &b.now, &b.before), [375, 240]),
    ("absent entities' cells as they are", held, [190, 120]),
    ("entities that are there alone", present_alone, [210, 100]),
    ("by entity", by_entity, [360, 190]),
    ("all must have moved", all_moved, [370, 260]),
    ("all rules", |bench, _, _| every_rule(bench), [395, 320]),
    ("those that rest", |bench, a, b| every_rule(bench) & !tried_between(bench, a, b), [400, 365]),
    ("the first 32 rules alone", |bench, a, b| tried_between(bench, a, b) & 0xffff_ffff, [14, 13]),
];

/// Looks at each line of a case that starts a cycle, and at each pair of states that is asked about.
fn look(number: u64, tally: &mut Tally, mut see: impl FnMut(usize, &Bench, &State, &State)) {
    let case = generate::rests::case(SEED, number);
    let bench = accept(&case.text).expect("generated benches are valid");
    let mut memory = Memory::new(case.fill);
    for step in &case.steps {
        memory.lend(step);
        let before = memory.clone();
        let answer = OURS.answer(&case.text, step, &mut memory);
        tally.count(&case.text, step, answer, &before, &memory);
        let Some(answer) = answer.filter(|answer| answer & 255 == 0) else { continue };
        if let Some(cycle) = Cycle::of(step, answer, &before, &memory) {
            see(0, &bench, &cycle.before, &cycle.after);
        }
        if let Call::Tried { before, after, .. } = &step.call {
            let [before, after] = [before, after].map(|image| decode_state(&bench, image));
            if let (Some(before), Some(after)) = (before, after) {
                see(1, &bench, &before, &after);
            }
        }
    }
}

/// Catches a generator whose cases do not show some flaw, or that no longer tries some sort of rest.
#[test]
fn cases_tell_every_flaw() {
    let mut told = [[0; 2]; FLAWS.len()];
    let mut tally = Tally::default();
    for number in 0..CASES {
        let mut found = [[false; 2]; FLAWS.len()];
        look(number, &mut tally, |by, bench, before, after| {
            let right = tried_between(bench, before, after);
            for (found, (_, wrong, _)) in found.iter_mut().zip(FLAWS) {
                found[by] = found[by] || wrong(bench, before, after) != right;
            }
        });
        for (count, found) in told.iter_mut().flatten().zip(found.iter().flatten()) {
            *count += usize::from(*found);
        }
    }
    for ((name, _, least), count) in FLAWS.iter().zip(told) {
        println!("{name}: {count:?} of {least:?}");
    }
    for ((name, _, least), count) in FLAWS.iter().zip(told) {
        assert!(
            count[0] >= least[0] && count[1] >= least[1],
            "{name}: told by the lines of {} cases, by the pairs of {}",
            count[0],
            count[1]
        );
    }
    assert_eq!(tally.rests.lacking(rests::required(), 3), []);
}

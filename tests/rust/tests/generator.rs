//! The generator itself: its valid benches are accepted, its cases draw every answer of the table, have bytes of every class at every kind
//! of place, try ranks in every way, and tell machines that read clause filters in the wrong cycle, divide wholes by another rule or let
//! other writes stand from the right one, a seed makes a case again. Its sheets are tried in tests/wrong_sheets.rs, what it does with
//! senders in tests/wrong_senders.rs, its texts with ranks in tests/wrong_ranks.rs, its calls for names in tests/wrong_names.rs, its rules
//! at rest in tests/wrong_rests.rs.

use second::generate::bench::{bench, render, LARGE, LOOSE, SMALL};
use second::generate::case::{Call, Case};
use second::generate::prng::Prng;
use second::generate::states::odd_state;
use second::image::{decode_bench, decode_state, state_bytes, state_image, store_at, COUNT_AT};
use second::interpreter::accept;
use second::interpreter::grammar::{Bench, Sort};
use second::interpreter::machine::{cycle_of, fresh, standing, writes_of, Given, Sender, Standing, Stands, State, Variant, Write, RIGHT};
use second::interpreter::row::row_of;
use second::interpreter::value::{quotient, whole, Cell};
use second::memory::{self, Memory, Tally, NUMBERS, OURS};
use second::resent::Seen;
use second::{generate, ranks, show};
use std::cell::RefCell;
use std::cmp::Reverse;
use std::collections::BTreeSet;

#[test]
fn valid_benches_are_accepted() {
    let mut prng = Prng::new(1);
    for round in 0..300 {
        let plan = bench(&mut prng, [SMALL, LARGE, LOOSE][round % 3]);
        let text = render(&mut prng, &plan.words);
        assert!(accept(&text).is_ok(), "{}", show::show_bytes(&text));
    }
}

/// Catches a generator whose damage no longer damages, or damages all: one that never lends short memory (no 31), that puts a fault into
/// every bench (no line is taken, so 21 to 25 are gone), whose lines of names are all ill formed (nothing but 22), whose readings never
/// turn a condition true (no line fires).
#[test]
fn cases_draw_every_answer() {
    let mut tally = Tally::default();
    for number in 0..3_000 {
        tally.add(&memory::answers(&generate::case(3, number)));
    }
    for number in NUMBERS {
        let count = tally.answers.get(&number).copied().unwrap_or(0);
        assert!(count >= 15, "{number} was answered {count} times");
    }
    let taken = tally.answers[&0];
    assert!(taken * 4 > tally.calls, "only {taken} of {} calls were accepted", tally.calls);
    assert!(tally.fired * 20 > taken, "only {} of {taken} accepted calls fired", tally.fired);
}

/// The sender whose line leads from one state to another: the only one with another number.
fn sender<'s>(before: &State, after: &'s State) -> Option<&'s Sender> {
    let number = |sender: &Sender| before.sender(&sender.name).map_or(0, |place| before.senders[place].number);
    after.senders.iter().find(|sender| number(sender) != sender.number)
}

/// Hands on each line that is taken and not resent: the bench, and the states before and after it.
fn each_cycle(case: &Case, mut look: impl FnMut(&Bench, &State, &State)) {
    let mut memory = Memory::new(case.fill);
    for step in &case.steps {
        let state = memory.state.clone();
        let answer = OURS.answer(&case.text, step, &mut memory);
        if !matches!(step.call, Call::Line { .. }) || answer.is_none_or(|answer| answer & 255 != 0) {
            continue;
        }
        let bench = accept(decode_bench(&memory.bench).expect("a bench's text")).expect("a checked bench");
        let [before, after] = [&state, &memory.state].map(|bytes| decode_state(&bench, bytes).expect("a state of the bench"));
        if sender(&before, &after).is_some() {
            look(&bench, &before, &after);
        }
    }
}

/// Whether a wrong machine gives another row to the line between two states, from the state that the right one is in.
fn other_row(wrong: Variant, bench: &Bench, before: &State, after: &State) -> bool {
    let Sender { name, number, last, .. } = sender(before, after).expect("a line between two states");
    let wrong = cycle_of(wrong, bench, before, Given { sender: name, number: *number, readings: last });
    row_of(bench, &wrong.expect("the machine never stops on an accepted bench"), name) != row_of(bench, after, name)
}

/// How a case tells a machine whose clause filters read the cycle before, as document 01 had them, from the right one.
#[derive(Default)]
struct LateFilters {
    /// Some line gets another row.
    shown: bool,
    /// And would get another row if only filters at entities that come in that line were late.
    at_joining: bool,
    /// And would if only filters at entities that were there one cycle before were late: their attributes are as they were, so what
    /// differs is read by the filter's sum.
    at_staying: bool,
}

impl LateFilters {
    fn of(case: &Case) -> LateFilters {
        let mut found = LateFilters::default();
        each_cycle(case, |bench, before, after| found.look(bench, before, after));
        found
    }

    fn look(&mut self, bench: &Bench, before: &State, after: &State) {
        let other_row = |late: &dyn Fn(usize) -> bool| other_row(Variant { late, ..RIGHT }, bench, before, after);
        if !other_row(&|_| true) {
            return;
        }
        self.shown = true;
        self.at_joining |= other_row(&|entity| !before.now.present[entity]);
        self.at_staying |= other_row(&|entity| before.now.present[entity] && before.before.present[entity]);
    }
}

/// Catches a generator whose benches seldom have clause filters that matter, whose entities seldom come in a line that makes a clause
/// with a filter at them hold, or whose filters seldom read an event that changes in the line.
#[test]
fn cases_show_late_filters() {
    let (mut shown, mut at_joining, mut at_staying) = (0, 0, 0);
    // A written state may have other attributes one cycle before, which no run leaves.
    let written = |case: &Case| case.steps.iter().any(|step| matches!(step.call, Call::SetState { .. }));
    for case in (0..10_000).map(|number| generate::plain(3, number)).filter(|case| !written(case)) {
        let found = LateFilters::of(&case);
        shown += usize::from(found.shown);
        at_joining += usize::from(found.at_joining);
        at_staying += usize::from(found.at_staying);
    }
    assert!(
        shown >= 90 && at_joining >= 30 && at_staying >= 12,
        "{shown} shown, {at_joining} at joining, {at_staying} at staying entities"
    );
}

/// Catches a generator whose texts lack bytes of some class at some kind of place, or have them only where a text is accepted, or only
/// where it is refused.
#[test]
fn cases_have_every_class_at_every_place() {
    let mut tally = Tally::default();
    for number in 0..3_000 {
        tally.add(&memory::answers(&generate::without_sheets(3, number)));
        tally.add(&memory::answers(&generate::places::case(3, number)));
    }
    assert_eq!(tally.places.lacking(40), [""; 0]);
}

fn unless_zero(b: i64, value: impl FnOnce() -> i64) -> Cell {
    if b == 0 {
        None
    } else {
        whole(value())
    }
}

/// Document 01: "`/` drops the fraction".
fn dropping(a: i64, b: i64) -> Cell {
    unless_zero(b, || a / b)
}

fn nearest(a: i64, b: i64) -> Cell {
    unless_zero(b, || (a as f64 / b as f64).round() as i64)
}

fn rounding_up(a: i64, b: i64) -> Cell {
    unless_zero(b, || (a as f64 / b as f64).ceil() as i64)
}

fn down_for_negative_dividends(a: i64, b: i64) -> Cell {
    if a < 0 {
        quotient(a, b)
    } else {
        dropping(a, b)
    }
}

fn down_for_negative_divisors(a: i64, b: i64) -> Cell {
    if b < 0 {
        quotient(a, b)
    } else {
        dropping(a, b)
    }
}

fn euclidean(a: i64, b: i64) -> Cell {
    unless_zero(b, || a.div_euclid(b))
}

/// A value where the divisor is zero.
fn set_by_zero(a: i64, b: i64) -> Cell {
    if b == 0 {
        whole(0)
    } else {
        quotient(a, b)
    }
}

/// A value where the quotient needs more than 32 bits.
fn set_beyond(a: i64, b: i64) -> Cell {
    if is_beyond(a, b) {
        whole(a)
    } else {
        quotient(a, b)
    }
}

fn is_beyond(a: i64, b: i64) -> bool {
    (a, b) == (i64::from(i32::MIN), -1)
}

/// What a rule gives for two wholes, and whether two wholes are of a sort.
type Over = fn(i64, i64) -> Cell;
type Fits = fn(i64, i64) -> bool;

/// Wrong rules for whole `/`, and how many cases at least must tell each from the right one.
const WRONG: [(&str, Over, usize); 8] = [
    ("dropping the fraction", dropping, 150),
    ("to the nearest", nearest, 220),
    ("rounding up", rounding_up, 320),
    ("down for negative dividends alone", down_for_negative_dividends, 80),
    ("down for negative divisors alone", down_for_negative_divisors, 75),
    ("euclidean", euclidean, 190),
    ("zero divisor set", set_by_zero, 30),
    ("-2147483648 / -1 set", set_beyond, 6),
];

/// Where sums stand, and how many cases at least must tell a machine that drops the fraction there and nowhere else.
const PLACES: [(Stands, usize); 3] = [(Stands::Filter, 18), (Stands::Test, 35), (Stands::Parameter, 100)];

/// Sorts of whole divisions, and how many of each at least must be worked out. An exact one has no fraction.
const SORTS: [(&str, Fits, usize); 10] = [
    ("no sign", |a, b| a >= 0 && b > 0 && a % b != 0, 4_000),
    ("no sign, exact", |a, b| a >= 0 && b > 0 && a % b == 0, 1_000),
    ("negative dividend", |a, b| a < 0 && b > 0 && a % b != 0, 1_600),
    ("negative dividend, exact", |a, b| a < 0 && b > 0 && a % b == 0, 500),
    ("negative divisor", |a, b| a >= 0 && b < 0 && a % b != 0, 1_700),
    ("negative divisor, exact", |a, b| a >= 0 && b < 0 && a % b == 0, 700),
    ("both negative", |a, b| a < 0 && b < 0 && a % b != 0, 3_800),
    ("both negative, exact", |a, b| a < 0 && b < 0 && a % b == 0 && !is_beyond(a, b), 400),
    ("zero divisor", |_, b| b == 0, 800),
    ("-2147483648 / -1", is_beyond, 100),
];

/// How a case tells machines that divide wholes by wrong rules from the right one, and what it divides.
#[derive(Default)]
struct Divisions {
    /// For each wrong rule whether some line gets another row.
    told: [bool; WRONG.len()],
    /// For each place whether some line would if only sums there dropped the fraction.
    told_in: [bool; PLACES.len()],
    /// How many of each sort are worked out.
    sorts: [usize; SORTS.len()],
}

impl Divisions {
    fn of(case: &Case) -> Divisions {
        let mut found = Divisions::default();
        each_cycle(case, |bench, before, after| found.look(bench, before, after));
        found
    }

    fn look(&mut self, bench: &Bench, before: &State, after: &State) {
        let other_row = |over: &dyn Fn(Stands, i64, i64) -> Cell| other_row(Variant { over, ..RIGHT }, bench, before, after);
        let divided = RefCell::new(Vec::new());
        let looking_on = other_row(&|_, a, b| {
            divided.borrow_mut().push((a, b));
            quotient(a, b)
        });
        assert!(!looking_on, "the right machine gives another row");
        if divided.borrow().is_empty() {
            return;
        }
        for (count, (_, fits, _)) in self.sorts.iter_mut().zip(SORTS) {
            *count += divided.borrow().iter().filter(|&&(a, b)| fits(a, b)).count();
        }
        for (told, (_, wrong, _)) in self.told.iter_mut().zip(WRONG) {
            *told |= other_row(&|_, a, b| wrong(a, b));
        }
        for (told, (place, _)) in self.told_in.iter_mut().zip(PLACES) {
            *told |= other_row(&|stands, a, b| if stands == place { dropping(a, b) } else { quotient(a, b) });
        }
    }
}

/// Catches a generator whose rows seldom show how wholes are divided: whose divisions are mostly exact, of one sign or by zero, whose
/// results are seldom written or compared.
#[test]
fn cases_show_how_wholes_are_divided() {
    let (mut told, mut told_in, mut sorts) = ([0; WRONG.len()], [0; PLACES.len()], [0; SORTS.len()]);
    for case in (0..10_000).map(|number| generate::plain(3, number)) {
        let found = Divisions::of(&case);
        told.iter_mut().zip(found.told).for_each(|(count, told)| *count += usize::from(told));
        told_in.iter_mut().zip(found.told_in).for_each(|(count, told)| *count += usize::from(told));
        sorts.iter_mut().zip(found.sorts).for_each(|(count, more)| *count += more);
    }
    for ((name, _, least), count) in WRONG.iter().zip(told) {
        assert!(count >= *least, "{name}: told by {count} cases");
    }
    for ((place, least), count) in PLACES.iter().zip(told_in) {
        assert!(count >= *least, "{place:?}: told by {count} cases");
    }
    for ((name, _, least), count) in SORTS.iter().zip(sorts) {
        assert!(count >= *least, "{name}: {count} divisions");
    }
}

/// The right rule after another order of the writes. Those with the same key stay in their order.
fn reordered<K: Ord>(writes: &[Write], key: impl Fn(&Write) -> K) -> Standing {
    let mut writes = writes.to_vec();
    writes.sort_by_key(key);
    standing(&writes)
}

/// The right rule by other ranks.
fn reranked(writes: &[Write], rank: impl Fn(i32) -> i32) -> Standing {
    standing(&writes.iter().map(|write| Write { rank: rank(write.rank), ..*write }).collect::<Vec<_>>())
}

/// The right rule for those of the writes that are wanted.
fn only(writes: &[Write], wanted: impl Fn(&Write) -> bool) -> Standing {
    standing(&writes.iter().filter(|write| wanted(write)).copied().collect::<Vec<_>>())
}

/// Those that come later come first; the writes of the last rule, of its last choice.
fn backwards(writes: &[Write]) -> Vec<Write> {
    writes.iter().rev().copied().collect()
}

/// A higher rank takes not only its cell, but each that is taken with it.
fn wider(writes: &[Write], with: impl Fn((usize, usize), (usize, usize)) -> bool) -> Standing {
    let stands = standing(writes);
    only(writes, |write| stands.iter().all(|(cell, other)| !with(*cell, write.cell) || other.rank <= write.rank))
}

/// A rule that gives way in one cell writes to none.
fn by_rule(writes: &[Write]) -> Standing {
    let stands = standing(writes);
    let gives_way = |write: &&Write| write.rank < stands[&write.cell].rank;
    let beaten: BTreeSet<usize> = writes.iter().filter(gives_way).map(|write| write.rule).collect();
    only(writes, |write| !beaten.contains(&write.rule))
}

/// What stands of all writes of a cycle.
type Stand = fn(&[Write]) -> Standing;

/// Wrong rules for which writes stand, and how many cases at least must tell each from the right one.
const STANDING: [(&str, Stand, usize); 15] = [
    ("the last of equal ranks", |writes| standing(&backwards(writes)), 590),
    ("the lower rank", |writes| reranked(writes, |rank| -rank), 410),
    ("the last of the lowest rank", |writes| reranked(&backwards(writes), |rank| -rank), 760),
    ("ranks ignored", |writes| reranked(writes, |_| 0), 240),
    ("ranks ignored, the last", |writes| reranked(&backwards(writes), |_| 0), 680),
    ("all ranks above 0 alike", |writes| reranked(writes, |rank| rank.min(1)), 65),
    ("9 like 8", |writes| reranked(writes, |rank| rank.min(8)), 5),
    ("ranks by their last bit", |writes| reranked(writes, |rank| rank & 1), 130),
    ("0 above all", |writes| reranked(writes, |rank| if rank == 0 { 10 } else { rank }), 350),
    ("the last rule of equal ranks", |writes| reordered(writes, |write| Reverse(write.rule)), 340),
    ("the last choice and call of a rule", |writes| reordered(&backwards(writes), |write| write.rule), 390),
    ("calls before choices", |writes| reordered(writes, |write| (write.rule, write.call)), 40),
    ("by entity", |writes| wider(writes, |cell, other| cell.0 == other.0), 150),
    ("by rule", by_rule, 185),
    ("by line", |writes| wider(writes, |_, _| true), 325),
];

/// Catches a generator whose rows seldom show which write stands: whose rules seldom write to one cell, or to it but the same value, or
/// seldom with other ranks, or mostly in the order of their ranks.
#[test]
fn cases_show_which_writes_stand() {
    let mut told = [0; STANDING.len()];
    for case in (0..10_000).map(|number| generate::plain(3, number)) {
        let mut found = [false; STANDING.len()];
        each_cycle(&case, |bench, before, after| {
            let line = sender(before, after).expect("a line between two states");
            let (_, writes) = writes_of(RIGHT, bench, before, &line.last).expect("the machine never stops on an accepted bench");
            if writes.len() > 1 {
                for (found, (_, wrong, _)) in found.iter_mut().zip(STANDING) {
                    *found = *found || other_row(Variant { standing: &wrong, ..RIGHT }, bench, before, after);
                }
            }
        });
        told.iter_mut().zip(found).for_each(|(count, found)| *count += usize::from(found));
    }
    for ((name, _, least), count) in STANDING.iter().zip(told) {
        println!("{name}: {count} of {least}");
    }
    for ((name, _, least), count) in STANDING.iter().zip(told) {
        assert!(count >= *least, "{name}: told by {count} cases");
    }
}

/// Catches a generator that no longer tries some rank, some fault at one, or some order of writes to one cell.
#[test]
fn cases_make_every_sort_of_rank() {
    let mut tally = Tally::default();
    for number in 0..3_000 {
        tally.ranks.add(&memory::answers(&generate::without_sheets(3, number)).ranks);
        tally.ranks.add(&memory::answers(&generate::ranks::case(3, number)).ranks);
    }
    assert_eq!(tally.ranks.lacking(ranks::required(), 6), []);
}

/// Catches a generator whose states never have an attribute unset one cycle before, or all of them, at an entity that was absent; and one
/// that never unsets one at an entity that was present, which alone makes it no state.
#[test]
fn states_vary_one_cycle_before() {
    let mut prng = Prng::new(5);
    let (mut all_unset, mut some_set, mut refused) = (0, 0, 0);
    for _ in 0..2_000 {
        let plan = bench(&mut prng, SMALL);
        let text = render(&mut prng, &plan.words);
        let bench = accept(&text).expect("valid benches are accepted");
        let count = bench.entities.len();
        let start = state_image(&bench, &fresh(&bench).expect("a state"));
        let Call::SetState { at: 0, bytes: mut memory } = odd_state(&mut prng, &bench, &start) else { continue };
        if memory.len() <= COUNT_AT || memory.len() != state_bytes(count, usize::from(memory[COUNT_AT])) {
            continue;
        }
        if let Some(state) = decode_state(&bench, &memory) {
            for entity in (0..count).filter(|&entity| !state.before.present[entity]) {
                let cells = bench.members_of(entity).iter().zip(&state.before.cells[entity]);
                let set: Vec<bool> = cells.filter(|(member, _)| member.sort == Sort::Attribute).map(|(_, cell)| cell.is_some()).collect();
                all_unset += usize::from(set.contains(&false) && !set.contains(&true));
                some_set += usize::from(set.contains(&false) && set.contains(&true));
            }
            continue;
        }
        // A state as soon as one entity was absent: nothing else is wrong.
        for flag in store_at(count, 1)..store_at(count, 1) + count {
            if memory[flag] == 1 {
                memory[flag] = 0;
                refused += usize::from(decode_state(&bench, &memory).is_some());
                memory[flag] = 1;
            }
        }
    }
    assert!(all_unset >= 15 && some_set >= 15 && refused >= 15, "{all_unset} all unset, {some_set} some set, {refused} refused");
}

/// Catches a generator that no longer tries some sort of sender, number, line sent again, row or spoilt state, or too seldom sends a line
/// again after lines of others.
#[test]
fn cases_make_every_sort_of_sender() {
    let mut tally = Tally::default();
    for number in 0..3_000 {
        tally.add(&memory::answers(&generate::without_sheets(3, number)));
        tally.senders.add(&memory::answers(&generate::spoils::case(3, number)).senders);
    }
    assert_eq!(tally.senders.lacking(6), [""; 0]);
    let Seen { again, late, asked } = tally.resent;
    assert!(again >= 1_200 && late >= 500 && asked >= 1_200, "{again} lines sent again, {late} of them late, {asked} rows asked for");
}

/// Catches probes that are put into a case so that its other steps find other memory.
#[test]
fn probes_leave_the_other_steps_alone() {
    let mut more = 0;
    for number in 0..500 {
        let (plain, with) = (generate::plain(3, number), generate::without_sheets(3, number));
        more += with.steps.len() - plain.steps.len();
        let [plain, with] = [plain, with].map(|case| ends(&case).1);
        assert!(plain.bench == with.bench && plain.state == with.state, "case {number}");
    }
    assert!(more >= 500, "only {more} probes in 500 cases");
}

/// A line sent again at any later point gives the very row that it gave when it was taken and leaves every byte of the state; counting the
/// answers sees to that. And it is no step that the others notice.
#[test]
fn lines_sent_again_after_every_step() {
    let mut tally = Tally::default();
    for number in 0..300 {
        let plain = generate::without_sheets(3, number);
        let mut with = plain.clone();
        generate::agains::put_in(&mut with);
        tally.add(&memory::answers(&with));
        let [plain, with] = [plain, with].map(|case| ends(&case).1);
        assert!(plain.bench == with.bench && plain.state == with.state, "case {number}");
    }
    let Seen { again, late, .. } = tally.resent;
    assert!(again >= 3_000 && late >= 1_800, "{again} lines sent again, {late} of them late");
}

/// What the steps of a case answer, but for sheets and writes, and the memory at the end.
fn ends(case: &Case) -> (Vec<u64>, Memory) {
    let mut memory = Memory::new(case.fill);
    let mut answers = Vec::new();
    for step in &case.steps {
        memory.lend(step);
        let answer = OURS.answer(&case.text, step, &mut memory);
        answers.extend(answer.filter(|_| !matches!(step.call, Call::Sheet { .. })));
    }
    memory.sheet.clear();
    (answers, memory)
}

/// Catches sheets that are put into a case so that its other steps answer otherwise.
#[test]
fn sheets_leave_the_other_steps_alone() {
    let mut with = 0;
    for number in 0..500 {
        let case = generate::case(3, number);
        with += usize::from(case.steps.iter().any(|step| matches!(step.call, Call::Sheet { .. })));
        assert!(ends(&case) == ends(&generate::without_sheets(3, number)), "case {number}");
    }
    assert!(with >= 250, "only {with} of 500 cases have a sheet");
}

/// Catches a generator that draws from something else than its seed, and one that ignores the seed or the number.
#[test]
fn a_seed_makes_a_case_again() {
    for number in 0..50 {
        let case = generate::case(3, number);
        assert_eq!(case, generate::case(3, number));
        assert_ne!(case, generate::case(4, number));
        assert_ne!(case, generate::case(3, number + 1));
        for make in [generate::places::case, generate::spoils::case, generate::ranks::case, generate::names::case, generate::rests::case] {
            let case = make(3, number);
            assert_eq!(case, make(3, number));
            assert_ne!(case, make(4, number));
            assert_ne!(case, make(3, number + 1));
        }
    }
}

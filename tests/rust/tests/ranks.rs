//! Order 6 of document 02: of all writes to a cell in a cycle the one of the highest rank stands, and among equal ranks the earliest.

mod common;
use common::{keeping, prints};
use second::generate::prng::Prng;
use second::interpreter::grammar;
use second::interpreter::machine::{cycle, fresh, Given, Readings, State};
use second::interpreter::value::{Stop, Value};

/// Events to fire rules with, and cells to write to.
const HEAD: &str = "interface P { event a : bool event b : bool event c : bool event x : whole } \
    interface L { attribute bay : whole action glow ( whole ) action fan ( whole ) } \
    entity p : P { } entity k : L { bay = 1 } entity l : L { bay = 2 } rules ";

fn bench(rules: &[&str]) -> String {
    format!("{HEAD}{} end", rules.join(" "))
}

/// A rule of this rank that fires when p's event turns true.
fn rule(rank: &str, event: &str, calls: &str) -> String {
    format!("when {rank} event {event} from p value = true trigger {calls} end")
}

/// Checks what stands in the cells after one line with a and b true and 7 as x.
fn leaves(rules: &[&str], cells: &str) {
    prints(&bench(rules), "by n p.a p.b p.x|s 1 true true 7", &format!("by n k.glow k.fan l.glow l.fan|s 1 {cells}"));
}

/// A rule that sets k's glow.
fn glow(rank: &str, value: &str) -> String {
    rule(rank, "a", &format!("action glow ( {value} ) on k"))
}

#[test]
fn the_safety_rule_stands_wherever_it_is_written() {
    let safety = "when rank 9 event b from p value = true trigger action glow ( 0 ) on k end";
    let (first, second) = (glow("", "50"), glow("rank 3", "80"));
    let lines = "by n p.a p.b|s 1 true -|s 2 false true|s 3 true false|s 4 false -|s 5 true true";
    let rows = "by n k.glow k.fan l.glow l.fan|s 1 80 - - -|s 2 0 - - -|s 3 80 - - -|s 4 - - - -|s 5 0 - - -";
    for rules in [[safety, &first, &second], [&first, safety, &second], [&first, &second, safety], [&second, &first, safety]] {
        prints(&bench(&rules), lines, rows);
    }
}

#[test]
fn the_highest_rank_stands() {
    leaves(&[&glow("rank 1", "1"), &glow("rank 2", "2")], "2 - - -");
    leaves(&[&glow("rank 2", "2"), &glow("rank 1", "1")], "2 - - -");
    leaves(&[&glow("rank 8", "8"), &glow("rank 9", "9"), &glow("rank 7", "7")], "9 - - -");
    leaves(&[&glow("rank 1", "1"), &glow("", "0")], "1 - - -");
    leaves(&[&glow("", "0"), &glow("rank 1", "1")], "1 - - -");
}

#[test]
fn among_equal_ranks_the_earliest_stands() {
    leaves(&[&glow("", "1"), &glow("", "2")], "1 - - -");
    leaves(&[&glow("rank 4", "1"), &glow("rank 4", "2"), &glow("rank 4", "3")], "1 - - -");
    // Lower ones before, between and after.
    leaves(&[&glow("rank 2", "1"), &glow("rank 5", "2"), &glow("", "3"), &glow("rank 5", "4"), &glow("rank 4", "5")], "2 - - -");
    // Of one rule the earliest call.
    let call = |value: &str| format!("action glow ( {value} ) on k");
    leaves(&[&rule("", "a", &format!("{} , {}", call("1"), call("2")))], "1 - - -");
    leaves(&[&rule("rank 9", "a", &format!("{} , {}", call("1"), call("2")))], "1 - - -");
}

#[test]
fn without_it_the_rank_is_0() {
    leaves(&[&glow("", "1"), &glow("rank 0", "2")], "1 - - -");
    leaves(&[&glow("rank 0", "1"), &glow("", "2")], "1 - - -");
}

#[test]
fn the_number_is_taken_by_its_value() {
    leaves(&[&glow("rank 09", "1"), &glow("rank 9", "2")], "1 - - -");
    leaves(&[&glow("rank 9", "1"), &glow("rank 0000000009", "2")], "1 - - -");
    leaves(&[&glow("rank 0000000001", "1"), &glow("rank 2", "2")], "2 - - -");
    leaves(&[&glow("rank 2", "1"), &glow("rank 01", "2")], "1 - - -");
    leaves(&[&glow("rank 00", "1"), &glow("", "2")], "1 - - -");
}

#[test]
fn a_rank_counts_for_each_cell() {
    // The higher rank takes k's glow alone: the lower one's fan, and its glow elsewhere, stand.
    let low = rule("rank 1", "a", "action glow ( 1 ) on k , action fan ( 2 ) on k , action glow ( 3 ) on l");
    let high = rule("rank 2", "a", "action glow ( 9 ) on k , action fan ( 8 ) on l");
    leaves(&[&low, &high], "9 2 3 8");
    leaves(&[&high, &low], "9 2 3 8");
    // Each stands in one of two.
    let other = rule("rank 2", "b", "action glow ( 5 ) on l , action glow ( 6 ) on k");
    leaves(&[&low, &other, &high], "6 2 5 8");
}

#[test]
fn a_rule_that_does_not_fire_takes_nothing() {
    leaves(&[&rule("rank 9", "c", "action glow ( 9 ) on k"), &glow("", "1")], "1 - - -");
    leaves(&[&glow("", "1"), &rule("rank 9", "c", "action glow ( 9 ) on k")], "1 - - -");
}

#[test]
fn an_unset_parameter_of_the_higher_rank_writes_nothing() {
    for sum in ["7 / 0", "p.x / 0", "2147483647 + p.x", "k.glow"] {
        leaves(&[&glow("rank 9", sum), &glow("", "1")], "1 - - -");
        leaves(&[&glow("", "1"), &glow("rank 9", sum)], "1 - - -");
        // The next write of that rank stands, not the lower one.
        leaves(&[&glow("rank 1", "1"), &glow("rank 9", sum), &glow("rank 9", "2"), &glow("rank 9", "3")], "2 - - -");
    }
}

#[test]
fn a_filter_of_the_higher_rank_that_fails_writes_nothing() {
    let high = rule("rank 9", "a", "action glow ( 9 ) on v : L with bay = 2");
    let low = rule("rank 1", "a", "action glow ( v.bay ) on v : L");
    leaves(&[&high, &low], "1 - 9 -");
    leaves(&[&low, &high], "1 - 9 -");
    let clause = "when rank 9 event a from p value = true and event x from p value = 8 trigger action glow ( 9 ) on k end";
    leaves(&[clause, &low], "1 - 2 -");
}

#[test]
fn an_absent_target_takes_no_write() {
    let high = rule("rank 9", "a", "action glow ( l.bay ) on l , action glow ( 9 ) on k with bay = l.bay - 1");
    let low = rule("", "a", "action glow ( 1 ) on v : L");
    for rules in [[&*high, &low], [&low, &high]] {
        // While l is away its bay reads unset, so the higher rank writes nothing at all.
        let lines = "by n l p.a|s 1 - true|s 2 false false|s 3 - true|s 4 - false|s 5 true true";
        let rows = "by n k.glow k.fan l.glow l.fan|s 1 9 - 2 -|s 2 - - - -|s 3 1 - - -|s 4 - - - -|s 5 9 - 2 -";
        prints(&bench(&rules), lines, rows);
    }
}

#[test]
fn the_earliest_choice_stands() {
    // Entities in file order, the first declared variable turning slowest.
    leaves(&[&rule("", "a", "action fan ( 0 ) on v : L , action glow ( v.bay ) on k")], "1 0 - 0");
    let pairs = "action glow ( v.bay * 10 + w.bay ) on k , action fan ( v.bay * 10 + w.bay ) on v : L with bay = 2 , \
        action glow ( v.bay * 10 + w.bay ) on l , action fan ( v.bay * 10 + w.bay ) on w : L with bay = 2";
    leaves(&[&rule("rank 3", "a", pairs)], "11 - 11 12");
    // All choices of a rule are of its rank.
    let low = rule("rank 1", "a", "action glow ( v.bay ) on k , action fan ( v.bay ) on v : L");
    let high = rule("rank 2", "a", "action glow ( v.bay + 5 ) on k with bay = v.bay - 1 , action fan ( 6 ) on v : L with bay = 2");
    leaves(&[&low, &high], "7 1 - 6");
    leaves(&[&high, &low], "7 1 - 6");
    // While the first is away the second is the earliest.
    let bench = bench(&[&rule("", "a", "action fan ( v.bay ) on v : L , action glow ( v.bay ) on l")]);
    prints(
        &bench,
        "by n k p.a|s 1 false true|s 2 true false|s 3 - true",
        "by n k.glow k.fan l.glow l.fan|s 1 - - 2 2|s 2 - - - -|s 3 - 1 1 2",
    );
}

#[test]
fn calls_come_within_their_choice() {
    // The second call of the first choice comes before the first call of the second.
    let calls =
        "action fan ( 1 ) on v : L with bay = 2 , action glow ( v.bay ) on k with bay = v.bay - 1 , action glow ( v.bay + 10 ) on k";
    leaves(&[&rule("rank 5", "a", calls)], "11 - - 1");
}

#[test]
fn only_what_stands_is_seen_in_the_next_cycle() {
    let seen = "when event glow from k value = 1 trigger action fan ( 1 ) on k end when event glow from k value = 2 trigger action fan ( 2 ) on k end";
    let rules = bench(&[&glow("rank 1", "1"), &glow("rank 2", "2"), seen]);
    prints(&rules, "by n p.a|s 1 true|s 2 -|s 3 -", "by n k.glow k.fan l.glow l.fan|s 1 2 - - -|s 2 - 2 - -|s 3 - - - -");
}

#[test]
fn what_stands_is_given_again() {
    let rules = bench(&[&glow("rank 1", "p.x"), &glow("rank 2", "p.x + 1")]);
    let lines = "by n p.a p.x|s 1 true 4|t 1 false 5|s 1 true 4|t 2 true -|s 1 true 4|t 2 true -";
    let rows = "s 1 5 - - -|t 1 - - - -|s 1 5 - - -|t 2 6 - - -|s 1 5 - - -|t 2 6 - - -";
    prints(&rules, lines, &format!("by n k.glow k.fan l.glow l.fan|{rows}"));
}

/// Rules of any ranks that fire as the line says; the one that stands is found by looking at all that fire.
#[test]
fn any_rules_in_any_order() {
    let mut prng = Prng::new(6);
    for _ in 0..200 {
        let ranks: Vec<usize> = (0..prng.between(2, 12)).map(|_| prng.below(10)).collect();
        let rule = |(number, rank): (usize, &usize)| {
            format!("when rank {rank} event e{number} from x value changed trigger action keep ( {number} ) on y end")
        };
        let rules: Vec<String> = ranks.iter().enumerate().map(rule).collect();
        let events = |form: &dyn Fn(usize) -> String| (0..ranks.len()).map(form).collect::<String>();
        let bench = format!(
            "interface X {{ {} }} interface Y {{ action keep ( whole ) }} entity x : X {{ }} entity y : Y {{ }} rules {} end",
            events(&|number| format!("event e{number} : whole ")),
            rules.join(" ")
        );
        let fires: Vec<bool> = ranks.iter().map(|_| prng.chance(60)).collect();
        let line = events(&|number| if fires[number] { " 1".into() } else { " -".into() });
        let fired = || (0..ranks.len()).filter(|&number| fires[number]);
        let highest = fired().map(|number| ranks[number]).max();
        let stands = fired().find(|&number| Some(ranks[number]) == highest).map_or("-".into(), |number| number.to_string());
        prints(&bench, &format!("by n{}|s 1{line}", events(&|number| format!(" x.e{number}"))), &format!("by n y.keep|s 1 {stands}"));
    }
}

// The bare machine on benches that are not checked.

/// The state after a line that turns x.go true.
fn machine(text: &str) -> Result<State, Stop> {
    let bench = grammar::read(text.as_bytes()).expect("grammatical");
    let mut readings = Readings::none(&bench);
    readings.cells[0][0] = second::interpreter::machine::Reading::Set(Value::Bool(true));
    cycle(&bench, &fresh(&bench)?, Given { sender: b"s", number: 1, readings: &readings })
}

fn kept(rules: &[(&str, &str)]) -> Result<Option<i32>, Stop> {
    let whole = keeping("whole", "0");
    let (head, _) = whole.split_once("rules").expect("a bench");
    let rule = |(rank, sum): &(&str, &str)| format!("when {rank} event go from x value = true trigger action keep ( {sum} ) on x end ");
    let state = machine(&format!("{head}rules {} end", rules.iter().map(rule).collect::<String>()))?;
    Ok(state.now.cells[0][3].map(|value| if let Value::Whole(value) = value { value } else { panic!("a whole is kept") }))
}

#[test]
fn the_machine_takes_any_rank() {
    assert_eq!(kept(&[("rank 9", "1"), ("rank 10", "2"), ("rank 256", "3"), ("rank 11", "4")]).ok(), Some(Some(3)));
    assert_eq!(kept(&[("rank 2147483647", "1"), ("rank 2147483646", "2"), ("", "3")]).ok(), Some(Some(1)));
}

#[test]
fn the_machine_stops_at_a_call_that_would_not_stand() {
    assert_eq!(kept(&[("rank 9", "1"), ("", "2r")]).err(), Some(Stop));
    assert_eq!(kept(&[("", "x.q"), ("rank 9", "1")]).err(), Some(Stop));
    assert_eq!(kept(&[("rank 1", "1"), ("rank 1", "1 + true")]).err(), Some(Stop));
}

//! Order 7 of document 02: which rules a line tries, and which rest.

mod common;
use common::PEDAL;
use second::calls::{bench_check, bench_fresh, bench_line, rules_tried};
use second::generate;
use second::generate::case::Call;
use second::image::{decode_bench, decode_state, BENCH_SIZE, ROW_SIZE, STATE_SIZE, TRIED_SIZE};
use second::interpreter::accept;
use second::interpreter::line::{take, Taken};
use second::interpreter::machine::{fresh, Write};
use second::interpreter::rest::{only_these_write, tried_between};
use second::interpreter::value::Value;
use second::memory::{Memory, OURS};

/// The rules that each line tries, by their numbers; `again` for a line sent again, the number for one that is refused.
fn sets(bench: &str, readings: &str) -> String {
    let bench = accept(bench.as_bytes()).expect("an accepted bench");
    let mut state = fresh(&bench).expect("a state");
    let (names, lines) = readings.split_once('|').expect("names and lines");
    let mut shown = Vec::new();
    for values in lines.split('|') {
        shown.push(match take(&bench, &state, names.as_bytes(), values.as_bytes()) {
            Err(number) => format!("refused {number}"),
            Ok(Taken::Resent(_)) => "again".into(),
            Ok(Taken::Next(next, _, tried)) => {
                assert_eq!(tried, tried_between(&bench, &state, &next));
                state = next;
                numbers(tried)
            }
        });
    }
    shown.join("|")
}

fn numbers(set: u64) -> String {
    let numbers: Vec<String> = (0..64).filter(|rule| set >> rule & 1 == 1).map(|rule| rule.to_string()).collect();
    if numbers.is_empty() {
        "-".into()
    } else {
        numbers.join(" ")
    }
}

fn tries(bench: &str, readings: &str, wanted: &str) {
    assert_eq!(sets(bench, readings), wanted, "{bench}\n{readings}");
}

/// Two devices, two lamps, and an interface that nobody is of.
const HEAD: &str = "interface D { attribute bay : whole event go : bool event pos : whole event r : real } \
    interface L { attribute bay : whole event x : whole action glow ( whole ) action fan ( whole ) } \
    interface N { attribute bay : whole event x : whole action glow ( whole ) } \
    entity d : D { bay = 1 } entity e : D { bay = 2 } entity k : L { bay = 1 } entity l : L { bay = 2 } rules ";

fn bench(conditions: &[&str]) -> String {
    let rule = |condition: &&str| format!("when {condition} trigger action fan ( 1 ) on k end ");
    format!("{HEAD}{}end", conditions.iter().map(rule).collect::<String>())
}

#[test]
fn the_pedal_bench() {
    let lines = "by n p.down s.pos|a 1 false 100|a 2 true 140|a 2 true 140|a 3 - 150|a 4 false 150|a 5 true 190|a 4 - -|a 6 true 200";
    tries(PEDAL, lines, "0|0|again|-|0|0|refused 24|-");
}

#[test]
fn events_and_their_values() {
    let bench = bench(&["event go from d value changed", "event pos from d value = 5", "event pos from e value = 5"]);
    // The value need not be the one that is compared with, nor need a clause hold.
    let lines = "by n d.go d.pos e.pos|s 1 - - -|s 2 true - -|s 3 true 1 -|s 4 - 1 1|s 5 false ? 2|s 6 false ? ?|s 7 - - -";
    tries(&bench, lines, "-|0|1|2|0 1 2|2|-");
}

#[test]
fn the_two_zeros_and_two_unset_are_the_same() {
    let bench = bench(&["event r from d value changed", "event r from d value = e.r"]);
    let (zero, other, one) = ("0000000000000000", "8000000000000000", "3ff0000000000000");
    let lines = format!("by n d.r|s 1 ?|s 2 {other}|s 3 {zero}|s 4 {other}|s 5 -|s 6 {one}|s 7 {one}|s 8 {zero}|s 9 ?|s 10 ?");
    tries(&bench, &lines, "-|0 1|-|-|-|0 1|-|0 1|0 1|-");
}

#[test]
fn a_filter_is_read_too() {
    // Its expression: another device's event.
    let expression = bench(&["event go from d with bay = e.pos value = true", "event go from d value = true"]);
    // In the first line the attribute moves from unset.
    tries(&expression, "by n e.pos d.go|s 1 - -|s 2 - -|s 3 7 -|s 4 7 -|s 5 8 true", "0|-|0|-|0 1");
    // Its attribute, which moves as its entity comes and goes.
    let attribute = bench(&["event go from d with bay = 1 value = true", "event go from d value = true"]);
    tries(&attribute, "by n d|s 1 -|s 2 false|s 3 false|s 4 true|s 5 true", "0|0|-|0|-");
}

#[test]
fn both_sides_of_a_test_are_read() {
    let bench = bench(&["event pos from d value = - ( e.pos + k.x )"]);
    tries(&bench, "by n d.pos e.pos k.x l.x|s 1 - - - 1|s 2 1 - - 2|s 3 - 1 - 3|s 4 - - 1 4|s 5 1 1 1 5", "-|0|0|0|-");
}

#[test]
fn what_calls_read_is_not() {
    let rule = "when event go from d value = true trigger action glow ( e.pos + k.x ) on k with bay = l.x end ";
    let bench = format!("{HEAD}{rule}end");
    tries(&bench, "by n d.go e.pos k.x l.x|s 1 - 1 1 1|s 2 true 2 2 2|s 3 true 3 3 3|s 4 - ? ? ?", "-|0|-|-");
}

#[test]
fn a_variable_reads_every_entity_of_its_interface() {
    let bench = bench(&["event pos from v : D value changed", "event x from v : L value changed", "event x from v : N value changed"]);
    tries(&bench, "by n d.pos e.pos k.x l.x|s 1 - - - -|s 2 1 - - -|s 3 - 1 - -|s 4 - - 1 -|s 5 - - - 1|s 6 1 1 1 1", "-|0|0|1|1|-");
    // An absent one reads unset: it moves as it goes, but cannot be chosen.
    tries(&bench, "by n e e.pos|s 1 - 1|s 2 false -|s 3 false -|s 4 true -|s 5 - 1", "0|0|-|-|0");
}

#[test]
fn a_variable_of_a_call_is_read_in_the_condition() {
    let rules = "when event go from d with bay = v.bay value = true trigger action glow ( 1 ) on v : L end \
        when event go from d value = true trigger action glow ( w.x ) on w : L end \
        when event x from u value changed trigger action glow ( 1 ) on u : L end \
        when event go from d value = true or event x from t value = 1 trigger action glow ( 1 ) on t : N end ";
    let bench = format!("{HEAD}{rules}end");
    tries(&bench, "by n l d.go l.x|s 1 - - -|s 2 - - 1|s 3 false - -|s 4 true - -|s 5 - true -", "0|2|0 2|0|0 1 3");
}

#[test]
fn an_action_moves_in_the_cycle_after_and_again_when_it_is_over() {
    let rules = "when event go from d value = true trigger action glow ( 5 ) on k end \
        when event glow from k value changed trigger action fan ( 1 ) on k end \
        when event go from e with bay = k.glow value = true trigger action fan ( 1 ) on l end ";
    let bench = format!("{HEAD}{rules}end");
    // The third reads e's attribute as well, which moves in the first line.
    tries(&bench, "by n d.go|s 1 -|s 2 true|s 3 -|s 4 -|s 5 -|s 6 false|s 7 true", "2|0|1 2|1 2|-|0|0");
}

#[test]
fn before_the_first_line_all_read_unset() {
    let bench = bench(&["event x from k value = l.bay", "event x from k value = 1", "event x from v : N value = v.bay"]);
    tries(&bench, "by n|s 1|s 2|s 3", "0|-|-");
    // Somebody who was never there.
    tries(&bench, "by n l|s 1 false|s 2 -|s 3 true", "-|-|0");
}

#[test]
fn lines_of_all_senders_are_cycles() {
    let bench = bench(&["event pos from d value changed"]);
    tries(&bench, "by n d.pos|s 1 1|t 1 1|t 2 2|s 1 1|s 2 2|t 2 2|t 3 1", "0|-|0|again|-|again|0");
}

#[test]
fn the_last_of_64_rules() {
    let condition = |rule: usize| if rule.is_multiple_of(9) { "event go from d value changed" } else { "event go from e value changed" };
    let conditions: Vec<&str> = (0..64).map(condition).collect();
    let others = numbers((0..64).filter(|rule| rule % 9 != 0).fold(0, |set, rule| set | 1 << rule));
    tries(&bench(&conditions), "by n d.go e.go|s 1 true -|s 2 true true", &format!("0 9 18 27 36 45 54 63|{others}"));
}

#[test]
fn no_rules() {
    tries("rules end", "by n|s 1|s 1|s 2", "-|again|-");
}

#[test]
fn a_write_of_a_rule_at_rest_is_seen() {
    let write = |rule| Write { cell: (0, 0), value: Value::Bool(true), rank: 0, rule, call: 0 };
    assert!(only_these_write(0, &[]));
    assert!(only_these_write(1 << 63 | 1, &[write(0), write(63), write(0)]));
    assert!(!only_these_write(1 << 63 | 1, &[write(0), write(1)]));
    assert!(!only_these_write(0, &[write(0)]));
}

/// What a line gives is what its two states give; a line that is refused or sent again tries nothing.
#[test]
fn two_states_say_what_their_line_tried() {
    for number in 0..200 {
        let case = generate::rests::case(7, number);
        let mut memory = Memory::new(case.fill);
        for step in &case.steps {
            memory.lend(step);
            let before = memory.clone();
            OURS.answer(&case.text, step, &mut memory);
            let Call::Line { names, values } = &step.call else { continue };
            let bench = accept(decode_bench(&memory.bench).expect("a text")).expect("a bench");
            let [state, next] = [&before, &memory].map(|memory| decode_state(&bench, &memory.state).expect("a state"));
            let given = match take(&bench, &state, names, values) {
                Ok(Taken::Next(_, _, tried)) => tried,
                _ => 0,
            };
            assert_eq!(tried_between(&bench, &state, &next), given, "case {number}");
        }
    }
}

// The call.

/// The pedal bench, its fresh state, and that after a line.
fn images() -> [Vec<u8>; 3] {
    let [mut bench, mut row] = [vec![0; BENCH_SIZE], vec![0; ROW_SIZE]];
    assert_eq!(bench_check(PEDAL.as_bytes(), &mut bench), 0);
    let mut first = vec![0; STATE_SIZE];
    assert_eq!(bench_fresh(&bench, &mut first), 0);
    let mut second = first.clone();
    assert_eq!(bench_line(&bench, &mut second, b"by n p.down", b"a 1 true", &mut row) & 255, 0);
    [bench, first, second]
}

/// The answer, and the memory that is lent for the set with a byte past it.
fn asked(bench: &[u8], before: &[u8], after: &[u8], lent: usize) -> (u64, Vec<u8>) {
    let mut tried = vec![0xa5; TRIED_SIZE + 1];
    (rules_tried(bench, before, after, &mut tried[..lent]), tried)
}

#[test]
fn the_call_gives_eight_bytes() {
    let [bench, first, second] = images();
    let set = |low: u8| vec![low, 0, 0, 0, 0, 0, 0, 0, 0xa5];
    assert_eq!(asked(&bench, &first, &second, TRIED_SIZE), (0, set(1)));
    assert_eq!(asked(&bench, &second, &first, TRIED_SIZE + 1), (0, set(1)));
    assert_eq!(asked(&bench, &first, &first, TRIED_SIZE), (0, set(0)));
    assert_eq!(asked(&bench, &second, &second, TRIED_SIZE), (0, set(0)));
}

#[test]
fn the_call_is_refused_by_31_then_32_then_33() {
    let [bench, first, second] = images();
    let refused = |number: u64| (number, vec![0xa5; TRIED_SIZE + 1]);
    let none = vec![255; STATE_SIZE];
    let no_bench = vec![255; BENCH_SIZE];
    assert_eq!(asked(&bench[1..], &none, &none, TRIED_SIZE), refused(31));
    assert_eq!(asked(&no_bench, &none[1..], &none, TRIED_SIZE), refused(31));
    assert_eq!(asked(&no_bench, &none, &none[1..], TRIED_SIZE), refused(31));
    assert_eq!(asked(&no_bench, &none, &none, TRIED_SIZE - 1), refused(31));
    assert_eq!(asked(&bench, &first, &second, 0), refused(31));
    assert_eq!(asked(&no_bench, &none, &none, TRIED_SIZE), refused(32));
    assert_eq!(asked(&bench, &none, &second, TRIED_SIZE), refused(33));
    assert_eq!(asked(&bench, &first, &none, TRIED_SIZE), refused(33));
}

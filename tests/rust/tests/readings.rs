//! The points that document 01 leaves open and that were decided, and what order 1 of document 02 changes. What order 2 changes is in
//! tests/division.rs, what order 3 adds in tests/sheet.rs, what order 5 changes in tests/senders.rs, what order 6 changes in
//! tests/ranks.rs.

mod common;
use common::{accepted, keeping, printed, prints, sum};
use second::interpreter::grammar;
use second::interpreter::machine::{cycle, fresh, Given, Reading, Readings};
use second::interpreter::value::{Stop, Value};

#[test]
fn words() {
    // Case is kept, so these are names.
    accepted("interface End { event Rules : bool } entity When : End { } rules end");
    // A number and a name need no blank between.
    accepted("interface I{attribute a:real attribute b:whole}entity e:I{a=1rb=2}rules end");
    accepted("interface I{attribute a:whole attribute b:whole}entity e:I{a=0000000001b=2}rules end");
}

#[test]
fn changed_compares_reals_by_value() {
    let bench = "interface I { event r : real action k ( real ) } entity e : I { } rules when event r from e value changed trigger action k ( e.r ) on e end end";
    prints(
        bench,
        "by n e.r|a 1 0000000000000000|a 2 8000000000000000|a 3 ?|a 4 ?|a 5 8000000000000000",
        "by n e.k|a 1 0000000000000000|a 2 -|a 3 -|a 4 -|a 5 8000000000000000",
    );
}

#[test]
fn unset_differs_from_any_value() {
    let bench = "interface I { event b : bool action k ( whole ) } entity e : I { } rules when event b from e value changed trigger action k ( 1 ) on e end end";
    prints(bench, "by n e.b|a 1 ?|a 2 true|a 3 true|a 4 ?|a 5 ?", "by n e.k|a 1 -|a 2 1|a 3 -|a 4 1|a 5 -");
}

#[test]
fn negation_of_reals() {
    assert_eq!(sum("real", "- 0r"), "8000000000000000");
    assert_eq!(sum("real", "0r - 0r"), "0000000000000000");
    let bench = "interface I { attribute a : real event x : bool action k ( real ) } entity e : I { a = - 0r } \
        rules when event x from e value changed trigger action k ( e.a ) on e end end";
    prints(bench, "by n e.x|a 1 true", "by n e.k|a 1 8000000000000000");
}

#[test]
fn reals_that_are_not_finite_are_unset() {
    assert_eq!(sum("real", "1r / 0r"), "-");
    assert_eq!(sum("real", "0r / 0r"), "-");
    assert_eq!(sum("real", "1r / 0r + 1r"), "-");
    let bench = keeping("real", "x.r * x.r");
    prints(&bench, "by n x.go x.r|a 1 true 7fefffffffffffff", "by n x.keep|a 1 -");
    prints(&bench, "by n x.go x.r|a 1 true 0000000000000001", "by n x.keep|a 1 0000000000000000");
}

#[test]
fn sums_group_to_the_left() {
    assert_eq!(sum("whole", "10 - 3 - 2"), "5");
    assert_eq!(sum("whole", "100 / 10 / 5 * 3"), "6");
    assert_eq!(sum("whole", "1 + 2 * 3"), "7");
    assert_eq!(sum("whole", "- 7 / 2 * 2"), "-8");
    assert_eq!(sum("whole", "7 / - 2"), "-4");
    assert_eq!(sum("whole", "- ( - 2147483647 - 1 )"), "-");
    assert_eq!(sum("whole", "46341 * 46341"), "-");
    assert_eq!(sum("real", "real ( 7 / 2 ) / 2r"), "3ff8000000000000");
    assert_eq!(sum("whole", "x.w + 1"), "-");
}

#[test]
fn leaving_and_coming_back() {
    let bench =
        "interface I { attribute a : whole event x : whole action k ( whole ) } entity e : I { a = 7 } entity f : I { a = 8 } rules \
        when event x from f value changed trigger action k ( e.a ) on f , action k ( e.x ) on e end end";
    // While absent, attributes read unset and calls write nothing; events are gone on return, attributes are not.
    let lines = "by n e f.x e.x|a 1 - 1 5|a 2 false 2 -|a 3 - 3 -|a 4 true 4 -|a 5 - 5 6";
    prints(bench, lines, "by n e.k f.k|a 1 5 7|a 2 - -|a 3 - -|a 4 - 7|a 5 6 7");
}

#[test]
fn absent_before_counts_as_unset() {
    let bench = "interface I { event x : whole action k ( whole ) } entity e : I { } rules when event x from e value = 1 trigger action k ( 1 ) on e end end";
    prints(bench, "by n e e.x|a 1 - 1|a 2 false -|a 3 true 1|a 4 - 1", "by n e.k|a 1 1|a 2 -|a 3 1|a 4 -");
}

#[test]
fn value_equals_works_both_sides_out_in_each_cycle() {
    let bench = "interface I { event x : whole event y : whole action k ( whole ) } entity e : I { } \
        rules when event x from e value = e.y trigger action k ( e.x ) on e end end";
    prints(bench, "by n e.x e.y|a 1 1 1|a 2 2 2|a 3 2 3|a 4 3 3|a 5 - -", "by n e.k|a 1 1|a 2 -|a 3 -|a 4 3|a 5 -");
}

#[test]
fn choices_turn_the_first_variable_slowest() {
    let bench = "interface I { attribute a : whole event x : bool } interface K { action k ( whole ) } \
        entity a : I { a = 1 } entity b : I { a = 2 } entity c : K { } \
        rules when event x from v : I value = true or event x from w : I value = true trigger action k ( v.a * 10 + w.a ) on c end end";
    // Of the choices that fire, a and b come before b and a in line 2.
    prints(bench, "by n a.x b.x|a 1 true -|a 2 - true|a 3 ? ?", "by n c.k|a 1 11|a 2 12|a 3 -");
}

#[test]
fn and_binds_tighter_than_or() {
    let bench = |condition: &str| {
        format!(
            "interface I {{ event a : bool event b : bool event c : bool action k ( whole ) }} entity e : I {{ }} \
             rules when {condition} trigger action k ( 1 ) on e end end"
        )
    };
    let (a, b, c) = ("event a from e value = true", "event b from e value = true", "event c from e value = true");
    prints(&bench(&format!("{a} or {b} and {c}")), "by n e.a e.b e.c|a 1 true - -", "by n e.k|a 1 1");
    prints(&bench(&format!("( {a} or {b} ) and {c}")), "by n e.a e.b e.c|a 1 true - -", "by n e.k|a 1 -");
    prints(&bench(&format!("{a} and {b} or {c}")), "by n e.a e.b e.c|a 1 - - true", "by n e.k|a 1 1");
}

#[test]
fn call_filter_reads_now() {
    let bench = "interface I { attribute a : whole event x : whole action k ( whole ) } entity e : I { a = 3 } \
        rules when event x from e value changed trigger action k ( 1 ) on e with a = e.x end end";
    prints(bench, "by n e.x|a 1 3|a 2 4|a 3 3", "by n e.k|a 1 1|a 2 -|a 3 1");
}

// Document 02, order 1: a clause's `with` reads the present cycle.

/// Two lamps, one in bay 2 and one in bay 3, and a panel that shows the bay of the lamp at this place when it is lit.
fn lamps(place: &str) -> String {
    let name = place.split(' ').next().expect("a name");
    format!(
        "interface L {{ attribute bay : whole event lit : bool }} interface P {{ action show ( whole ) }} \
         entity a : L {{ bay = 2 }} entity b : L {{ bay = 3 }} entity p : P {{ }} \
         rules when event lit from {place} with bay = 2 value = true trigger action show ( {name}.bay ) on p end end"
    )
}

#[test]
fn a_lamp_that_joins_lit_fires_at_once() {
    // Absent, then there with its reading in one line: it fires in that cycle, not again in the next, nor when it leaves.
    let lines = |lamp: &str| {
        format!("by n {lamp} {lamp}.lit|a 1 false -|a 2 - -|a 3 true true|a 4 - true|a 5 - -|a 6 false -|a 7 true -|a 8 - true")
    };
    let rows = "by n p.show|a 1 -|a 2 -|a 3 2|a 4 -|a 5 -|a 6 -|a 7 -|a 8 2";
    prints(&lamps("a"), &lines("a"), rows);
    prints(&lamps("v : L"), &lines("a"), rows);
    // The other lamp is in bay 3.
    let none = "by n p.show|a 1 -|a 2 -|a 3 -|a 4 -|a 5 -|a 6 -|a 7 -|a 8 -";
    prints(&lamps("b"), &lines("b"), none);
    prints(&lamps("v : L"), &lines("b"), none);
}

#[test]
fn of_lamps_that_join_in_one_line_those_in_the_bay_fire() {
    let bench = "interface L { attribute bay : whole event lit : bool action show ( whole ) } \
        entity a : L { bay = 2 } entity b : L { bay = 3 } entity c : L { bay = 2 } \
        rules when event lit from v : L with bay = 2 value changed trigger action show ( v.bay ) on v end end";
    // c is there throughout and is not read in line 2; b is in another bay.
    let lines =
        "by n a b c a.lit b.lit c.lit|a 1 false false - - - true|a 2 true true - true true -|a 3 - - - true true false|a 4 - - - false - false";
    prints(bench, lines, "by n a.show b.show c.show|a 1 - - 2|a 2 2 - -|a 3 - - 2|a 4 2 - -");
}

#[test]
fn clause_filter_reads_an_event_of_the_same_line() {
    let bench = "interface I { attribute a : whole event x : whole event go : bool action k ( whole ) } entity e : I { a = 3 } \
        rules when event go from e with a = e.x value changed trigger action k ( e.x ) on e end end";
    // In line 2 the filter ceases to hold, in line 3 it starts again, in line 4 it holds but go does not change; unset it fails.
    let lines = "by n e.go e.x|a 1 true 3|a 2 false 4|a 3 true 3|a 4 true 3|a 5 false ?|a 6 true -|a 7 false 3";
    prints(bench, lines, "by n e.k|a 1 3|a 2 -|a 3 3|a 4 -|a 5 -|a 6 -|a 7 3");
}

#[test]
fn clause_filter_reads_who_joins_and_who_leaves() {
    let bench = "interface I { attribute a : whole event x : bool } interface K { action k ( whole ) } \
        entity e : I { a = 4 } entity f : I { a = 4 } entity p : K { } \
        rules when event x from e with a = f.a value changed trigger action k ( 1 ) on p end end";
    // While f is absent its attribute reads unset: the filter fails from the line in which f leaves, and holds from its return on.
    prints(bench, "by n f e.x|a 1 - true|a 2 false false|a 3 - true|a 4 true false|a 5 - true", "by n p.k|a 1 1|a 2 -|a 3 -|a 4 1|a 5 1");
}

#[test]
fn clause_filter_sees_an_action_in_the_next_cycle_only() {
    let bench = "interface I { attribute a : whole event go : bool event x : bool action k ( whole ) action c ( whole ) } \
        entity e : I { a = 7 } rules when event go from e value = true trigger action k ( 7 ) on e end \
        when event x from e with a = e.k value changed trigger action c ( 1 ) on e end end";
    prints(bench, "by n e.go e.x|a 1 true true|a 2 - false|a 3 - true", "by n e.k e.c|a 1 7 -|a 2 - 1|a 3 - -");
}

#[test]
fn tests_compare_two_cycles_under_a_filter_that_starts_to_hold() {
    let bench = "interface I { attribute a : whole event x : whole event y : whole event z : whole \
        action k ( whole ) action c ( whole ) action m ( whole ) } entity e : I { a = 1 } rules \
        when event x from e with a = e.y value = 5 trigger action k ( 1 ) on e end \
        when event x from e with a = e.y value changed trigger action c ( 2 ) on e end \
        when event x from e with a = e.y value = e.z trigger action m ( 3 ) on e end end";
    // In lines 2 and 7 the filters start to hold, but x is as it was: only in line 2 does z make a difference. In line 6 they cease to
    // hold just as x turns 5.
    let lines = "by n e.x e.y e.z|a 1 5 0 4|a 2 5 1 5|a 3 4 1 5|a 4 5 1 5|a 5 6 1 5|a 6 5 0 5|a 7 5 1 5";
    prints(bench, lines, "by n e.k e.c e.m|a 1 - - -|a 2 - - 3|a 3 - 2 -|a 4 1 2 3|a 5 - 2 -|a 6 - - -|a 7 - - -");
}

#[test]
fn resent_readings_are_compared_as_readings() {
    let bench = "interface I { event x : whole event r : real } entity e : I { } rules end";
    prints(
        bench,
        "by n e e.x e.r|a 1 - - 0000000000000000|a 1 true - 0000000000000000|a 1 - ? 0000000000000000|a 1 - - 8000000000000000|a 1 - - 0000000000000000",
        "by n|a 1|refused 25|refused 25|refused 25|a 1",
    );
}

#[test]
fn absence_is_seen_from_the_state_before_the_call() {
    let bench = "interface I { event x : whole } entity e : I { } rules end";
    prints(bench, "by n e e.x|a 1 false -|a 1 - 1|a 1 true 1|a 1 false -", "by n|a 1|refused 23|refused 25|a 1");
}

#[test]
fn files_of_the_runner() {
    assert_eq!(printed("rules end\n", ""), "refused 22\n");
    assert_eq!(printed("", "by n\na 1\n"), "refused 13 0\n");
    assert_eq!(printed("rules end", "by n"), "by n\n");
    assert_eq!(printed("rules end", "by n\na 1\n\na 2\n"), "by n\na 1\nrefused 21\na 2\n");
    assert_eq!(printed("rules end", "by n\r\na 1"), "refused 22\n");
    assert_eq!(printed("rules end", "\nby n\na 1"), "refused 22\n");
}

// The bare machine on benches that are not checked.

fn stops(text: &str) -> bool {
    let bench = grammar::read(text.as_bytes()).expect("grammatical");
    let readings = Readings::none(&bench);
    let run = fresh(&bench).and_then(|state| cycle(&bench, &state, Given { sender: b"a", number: 1, readings: &readings }));
    run.err() == Some(Stop)
}

#[test]
fn the_machine_stops() {
    let head = "interface I { attribute a : whole event x : whole action k ( whole ) } entity e : I { a = 1 } rules ";
    let rule = |clause: &str, call: &str| format!("{head}when {clause} trigger {call} end end");
    let call = "action k ( 1 ) on e";
    assert!(!stops(&rule("event x from e value = 1", call)));
    assert!(stops(&rule("event x from f value = 1", call)));
    assert!(stops(&rule("event x from e value = e.q", call)));
    assert!(stops(&rule("event x from e value = 1 + true", call)));
    assert!(stops(&rule("event x from e value = e.x + true", call)));
    assert!(!stops(&rule("event x from e with a = e.x + 1r + 1 value changed", call)));
    // The filter's attribute is set in cycle 1 already, so other kinds meet there.
    assert!(stops(&rule("event x from e with a = 1r value changed", call)));
    assert!(stops(&rule("event x from e with a = e.a + 1r value changed", call)));
    assert!(stops(&rule("event x from e value = real ( 1r )", call)));
    assert!(stops(&rule("event x from v : K value changed", call)));
    // An unset value fits anywhere, so nothing stops here; a call that is not reached does not stop either.
    assert!(!stops(&rule("event x from e value = 1r", call)));
    assert!(!stops(&rule("event x from e value changed", "action k ( true ) on e")));
}

#[test]
fn the_machine_stops_at_a_reading_of_another_kind() {
    let bench = grammar::read(b"interface I { event x : whole } entity e : I { } rules end").expect("grammatical");
    let state = fresh(&bench).expect("a state");
    let mut readings = Readings::none(&bench);
    readings.cells[0][0] = Reading::Set(Value::Bool(true));
    assert_eq!(cycle(&bench, &state, Given { sender: b"a", number: 1, readings: &readings }).err(), Some(Stop));
}

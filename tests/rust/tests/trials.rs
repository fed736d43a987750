//! Every trial of document 01, but for what document 02 makes of them: order 1 drops the one that any clause `with` is false in cycle 1,
//! order 2 amends that of -7 / 2, order 6 that of keep(1), keep(2).

mod common;
use common::{keeping, prints, refusal, sum, PEDAL};
use second::interpreter::entity_part;

#[test]
fn pedal_bench() {
    prints(
        PEDAL,
        "by n p.down s.pos|a 1 false 100|a 2 true 140|a 2 true 140|a 3 - 150|a 4 false 150|a 5 true 190|a 4 - -",
        "by n k.keep|a 1 -|a 2 140|a 2 140|a 3 -|a 4 -|a 5 190|refused 24",
    );
}

#[test]
fn smallest_texts() {
    assert_eq!(refusal("rules end"), (0, 0));
    assert_eq!(refusal(""), (13, 0));
}

#[test]
fn sums() {
    assert_eq!(sum("whole", "2147483647 + 1"), "-");
    // The amended trial.
    assert_eq!(sum("whole", "-7 / 2"), "-4");
    assert_eq!(sum("whole", "7 / 0"), "-");
    assert_eq!(sum("whole", "(-2147483647 - 1) / -1"), "-");
    assert_eq!(sum("real", "1r / 3r"), "3fd5555555555555");
}

#[test]
fn earliest_write_stands() {
    let bench = keeping("whole", "1").replace("on x end", "on x , action keep ( 2 ) on x end");
    // The amended trial.
    prints(&bench, "by n x.go|a 1 true", "by n x.keep|a 1 1");
}

/// The dropped trial's bench: the attribute is set now, and that is what the filter reads.
#[test]
fn clause_filter_can_hold_in_cycle_1() {
    let bench = "interface X { attribute a : whole event go : bool action keep ( whole ) } entity x : X { a = 1 } \
        rules when event go from x with a = 1 value changed trigger action keep ( 1 ) on x end end";
    prints(bench, "by n x.go|a 1 true|a 2 false|a 3 false", "by n x.keep|a 1 1|a 2 1|a 3 -");
}

#[test]
fn numbers_of_lines() {
    prints("rules end", "by n|a 1", "by n|a 1");
    prints("rules end", "by n|a 0", "by n|refused 24");
    prints("rules end", "by n|a 01", "by n|refused 21");
}

#[test]
fn interfaces_and_long_names() {
    let many = |count: usize| (0..count).map(|number| format!("interface i{number} {{ }} ")).collect::<String>() + "rules end";
    assert_eq!(refusal(&many(16)), (0, 0));
    let text = many(17);
    assert_eq!(refusal(&text), (14, text.find("interface i16").unwrap()));
    assert_eq!(refusal(&format!("interface {} {{ }} rules end", "a".repeat(24))), (0, 0));
    assert_eq!(refusal(&format!("interface {} {{ }} rules end", "a".repeat(25))), (12, 10));
}

#[test]
fn names_by_number() {
    for (number, (word, name)) in [("entity p", "p"), ("entity s", "s"), ("entity k", "k")].into_iter().enumerate() {
        let (offset, length) = entity_part(PEDAL.as_bytes(), number);
        assert_eq!(Some(offset), PEDAL.find(word).map(|at| at + "entity ".len()));
        assert_eq!(&PEDAL[offset..offset + length], name);
    }
    assert_eq!(entity_part(PEDAL.as_bytes(), 3), (0, 0));
    assert_eq!(entity_part(b"rules", 0), (0, 0));
}

// The three mistakes to expect.

#[test]
fn compares_with_the_store_one_cycle_before() {
    // One press fires once, also when it is held.
    prints(PEDAL, "by n p.down s.pos|a 1 true 5|a 2 true 6|a 3 true 7", "by n k.keep|a 1 5|a 2 -|a 3 -");
}

#[test]
fn action_is_seen_one_cycle_later() {
    let bench = "interface X { event go : bool action a ( bool ) action b ( bool ) } entity x : X { } rules \
        when event go from x value = true trigger action a ( true ) on x end \
        when event a from x value = true trigger action b ( true ) on x end end";
    prints(bench, "by n x.go|a 1 true|a 2 -|a 3 -", "by n x.a x.b|a 1 true -|a 2 - true|a 3 - -");
}

#[test]
fn chooses_for_variables_of_calls() {
    let bench = "interface X { event go : bool } interface L { attribute i : whole action keep ( whole ) } \
        entity x : X { } entity k : L { i = 5 } entity l : L { i = 6 } \
        rules when event go from x value = true trigger action keep ( v.i ) on v : L end end";
    prints(bench, "by n x.go|a 1 true", "by n k.keep l.keep|a 1 5 6");
}

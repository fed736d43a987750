//! Each refusal of a bench text with its place, and each refusal of a line.

mod common;
use common::{accepted, prints, refusal, refused_at_mark, PEDAL};

const HEAD: &str = "interface I { attribute a : whole attribute b : bool event x : whole event y : real action z ( whole ) } \
    interface J { event x : bool } entity e : I { a = 1 b = true } entity j : J { } rules ";

/// A rule with this condition and this call, after the usual head.
fn ruled(condition: &str, call: &str) -> String {
    format!("{HEAD}when {condition} trigger {call} end end")
}

const CLAUSE: &str = "event x from e value changed";
const CALL: &str = "action z ( 1 ) on e";

#[test]
fn number_11() {
    let text = format!("rules end{}", " ".repeat(32_768 - 9));
    assert_eq!(refusal(&text), (0, 0));
    assert_eq!(refusal(&format!("{text} ")), (11, 32_768));
    // Too long comes before any other fault.
    assert_eq!(refusal(&";".repeat(40_000)), (11, 32_768));
}

#[test]
fn number_12() {
    refused_at_mark(12, "rules end @;");
    refused_at_mark(12, "rules @_a end");
    refused_at_mark(12, "rules end\n@\r");
    refused_at_mark(12, "rules end # comment @\u{7f} \n");
    refused_at_mark(12, "rules end # comment @\r\n");
    refused_at_mark(12, "@12345678901");
    refused_at_mark(12, "@2147483648");
    refused_at_mark(12, "@2147483648r");
    // A longer run of digits is no word, whatever its value.
    refused_at_mark(12, "@00000000001");
    refused_at_mark(12, "x @aaaaaaaaaaaaaaaaaaaaaaaaa");
    accepted("rules # any ; _ ~ \t text\nend#");
    // A bad byte at the end wins over bad grammar at the start.
    refused_at_mark(12, "end rules @\\");
}

#[test]
fn number_12_bytes_beyond_ascii() {
    for byte in (0..=255u8).filter(|byte| !(32..=126).contains(byte) && *byte != 9 && *byte != 10) {
        let text = [b"rules end ".as_slice(), &[byte]].concat();
        let refusal = second::interpreter::accept(&text).expect_err("refused");
        assert_eq!((refusal.number, refusal.place), (12, 10), "byte {byte}");
    }
}

#[test]
fn number_13() {
    refused_at_mark(13, "rules end @end");
    refused_at_mark(13, "rules@");
    refused_at_mark(13, "rules \n # comment\n @");
    refused_at_mark(13, "@rule end");
    refused_at_mark(13, "interface @event { } rules end");
    refused_at_mark(13, "interface I { event x : whole @attribute a : whole } rules end");
    refused_at_mark(13, "interface I { action x @: whole } rules end");
    refused_at_mark(13, "interface I { event x : @int } rules end");
    refused_at_mark(13, "entity e : I { } @interface I { } rules end");
    refused_at_mark(13, "entity e : I { a = - @true } rules end");
    refused_at_mark(13, "entity e : I { a = - @- 1 } rules end");
    refused_at_mark(13, "entity e : I { a = @x } rules end");
    refused_at_mark(13, "rules when event x from e value changed trigger @end end");
    refused_at_mark(13, "rules when event x from e @changed trigger action z ( 1 ) on e end end");
    refused_at_mark(13, "rules when event x from e value changed trigger action z ( @) on e end end");
    refused_at_mark(13, "rules when event x from e value changed trigger action z ( a @) on e end end");
    refused_at_mark(13, "rules when ( event x from e value = 1 @trigger action z ( 1 ) on e end end");
    refused_at_mark(13, "rules when event x from e value = 1 @) trigger action z ( 1 ) on e end end");
    refused_at_mark(13, "rules when event x from e value = real @1 trigger action z ( 1 ) on e end end");
    // `1real` is `1r` and then a name.
    refused_at_mark(13, "rules when event x from e value = 1r@eal trigger action z ( 1 ) on e end end");
}

/// `rank` is reserved, so it is no name anywhere.
#[test]
fn number_13_at_rank() {
    refused_at_mark(13, "interface @rank { } rules end");
    refused_at_mark(13, "interface I { attribute @rank : whole } rules end");
    refused_at_mark(13, "interface I { event @rank : whole } rules end");
    refused_at_mark(13, "interface I { action @rank ( whole ) } rules end");
    refused_at_mark(13, "interface I { } entity @rank : I { } rules end");
    refused_at_mark(13, "interface I { } entity e : @rank { } rules end");
    refused_at_mark(13, "interface I { attribute a : whole } entity e : I { @rank = 1 } rules end");
    refused_at_mark(13, &ruled("event x from @rank : I value changed", CALL));
    refused_at_mark(13, &ruled("event x from v : @rank value changed", CALL));
    refused_at_mark(13, &ruled("event @rank from e value changed", CALL));
    refused_at_mark(13, &ruled("event x from e with @rank = 1 value changed", CALL));
    refused_at_mark(13, &ruled("event x from e value = @rank", CALL));
    refused_at_mark(13, &ruled("event x from e value = e.@rank", CALL));
    refused_at_mark(13, &ruled(CLAUSE, "action z ( 1 ) on @rank"));
    // Names that only begin so, or in other letters, are names.
    let benches = [
        "interface N { attribute N : whole event x : whole action z ( whole ) } entity e : N { N = 1 } \
         rules when event x from N : N with N = N.N value changed trigger action z ( 1 ) on e end end",
        "interface I { event N : whole } interface J { action N ( whole ) } entity N : I { } entity j : J { } \
         rules when rank 1 event N from N value changed trigger action N ( N.N ) on j end end",
    ];
    for name in ["ranks", "rank_1", "rank1", "ran", "Rank", "RANK", "rankrank"] {
        benches.iter().for_each(|bench| accepted(&bench.replace('N', name)));
    }
}

#[test]
fn number_13_in_a_rank() {
    for number in ["3r", "0r", "10r", "2147483647r", "- 1", "-", "( 1 )", "true", "a", "e.x", "=", ":", ",", "rank 1", "rank", "when"] {
        refused_at_mark(13, &ruled(&format!("rank @{number} {CLAUSE}"), CALL));
    }
    refused_at_mark(13, &ruled(&format!("rank @{CLAUSE}"), CALL));
    refused_at_mark(13, &ruled("rank 1 @trigger", CALL));
    refused_at_mark(13, &ruled(&format!("rank 1 @2 {CLAUSE}"), CALL));
    refused_at_mark(13, &ruled(&format!("rank 1 @, {CLAUSE}"), CALL));
    refused_at_mark(13, &ruled(&format!("rank 1 @: {CLAUSE}"), CALL));
    refused_at_mark(13, &ruled(&format!("@1 {CLAUSE}"), CALL));
    refused_at_mark(13, &ruled(&format!("@rank1 {CLAUSE}"), CALL));
    // Twice, and at a wrong place.
    refused_at_mark(13, &ruled(&format!("rank 1 @rank 1 {CLAUSE}"), CALL));
    refused_at_mark(13, &ruled(&format!("( @rank 1 {CLAUSE} )"), CALL));
    refused_at_mark(13, &ruled(&format!("{CLAUSE} @rank 1"), CALL));
    refused_at_mark(13, &ruled(&format!("{CLAUSE} and @rank 1 {CLAUSE}"), CALL));
    refused_at_mark(13, &ruled(CLAUSE, &format!("@rank 1 {CALL}")));
    refused_at_mark(13, &ruled(CLAUSE, &format!("{CALL} @rank 1")));
    refused_at_mark(13, &format!("{HEAD}@rank 1 when {CLAUSE} trigger {CALL} end end"));
    refused_at_mark(13, &format!("{HEAD}@rank 1 end"));
    refused_at_mark(13, "@rank 1 rules end");
    // A text that ends early.
    refused_at_mark(13, &format!("{HEAD}when rank@"));
    refused_at_mark(13, &format!("{HEAD}when rank 1 @"));
    refused_at_mark(12, &ruled(&format!("rank @00000000001 {CLAUSE}"), CALL));
    refused_at_mark(12, &ruled(&format!("rank @2147483648 {CLAUSE}"), CALL));
}

#[test]
fn number_44() {
    for number in ["0", "1", "8", "9", "00", "09", "0000000000", "0000000009"] {
        accepted(&ruled(&format!("rank {number} {CLAUSE}"), CALL));
    }
    for number in ["10", "11", "19", "90", "99", "100", "255", "256", "265", "65536", "2147483647", "010", "0000000010"] {
        refused_at_mark(44, &ruled(&format!("rank @{number} {CLAUSE}"), CALL));
    }
    // No blank is needed after the number, nor one blank alone before it.
    accepted(&ruled(&format!("rank 9{CLAUSE}"), CALL));
    refused_at_mark(44, &ruled(&format!("rank @10{CLAUSE}"), CALL));
    refused_at_mark(44, &ruled(&format!("rank\t# 9\n  @10( {CLAUSE} )"), CALL));
    // The first of them, wherever it stands.
    let rule = |rank: &str| format!("when {rank} {CLAUSE} trigger {CALL} end ");
    let rules = |ranks: [&str; 3]| format!("{HEAD}{} end", ranks.map(rule).concat());
    refused_at_mark(44, &rules(["rank @10", "rank 9", ""]));
    refused_at_mark(44, &rules(["rank 9", "rank @11", "rank 1"]));
    refused_at_mark(44, &rules(["", "rank 0", "rank @256"]));
    refused_at_mark(44, &rules(["rank 9", "rank @10", "rank 99"]));
    refused_at_mark(44, &rules(["rank @10", "", "rank 2147483647"]));
    refused_at_mark(44, &rules(["rank @99", "rank 98", "rank 10"]));
}

#[test]
fn number_44_comes_after_13_and_before_14() {
    let above = ruled(&format!("rank @10 {CLAUSE}"), CALL);
    assert_eq!(refusal(&(above.replacen('@', "", 1) + &" ".repeat(32_768))), (11, 32_768));
    refused_at_mark(12, &(above.replacen('@', "", 1) + " @;"));
    refused_at_mark(13, &(above.replacen('@', "", 1) + " @end"));
    refused_at_mark(13, &ruled(&format!("rank 10 @rank 1 {CLAUSE}"), CALL));
    refused_at_mark(13, &ruled(&format!("rank 10 @, {CLAUSE}"), CALL));
    refused_at_mark(13, &format!("{HEAD}when rank 10 {CLAUSE} trigger {CALL} end when rank @3r {CLAUSE} trigger {CALL} end end"));
    refused_at_mark(13, &ruled(&format!("rank 10 {}@( {CLAUSE} {}", "( ".repeat(16), ") ".repeat(17)), CALL));
    // Whatever counts, names and kinds do, before it and after it.
    let interfaces: String = (0..17).map(|number| format!("interface i{number} {{ }} ")).collect();
    refused_at_mark(44, &(interfaces + &above));
    let calls = [CALL; 9].join(" , ");
    refused_at_mark(44, &ruled(&format!("rank @10 {CLAUSE}"), &calls));
    let rule = format!("when {CLAUSE} trigger {CALL} end ");
    refused_at_mark(44, &format!("{HEAD}{}when rank @10 {CLAUSE} trigger {CALL} end end", rule.repeat(64)));
    refused_at_mark(44, &format!("interface I {{ }} {above}"));
    refused_at_mark(44, &ruled("rank @10 event q from f : K value changed", CALL));
    refused_at_mark(
        44,
        &format!("{HEAD}when event x from f value changed trigger {CALL} end when rank @10 {CLAUSE} trigger {CALL} end end"),
    );
    refused_at_mark(44, &above.replace("a = 1 b = true", "a = 1"));
    refused_at_mark(44, &above.replace("a = 1 b = true", "a = 1r b = 1"));
    refused_at_mark(44, &ruled("rank @10 event x from e value = true", CALL));
    // A good rank changes nothing of theirs.
    refused_at_mark(14, &format!("{HEAD}{}@when rank 1 {CLAUSE} trigger {CALL} end end", rule.repeat(64)));
    refused_at_mark(14, &ruled(&format!("rank 1 {}@{CLAUSE}", format!("{CLAUSE} or ").repeat(8)), CALL));
    refused_at_mark(15, &ruled("rank 1 event x from @j : J value changed", CALL));
    refused_at_mark(16, &ruled("rank 1 event x from @f value changed", CALL));
    refused_at_mark(18, &ruled("rank 1 event x from e value @= true", CALL));
}

#[test]
fn number_15() {
    refused_at_mark(15, "interface I { } interface @I { } rules end");
    refused_at_mark(15, "interface I { attribute a : whole event @a : whole } rules end");
    refused_at_mark(15, "interface I { } entity e : I { } entity @e : I { } rules end");
    refused_at_mark(15, "interface I { attribute a : whole } entity e : I { a = 1 @a = 2 } rules end");
    refused_at_mark(15, &ruled("event x from v : J value changed and event x from @v : J value changed", CALL));
    refused_at_mark(15, &ruled("event x from @j : J value changed", CALL));
    refused_at_mark(15, &ruled("event x from v : I value changed", "action z ( 1 ) on @v : I"));
    // The name means the first declaration, which has no z: that place is earlier.
    refused_at_mark(16, &ruled("event x from v : J value changed", "action @z ( 1 ) on v : I"));
    accepted("interface a { event a : whole } entity a : a { } rules end");
}

#[test]
fn number_16() {
    refused_at_mark(16, "interface I { } entity e : @J { a = 1 } rules end");
    refused_at_mark(16, "interface I { event x : whole } entity e : I { @x = 1 } rules end");
    refused_at_mark(16, "interface I { } entity e : I { @x = 1 x = 2 } rules end");
    refused_at_mark(16, &ruled("event x from @f value changed", CALL));
    refused_at_mark(16, &ruled("event x from v : @K value changed", CALL));
    refused_at_mark(16, &ruled("event @a from e value changed", CALL));
    refused_at_mark(16, &ruled("event x from e with @x = 1 value changed", CALL));
    refused_at_mark(16, &ruled("event x from e value = @f.x", CALL));
    refused_at_mark(16, &ruled("event x from e value = e.@q", CALL));
    refused_at_mark(16, &ruled(CLAUSE, "action @x ( 1 ) on e"));
    refused_at_mark(16, &ruled(CLAUSE, "action z ( 1 ) on e with @z = 1"));
    // An action's name is readable as an event.
    accepted(&ruled("event z from e value changed", CALL));
    // A variable may be used before it is declared.
    accepted(&ruled("event x from v value changed and event x from v : I value changed", CALL));
}

#[test]
fn members_are_looked_up_where_the_interface_is_known() {
    // The interface is unknown, so `q` is not looked up; the unknown interface itself is refused.
    refused_at_mark(16, &ruled("event q from v : @K value changed", CALL));
    refused_at_mark(16, &ruled("event q from v value = v.q or event x from v : @K value changed", CALL));
    // The name means the entity, so its member is looked up there, before 15 at the variable.
    refused_at_mark(16, &ruled("event @y from j : I value changed", CALL));
    // The first declared variable counts, wherever it stands.
    refused_at_mark(
        16,
        &ruled("event @y from v value changed and event x from v : J value changed and event x from v : I value changed", CALL),
    );
}

#[test]
fn number_17() {
    refused_at_mark(17, "interface I { attribute a : whole attribute b : whole } entity e : I { a = 1 @} rules end");
    // One pass with 15 and 16, the earliest place first.
    refused_at_mark(17, "interface I { attribute a : whole } entity e : I { @} entity e : K { } rules end");
    refused_at_mark(15, "interface I { attribute a : whole } interface @I { } entity e : I { } rules end");
    refused_at_mark(16, "interface I { attribute a : whole } entity e : @K { } rules end");
}

#[test]
fn number_18() {
    refused_at_mark(18, "interface I { attribute a : whole } entity e : I { a @= 1r } rules end");
    refused_at_mark(18, &ruled("event x from e value @= true", CALL));
    refused_at_mark(18, &ruled("event x from e with a @= 1r value changed", CALL));
    refused_at_mark(18, &ruled("event x from e value = 1 @+ 1r", CALL));
    refused_at_mark(18, &ruled("event x from e value = @- true", CALL));
    refused_at_mark(18, &ruled("event y from e value = @real ( 1r )", CALL));
    refused_at_mark(18, &ruled("event y from e value = @real ( true )", CALL));
    refused_at_mark(18, &ruled(CLAUSE, "action z @( 1r ) on e"));
    refused_at_mark(18, &ruled(CLAUSE, "action z ( 1 ) on e with b @= 1"));
    // A sum with a fault inside fits anywhere; a bool never fits an operator.
    refused_at_mark(18, &ruled("event x from e value = true @+ ( 1 + 2r )", CALL));
    refused_at_mark(18, &ruled("event x from e value = ( 1 @+ 2r ) + 1r", CALL));
    refused_at_mark(18, &ruled("event x from e value = 1 * 2 @+ 2r / 3r", CALL));
    refused_at_mark(18, &ruled("event x from e value = 1 + true @* 3", CALL));
    accepted(&ruled("event y from e value = real ( e.x ) * - 2r", CALL));
}

#[test]
fn earlier_numbers_win() {
    // 14 before 15, though the repeated name stands first.
    let many: String = (0..16).map(|number| format!("interface i{number} {{ }} ")).collect();
    refused_at_mark(14, &format!("{many}@interface i0 {{ }} rules end"));
    // 16 before 18, though the wrong kind stands first.
    refused_at_mark(16, "interface I { attribute a : whole } entity e : I { a = true } entity f : @K { } rules end");
}

#[test]
fn lines_of_names() {
    let names = [
        "",
        "m",
        "n",
        "by",
        "by ",
        "n by",
        "by by n",
        "by  n",
        "by\tn",
        "byn",
        "by m",
        "By n",
        "by N",
        "by n n",
        "by n by",
        "by n by n",
        "n p.down",
        "by p.down",
        "n by p.down",
        "p.down by n",
        "by n ",
        " by n",
        "by n  p",
        "by n q",
        "by n p.up",
        "by n k.keep",
        "by n p p",
        "by n p.down p.down",
        "by n\tp",
        "by n p.",
        "by n .down",
        "by n p.down.x",
        "by n p\r",
    ];
    for names in names {
        prints(PEDAL, &format!("{names}|a 1"), "refused 22");
    }
    // An attribute is no column.
    prints("interface I { attribute a : whole } entity e : I { a = 1 } rules end", "by n e.a|a 1 1", "refused 22");
    // Entities may be called n and by: columns begin after `by n`.
    let bench = "interface I { event n : whole } entity n : I { } entity by : I { } rules end";
    prints(bench, "by n n|a 1 false", "by n|a 1");
    prints(bench, "by n by by.n n.n n|a 1 - 1 2 -", "by n|a 1");
    for names in ["n", "by", "n n", "by by", "n by n", "by by n", "by n n n", "by n by by"] {
        prints(bench, &format!("{names}|a 1 -"), "refused 22");
    }
}

#[test]
fn lines_of_values() {
    let forms = [
        "a",
        "a ",
        "a 1",
        " 1",
        "a 1 ",
        "a 1 - ",
        "a 1  -",
        "a 1 -",
        "a 1 - - -",
        "a 01 - -",
        "a +1 - -",
        "a -1 - -",
        "a x - -",
        "a 12345678901 - -",
        "a 1\t- -",
        "a 1x - -",
        // No sender, an empty one, no number, both in the other order.
        "1 - -",
        " 1 - -",
        "a - -",
        "a  - -",
        "1 a - -",
        "a b 1 - -",
        " a 1 - -",
        "a  1 - -",
    ];
    for values in forms {
        prints(PEDAL, &format!("by n p.down s.pos|{values}"), "by n k.keep|refused 21");
    }
    for values in
        ["1 ? ?x", "1 True -", "1 1 -", "1 - 01", "1 - -0", "1 - 2147483648", "1 - -2147483649", "1 - true", "1 - +1", "1 - 1\t", "1 - --1"]
    {
        prints(PEDAL, &format!("by n p.down s.pos|a {values}"), "by n k.keep|refused 23");
    }
    for values in ["0 - -", "2 - -", "4294967296 - -", "9999999999 - -"] {
        prints(PEDAL, &format!("by n p.down s.pos|a {values}"), "by n k.keep|refused 24");
    }
    for (values, row) in [("1 ? ?", "1 -"), ("1 - -2147483648", "1 -"), ("1 true 2147483647", "1 2147483647"), ("1 false 0", "1 -")] {
        prints(PEDAL, &format!("by n p.down s.pos|a {values}"), &format!("by n k.keep|a {row}"));
    }
}

#[test]
fn reals_in_lines() {
    let bench = "interface I { event r : real action k ( real ) } entity e : I { } rules when event r from e value changed trigger action k ( e.r ) on e end end";
    prints(bench, "by n e.r|a 1 3ff0000000000000", "by n e.k|a 1 3ff0000000000000");
    let bad = [
        "3FF0000000000000",
        "3ff000000000000",
        "3ff00000000000000",
        "7ff0000000000000",
        "fff0000000000000",
        "7ff8000000000001",
        "1",
        "1r",
        "3ff000000000000g",
    ];
    for value in bad {
        prints(bench, &format!("by n e.r|a 1 {value}"), "by n e.k|refused 23");
    }
    prints(bench, "by n e.r|a 1 7fefffffffffffff|a 2 0000000000000001", "by n e.k|a 1 7fefffffffffffff|a 2 0000000000000001");
}

#[test]
fn presence_takes_bools() {
    let bench = "interface I { event x : whole } entity e : I { } rules end";
    for value in ["?", "1", "True", "0"] {
        prints(bench, &format!("by n e|a 1 {value}"), "by n|refused 23");
    }
    prints(bench, "by n e e.x|a 1 false 1|a 1 false ?|a 1 false -|a 2 - 1|a 2 true 1", "by n|refused 23|refused 23|a 1|refused 23|a 2");
}

#[test]
fn other_readings_under_the_last_number() {
    prints(PEDAL, "by n p.down s.pos|a 1 - 1|a 1 - 2|a 1 ? 1|a 1 - -|a 1 - 1", "by n k.keep|a 1 -|refused 25|refused 25|refused 25|a 1 -");
}

#[test]
fn order_of_refusals_of_a_line() {
    prints(PEDAL, "by n p.down s.pos|a 5 x|a 5 x -|a 5 - -", "by n k.keep|refused 21|refused 23|refused 24");
}

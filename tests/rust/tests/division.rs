//! Order 2 of document 02: whole `/` rounds toward minus infinity; a zero divisor and -2147483648 / -1 give unset. Reals stay.

mod common;
use common::{keeping, printed, prints, sum};
use second::generate::prng::Prng;

/// The least whole; as a literal it would be too large.
const LEAST: &str = "( - 2147483647 - 1 )";

/// Checks what whole sums give, as a row prints it.
fn gives(table: &[(&str, &str)]) {
    for (words, wanted) in table {
        assert_eq!(sum("whole", &words.replace("LEAST", LEAST)), *wanted, "{words}");
    }
}

#[test]
fn cases_of_the_order() {
    gives(&[("- 7 / 2", "-4"), ("7 / - 2", "-4"), ("- 7 / - 2", "3"), ("7 / 2", "3")]);
    gives(&[("- 7 / 0", "-"), ("LEAST / - 1", "-")]);
}

#[test]
fn exact_quotients_in_all_signs() {
    gives(&[("6 / 3", "2"), ("- 6 / 3", "-2"), ("6 / - 3", "-2"), ("- 6 / - 3", "2")]);
    gives(&[("5 / 1", "5"), ("- 5 / 1", "-5"), ("5 / - 1", "-5"), ("- 5 / - 1", "5")]);
    gives(&[("5 / 5", "1"), ("- 5 / 5", "-1"), ("5 / - 5", "-1"), ("- 5 / - 5", "1")]);
}

#[test]
fn inexact_quotients_in_all_signs() {
    // Below one half, above it, and between: 3.25, 3.75, 3.5.
    gives(&[("13 / 4", "3"), ("- 13 / 4", "-4"), ("13 / - 4", "-4"), ("- 13 / - 4", "3")]);
    gives(&[("15 / 4", "3"), ("- 15 / 4", "-4"), ("15 / - 4", "-4"), ("- 15 / - 4", "3")]);
    gives(&[("14 / 4", "3"), ("- 14 / 4", "-4"), ("14 / - 4", "-4"), ("- 14 / - 4", "3")]);
    // Nearer to zero than one.
    gives(&[("1 / 2", "0"), ("- 1 / 2", "-1"), ("1 / - 2", "-1"), ("- 1 / - 2", "0")]);
    gives(&[("1 / 9", "0"), ("- 1 / 9", "-1"), ("1 / - 9", "-1"), ("- 1 / - 9", "0")]);
    gives(&[("8 / 9", "0"), ("- 8 / 9", "-1"), ("8 / - 9", "-1"), ("- 8 / - 9", "0")]);
}

#[test]
fn zero_is_divided() {
    gives(&[("0 / 5", "0"), ("0 / - 5", "0"), ("- 0 / 5", "0"), ("0 / 2147483647", "0"), ("0 / LEAST", "0")]);
}

#[test]
fn zero_divides_nothing() {
    gives(&[("7 / 0", "-"), ("0 / 0", "-"), ("1 / 0", "-"), ("- 1 / 0", "-"), ("7 / - 0", "-"), ("7 / ( 2 - 2 )", "-")]);
    gives(&[("LEAST / 0", "-"), ("2147483647 / 0", "-"), ("1 + 7 / 0", "-"), ("0 * ( 7 / 0 )", "-"), ("7 / ( 1 / 2 )", "-")]);
    // -1 / 2 is no longer zero.
    gives(&[("7 / ( - 1 / 2 )", "-7")]);
}

#[test]
fn ends_of_32_bits() {
    gives(&[("LEAST / - 1", "-"), ("LEAST / 1", "-2147483648"), ("( LEAST + 1 ) / - 1", "2147483647")]);
    gives(&[("LEAST / 2", "-1073741824"), ("LEAST / - 2", "1073741824"), ("LEAST / LEAST", "1")]);
    gives(&[("LEAST / 3", "-715827883"), ("LEAST / - 3", "715827882")]);
    gives(&[("LEAST / 2147483647", "-2"), ("LEAST / - 2147483647", "1"), ("- 2147483647 / LEAST", "0")]);
    gives(&[("2147483647 / LEAST", "-1"), ("2147483647 / 2147483647", "1"), ("- 2147483647 / 2147483647", "-1")]);
    gives(&[("2147483647 / 1", "2147483647"), ("2147483647 / - 1", "-2147483647")]);
    gives(&[("2147483647 / 2", "1073741823"), ("2147483647 / - 2", "-1073741824")]);
    gives(&[("- 2147483647 / 2", "-1073741824"), ("- 2147483647 / - 2", "1073741823")]);
    gives(&[("1 / 2147483647", "0"), ("- 1 / 2147483647", "-1"), ("1 / LEAST", "-1"), ("- 1 / LEAST", "0")]);
}

#[test]
fn signs_and_grouping() {
    // A sign belongs to its factor, so -7 is divided; 7 / 2 is negated only in parentheses.
    gives(&[("- 7 / 2", "-4"), ("( - 7 ) / 2", "-4"), ("- ( 7 / 2 )", "-3"), ("0 - 7 / 2", "-3"), ("- - 7 / 2", "3")]);
    // To the left: each quotient is rounded before the next.
    gives(&[("7 / 2 / - 2", "-2"), ("7 / - 2 / 2", "-2"), ("- 7 / 2 / - 3", "1"), ("- 7 / 2 * 2", "-8"), ("2 * - 7 / 4", "-4")]);
    gives(&[("1 + - 7 / 2", "-3"), ("1 - - 7 / 2", "5"), ("- 7 / 2 - 7 / 2", "-7"), ("( 1 - 8 ) / ( 1 + 1 )", "-4")]);
}

#[test]
fn unset_operands_give_unset() {
    gives(&[("x.w / 2", "-"), ("2 / x.w", "-"), ("x.w / 0", "-"), ("- 7 / x.w", "-")]);
}

#[test]
fn unset_quotients_write_nothing() {
    for words in ["7 / 0", "0 / 0", "LEAST / - 1"] {
        let call = format!("on x , action keep ( {} ) on x end", words.replace("LEAST", LEAST));
        prints(&keeping("whole", "5").replace("on x end", &call), "by n x.go|a 1 true", "by n x.keep|a 1 5");
    }
}

// Over many pairs, told by multiplication alone.

/// What the bench keeps for each pair's first over its second.
fn quotients(pairs: &[(i32, i32)]) -> Vec<Option<i64>> {
    let bench = "interface I { event turn : whole event x : whole event y : whole action k ( whole ) } entity e : I { } \
        rules when event turn from e value changed trigger action k ( e.x / e.y ) on e end end";
    let lines = pairs.iter().enumerate().map(|(turn, (x, y))| format!("\na {0} {0} {x} {y}", turn + 1));
    let rows = printed(bench, &format!("by n e.turn e.x e.y{}", lines.collect::<String>()));
    let kept = |row: &str| match row.split(' ').nth(2).expect("a field") {
        "-" => None,
        field => Some(field.parse().expect("a whole")),
    };
    let kept: Vec<_> = rows.lines().skip(1).map(kept).collect();
    assert_eq!(kept.len(), pairs.len());
    kept
}

/// Whether q is x / y rounded toward minus infinity: x lies from q * y on, in the direction of y, and before one y more. Only one q does so.
fn rounds_down(x: i64, y: i64, q: i64) -> bool {
    if y > 0 {
        q * y <= x && x < q * y + y
    } else {
        q * y >= x && x > q * y + y
    }
}

fn all_round_down(pairs: &[(i32, i32)]) {
    for (&(x, y), kept) in pairs.iter().zip(quotients(pairs)) {
        let unset = y == 0 || (x, y) == (i32::MIN, -1);
        let right = kept.is_some_and(|q| rounds_down(i64::from(x), i64::from(y), q));
        assert!(if unset { kept.is_none() } else { right }, "{x} / {y} gave {kept:?}");
    }
}

fn all_pairs(values: &[i32]) -> Vec<(i32, i32)> {
    values.iter().flat_map(|&x| values.iter().map(move |&y| (x, y))).collect()
}

#[test]
fn all_pairs_of_small_wholes() {
    all_round_down(&all_pairs(&(-30..=30).collect::<Vec<_>>()));
}

#[test]
fn all_pairs_of_great_and_small_wholes() {
    let near = |middle: i32| [middle.saturating_sub(1), middle, middle.saturating_add(1)];
    let mut values: Vec<i32> =
        [i32::MIN, -(1 << 30), -65_536, -46_341, 0, 46_341, 65_536, 1 << 30, i32::MAX].into_iter().flat_map(near).collect();
    values.extend([-10, -3, -2, 2, 3, 10]);
    all_round_down(&all_pairs(&values));
}

#[test]
fn random_pairs_of_all_sizes() {
    let mut prng = Prng::new(2);
    let mut any = || (prng.draw() as i32) >> prng.below(32);
    let pairs: Vec<_> = (0..5_000).map(|_| (any(), any())).collect();
    all_round_down(&pairs);
}

// Where sums stand.

/// A stage that keeps its position over a divisor.
fn stage(divisor: &str) -> String {
    format!(
        "interface S {{ event pos : whole action half ( whole ) }} entity s : S {{ }} \
         rules when event pos from s value changed trigger action half ( s.pos / {divisor} ) on s end end"
    )
}

#[test]
fn halves_do_not_bend_at_zero() {
    let travel = "by n s.pos|a 1 -4|a 2 -3|a 3 -2|a 4 -1|a 5 0|a 6 1|a 7 2|a 8 3|a 9 4";
    prints(&stage("2"), travel, "by n s.half|a 1 -2|a 2 -2|a 3 -1|a 4 -1|a 5 0|a 6 0|a 7 1|a 8 1|a 9 2");
    prints(&stage("- 2"), travel, "by n s.half|a 1 2|a 2 1|a 3 1|a 4 0|a 5 0|a 6 -1|a 7 -1|a 8 -2|a 9 -2");
}

#[test]
fn tests_round_down_in_both_cycles() {
    let bench = "interface S { event pos : whole event goal : whole action hit ( whole ) } entity s : S { } \
        rules when event goal from s value = s.pos / 2 trigger action hit ( s.pos ) on s end end";
    // In line 2 the halves are equal as they were: -7 and -8 have one half, so have -6 and -5 in line 5. In line 3 the half is still -4. In
    // line 6 the half is 3, in line 8 unset, so that the next lines start anew.
    let lines = "by n s.pos s.goal|a 1 -7 -4|a 2 -8 -4|a 3 -7 -3|a 4 -6 -3|a 5 -5 -3|a 6 7 -|a 7 -5 -|a 8 ? -|a 9 -6 -";
    prints(bench, lines, "by n s.hit|a 1 -7|a 2 -|a 3 -|a 4 -6|a 5 -|a 6 -|a 7 -5|a 8 -|a 9 -6");
}

#[test]
fn filters_round_down() {
    let bench = |divisor: &str| {
        format!(
            "interface S {{ attribute a : whole event pos : whole action k ( whole ) action c ( whole ) }} entity s : S {{ a = - 2 }} rules \
             when event pos from s with a = s.pos / {divisor} value changed trigger action k ( s.pos ) on s end \
             when event pos from s value changed trigger action c ( s.pos ) on s with a = s.pos / {divisor} end end"
        )
    };
    let head = "by n s.k s.c";
    // -2 is the half of -4 and -3 alone, and of 3 and 4 mirrored.
    prints(
        &bench("2"),
        "by n s.pos|a 1 -5|a 2 -4|a 3 -3|a 4 -2|a 5 3|a 6 4|a 7 5",
        &format!("{head}|a 1 - -|a 2 -4 -4|a 3 -3 -3|a 4 - -|a 5 - -|a 6 - -|a 7 - -"),
    );
    prints(
        &bench("- 2"),
        "by n s.pos|a 1 2|a 2 3|a 3 4|a 4 5|a 5 -4|a 6 -3",
        &format!("{head}|a 1 - -|a 2 3 3|a 3 4 4|a 4 - -|a 5 - -|a 6 - -"),
    );
    prints(&bench("0"), "by n s.pos|a 1 -2|a 2 0|a 3 2", &format!("{head}|a 1 - -|a 2 - -|a 3 - -"));
}

// Reals.

#[test]
fn reals_are_not_rounded_down() {
    let table = [
        ("7r / 2r", "400c000000000000"),
        ("- 7r / 2r", "c00c000000000000"),
        ("7r / - 2r", "c00c000000000000"),
        ("- 7r / - 2r", "400c000000000000"),
        ("- 1r / 2r", "bfe0000000000000"),
        ("- 1r / 3r", "bfd5555555555555"),
        ("0r / - 2r", "8000000000000000"),
        ("- 7r / 0r", "-"),
        ("- 7r / - 0r", "-"),
        // The whole is divided before it becomes a real, or after.
        ("real ( - 7 / 2 )", "c010000000000000"),
        ("real ( - 7 ) / 2r", "c00c000000000000"),
        ("real ( - 7 / - 2 )", "4008000000000000"),
        ("real ( - 7 / 0 )", "-"),
    ];
    for (words, wanted) in table {
        assert_eq!(sum("real", words), wanted, "{words}");
    }
    // The least whole is no end for reals.
    assert_eq!(sum("real", &format!("real {LEAST} / - 1r")), "41e0000000000000");
}

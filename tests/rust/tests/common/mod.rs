//! Shared by the tests: short ways to check a text and to run lines.
#![allow(dead_code)]

use second::interpreter::accept;
use second::runner;

/// The refusal of a text as number and place; (0, 0) if it is accepted.
pub fn refusal(text: &str) -> (u8, usize) {
    match accept(text.as_bytes()) {
        Ok(_) => (0, 0),
        Err(refusal) => (refusal.number, refusal.place),
    }
}

/// Checks that a text is refused by `number` at the mark `@`, which is taken out of it.
pub fn refused_at_mark(number: u8, marked: &str) {
    let place = marked.find('@').expect("the text has a mark");
    let text = marked.replacen('@', "", 1);
    assert_eq!(refusal(&text), (number, place), "{marked}");
}

pub fn accepted(text: &str) {
    assert_eq!(refusal(text), (0, 0), "{text}");
}

/// What the runner prints.
pub fn printed(bench: &str, readings: &str) -> String {
    let mut out = Vec::new();
    runner::run(bench.as_bytes(), readings.as_bytes(), &mut out).expect("writing to memory does not fail");
    String::from_utf8(out).expect("rows are ASCII")
}

/// Checks the runner's lines, given with `|` between; each ends in a line feed, the last one too.
pub fn prints(bench: &str, readings: &str, rows: &str) {
    let wanted = rows.replace('|', "\n") + "\n";
    assert_eq!(printed(bench, &readings.replace('|', "\n")), wanted, "{bench}\n{readings}");
}

pub const PEDAL: &str = "interface P { event down : bool } interface S { event pos : whole } interface L { action keep ( whole ) } \
    entity p : P { } entity s : S { } entity k : L { } \
    rules when event down from p value = true trigger action keep ( s.pos ) on k end end";

/// A bench that keeps one sum of a kind when x.go turns true.
pub fn keeping(kind: &str, sum: &str) -> String {
    format!(
        "interface X {{ event go : bool event w : whole event r : real action keep ( {kind} ) }} entity x : X {{ }} \
         rules when event go from x value = true trigger action keep ( {sum} ) on x end end"
    )
}

/// What the sum gives, as a row prints it.
pub fn sum(kind: &str, sum: &str) -> String {
    let printed = printed(&keeping(kind, sum), "by n x.go\na 1 true");
    printed.lines().nth(1).expect("a row").strip_prefix("a 1 ").expect("sender and number").to_string()
}

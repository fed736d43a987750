//! Counts, openers and lengths at their limits and beyond.

mod common;
use common::{prints, refusal};
use second::calls;
use second::image::{sender_at, BENCH_SIZE, NUMBER_AT, ROW_SIZE, STATE_SIZE};

const HEAD: &str = "interface I { event x : whole action z ( whole ) } entity e : I { } rules ";

fn repeat(count: usize, separator: &str, item: impl Fn(usize) -> String) -> String {
    (0..count).map(item).collect::<Vec<_>>().join(separator)
}

/// Accepted at the limit; one more is refused by 14 where `beyond` first stands.
fn limited(make: impl Fn(usize) -> String, most: usize, beyond: &str) {
    assert_eq!(refusal(&make(most)), (0, 0));
    let text = make(most + 1);
    assert_eq!(refusal(&text), (14, text.find(beyond).expect("the item beyond")));
    let text = make(most + 2);
    assert_eq!(refusal(&text), (14, text.find(beyond).expect("the item beyond")));
}

#[test]
fn counts() {
    limited(|count| repeat(count, " ", |n| format!("interface i{n} {{ }}")) + " rules end", 16, "interface i16");
    limited(|count| format!("interface I {{ {} }} rules end", repeat(count, " ", |n| format!("event m{n} : bool"))), 12, "event m12");
    limited(|count| format!("interface I {{ }} {} rules end", repeat(count, " ", |n| format!("entity e{n} : I {{ }}"))), 32, "entity e32");
    let rule = |n: usize| format!("when event x from e value = {n} trigger action z ( 1 ) on e end");
    limited(|count| format!("{HEAD}{} end", repeat(count, " ", rule)), 64, "when event x from e value = 64");
    let clause = |n: usize| format!("event x from e value = {n}");
    limited(
        |count| format!("{HEAD}when {} trigger action z ( 1 ) on e end end", repeat(count, " or ", clause)),
        8,
        "event x from e value = 8",
    );
    let call = |n: usize| format!("action z ( {n} ) on e");
    limited(|count| format!("{HEAD}when event x from e value changed trigger {} end end", repeat(count, " , ", call)), 8, "action z ( 8 )");
}

#[test]
fn members_of_all_sorts_count_together() {
    let text = "interface I { attribute a : whole ".to_string()
        + &repeat(11, " ", |n| format!("event m{n} : bool"))
        + " action z ( whole ) } rules end";
    assert_eq!(refusal(&text), (14, text.find("action").unwrap()));
}

#[test]
fn variables() {
    let variables = |count: usize| {
        let clause = |n: usize| format!("event x from v{n} : I value changed");
        format!("{HEAD}when {} trigger action z ( 1 ) on e end end", repeat(count, " and ", clause))
    };
    limited(variables, 3, "v3");
    // Those that only calls declare count too, and a repeated one does.
    let text = variables(3).replace("on e", "on w : I");
    assert_eq!(refusal(&text), (14, text.find("w : I").unwrap()));
    let text = variables(3).replace("on e", "on v0 : I");
    assert_eq!(refusal(&text), (14, text.rfind("v0").unwrap()));
}

/// A rule whose clause stands in `outer` parentheses, its sum in `inner` openers.
fn nested(outer: usize, inner: &str) -> String {
    let (open, close) = ("( ".repeat(outer), ") ".repeat(outer));
    format!("{HEAD}when {open}event x from e value = {inner} {close}trigger action z ( 1 ) on e end end")
}

#[test]
fn openers() {
    assert_eq!(refusal(&nested(16, "1")), (0, 0));
    assert_eq!(refusal(&nested(17, "1")), (13, HEAD.len() + 5 + 32));
    assert_eq!(refusal(&nested(16, "1 + 2 - 3")), (0, 0));
    let text = nested(16, "- 1");
    assert_eq!(refusal(&text), (13, text.find("- 1").unwrap()));
    let text = nested(16, "1 + ( 1 )");
    assert_eq!(refusal(&text), (13, text.find("( 1 )").unwrap()));
    let text = nested(16, "real ( 1 )");
    assert_eq!(refusal(&text), (13, text.find("real").unwrap()));
    assert_eq!(refusal(&nested(8, "- - - - ( ( ( ( 1 ) ) ) )")), (0, 0));
    assert_eq!(refusal(&nested(9, "- - - - ( ( ( ( 1 ) ) ) )")).0, 13);
    // Openers beside one another do not add up.
    assert_eq!(refusal(&nested(15, "- 1 + ( 2 ) * - 3")), (0, 0));
}

#[test]
fn openers_of_calls() {
    let call = |depth: usize| format!("{HEAD}when event x from e value changed trigger action z ( {} 1 ) on e end end", "- ".repeat(depth));
    assert_eq!(refusal(&call(16)), (0, 0));
    assert_eq!(refusal(&call(17)), (13, call(17).find("- 1").unwrap_or(call(17).find("-  1").unwrap())));
}

#[test]
fn long_flat_sums() {
    let sum = "1+".repeat(16_000) + "1";
    let text = format!("{HEAD}when event x from e value = {sum} trigger action z ( 1 ) on e end end");
    assert_eq!(refusal(&text), (0, 0));
    prints(&text, "by n e.x|a 1 16001|a 2 2", "by n e.z|a 1 1|a 2 -");
}

#[test]
fn line_feeds_in_lines() {
    let mut memory = (vec![0; BENCH_SIZE], vec![0; STATE_SIZE], vec![0; ROW_SIZE]);
    assert_eq!(calls::bench_check(b"rules end", &mut memory.0), 0);
    assert_eq!(calls::bench_fresh(&memory.0, &mut memory.1), 0);
    let mut line = |names: &[u8], values: &[u8]| calls::bench_line(&memory.0, &mut memory.1, names, values, &mut memory.2);
    assert_eq!(line(b"by n\n", b"a 1"), 22);
    assert_eq!(line(b"by\nn", b"a 1"), 22);
    assert_eq!(line(b"by n", b"a 1\n"), 21);
    assert_eq!(line(b"by n", b"a\n 1"), 21);
    assert_eq!(line(b"by n", b"a 1"), 3 << 8);
}

/// All columns of a bench at its limits, with the longest names: 20,004 bytes. A line of more than 32,768 bytes must repeat a column or
/// have one that is unknown, so no line shows that limit itself: 22 is due in any case.
#[test]
fn longest_line_of_names() {
    let long = |letter: char, number: usize| format!("{letter}{number:x>23}");
    let members = repeat(12, " ", |member| format!("event {} : real", long('m', member)));
    let entities = repeat(32, " ", |entity| format!("entity {} : I {{ }}", long('e', entity)));
    let bench = format!("interface I {{ {members} }} {entities} rules end");
    let columns = |entity: usize| {
        let name = long('e', entity);
        format!("{name} {}", repeat(12, " ", |member| format!("{name}.{}", long('m', member))))
    };
    let names = format!("by n {}", repeat(32, " ", columns));
    assert_eq!(names.len(), 20_004);
    prints(&bench, &format!("{names}|a 1{}|a 1", " -".repeat(416)), "by n|a 1|refused 21");
    prints(&bench, &format!("{names} {}|a 1", long('e', 31)), "refused 22");
}

/// The longest record that can be taken: the longest name and number, all entities there, all events read. It is 6,723 bytes long.
#[test]
fn longest_record() {
    let members = repeat(12, " ", |member| format!("event m{member} : real"));
    let entities = repeat(32, " ", |entity| format!("entity e{entity} : I {{ }}"));
    let bench = format!("interface I {{ {members} }} {entities} rules end");
    let names = |entity: usize| format!("e{entity} {}", repeat(12, " ", |member| format!("e{entity}.m{member}")));
    let values = format!(" true{}", " 3ff0000000000000".repeat(12)).repeat(32);
    let sender = "s".repeat(24);
    assert_eq!(format!("{sender} 4294967295{values}").len(), 6_723);
    let lines = format!("by n {}|{sender} 1{values}|{sender} 2{values}", repeat(32, " ", names));
    prints(&bench, &lines, &format!("by n|{sender} 1|{sender} 2"));
}

#[test]
fn longest_line_of_values() {
    // One whole column's field filled up to 8,192 bytes and beyond: 23 for its form, then 21 for the length.
    let bench = "interface I { event x : whole } entity e : I { } rules end";
    let line = |length: usize| format!("by n e.x|a 1 {}", "1".repeat(length - 4));
    prints(bench, &line(8_192), "by n|refused 23");
    prints(bench, &line(8_193), "by n|refused 21");
    // The same for the sender: 43 for its form, then 21.
    let line = |length: usize| format!("by n e.x|{} 1 -", "s".repeat(length - 4));
    prints(bench, &line(8_192), "by n|refused 43");
    prints(bench, &line(8_193), "by n|refused 21");
}

#[test]
fn greatest_number() {
    let mut memory = (vec![0; BENCH_SIZE], vec![0; STATE_SIZE], vec![0; ROW_SIZE]);
    calls::bench_check(b"rules end", &mut memory.0);
    calls::bench_fresh(&memory.0, &mut memory.1);
    assert_eq!(calls::bench_line(&memory.0, &mut memory.1, b"by n", b"a 1", &mut memory.2), 3 << 8);
    assert_eq!(calls::bench_line(&memory.0, &mut memory.1, b"by n", b"b 1", &mut memory.2), 3 << 8);
    let number = sender_at(0, 0) + NUMBER_AT;
    memory.1[number..number + 4].copy_from_slice(&(u32::MAX - 1).to_le_bytes());
    let mut line = |values: &[u8]| calls::bench_line(&memory.0, &mut memory.1, b"by n", values, &mut memory.2);
    assert_eq!(line(b"a 4294967295"), 12 << 8);
    assert_eq!(line(b"a 4294967296"), 24);
    assert_eq!(line(b"a 4294967297"), 24);
    assert_eq!(line(b"a 0"), 24);
    assert_eq!(line(b"a 1"), 24);
    assert_eq!(line(b"a 4294967295"), 12 << 8);
    // Another sender's number is no greater for it.
    assert_eq!(line(b"b 4294967295"), 24);
    assert_eq!(line(b"b 4294967298"), 24);
    assert_eq!(line(b"b 2"), 3 << 8);
    assert_eq!(line(b"a 4294967295"), 12 << 8);
}

//! Entities' names by their numbers: answers worked out by hand, and the classes that calls belong to.

mod common;
use common::{keeping, refusal, PEDAL};
use second::calls::bench_entity_name;
use second::counts::Counts;
use second::generate;
use second::generate::case::Call;
use second::interpreter::{accept, entity_part};
use second::names::{of_call, part, required, shown, Shown};
use second::show::show_bytes;
use std::process::Command;

const TEXT_MOST: usize = 32_768;
/// Numbers that no entity has.
const GREAT: [usize; 9] = [32, 33, 255, 256, 65_536, 1 << 32, 1 << 63, usize::MAX - 1, usize::MAX];

/// Every number of an entity gives its part, `[` and `]` standing around each; every other number gives 0.
fn named(marked: &str) {
    let text = marked.replace(['[', ']'], "");
    let opened = |at: usize| marked[..at].matches(['[', ']']).count();
    let parts: Vec<(usize, usize)> =
        marked.match_indices('[').map(|(at, _)| (at - opened(at), marked[at..].find(']').expect("a closing mark") - 1)).collect();
    for (number, (offset, length)) in parts.iter().enumerate() {
        let answer = bench_entity_name(text.as_bytes(), number);
        assert_eq!(answer, 256 * *length as u64 + 65_536 * *offset as u64, "{marked}, {number}");
    }
    unnamed(text.as_bytes(), (parts.len()..32).chain(GREAT));
}

fn unnamed(text: &[u8], numbers: impl IntoIterator<Item = usize>) {
    for number in numbers {
        assert_eq!(bench_entity_name(text, number), 0, "{number}");
    }
}

/// A refused text has no entity.
fn refused(number: u8, text: &[u8]) {
    assert_eq!(accept(text).err().map(|refusal| refusal.number), Some(number));
    assert!(!shown(text).is_empty(), "nothing that looks like an entity");
    unnamed(text, (0..32).chain(GREAT));
}

#[test]
fn no_entity() {
    named("rules end");
    named("interface I { event x : bool } rules end");
    named("# entity e : I { }\nrules end");
}

#[test]
fn parts_of_the_text() {
    named("interface I { } entity [e] : I { } rules end");
    named("interface I{}entity [e]:I{}rules end");
    named("interface I { } entity\t\n  [e]\n\n: I { } rules end");
    named("interface I { } entity # entity f : I { }\n[e]#:\n: I { } rules end");
    named("interface abcdefghijklmnopqrstuvwx { } entity [e] : abcdefghijklmnopqrstuvwx { } rules end");
    named("interface e { } entity [abcdefghijklmnopqrstuvwx] : e { } rules end");
    named("interface e { attribute e : whole } entity [e] : e { e = 1 } rules end");
}

#[test]
fn in_file_order() {
    named("interface I { } interface J { } entity [b] : J { } entity [c] : I { } entity [a] : J { } rules end");
    named("interface entitys { } entity [entity_1] : entitys { } entity [Entity] : entitys { } entity [y] : entitys { } rules end");
    let many: String = (0..32).map(|number| format!("entity [e{number}] : I {{ }} ")).collect();
    named(&format!("interface I {{ }} {many}rules end"));
}

#[test]
fn of_the_pedal_bench() {
    let parts = [0, 1, 2].map(|number| part(bench_entity_name(PEDAL.as_bytes(), number)));
    assert_eq!(parts.map(|(offset, length)| &PEDAL[offset..offset + length]), ["p", "s", "k"]);
    assert_eq!(parts.map(|(offset, _)| &PEDAL[offset - 7..offset]), ["entity "; 3]);
    unnamed(PEDAL.as_bytes(), (3..40).chain(GREAT));
}

#[test]
fn at_the_greatest_length() {
    let bench = "interface I { } entity e : I { } rules end";
    for length in [TEXT_MOST - 1, TEXT_MOST] {
        named(&format!("{}{}", " ".repeat(length - bench.len()), bench.replace(" e ", " [e] ")));
        named(&format!("{}#{}", bench.replace(" e ", " [e] "), "~".repeat(length - bench.len() - 1)));
    }
    for length in [TEXT_MOST + 1, 2 * TEXT_MOST] {
        refused(11, format!("{}{bench}", " ".repeat(length - bench.len())).as_bytes());
        refused(11, format!("{bench}#{}", "~".repeat(length - bench.len() - 1)).as_bytes());
    }
}

#[test]
fn refused_texts() {
    let before = "interface I { attribute a : whole } entity e : I { a = 1 } ";
    refused(12, format!("{before}rules end ;").as_bytes());
    refused(12, &[before.as_bytes(), b"rules end # \x7f"].concat());
    refused(13, format!("{before}rules").as_bytes());
    refused(13, format!("{before}rules end end").as_bytes());
    refused(13, format!("end {before}rules end").as_bytes());
    refused(14, format!("{}{before}rules end", (0..16).map(|number| format!("interface i{number} {{ }} ")).collect::<String>()).as_bytes());
    refused(
        14,
        format!("{before}{}rules end", (0..32).map(|number| format!("entity e{number} : I {{ a = 1 }} ")).collect::<String>()).as_bytes(),
    );
    refused(15, format!("{before}entity e : I {{ a = 1 }} rules end").as_bytes());
    refused(16, format!("{before}entity f : J {{ }} rules end").as_bytes());
    refused(17, format!("{before}entity f : I {{ }} rules end").as_bytes());
    refused(18, format!("{before}entity f : I {{ a = true }} rules end").as_bytes());
    let bench = keeping("whole", "1");
    assert_eq!(refusal(&bench), (0, 0));
    refused(44, bench.replace("when", "when rank 10").as_bytes());
    refused(18, bench.replace("( 1 )", "( true )").as_bytes());
    unnamed(b"", (0..32).chain(GREAT));
}

/// Prints each stored text, in hexadecimal digits after `=`, and offset and length for the numbers from 0 on, up to the first of no entity.
const PYTHON: &str = "
import json
from bench_oracle import entity_part
for case in json.load(open('cases.json')):
    text, parts = case['bench'].encode(), []
    while not parts or parts[-1] != (0, 0):
        parts.append(entity_part(text, len(parts)))
    print('=' + text.hex(), *(number for part in parts for number in part))
";

/// Of the texts that are stored for the Python reading.
#[test]
fn the_python_reading_gives_the_same() {
    let ran = Command::new("python3").args(["-B", "-c", PYTHON]).current_dir("../oracle").output().expect("python3 runs");
    assert!(ran.status.success(), "{}", String::from_utf8_lossy(&ran.stderr));
    let (mut texts, mut names) = (0, 0);
    for line in String::from_utf8(ran.stdout).expect("digits").lines() {
        let (text, parts) = line.split_once(' ').expect("a text and its parts");
        let text: Vec<u8> = (1..text.len()).step_by(2).map(|at| u8::from_str_radix(&text[at..at + 2], 16).expect("a byte")).collect();
        let numbers: Vec<usize> = parts.split(' ').map(|number| number.parse().expect("a number")).collect();
        let parts: Vec<(usize, usize)> = numbers.chunks(2).map(|part| (part[0], part[1])).collect();
        assert_eq!((0..parts.len()).map(|number| entity_part(&text, number)).collect::<Vec<_>>(), parts, "{}", show_bytes(&text));
        texts += 1;
        names += parts.len() - 1;
    }
    assert!(texts >= 100 && names >= 100, "only {texts} texts and {names} names");
}

/// Catches a generator that draws no number of an entity, or never one that is too great.
#[test]
fn cases_ask_for_every_entity_and_beyond() {
    for number in 0..500 {
        let case = generate::names::case(3, number);
        let asked: Vec<usize> =
            case.steps.iter().filter_map(|step| if let Call::Name { number } = step.call { Some(number) } else { None }).collect();
        assert_eq!(asked.len(), case.steps.len());
        let count = accept(&case.text).map_or(0, |bench| bench.entities.len());
        assert!((0..=count).all(|number| asked.contains(&number)), "case {number}");
        assert!(asked.iter().filter(|&&number| number > count).count() >= 3, "case {number}");
    }
}

#[test]
fn what_a_text_shows() {
    let at = |word: usize, name: usize, length: usize| Shown { word, name: (name, length) };
    assert_eq!(shown(b"entity e:I{}"), [at(0, 7, 1)]);
    assert_eq!(shown(b"; entity\n#entity a\nab ) entity c"), [at(2, 19, 2), at(24, 31, 1)]);
    assert_eq!(shown(b"entity 1 entitys e entity"), []);
}

#[test]
fn no_call_covers_nothing() {
    let required = required();
    assert_eq!(required.len(), 3 + 32 + 8 + 5 + 21 + 10 + 9 + 7 + 9 + 2);
    assert_eq!(Counts::default().lacking(required.clone(), 1), required);
}

/// The names of the classes of a call in a group.
fn classes(text: &str, number: usize, group: &str) -> Vec<String> {
    let classes = of_call(text.as_bytes(), number, bench_entity_name(text.as_bytes(), number));
    classes.into_iter().filter(|class| class.0 == group).map(|class| class.1).collect()
}

#[test]
fn calls_belong_to_classes() {
    let text = "interface I{}interface J{action y(whole)}entity b#entity\n:J{}entity  ab:I{}rules end";
    let numbers = "accepted texts by the number asked for";
    assert_eq!(classes(text, 0, numbers), ["the first of several"]);
    assert_eq!(classes(text, 1, numbers), ["the last of several"]);
    assert_eq!(classes(text, 2, numbers), ["the number after the last"]);
    assert_eq!(classes(text, 33, numbers), ["a later number", "an entity's in its low 5 bits"]);
    assert_eq!(
        classes(text, 1 << 16, numbers),
        ["a later number", "an entity's in its low 16 bits", "an entity's in its low 5 bits", "an entity's in its low 8 bits"]
    );
    assert_eq!(classes(text, usize::MAX, numbers), ["a later number", "the greatest number"]);
    let both = ["an interface of that number", "another one by the order of interfaces", "another one by the order of names"];
    let of = |number: usize| classes(text, number, "names").into_iter().filter(|name| !both.contains(&&**name)).collect::<Vec<_>>();
    assert_eq!(of(0), ["a comment after it", "a space before it", "of 1 byte", "offset of 6 bits"]);
    assert_eq!(
        of(1),
        [
            "`:` after it",
            "`entity` in a comment before it",
            "its interface has no action",
            "its interface's name is shorter",
            "offset of 7 bits",
            "other blanks before it"
        ]
    );
    let refused = |text: &str, number: usize| classes(text, number, "refused texts");
    assert_eq!(refused("entity e ; entity f", 0), ["12: an entity of that number before the place"]);
    assert_eq!(refused("entity e ; entity f", 1), ["12: an entity of that number after the place"]);
    assert_eq!(refused("entity e ; entity f", 2), ["12: no entity of that number"]);
    let long = format!("interface I {{ }} entity e : I {{ }} rules end{}", " ".repeat(TEXT_MOST));
    assert_eq!(
        refused(&long, 0),
        ["11: an entity of that number before the place", "11: an entity of that number, fine but for its length"]
    );
    assert_eq!(refused(&long[..TEXT_MOST + 1], 1), ["11: no entity of that number", "11: one byte too long"]);
}

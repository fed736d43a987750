//! Order 4 of document 02: the classes of bytes, and what document 01 has a reader of words make of them at each kind of place. Wrong
//! classes are told from the right ones by these checks, and by the texts of the generator.

use second::interpreter::accept;
use second::interpreter::bytes::{bench_byte_class, Class};
use second::interpreter::text::{words, Token, TEXT_MOST};
use second::places::coverage::{required, Coverage, Outcome};
use second::places::Place;
use second::{calls, generate, show};

const LETTER: u64 = 0;
const DIGIT: u64 = 1;
const UNDERSCORE: u64 = 2;
const MARK: u64 = 3;
const BLANK: u64 = 4;
const HASH: u64 = 5;
const COMMENT: u64 = 6;
const NOT_ALLOWED: u64 = 7;

/// The bytes of each class but the last, which has all others.
const MEMBERS: [(u64, &[u8]); 7] = [
    (LETTER, b"abcdefghijklmnopqrstuvwxyzABCDEFGHIJKLMNOPQRSTUVWXYZ"),
    (DIGIT, b"0123456789"),
    (UNDERSCORE, b"_"),
    (MARK, b"{}():=,.+-*/"),
    (BLANK, b"\t\n "),
    (HASH, b"#"),
    (COMMENT, b"!\"$%&';<>?@[\\]^`|~"),
];

/// How many bytes each class has. Of 33 to 126, which are 94, 76 have a class of their own, so 18 are for comments only. Document 01 allows
/// 97 bytes, 32 to 126 and two more, so 159 are not allowed.
const COUNTS: [usize; 8] = [52, 10, 1, 12, 3, 1, 18, 159];

type ClassOf = fn(u8) -> u64;

/// Whether each byte has the class under which it stands above.
fn as_listed(class: ClassOf) -> bool {
    let listed = |byte: u8| MEMBERS.iter().find(|(_, members)| members.contains(&byte)).map_or(NOT_ALLOWED, |(class, _)| *class);
    (0..=255).all(|byte| class(byte) == listed(byte))
}

fn as_counted(class: ClassOf) -> bool {
    let count = |wanted: u64| (0..=255).filter(|&byte| class(byte) == wanted).count();
    (0..8).map(count).eq(COUNTS)
}

/// The words of a text, each with its first byte's place and the next one after it, or the place of refusal 12.
type Spans = Result<Vec<(usize, usize)>, usize>;

/// A text with a byte in it, and the words that are there by the byte's class.
struct Spot {
    before: &'static str,
    after: &'static str,
    rule: fn(u8, u64) -> Spans,
}

const SPOTS: [Spot; 10] = [
    Spot { before: "", after: "", rule: alone },
    Spot { before: "a ", after: " c", rule: between_words },
    Spot { before: "a", after: "", rule: after_a_last_name },
    Spot { before: "a", after: "c", rule: after_a_name },
    Spot { before: "1", after: "c", rule: after_digits },
    Spot { before: "1r", after: "c", rule: after_a_real },
    Spot { before: "#a", after: "b\nc", rule: in_a_comment },
    Spot { before: "#a", after: "", rule: last_in_a_comment },
    Spot { before: "abcdefghijklmnopqrstu123", after: "c", rule: after_24_bytes },
    Spot { before: "1000000009", after: "c", rule: after_10_digits },
];

fn alone(_: u8, class: u64) -> Spans {
    match class {
        LETTER | DIGIT | MARK => Ok(vec![(0, 1)]),
        BLANK | HASH => Ok(vec![]),
        _ => Err(0),
    }
}

fn between_words(_: u8, class: u64) -> Spans {
    match class {
        LETTER | DIGIT | MARK => Ok(vec![(0, 1), (2, 3), (4, 5)]),
        BLANK => Ok(vec![(0, 1), (4, 5)]),
        HASH => Ok(vec![(0, 1)]),
        _ => Err(2),
    }
}

fn after_a_last_name(_: u8, class: u64) -> Spans {
    match class {
        LETTER | DIGIT | UNDERSCORE => Ok(vec![(0, 2)]),
        MARK => Ok(vec![(0, 1), (1, 2)]),
        BLANK | HASH => Ok(vec![(0, 1)]),
        _ => Err(1),
    }
}

fn after_a_name(_: u8, class: u64) -> Spans {
    match class {
        LETTER | DIGIT | UNDERSCORE => Ok(vec![(0, 3)]),
        MARK => Ok(vec![(0, 1), (1, 2), (2, 3)]),
        BLANK => Ok(vec![(0, 1), (2, 3)]),
        HASH => Ok(vec![(0, 1)]),
        _ => Err(1),
    }
}

fn after_digits(byte: u8, class: u64) -> Spans {
    match class {
        LETTER if byte == b'r' => Ok(vec![(0, 2), (2, 3)]),
        LETTER => Ok(vec![(0, 1), (1, 3)]),
        DIGIT => Ok(vec![(0, 2), (2, 3)]),
        MARK => Ok(vec![(0, 1), (1, 2), (2, 3)]),
        BLANK => Ok(vec![(0, 1), (2, 3)]),
        HASH => Ok(vec![(0, 1)]),
        _ => Err(1),
    }
}

fn after_a_real(_: u8, class: u64) -> Spans {
    match class {
        LETTER => Ok(vec![(0, 2), (2, 4)]),
        DIGIT | MARK => Ok(vec![(0, 2), (2, 3), (3, 4)]),
        BLANK => Ok(vec![(0, 2), (3, 4)]),
        HASH => Ok(vec![(0, 2)]),
        _ => Err(2),
    }
}

fn in_a_comment(byte: u8, class: u64) -> Spans {
    match class {
        BLANK if byte == b'\n' => Ok(vec![(3, 4), (5, 6)]),
        NOT_ALLOWED => Err(2),
        _ => Ok(vec![(5, 6)]),
    }
}

fn last_in_a_comment(_: u8, class: u64) -> Spans {
    match class {
        NOT_ALLOWED => Err(2),
        _ => Ok(vec![]),
    }
}

/// A name that has all the bytes it can have.
fn after_24_bytes(_: u8, class: u64) -> Spans {
    match class {
        LETTER | DIGIT | UNDERSCORE => Err(0),
        MARK => Ok(vec![(0, 24), (24, 25), (25, 26)]),
        BLANK => Ok(vec![(0, 24), (25, 26)]),
        HASH => Ok(vec![(0, 24)]),
        _ => Err(24),
    }
}

/// A number that has all the digits it can have.
fn after_10_digits(byte: u8, class: u64) -> Spans {
    match class {
        LETTER if byte == b'r' => Ok(vec![(0, 11), (11, 12)]),
        LETTER => Ok(vec![(0, 10), (10, 12)]),
        DIGIT => Err(0),
        MARK => Ok(vec![(0, 10), (10, 11), (11, 12)]),
        BLANK => Ok(vec![(0, 10), (11, 12)]),
        HASH => Ok(vec![(0, 10)]),
        _ => Err(10),
    }
}

/// The number and place by which a text with a byte in it is refused, by the byte's class; (0, 0) if it is accepted.
type Rule = fn(u8, u64) -> (u8, usize);

/// Texts, each with what stands before and after the byte.
const CHECKED: [(&str, &str, Rule); 2] = [("", "", whole_text), ("rules", "end", between_rules_and_end)];

fn whole_text(_: u8, class: u64) -> (u8, usize) {
    match class {
        LETTER | DIGIT | MARK => (13, 0),
        BLANK | HASH => (13, 1),
        _ => (12, 0),
    }
}

fn between_rules_and_end(_: u8, class: u64) -> (u8, usize) {
    match class {
        // One name.
        LETTER | DIGIT | UNDERSCORE => (13, 0),
        MARK => (13, 5),
        BLANK => (0, 0),
        // The comment takes `end`.
        HASH => (13, 9),
        _ => (12, 5),
    }
}

/// The same for the texts that every comparison checks, one for each byte and kind of place.
fn placed_rule(place: Place) -> Rule {
    match place {
        Place::Beginning => |_, class| match class {
            LETTER | DIGIT | MARK => (13, 6),
            BLANK => (0, 0),
            HASH => (13, 11),
            _ => (12, 6),
        },
        Place::Name => |byte, class| match class {
            LETTER | DIGIT | UNDERSCORE | BLANK => (0, 0),
            // A second one comes after it.
            MARK if byte == b'{' => (13, 13),
            MARK => (13, 11),
            HASH => (13, 26),
            _ => (12, 11),
        },
        Place::Digits => |byte, class| match class {
            // A real for a whole, at the `=`.
            LETTER if byte == b'r' => (18, 53),
            DIGIT => (0, 0),
            _ => after_a_number(byte, class),
        },
        Place::Real => after_a_number,
        Place::Comment => |byte, class| match class {
            // The comment ends, a name comes.
            BLANK if byte == b'\n' => (13, 10),
            NOT_ALLOWED => (12, 9),
            _ => (0, 0),
        },
    }
}

/// The last value of an entity; after the byte comes ` }`.
fn after_a_number(byte: u8, class: u64) -> (u8, usize) {
    match class {
        // A name; no `=` follows.
        LETTER => (13, 58),
        // A second one comes after it.
        MARK if byte == b'}' => (13, 58),
        DIGIT | MARK => (13, 56),
        BLANK => (0, 0),
        HASH => (13, 69),
        _ => (12, 56),
    }
}

fn with_byte(before: &str, byte: u8, after: &str) -> Vec<u8> {
    [before.as_bytes(), &[byte], after.as_bytes()].concat()
}

/// What the interpreter finds: the words as they would be written, without zeros that change nothing, or the place of refusal 12.
fn found(text: &[u8]) -> Result<Vec<(usize, Vec<u8>)>, usize> {
    let written = |token: Token| match token {
        Token::Name(name) => name.to_vec(),
        Token::Reserved(word) => word.as_bytes().to_vec(),
        Token::Whole(number) => number.to_string().into_bytes(),
        Token::Real(number) => format!("{number}r").into_bytes(),
        Token::Mark(mark) => vec![mark],
    };
    match words(text) {
        Ok(words) => Ok(words.into_iter().map(|word| (word.place, written(word.token))).collect()),
        Err(refusal) => {
            assert_eq!(refusal.number, 12);
            Err(refusal.place)
        }
    }
}

/// The words of a text at these places, in the same form.
fn cut(text: &[u8], spans: Spans) -> Result<Vec<(usize, Vec<u8>)>, usize> {
    let written = |word: &[u8]| {
        let digits = word.iter().take_while(|byte| byte.is_ascii_digit()).count();
        let zeros = word.iter().take(digits.saturating_sub(1)).take_while(|&&byte| byte == b'0').count();
        word[zeros..].to_vec()
    };
    spans.map(|spans| spans.into_iter().map(|(start, end)| (start, written(&text[start..end]))).collect())
}

fn answer(text: &[u8]) -> (u8, usize) {
    accept(text).map_or_else(|refusal| (refusal.number, refusal.place), |_| (0, 0))
}

/// Whether the interpreter makes of this byte what follows from this class, in every text above.
fn fits(byte: u8, class: u64) -> bool {
    let reads = |spot: &Spot| {
        let text = with_byte(spot.before, byte, spot.after);
        found(&text) == cut(&text, (spot.rule)(byte, class))
    };
    let answers = |(before, after, rule): &(&str, &str, Rule)| answer(&with_byte(before, byte, after)) == rule(byte, class);
    class <= NOT_ALLOWED && SPOTS.iter().all(reads) && CHECKED.iter().all(answers)
}

fn as_read(class: ClassOf) -> bool {
    (0..=255).all(|byte| fits(byte, class(byte)))
}

#[test]
fn counts_add_up() {
    assert_eq!(COUNTS.iter().sum::<usize>(), 256);
    for (class, members) in MEMBERS {
        assert_eq!(members.len(), COUNTS[class as usize], "class {class}");
    }
}

#[test]
fn classes_are_as_listed_counted_and_read() {
    assert!(as_listed(bench_byte_class));
    assert!(as_counted(bench_byte_class));
    for byte in 0..=255 {
        assert!(fits(byte, bench_byte_class(byte)), "byte {byte}, class {}", bench_byte_class(byte));
    }
}

/// So no other classes pass the same check, whatever they are.
#[test]
fn each_byte_is_read_as_of_one_class_alone() {
    for byte in 0..=255 {
        let fitting: Vec<u64> = (0..8).filter(|&class| fits(byte, class)).collect();
        assert_eq!(fitting, [bench_byte_class(byte)], "byte {byte}");
    }
}

/// The right class but for one byte.
fn but(byte: u8, other: u8, class: u64) -> u64 {
    if byte == other {
        class
    } else {
        bench_byte_class(byte)
    }
}

/// The right class with two numbers exchanged.
fn exchanged(byte: u8, first: u64, second: u64) -> u64 {
    match bench_byte_class(byte) {
        class if class == first => second,
        class if class == second => first,
        class => class,
    }
}

/// Wrong classes, and how many texts of the generator at least must be read otherwise by them.
const WRONG: [(&str, ClassOf, usize); 45] = [
    ("`_` a letter", |byte| but(byte, b'_', LETTER), 200),
    ("`_` a digit", |byte| but(byte, b'_', DIGIT), 200),
    ("`_` for comments only", |byte| but(byte, b'_', COMMENT), 2_000),
    ("space for comments only", |byte| but(byte, b' ', COMMENT), 3_000),
    ("tab for comments only", |byte| but(byte, b'\t', COMMENT), 900),
    ("tab not allowed", |byte| but(byte, b'\t', NOT_ALLOWED), 1_000),
    ("line feed for comments only", |byte| but(byte, b'\n', COMMENT), 1_200),
    ("line feed not allowed", |byte| but(byte, b'\n', NOT_ALLOWED), 1_200),
    ("carriage return a blank", |byte| but(byte, b'\r', BLANK), 20),
    ("carriage return for comments only", |byte| but(byte, b'\r', COMMENT), 15),
    ("vertical tab a blank", |byte| but(byte, 11, BLANK), 40),
    ("0 a blank", |byte| but(byte, 0, BLANK), 40),
    ("8 a blank", |byte| but(byte, 8, BLANK), 40),
    ("31 for comments only", |byte| but(byte, 31, COMMENT), 15),
    ("126 not allowed", |byte| but(byte, 126, NOT_ALLOWED), 700),
    ("127 for comments only", |byte| but(byte, 127, COMMENT), 30),
    ("255 for comments only", |byte| but(byte, 255, COMMENT), 15),
    ("128 up for comments only", |byte| if byte > 127 { COMMENT } else { bench_byte_class(byte) }, 80),
    ("128 up letters", |byte| if byte > 127 { LETTER } else { bench_byte_class(byte) }, 200),
    ("128 up as 0 up", |byte| bench_byte_class(byte & 127), 130),
    ("`#` for comments only", |byte| but(byte, b'#', COMMENT), 1_600),
    ("`#` a mark", |byte| but(byte, b'#', MARK), 1_400),
    ("a no letter", |byte| but(byte, b'a', COMMENT), 3_000),
    ("z no letter", |byte| but(byte, b'z', COMMENT), 1_400),
    ("A no letter", |byte| but(byte, b'A', COMMENT), 1_300),
    ("Z no letter", |byte| but(byte, b'Z', COMMENT), 1_400),
    ("no capital a letter", |byte| if byte.is_ascii_uppercase() { COMMENT } else { bench_byte_class(byte) }, 2_000),
    ("` a letter", |byte| but(byte, b'`', LETTER), 15),
    ("{ a letter", |byte| but(byte, b'{', LETTER), 600),
    ("@ a letter", |byte| but(byte, b'@', LETTER), 15),
    ("[ a letter", |byte| but(byte, b'[', LETTER), 15),
    ("0 to 8 digits", |byte| but(byte, b'9', COMMENT), 1_600),
    ("1 to 9 digits", |byte| but(byte, b'0', COMMENT), 1_800),
    ("/ a digit", |byte| but(byte, b'/', DIGIT), 200),
    (": a digit", |byte| but(byte, b':', DIGIT), 600),
    ("/ no mark", |byte| but(byte, b'/', COMMENT), 1_500),
    ("; a mark", |byte| but(byte, b';', MARK), 20),
    ("< a mark", |byte| but(byte, b'<', MARK), 15),
    ("letter and digit exchanged", |byte| exchanged(byte, LETTER, DIGIT), 2_000),
    ("`_` and mark exchanged", |byte| exchanged(byte, UNDERSCORE, MARK), 3_000),
    ("mark and blank exchanged", |byte| exchanged(byte, MARK, BLANK), 2_000),
    ("blank and `#` exchanged", |byte| exchanged(byte, BLANK, HASH), 2_000),
    ("`_` and `#` exchanged", |byte| exchanged(byte, UNDERSCORE, HASH), 2_000),
    ("comments only and not allowed exchanged", |byte| exchanged(byte, COMMENT, NOT_ALLOWED), 1_100),
    ("numbers from 1", |byte| bench_byte_class(byte) + 1, 3_000),
];

#[test]
fn wrong_classes_are_told_apart() {
    for (name, wrong, _) in WRONG {
        assert!(!as_listed(wrong), "{name}: as listed");
        assert!(!as_read(wrong), "{name}: as read");
        // `_` and `#` are one byte each.
        assert!(!as_counted(wrong) || name == "`_` and `#` exchanged", "{name}: as counted");
    }
}

/// The words of a text by the classes of its bytes, or the place of refusal 12.
fn read_by(classes: &Table, text: &[u8]) -> Spans {
    let mut spans = Vec::new();
    let mut at = 0;
    while at < text.len() {
        match classes[text[at] as usize] {
            BLANK => at += 1,
            HASH => at = comment_end(classes, text, at)?,
            _ => {
                let end = word_end(classes, text, at)?;
                spans.push((at, end));
                at = end;
            }
        }
    }
    Ok(spans)
}

fn comment_end(classes: &Table, text: &[u8], start: usize) -> Result<usize, usize> {
    // Wrong classes may take the line feed itself for a `#`.
    let end = (start + 1..text.len()).find(|&at| text[at] == b'\n').unwrap_or(text.len());
    match (start..end).find(|&at| classes[text[at] as usize] == NOT_ALLOWED) {
        Some(bad) => Err(bad),
        None => Ok(end),
    }
}

fn word_end(classes: &Table, text: &[u8], start: usize) -> Result<usize, usize> {
    let run = |members: &[u64]| text[start..].iter().take_while(|&&byte| members.contains(&classes[byte as usize])).count();
    let length = match classes[text[start] as usize] {
        LETTER => run(&[LETTER, DIGIT, UNDERSCORE]),
        DIGIT => run(&[DIGIT]),
        MARK => 1,
        _ => return Err(start),
    };
    let end = start + length;
    match classes[text[start] as usize] {
        LETTER if length > 24 => Err(start),
        DIGIT if length > 10 || too_great(&text[start..end]) => Err(start),
        DIGIT if text.get(end) == Some(&b'r') => Ok(end + 1),
        _ => Ok(end),
    }
}

/// Whether ten digits at most are more than a number can be; wrong classes may take other bytes for digits.
fn too_great(digits: &[u8]) -> bool {
    let number = std::str::from_utf8(digits).ok().and_then(|digits| digits.parse::<u64>().ok());
    number.is_some_and(|number| number > 2_147_483_647)
}

/// The classes of all bytes.
type Table = [u64; 256];

fn table(class: ClassOf) -> Table {
    std::array::from_fn(|byte| class(byte as u8))
}

/// No reader of words may notice: read by the classes alone, the generator's texts have the interpreter's words. And a reader that went by
/// wrong classes would be noticed: catches a generator whose texts lack bytes that tell them apart.
#[test]
fn generated_texts_are_read_by_the_classes() {
    let right = table(bench_byte_class);
    let wrong = WRONG.map(|(_, class, _)| table(class));
    let mut told = [0; WRONG.len()];
    let texts = (0..3_000).flat_map(|number| [generate::without_sheets(3, number).text, generate::places::case(3, number).text]);
    for text in texts.filter(|text| text.len() <= TEXT_MOST) {
        let spans = read_by(&right, &text);
        assert_eq!(found(&text), cut(&text, spans.clone()), "{}", show::show_bytes(&text));
        for (told, wrong) in told.iter_mut().zip(&wrong) {
            *told += usize::from(read_by(wrong, &text) != spans);
        }
    }
    for ((name, _, least), told) in WRONG.iter().zip(told) {
        assert!(told >= *least, "{name}: told by {told} texts");
    }
}

/// The texts that every comparison checks tell by their answers alone what class a byte has: an engine that went by another one at any
/// kind of place would be noticed.
#[test]
fn placed_bytes_are_answered_as_of_one_class_alone() {
    let mut fitting = [[true; 8]; 256];
    for (place, byte, case) in generate::places::every() {
        let (answer, rule) = (answer(&case.text), placed_rule(place));
        for class in 0..8 {
            fitting[byte as usize][class as usize] &= rule(byte, class) == answer;
        }
    }
    for byte in 0..=255 {
        let only = std::array::from_fn(|class| class as u64 == bench_byte_class(byte));
        assert_eq!(fitting[byte as usize], only, "byte {byte}");
    }
}

/// Five kinds of places and eight classes: 12 pairs are refused, each of the other 28 is in accepted texts and in texts refused elsewhere.
#[test]
fn no_text_covers_nothing() {
    assert_eq!(required().len(), 12 + 2 * 28);
    // And the 97 bytes of comments.
    assert_eq!(Coverage::default().lacking(1).len(), 12 + 2 * 28 + 97);
}

#[test]
fn texts_cover_what_they_have() {
    let mut coverage = Coverage::default();
    coverage.take(b"a1 #~\n_ ;", calls::answer(12, 6));
    coverage.take(b"end 1", calls::answer(13, 0));
    coverage.take(b"rules end#\t", calls::answer(0, 0));
    // A run that is no word: nothing of it was read, and its first byte is none that cannot stand there.
    coverage.take(b"12345678901", calls::answer(12, 0));
    let counts = [
        (Place::Beginning, Class::Letter, Outcome::Later, 1),
        (Place::Name, Class::Digit, Outcome::Later, 1),
        (Place::Comment, Class::Comment, Outcome::Later, 1),
        (Place::Comment, Class::Blank, Outcome::Later, 1),
        (Place::Beginning, Class::Underscore, Outcome::There, 1),
        (Place::Beginning, Class::Underscore, Outcome::Later, 0),
        (Place::Beginning, Class::Comment, Outcome::There, 0),
        (Place::Beginning, Class::Digit, Outcome::Words, 1),
        (Place::Beginning, Class::Digit, Outcome::There, 0),
        (Place::Beginning, Class::Digit, Outcome::Later, 0),
        (Place::Name, Class::Hash, Outcome::Accepted, 1),
        (Place::Comment, Class::Blank, Outcome::Accepted, 1),
    ];
    for (place, class, outcome, count) in counts {
        assert_eq!(coverage.count((place, class, outcome)), count, "{place:?} {class:?} {outcome:?}");
    }
    // The tab stands in a comment of an accepted text.
    assert!(!coverage.lacking(1).contains(&"byte 9 is in no comment of an accepted text".to_string()));
    assert!(coverage.lacking(1).contains(&"byte 126 is in no comment of an accepted text".to_string()));
}

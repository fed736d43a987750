//! Checks of texts with ranks: wrong ones, each with one flaw, are told from the right one by the texts of the generator. Machines that let
//! other writes stand are told in tests/generator.rs.

use second::generate;
use second::interpreter::accept;
use second::interpreter::check::PASSES;
use second::interpreter::grammar::{self, Bench, Rule};
use second::interpreter::text::{words, Refusal, Token, Word};

const SEED: u64 = 3;
/// So many texts must show every flaw; a run has several times as many.
const TEXTS: u64 = 2_000;

#[derive(Clone, Copy, Debug, PartialEq, Eq)]
enum Flaw {
    None,
    // Which ranks are too high.
    NoneIs,
    TenIsFine,
    NineIsNot,
    /// More than one digit.
    ByDigits,
    /// As a byte.
    LastByte,
    // Which is refused, where and how.
    TheLast,
    /// Only that of the first rule is looked at.
    FirstRuleAlone,
    LastRuleAlone,
    AtTheWord,
    AtTheRule,
    As13,
    As14,
    // In what order.
    BeforeGrammar,
    AfterCounts,
    AfterNames,
    AfterKinds,
    /// In one pass with 14, the earliest place first.
    WithCounts,
    // The words.
    NotReserved,
    TakesReals,
    TakesNoNumber,
    TakesTwo,
    NoZerosBefore,
}

/// Every flaw, and how many texts at least must show it.
const FLAWS: [(Flaw, usize); 22] = [
    (Flaw::NoneIs, 310),
    (Flaw::TenIsFine, 48),
    (Flaw::NineIsNot, 16),
    (Flaw::ByDigits, 42),
    (Flaw::LastByte, 62),
    (Flaw::TheLast, 24),
    (Flaw::FirstRuleAlone, 85),
    (Flaw::LastRuleAlone, 125),
    (Flaw::AtTheWord, 310),
    (Flaw::AtTheRule, 310),
    (Flaw::As13, 310),
    (Flaw::As14, 310),
    (Flaw::BeforeGrammar, 225),
    (Flaw::AfterCounts, 65),
    (Flaw::AfterNames, 145),
    (Flaw::AfterKinds, 175),
    (Flaw::WithCounts, 36),
    (Flaw::NotReserved, 265),
    (Flaw::TakesReals, 58),
    (Flaw::TakesNoNumber, 35),
    (Flaw::TakesTwo, 150),
    (Flaw::NoZerosBefore, 250),
];

fn digits(text: &[u8], place: usize) -> usize {
    text[place..].iter().take_while(|byte| byte.is_ascii_digit()).count()
}

fn is_above(flaw: Flaw, text: &[u8], place: usize, value: i32) -> bool {
    match flaw {
        Flaw::NoneIs => false,
        Flaw::TenIsFine => value > 10,
        Flaw::NineIsNot => value > 8,
        Flaw::ByDigits => digits(text, place) > 1,
        Flaw::LastByte => value & 255 > 9,
        _ => value > 9,
    }
}

/// The refusal of a rank that is too high.
fn ranks(flaw: Flaw, bench: &Bench) -> Option<Refusal> {
    let rules = match (flaw, bench.rules.len()) {
        (Flaw::FirstRuleAlone, 1..) => &bench.rules[..1],
        (Flaw::LastRuleAlone, count @ 1..) => &bench.rules[count - 1..],
        _ => &bench.rules[..],
    };
    let above = |rule: &&Rule| rule.ranked.is_some_and(|rank| is_above(flaw, bench.text, rank.place, rank.value));
    let mut refused = rules.iter().filter(above);
    let rule = if flaw == Flaw::TheLast { refused.next_back() } else { refused.next() }?;
    let number = rule.ranked.expect("a rank").place;
    let place = match flaw {
        Flaw::AtTheRule => rule.place,
        Flaw::AtTheWord => words(bench.text).ok()?.iter().rev().find(|word| word.place < number)?.place,
        _ => number,
    };
    let number = match flaw {
        Flaw::As13 => 13,
        Flaw::As14 => 14,
        _ => 44,
    };
    Some(Refusal { number, place })
}

fn check(flaw: Flaw, text: &[u8]) -> Option<Refusal> {
    let bench = match grammar::read(text) {
        Ok(bench) => bench,
        Err(refusal) => return Some(refusal),
    };
    let earliest = |faults: Vec<Refusal>| faults.into_iter().min_by_key(|fault| fault.place);
    let rank = ranks(flaw, &bench);
    let [_, counts, names, kinds] = PASSES.map(|pass| pass(&bench));
    let at = match flaw {
        Flaw::AfterCounts => 1,
        Flaw::AfterNames => 2,
        Flaw::AfterKinds => 3,
        _ => 0,
    };
    if flaw == Flaw::WithCounts {
        let both = earliest(rank.into_iter().chain(counts).collect());
        return both.or(earliest(names)).or(earliest(kinds));
    }
    let mut passes = vec![earliest(counts), earliest(names), earliest(kinds)];
    passes.insert(at, rank);
    passes.into_iter().flatten().next()
}

/// A rank above 9, found among the words alone.
fn above_in_words(text: &[u8]) -> Option<Refusal> {
    let words = words(text).ok()?;
    let above = |pair: &&[Word]| pair[0].token == Token::Reserved("rank") && matches!(pair[1].token, Token::Whole(10..));
    words.windows(2).find(above).map(|pair| Refusal { number: 44, place: pair[1].place })
}

/// The text as a reader of words with a flaw would have it: what it passes over is blank, what it takes for a name is one.
fn reworded(flaw: Flaw, text: &[u8]) -> Vec<u8> {
    let mut changed = text.to_vec();
    let words = words(text).unwrap_or_default();
    let token = |at: usize| words.get(at).map(|word| word.token);
    let rank = Some(Token::Reserved("rank"));
    for at in (0..words.len()).filter(|&at| token(at) == rank) {
        let after_when = at > 0 && token(at - 1) == Some(Token::Reserved("when"));
        let number = words.get(at + 1).map_or(text.len(), |word| word.place);
        let end = number + digits(text, number.min(text.len()));
        match (flaw, token(at + 1)) {
            (Flaw::NotReserved, _) if !after_when => changed[words[at].place] = b'R',
            (Flaw::TakesReals, Some(Token::Real(_))) => changed[end] = b' ',
            (Flaw::TakesNoNumber, Some(Token::Reserved("event") | Token::Mark(b'('))) if after_when => {
                changed[words[at].place..number].fill(b' ')
            }
            (Flaw::TakesTwo, Some(Token::Whole(_))) if token(at + 2) == rank && after_when => changed[words[at].place..end].fill(b' '),
            // No number any more.
            (Flaw::NoZerosBefore, Some(Token::Whole(_))) if end - number > 1 && text[number] == b'0' => changed[number] = b',',
            _ => {}
        }
    }
    changed
}

fn answer(flaw: Flaw, text: &[u8]) -> Option<Refusal> {
    match flaw {
        Flaw::BeforeGrammar => above_in_words(text).or_else(|| check(flaw, text)),
        _ => check(flaw, &reworded(flaw, text)),
    }
}

/// Catches a generator whose texts do not show some flaw. The check without a flaw, its order of passes written here once more, is the interpreter's.
#[test]
fn texts_tell_every_flaw() {
    let mut told = [0; FLAWS.len()];
    for text in (0..TEXTS).map(|number| generate::ranks::case(SEED, number).text) {
        let right = accept(&text).err();
        assert_eq!(answer(Flaw::None, &text), right, "without a flaw");
        for (count, (flaw, _)) in told.iter_mut().zip(FLAWS) {
            *count += usize::from(answer(flaw, &text) != right);
        }
    }
    for ((flaw, least), count) in FLAWS.iter().zip(told) {
        println!("{flaw:?}: {count} of {least}");
    }
    for ((flaw, least), count) in FLAWS.iter().zip(told) {
        assert!(count >= *least, "{flaw:?}: told by {count} texts");
    }
}

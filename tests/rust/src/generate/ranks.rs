//! Ranks of rules: good ones, few of them in a bench, so that equal ones are common; and benches with a fault at a rank, or nearly one.

use super::bench::{self, SMALL};
use super::case::Case;
use super::damage::{self, find, is_name};
use super::prng::Prng;
use super::{limits, places};

/// Texts with a fault at a rank are drawn from a source of their own.
const RANKS: u64 = 0x7261_6e6b_0000;

/// So many of a hundred rules have a rank.
const RANKED_PERCENT: usize = 65;

/// Above 9. Some of them are not in their last digit, in their last byte or as text.
const ABOVE: [&str; 11] = ["10", "11", "255", "256", "2147483647", "010", "0000000011", "19", "90", "100", "65536"];

/// What may stand in the place of the number, but is none.
const NO_NUMBERS: [&str; 8] = ["", "3r", "9r", "10r", "- 1", "( 1 )", "true", "a"];

/// Digits that are no word.
const NO_WORDS: [&str; 3] = ["00000000001", "2147483648", "4294967296"];

/// Names that only begin like `rank`, or look like it.
const NEAR: [&str; 4] = ["ranks", "rank_1", "ran", "Rank"];

/// The check of a text with a fault at a rank, of this number.
pub fn case(seed: u64, number: u64) -> Case {
    let mut prng = Prng::for_case(seed ^ RANKS, number);
    let words = faulty(&mut prng);
    let text = bench::render(&mut prng, &words);
    places::checked(text, prng.draw())
}

/// Gives many rules one of the few ranks of their bench, often neighbours.
pub fn put_in(prng: &mut Prng, words: &mut Vec<String>) {
    let (first, other) = (prng.below(10), prng.below(10));
    let mut stock = vec![first, (first + 1).min(9), other];
    prng.shuffle(&mut stock);
    stock.truncate(prng.between(1, 3));
    for when in whens(words).into_iter().rev() {
        if prng.chance(RANKED_PERCENT) {
            let rank = *prng.pick(&stock);
            begin(words, when, &format!("rank {}", spelled(prng, rank)));
        }
    }
}

/// A number 0 to 9.
fn good(prng: &mut Prng) -> String {
    let rank = prng.below(10);
    spelled(prng, rank)
}

/// A number, now and then with zeros before it.
fn spelled(prng: &mut Prng, rank: usize) -> String {
    match prng.weighted(&[80, 10, 5, 5]) {
        0 => format!("{rank}"),
        1 => format!("0{rank}"),
        2 => format!("00{rank}"),
        _ => format!("{rank:010}"),
    }
}

/// Where rules begin.
fn whens(words: &[String]) -> Vec<usize> {
    (0..words.len()).filter(|&at| words[at] == "when").collect()
}

/// Lets a rule begin with these words after its `when`, in the place of the rank that it has.
fn begin(words: &mut Vec<String>, when: usize, with: &str) {
    let ranked = words.get(when + 1).is_some_and(|word| word == "rank");
    let end = (when + 1 + if ranked { 2 } else { 0 }).min(words.len());
    words.splice(when + 1..end, with.split_whitespace().map(str::to_string));
}

/// The words of a bench with a fault at a rank, or nearly one, often with other faults before and after it.
pub fn faulty(prng: &mut Prng) -> Vec<String> {
    let mut words = if prng.chance(75) { bench::bench(prng, SMALL).words } else { limits::counted(prng) };
    for _ in 0..prng.weighted(&[50, 35, 15]) {
        damage::meaning(prng, &mut words);
    }
    for _ in 0..prng.between(1, 2) {
        damage_rank(prng, &mut words);
    }
    if prng.chance(12) {
        damage::words(prng, &mut words);
    }
    words
}

fn damage_rank(prng: &mut Prng, words: &mut Vec<String>) {
    let whens = whens(words);
    if whens.is_empty() || prng.chance(30) {
        return if prng.chance(50) { misplace(prng, words) } else { rename(prng, words) };
    }
    // The first, a middle or the last rule.
    let middle = prng.below(whens.len());
    let when = *prng.pick(&[whens[0], whens[middle], whens[whens.len() - 1]]);
    let with = match prng.weighted(&[55, 20, 15, 5, 5]) {
        0 => format!("rank {}", prng.pick(&ABOVE)),
        1 => format!("rank {}", prng.pick(&NO_NUMBERS)),
        2 => format!("rank {} rank {}", good(prng), good(prng)),
        3 => format!("rank {}", prng.pick(&NO_WORDS)),
        _ => good(prng),
    };
    begin(words, when, &with);
}

/// Puts a rank anywhere, or where it might be taken for one.
fn misplace(prng: &mut Prng, words: &mut Vec<String>) {
    let after = ["rules", "trigger", "and", "or", "(", "from", "with", "value", "on", ",", "end", "}"];
    let at = match find(prng, words, |at| after.contains(&&*words[at])) {
        Some(at) if prng.chance(75) => at + 1,
        _ => prng.below(words.len() + 1),
    };
    words.splice(at..at, ["rank".into(), good(prng)]);
}

/// Calls something `rank`, which is no name, or by one that is near it; everywhere or in one place.
fn rename(prng: &mut Prng, words: &mut [String]) {
    let Some(at) = find(prng, words, |at| is_name(&words[at])) else { return };
    let old = words[at].clone();
    let new = if prng.chance(60) { "rank" } else { *prng.pick(&NEAR) };
    if prng.chance(50) {
        words[at] = new.into();
    } else {
        words.iter_mut().filter(|word| **word == old).for_each(|word| *word = new.into());
    }
}

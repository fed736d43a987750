//! What the texts and lines of a run tried of ranks, and what they must have. It is measured on the words and on the writes, not taken from
//! how they were made.

use crate::counts::{Class, Seen};
use crate::interpreter::check::PASSES;
use crate::interpreter::grammar::{self, Bench};
use crate::interpreter::machine::{standing, Write};
use crate::interpreter::text::{words, Token, Word};
use std::collections::{BTreeMap, BTreeSet};

const ACCEPTED: &str = "accepted texts";
const ABOVE: &str = "texts refused by 44";
const NO_RANK: &str = "texts refused by 12 or 13 at a rank";
const WRITES: &str = "lines by their writes to one cell";

/// Every class that a run must have.
pub fn required() -> Vec<Class> {
    let ranks = |what: &str| (0..=9).map(|rank| format!("{what} {rank}")).collect::<Vec<_>>();
    let groups = [
        (ACCEPTED, ranks("rank")),
        (ACCEPTED, names(&ACCEPTED_TEXTS)),
        (ABOVE, names(&ABOVE_9)),
        (NO_RANK, names(&NO_RANKS)),
        (WRITES, ranks("something gives way to rank")[1..].to_vec()),
        (WRITES, names(&WRITTEN)),
    ];
    groups.into_iter().flat_map(|(group, names)| names.into_iter().map(move |name| (group, name))).collect()
}

fn names(names: &[&str]) -> Vec<String> {
    names.iter().map(|name| name.to_string()).collect()
}

const ACCEPTED_TEXTS: [&str; 5] = [
    "zeros before the number",
    "rules of one rank",
    "rules of other ranks",
    "rules without a rank beside others",
    "a name that begins `rank`",
];

const ABOVE_9: [&str; 20] = [
    "10",
    "11",
    "255",
    "256",
    "2147483647",
    "zeros before the number",
    "in the only rule",
    "in the first rule",
    "in a middle rule",
    "in the last rule",
    "a good rank before it",
    "another after it",
    "no other fault",
    "14 before it",
    "14 after it",
    "15 to 17 before it",
    "15 to 17 after it",
    "18 before it",
    "18 after it",
    "18 after it alone",
];

const NO_RANKS: [&str; 14] = [
    "12: a number that is no word",
    "13: a real",
    "13: no number",
    "13: a second rank",
    "13: an interface's name",
    "13: a member's name",
    "13: an entity's name",
    "13: a place's name",
    "13: after a dot",
    "13: after `trigger`",
    "13: after `rules`",
    "13: elsewhere",
    "13 after a rank above 9",
    "13 before a rank above 9",
];

const WRITTEN: [&str; 14] = [
    "several",
    "a lower rank earlier",
    "a lower rank later",
    "lower ranks earlier and later",
    "three ranks",
    "equal ranks",
    "equal ranks above 0",
    "equal ranks, lower ones too",
    "equal ranks of one call",
    "equal ranks of several rules",
    "another value by the first",
    "another value by the last",
    "another value by the last of the highest rank",
    "another value by the first of the lowest rank",
];

// Texts.

/// The classes of a text and the answer to its check.
pub fn of_text(text: &[u8], answer: u64) -> BTreeSet<Class> {
    let mut seen = Seen::default();
    let place = (answer >> 8) as usize;
    match answer & 255 {
        0 => seen.accepted(text),
        12 => {
            let before = words(&text[..place]).unwrap_or_default();
            seen.add_if(before.last().is_some_and(is_rank), NO_RANK, NO_RANKS[0]);
        }
        13 => seen.no_rank(&words(text).unwrap_or_default(), place),
        44 => seen.above(text, place),
        _ => {}
    }
    seen.0
}

fn is_rank(word: &Word) -> bool {
    word.token == Token::Reserved("rank")
}

fn has_zeros(text: &[u8], place: usize) -> bool {
    text[place] == b'0' && text.get(place + 1).is_some_and(u8::is_ascii_digit)
}

impl Seen {
    fn accepted(&mut self, text: &[u8]) {
        let Bench { rules, .. } = grammar::read(text).expect("an accepted text");
        for rank in rules.iter().filter_map(|rule| rule.ranked) {
            self.add_if(true, ACCEPTED, &format!("rank {}", rank.value));
            self.add_if(has_zeros(text, rank.place), ACCEPTED, "zeros before the number");
        }
        let ranked = rules.iter().filter(|rule| rule.ranked.is_some()).count();
        let ranks: BTreeSet<i32> = rules.iter().map(|rule| rule.rank()).collect();
        self.add_if(ranked > 0 && ranks.len() < rules.len(), ACCEPTED, "rules of one rank");
        self.add_if(ranks.len() > 1, ACCEPTED, "rules of other ranks");
        self.add_if(ranked > 0 && ranked < rules.len(), ACCEPTED, "rules without a rank beside others");
        let near = |word: &Word| matches!(word.token, Token::Name(name) if name.starts_with(b"rank"));
        self.add_if(words(text).unwrap_or_default().iter().any(near), ACCEPTED, "a name that begins `rank`");
    }

    fn above(&mut self, text: &[u8], place: usize) {
        let bench = grammar::read(text).expect("44 comes after 13");
        let [above, others @ ..] = PASSES.map(|pass| pass(&bench));
        let ranks: Vec<_> = bench.rules.iter().map(|rule| rule.ranked).collect();
        let at = ranks.iter().position(|rank| rank.is_some_and(|rank| rank.place == place)).expect("44 is at a rank");
        let mut add = |is: bool, name: &str| self.add_if(is, ABOVE, name);
        add(true, &ranks[at].expect("a rank").value.to_string());
        add(has_zeros(text, place), "zeros before the number");
        add(
            true,
            match (at, ranks.len() - at) {
                (0, 1) => "in the only rule",
                (0, _) => "in the first rule",
                (_, 1) => "in the last rule",
                _ => "in a middle rule",
            },
        );
        add(ranks[..at].iter().any(Option::is_some), "a good rank before it");
        add(above.len() > 1, "another after it");
        add(others.iter().all(Vec::is_empty), "no other fault");
        for (name, faults) in ["14", "15 to 17", "18"].iter().zip(&others) {
            add(faults.iter().any(|fault| fault.place < place), &format!("{name} before it"));
            add(faults.iter().any(|fault| fault.place > place), &format!("{name} after it"));
        }
        let [counts, names, kinds] = &others;
        add(counts.is_empty() && names.is_empty() && kinds.iter().any(|fault| fault.place > place), "18 after it alone");
    }

    fn no_rank(&mut self, words: &[Word], place: usize) {
        let at = words.iter().position(|word| word.place == place).unwrap_or(words.len());
        let token = |back: usize| at.checked_sub(back).and_then(|at| words.get(at)).map(|word| word.token);
        let rank = Some(Token::Reserved("rank"));
        let name = match (token(1), token(0)) {
            (before, Some(Token::Real(_))) if before == rank => "13: a real",
            (before, _) if before == rank => "13: no number",
            (Some(Token::Whole(_)), is) if is == rank && token(2) == rank => "13: a second rank",
            (Some(Token::Reserved(before)), is) if is == rank => match before {
                "interface" => "13: an interface's name",
                "attribute" | "event" | "action" => "13: a member's name",
                "entity" => "13: an entity's name",
                "from" | "on" => "13: a place's name",
                "trigger" => "13: after `trigger`",
                "rules" => "13: after `rules`",
                _ => "13: elsewhere",
            },
            (Some(Token::Mark(b'.')), is) if is == rank => "13: after a dot",
            (_, is) if is == rank => "13: elsewhere",
            _ => "",
        };
        self.add_if(!name.is_empty(), NO_RANK, name);
        let above = |pair: &&[Word]| is_rank(&pair[0]) && matches!(pair[1].token, Token::Whole(10..));
        for pair in words.windows(2).filter(above) {
            self.add_if(pair[1].place < place, NO_RANK, "13 after a rank above 9");
            self.add_if(pair[1].place > place, NO_RANK, "13 before a rank above 9");
        }
    }
}

// Lines.

/// The classes of a line that is taken and not sent again, by all its writes.
pub fn of_writes(writes: &[Write]) -> BTreeSet<Class> {
    let mut seen = Seen::default();
    by_cell(writes).values().for_each(|writes| seen.writes(writes));
    seen.0
}

/// Writes by their cells, in their order.
pub fn by_cell(writes: &[Write]) -> BTreeMap<(usize, usize), Vec<Write>> {
    let mut cells: BTreeMap<_, Vec<Write>> = BTreeMap::new();
    writes.iter().for_each(|write| cells.entry(write.cell).or_default().push(*write));
    cells
}

/// Whether one of the writes to one cell gives way to a higher rank.
pub fn gives_way(writes: &[Write]) -> bool {
    writes.iter().any(|write| write.rank != writes[0].rank)
}

impl Seen {
    /// Those to one cell.
    fn writes(&mut self, writes: &[Write]) {
        let stands = standing(writes)[&writes[0].cell];
        let mut add = |is: bool, name: &str| self.add_if(is, WRITES, name);
        let highest: Vec<&Write> = writes.iter().filter(|write| write.rank == stands.rank).collect();
        let at = writes.iter().position(|write| write.rank == stands.rank).expect("the one that stands");
        let (earlier, later) = (at > 0, writes[at..].iter().any(|write| write.rank < stands.rank));
        let ranks: BTreeSet<i32> = writes.iter().map(|write| write.rank).collect();
        add(writes.len() > 1, "several");
        add(gives_way(writes), &format!("something gives way to rank {}", stands.rank));
        add(earlier, "a lower rank earlier");
        add(later, "a lower rank later");
        add(earlier && later, "lower ranks earlier and later");
        add(ranks.len() > 2, "three ranks");
        let equal = highest.len() > 1;
        add(equal, "equal ranks");
        add(equal && stands.rank > 0, "equal ranks above 0");
        add(equal && gives_way(writes), "equal ranks, lower ones too");
        add(highest[1..].iter().any(|write| (write.rule, write.call) == (stands.rule, stands.call)), "equal ranks of one call");
        add(highest[1..].iter().any(|write| write.rule != stands.rule), "equal ranks of several rules");
        let other = |write: &Write| !write.value.same_bits(stands.value);
        let lowest = writes.iter().min_by_key(|write| write.rank).expect("a write");
        add(other(&writes[0]), "another value by the first");
        add(other(&writes[writes.len() - 1]), "another value by the last");
        add(other(highest[highest.len() - 1]), "another value by the last of the highest rank");
        add(other(lowest), "another value by the first of the lowest rank");
    }
}

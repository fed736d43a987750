//! The names of classes, and those that a run must have: without one of them it has not tried what it is there to try.

use crate::counts::Class;

pub const NAMES: &str = "lines of names";
pub const RECORDS: &str = "records refused by 21";
pub const TAKEN: &str = "senders of new lines";
pub const ILL_FORMED: &str = "ill-formed senders";
pub const NINTH: &str = "ninth senders";
pub const NUMBERS: &str = "numbers";
pub const RESENT: &str = "lines sent again";
pub const OTHER: &str = "last number, other readings";
pub const ABSENT: &str = "reads an entity that is away";
pub const ORDER: &str = "first of several refusals";
pub const ROWS: &str = "rows asked for";
pub const STATES: &str = "memory that is no state, for one fault alone";
pub const TEXTS: &str = "state of a text that was edited";
pub const OWN_TEXT: &str = "its own text again: accepted";

/// Every class that a run must have.
pub fn required() -> Vec<Class> {
    let groups: [(&'static str, &[&str]); 13] = [
        (NAMES, &HEADS),
        (RECORDS, &["no sender", "an empty sender", "no number", "number before sender"]),
        (TAKEN, &NEW_LINES),
        (ILL_FORMED, &ILL),
        (NINTH, &NINTHS),
        (NUMBERS, &NUMBERED),
        (RESENT, &AGAIN),
        (OTHER, &OTHERS),
        (ABSENT, &["next number: 23", "last number: 23", "another number: 23", "sent again: accepted"]),
        (ORDER, &PAIRS),
        (ROWS, &ASKED),
        (STATES, &SPOILT),
        (TEXTS, &["an entity renamed", "one byte changed", "otherwise", OWN_TEXT]),
    ];
    groups.into_iter().flat_map(|(group, names)| names.iter().map(move |name| (group, name.to_string()))).collect()
}

const HEADS: [&str; 12] = [
    "empty",
    "`n` without `by`",
    "`n by`",
    "`by` alone",
    "`by` without `n`",
    "`by by`",
    "`by n n`, no such entity",
    "`by n by`, no such entity",
    "`by n` in other letters",
    "two spaces after `by`",
    "a column `by`, taken",
    "a column `n`, taken",
];

const NEW_LINES: [&str; 25] = [
    "a reserved word",
    "`by`",
    "`n`",
    "an entity's name",
    "24 bytes",
    "one byte",
    "a known name and more",
    "a known name cut short",
    "a known name but for case",
    "new, 0 known",
    "new, 1 known",
    "new, 2 known",
    "new, 3 known",
    "new, 4 known",
    "new, 5 known",
    "new, 6 known",
    "new, 7 known",
    "known, 1 known",
    "known, 2 known",
    "known, 3 known",
    "known, 4 known",
    "known, 5 known",
    "known, 6 known",
    "known, 7 known",
    "known, 8 known",
];

const ILL: [&str; 9] = [
    "digit first",
    "`_` first",
    "25 bytes",
    "more than 25 bytes",
    "a dot",
    "a byte of 128 or more",
    "a control byte",
    "another mark or sign",
    "a known name and one byte more",
];

const NINTHS: [&str; 8] = [
    "number 0",
    "number 1",
    "another number",
    "a reserved word",
    "24 bytes",
    "a known name and more",
    "a known name cut short",
    "a known name but for case",
];

const NUMBERED: [&str; 19] = [
    "new, 0: 24",
    "new, 1: taken",
    "new, 2 or more: 24",
    "new, another's last: 24",
    "new, another's next: 24",
    "known, 0: 24",
    "known, last less 1: 24",
    "known, next: taken",
    "known, last + 2: 24",
    "known, another's last: 24",
    "known, another's next: 24",
    "known, 2^32 + last: 24",
    "known, 2^32 + next: 24",
    "known, last: 25",
    "known, last: resent",
    "4294967295: taken",
    "4294967295: resent",
    "4294967296 after 4294967295: 24",
    "0 after 4294967295: 24",
];

const AGAIN: [&str; 14] = [
    "at once",
    "after lines of one other",
    "after lines of several others",
    "after refused lines",
    "of a written state",
    "its entity is away",
    "a fired action",
    "other actions than the cells now",
    "another has the same number",
    "another has the same number and readings",
    "of two or more known, the first",
    "of two or more known, the last",
    "eight known",
    "one known",
];

const OTHERS: [&str; 5] =
    ["any", "in one field", "those of another sender's last line", "`?` for `-`, or the other way round", "the other zero"];

const PAIRS: [&str; 24] = [
    "22 before 21",
    "22 before 43",
    "22 before 42",
    "22 before 24",
    "22 before 25",
    "21 before 43",
    "21 before 42",
    "21 before 24",
    "21 before 25",
    "43 before 42",
    "43 before 23",
    "43 before 23 for absence",
    "43 before 24",
    "42 before 23",
    "42 before 23 for absence",
    "42 before 24",
    "23 before 24",
    "23 before 25",
    "23 for absence before 24",
    "23 for absence before 25",
    "31 before 43, a row",
    "32 before 43, a row",
    "33 before 43, a row",
    "33 before 43, a line",
];

const ASKED: [&str; 14] = [
    "known",
    "known, eight known",
    "known, others sent since",
    "known, a fired action",
    "known, other actions than the cells now",
    "unknown, none known",
    "unknown, some known",
    "unknown, eight known",
    "unknown, a known name and more",
    "unknown, a known name cut short",
    "ill formed: 43",
    "ill formed, eight known: 43",
    "empty: 43",
    "with a space: 43",
];

const SPOILT: [&str; 32] = [
    "fingerprint",
    "more than eight senders",
    "two senders of one name",
    "name of no byte",
    "name of more than 24 bytes",
    "name ill formed",
    "bytes behind the name",
    "number 0",
    "flag that was read",
    "flag in a store",
    "store: payload where none is",
    "store: whole beyond 32 bits",
    "store: bool above 1",
    "store: real not finite",
    "store: tag above 4",
    "store: no reading",
    "store: another kind",
    "store: value without a member",
    "store: attribute unset now",
    "store: attribute unset before",
    "sender: payload where none is",
    "sender: whole beyond 32 bits",
    "sender: bool above 1",
    "sender: real not finite",
    "sender: tag above 4",
    "sender: no reading at an action",
    "sender: another kind at an event",
    "sender: another kind at an action",
    "sender: unset at an attribute",
    "sender: value at an attribute",
    "sender: unset without a member",
    "sender: value without a member",
];

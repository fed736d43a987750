//! The classes of one call.

use super::faults::{self, Fault};
use super::required::*;
use crate::counts::Class;
use crate::generate::case::{Call, Step};
use crate::image::{decode_bench, decode_state};
use crate::interpreter::accept;
use crate::interpreter::grammar::Bench;
use crate::interpreter::line::{self, Column, Taken, SENDERS_MOST};
use crate::interpreter::machine::{Reading, Sender, State, Store};
use crate::interpreter::row;
use crate::interpreter::text::{name_form, NAME_MOST, RESERVED};
use crate::interpreter::value::Value;
use crate::memory::Memory;
use std::collections::{BTreeMap, BTreeSet};

/// What happened since the last new line of a sender.
#[derive(Clone, Debug, Default)]
struct Since {
    /// Who else sent new lines.
    others: BTreeSet<Vec<u8>>,
    refused: u64,
}

/// What a case did so far. The state does not tell who sent last, nor how many lines were refused, nor for which text it was made.
#[derive(Clone, Debug, Default)]
pub struct History {
    since: BTreeMap<Vec<u8>, Since>,
    /// How the bench's text became another one.
    edit: Option<&'static str>,
}

impl History {
    fn refused(&mut self) {
        self.since.values_mut().for_each(|since| since.refused += 1);
    }

    fn new_line(&mut self, sender: &[u8]) {
        for since in self.since.values_mut() {
            since.others.insert(sender.to_vec());
        }
        self.since.insert(sender.to_vec(), Since::default());
    }

    /// Memory was written by somebody else.
    pub fn written(&mut self, step: &Step, before: &Memory, after: &Memory) {
        *self = History::default();
        if let Call::SetBench { .. } = step.call {
            self.edit = edit(before, after);
        }
    }
}

/// How a text and another accepted one differ, of which one has the state.
fn edit(before: &Memory, after: &Memory) -> Option<&'static str> {
    let texts = [decode_bench(&before.bench)?, decode_bench(&after.bench)?];
    let benches = [accept(texts[0]).ok()?, accept(texts[1]).ok()?];
    let is_state = |bench: &Bench| decode_state(bench, &after.state).is_some();
    if is_state(&benches[1]) {
        return (texts[0] != texts[1]).then_some(OWN_TEXT);
    }
    if !is_state(&benches[0]) {
        return None;
    }
    let names = |bench: &Bench| bench.entities.iter().map(|entity| entity.name.text.to_vec()).collect::<Vec<_>>();
    let bytes = texts[0].iter().zip(texts[1]).filter(|(a, b)| a != b).count();
    Some(match texts[0].len() == texts[1].len() && bytes == 1 {
        _ if names(&benches[0]) != names(&benches[1]) => "an entity renamed",
        true => "one byte changed",
        false => "otherwise",
    })
}

/// The classes of a call with its answer and the memory before it. The history goes on.
pub fn of(step: &Step, answer: u64, before: &Memory, history: &mut History) -> BTreeSet<Class> {
    let mut seen = Seen::default();
    let number = (answer & 255) as u8;
    match &step.call {
        Call::Line { values, .. } => seen.before_state(number, values.split(|&byte| byte == b' ').next().unwrap_or(b""), "a line"),
        Call::Row { sender } => seen.before_state(number, sender, "a row"),
        Call::Check | Call::Fresh if number == 0 => {
            *history = History::default();
            return seen.0;
        }
        _ => return seen.0,
    }
    let bench = decode_bench(&before.bench).and_then(|text| accept(text).ok()).filter(|_| number != 31);
    let state = bench.as_ref().and_then(|bench| decode_state(bench, &before.state));
    match (&step.call, &bench, &state) {
        (Call::Line { names, values }, Some(bench), Some(state)) => Line { bench, state, names, values, number }.see(&mut seen, history),
        (Call::Row { sender }, Some(bench), Some(state)) => seen.row(bench, state, sender, history),
        (_, Some(bench), None) if number == 33 => seen.no_state(bench, &before.state),
        _ => {}
    }
    // A state of another text must be refused, one of its own text must not.
    if let Some(edit) = history.edit.filter(|edit| number != 31 && (number == 33) != (*edit == OWN_TEXT)) {
        seen.add(TEXTS, edit);
    }
    seen.0
}

#[derive(Default)]
struct Seen(BTreeSet<Class>);

impl Seen {
    fn add(&mut self, group: &'static str, name: impl Into<String>) {
        self.0.insert((group, name.into()));
    }

    fn add_if(&mut self, is: bool, group: &'static str, name: &str) {
        if is {
            self.add(group, name);
        }
    }

    fn before_state(&mut self, number: u8, sender: &[u8], call: &str) {
        self.add_if((31..=33).contains(&number) && !name_form(sender), ORDER, &format!("{number} before 43, {call}"));
    }

    fn no_state(&mut self, bench: &Bench, memory: &[u8]) {
        if let [fault] = &faults::of_state(bench, memory)[..] {
            self.add(STATES, fault.clone());
        }
    }

    fn row(&mut self, bench: &Bench, state: &State, sender: &[u8], history: &History) {
        let full = state.senders.len() == SENDERS_MOST;
        if !name_form(sender) {
            let kind = match sender {
                b"" => "empty: 43",
                _ if sender.contains(&b' ') => "with a space: 43",
                _ => "ill formed: 43",
            };
            self.add(ROWS, kind);
            return self.add_if(full, ROWS, "ill formed, eight known: 43");
        }
        let Some(place) = state.sender(sender) else {
            let known = if state.senders.is_empty() { "none known" } else { "some known" };
            self.add(ROWS, format!("unknown, {}", if full { "eight known" } else { known }));
            return alike(state, sender).into_iter().for_each(|kind| self.add(ROWS, format!("unknown, {kind}")));
        };
        self.add(ROWS, "known");
        self.add_if(full, ROWS, "known, eight known");
        let since = history.since.get(sender);
        self.add_if(since.is_some_and(|since| !since.others.is_empty()), ROWS, "known, others sent since");
        self.add_if(fires(&state.senders[place]), ROWS, "known, a fired action");
        self.add_if(other_than_now(bench, state, place), ROWS, "known, other actions than the cells now");
    }
}

fn fires(sender: &Sender) -> bool {
    sender.fired.iter().flatten().any(Option::is_some)
}

/// Whether a sender's row is not what the action cells now would give.
fn other_than_now(bench: &Bench, state: &State, place: usize) -> bool {
    let Sender { name, number, last, .. } = &state.senders[place];
    let Store { cells, .. } = &state.now;
    let now = Sender { name: name.clone(), number: *number, last: last.clone(), fired: cells.clone() };
    row::row(bench, &now) != row::row(bench, &state.senders[place])
}

/// How a name resembles known ones.
fn alike(state: &State, name: &[u8]) -> Vec<&'static str> {
    let any = |fits: &dyn Fn(&[u8]) -> bool| state.senders.iter().any(|sender| sender.name != name && fits(&sender.name));
    let mut kinds = Vec::new();
    kinds.extend(any(&|known| name.starts_with(known)).then_some("a known name and more"));
    kinds.extend(any(&|known| known.starts_with(name)).then_some("a known name cut short"));
    kinds.extend(any(&|known| known.eq_ignore_ascii_case(name)).then_some("a known name but for case"));
    kinds
}

/// What sort of name it is.
fn sorts(bench: &Bench, name: &[u8]) -> Vec<&'static str> {
    let mut sorts = Vec::new();
    sorts.extend(RESERVED.iter().any(|word| word.as_bytes() == name).then_some("a reserved word"));
    sorts.extend((name == b"by").then_some("`by`"));
    sorts.extend((name == b"n").then_some("`n`"));
    sorts.extend(bench.entity(name).map(|_| "an entity's name"));
    sorts.extend((name.len() == NAME_MOST).then_some("24 bytes"));
    sorts.extend((name.len() == 1).then_some("one byte"));
    sorts
}

/// How two readings that differ are nearly the same.
fn nearly_same(a: Reading, b: Reading) -> Option<&'static str> {
    match (a, b) {
        (Reading::Unset, Reading::NotRead) | (Reading::NotRead, Reading::Unset) => Some("`?` for `-`, or the other way round"),
        (Reading::Set(Value::Real(a)), Reading::Set(Value::Real(b))) if a == b && a.to_bits() != b.to_bits() => Some("the other zero"),
        _ => None,
    }
}

/// A line for a state of a bench, and the number that answered it.
struct Line<'l> {
    bench: &'l Bench<'l>,
    state: &'l State,
    names: &'l [u8],
    values: &'l [u8],
    number: u8,
}

impl Line<'_> {
    fn see(&self, seen: &mut Seen, history: &mut History) {
        self.order(seen);
        match self.number {
            22 => self.head(seen),
            21 => self.record(seen),
            43 => self.ill_formed(seen),
            42 => self.ninth(seen),
            0 => self.columns(seen),
            _ => {}
        }
        self.absent(seen);
        self.numbers(seen);
        self.readings(seen);
        match line::take(self.bench, self.state, self.names, self.values) {
            Ok(Taken::Resent(place)) => self.resent(place, seen, history),
            Ok(Taken::Next(next, place, _)) => {
                self.taken(&next.senders[place].name, seen);
                history.new_line(&next.senders[place].name);
            }
            Err(_) => history.refused(),
        }
    }

    fn fields(&self) -> Vec<&[u8]> {
        self.values.split(|&byte| byte == b' ').collect()
    }

    fn sender(&self) -> &[u8] {
        self.fields()[0]
    }

    fn order(&self, seen: &mut Seen) {
        let faults = faults::of_line(self.bench, self.state, self.names, self.values);
        for later in faults.iter().skip(1) {
            seen.add(ORDER, format!("{} before {}", faults[0].name(), later.name()));
        }
    }

    fn head(&self, seen: &mut Seen) {
        let fields: Vec<&[u8]> = self.names.split(|&byte| byte == b' ').collect();
        let unknown = |name: &[u8]| self.bench.entity(name).is_none();
        let name = match &fields[..] {
            [b""] => "empty",
            [b"n"] => "`n` without `by`",
            [b"n", b"by", ..] => "`n by`",
            [b"n", ..] => "`n` without `by`",
            [b"by"] => "`by` alone",
            [b"by", b"", ..] => "two spaces after `by`",
            [b"by", b"by", ..] => "`by by`",
            [b"by", b"n", b"n", ..] if unknown(b"n") => "`by n n`, no such entity",
            [b"by", b"n", b"by", ..] if unknown(b"by") => "`by n by`, no such entity",
            [b"by", b"n", ..] => return,
            [by, n, ..] if by.eq_ignore_ascii_case(b"by") && n.eq_ignore_ascii_case(b"n") => "`by n` in other letters",
            [b"by", ..] => "`by` without `n`",
            _ => return,
        };
        seen.add(NAMES, name);
    }

    fn columns(&self, seen: &mut Seen) {
        let columns = line::columns(self.bench, self.names).unwrap_or_default();
        for (name, class) in [(&b"by"[..], "a column `by`, taken"), (b"n", "a column `n`, taken")] {
            let entity = self.bench.entity(name);
            seen.add_if(columns.iter().any(|column| matches!(column, Column::Presence(at) if entity == Some(*at))), NAMES, class);
        }
    }

    /// How sender or number are missing.
    fn record(&self, seen: &mut Seen) {
        let fields = self.fields();
        let count = self.names.split(|&byte| byte == b' ').count();
        let is_number = |at: usize| fields.get(at).is_some_and(|field| line::line_number(field).is_some());
        seen.add_if(fields[0].is_empty() && is_number(1), RECORDS, "an empty sender");
        seen.add_if(fields.len() + 1 == count && is_number(0), RECORDS, "no sender");
        seen.add_if(fields.len() + 1 == count && name_form(fields[0]) && !is_number(1), RECORDS, "no number");
        let swapped = fields.len() == count && is_number(0) && fields.get(1).is_some_and(|field| name_form(field));
        seen.add_if(swapped, RECORDS, "number before sender");
    }

    fn ill_formed(&self, seen: &mut Seen) {
        let sender = self.sender();
        let inside = |byte: &u8| byte.is_ascii_alphanumeric() || *byte == b'_';
        let name = match (sender[0], sender.iter().find(|byte| !inside(byte))) {
            (b'0'..=b'9', None) if sender.len() <= NAME_MOST => "digit first",
            (b'_', None) if sender.len() <= NAME_MOST => "`_` first",
            (_, None) if sender.len() == NAME_MOST + 1 => "25 bytes",
            (_, None) => "more than 25 bytes",
            (_, Some(b'.')) => "a dot",
            (_, Some(128..)) => "a byte of 128 or more",
            (_, Some(0..=31 | 127)) => "a control byte",
            (_, Some(_)) => "another mark or sign",
        };
        seen.add(ILL_FORMED, name);
        seen.add_if(self.state.sender(&sender[..sender.len() - 1]).is_some(), ILL_FORMED, "a known name and one byte more");
    }

    fn ninth(&self, seen: &mut Seen) {
        let number = match line::line_number(self.fields()[1]) {
            Some(0) => "number 0",
            Some(1) => "number 1",
            _ => "another number",
        };
        seen.add(NINTH, number);
        sorts(self.bench, self.sender()).into_iter().chain(alike(self.state, self.sender())).for_each(|sort| seen.add(NINTH, sort));
    }

    fn taken(&self, name: &[u8], seen: &mut Seen) {
        sorts(self.bench, name).into_iter().chain(alike(self.state, name)).for_each(|sort| seen.add(TAKEN, sort));
        let new = if self.state.sender(name).is_none() { "new" } else { "known" };
        seen.add(TAKEN, format!("{new}, {} known", self.state.senders.len()));
    }

    fn numbers(&self, seen: &mut Seen) {
        let answer = match (self.number, line::take(self.bench, self.state, self.names, self.values)) {
            (0, Ok(Taken::Resent(_))) => "resent",
            (0, _) => "taken",
            (24, _) => "24",
            (25, _) => "25",
            _ => return,
        };
        let Some(number) = line::line_number(self.fields()[1]) else { return };
        let known = self.state.sender(self.sender());
        let last = known.map_or(0, |place| u64::from(self.state.senders[place].number));
        let others = self.state.senders.iter().filter(|sender| sender.name != self.sender());
        let others: Vec<u64> = others.map(|sender| u64::from(sender.number)).collect();
        let greatest = u64::from(u32::MAX);
        let mut add = |is: bool, name: &str| seen.add_if(is, NUMBERS, &format!("{name}: {answer}"));
        add(number == greatest, "4294967295");
        add(number == greatest + 1 && last == greatest, "4294967296 after 4294967295");
        add(number == 0 && last == greatest, "0 after 4294967295");
        let state = if known.is_some() { "known" } else { "new" };
        let mut add = |is: bool, name: &str| add(is, &format!("{state}, {name}"));
        add(number == 0, "0");
        add(others.contains(&number), "another's last");
        add(number > 0 && others.contains(&(number - 1)), "another's next");
        if known.is_none() {
            add(number == 1, "1");
            return add(number > 1, "2 or more");
        }
        add(number > 0 && number + 1 == last, "last less 1");
        add(number == last, "last");
        add(number == last + 1, "next");
        add(number == last + 2, "last + 2");
        add(number == greatest + 1 + last, "2^32 + last");
        add(number == greatest + 2 + last, "2^32 + next");
    }

    /// How the readings under the last number are other ones.
    fn readings(&self, seen: &mut Seen) {
        if self.number != 25 {
            return;
        }
        seen.add(OTHER, "any");
        let columns = line::columns(self.bench, self.names).expect("names before readings");
        let record = line::record(self.values, columns.len()).expect("a form before readings");
        let readings = line::readings(self.bench, &columns, &record.fields).expect("values before readings");
        let own = &self.state.senders[self.state.sender(self.sender()).expect("who has a last number is known")];
        let another = self.state.senders.iter().any(|sender| sender.name != own.name && sender.last.same_bits(&readings));
        seen.add_if(another, OTHER, "those of another sender's last line");
        if readings.differing(&own.last) == 1 {
            seen.add(OTHER, "in one field");
            let cells = readings.cells.iter().flatten().zip(own.last.cells.iter().flatten());
            cells.filter_map(|(a, b)| nearly_same(*a, *b)).for_each(|how| seen.add(OTHER, how));
        }
    }

    fn absent(&self, seen: &mut Seen) {
        if self.number != 23 || !faults::of_line(self.bench, self.state, self.names, self.values).contains(&Fault::Absent) {
            return;
        }
        let last = self.state.sender(self.sender()).map_or(0, |place| u64::from(self.state.senders[place].number));
        let name = match line::line_number(self.fields()[1]) {
            Some(number) if number == last + 1 => "next number: 23",
            Some(number) if number == last && last > 0 => "last number: 23",
            _ => "another number: 23",
        };
        seen.add(ABSENT, name);
    }

    fn resent(&self, place: usize, seen: &mut Seen, history: &History) {
        let sender = &self.state.senders[place];
        match history.since.get(&sender.name) {
            None => seen.add(RESENT, "of a written state"),
            Some(since) => {
                seen.add_if(since.others.is_empty() && since.refused == 0, RESENT, "at once");
                seen.add_if(since.others.len() == 1, RESENT, "after lines of one other");
                seen.add_if(since.others.len() > 1, RESENT, "after lines of several others");
                seen.add_if(since.refused > 0, RESENT, "after refused lines");
            }
        }
        let away = line::reads_absent(self.state, &sender.last);
        seen.add_if(away, RESENT, "its entity is away");
        seen.add_if(away, ABSENT, "sent again: accepted");
        seen.add_if(fires(sender), RESENT, "a fired action");
        seen.add_if(other_than_now(self.bench, self.state, place), RESENT, "other actions than the cells now");
        let same = |other: &&Sender| other.name != sender.name && other.number == sender.number;
        let others: Vec<&Sender> = self.state.senders.iter().filter(same).collect();
        seen.add_if(!others.is_empty(), RESENT, "another has the same number");
        let readings = |other: &&Sender| other.last.same_bits(&sender.last);
        seen.add_if(others.iter().any(readings), RESENT, "another has the same number and readings");
        let count = self.state.senders.len();
        seen.add_if(count > 1 && place == 0, RESENT, "of two or more known, the first");
        seen.add_if(count > 1 && place + 1 == count, RESENT, "of two or more known, the last");
        seen.add_if(count == SENDERS_MOST, RESENT, "eight known");
        seen.add_if(count == 1, RESENT, "one known");
    }
}

//! Calls about senders between the steps of a case, each made for the memory that it finds there: rows of known, unknown and ill-formed
//! senders, lines sent again late, and lines that are refused for their sender, their number or their readings. None changes the state.

use super::bench::Plan;
use super::case::{Call, Case, Step};
use super::lines::{self, Column, Line};
use super::prng::Prng;
use super::run::Run;
use super::states::last_line;
use super::{lent, put_between, senders, sometimes_short};
use crate::image;
use crate::interpreter::accept;
use crate::interpreter::grammar::Bench;
use crate::interpreter::line::{self, Taken, SENDERS_MOST};
use crate::interpreter::machine::{Sender, State};
use crate::memory::Memory;

/// So many of a hundred probes of memory that holds no bench, or no state, are kept: they are refused by 32 or 33.
const NO_STATE_PERCENT: usize = 25;

/// The two zeros as readings.
const ZEROS: [&str; 2] = ["0000000000000000", "8000000000000000"];

/// None of the other steps changes.
pub fn put_in(prng: &mut Prng, case: &mut Case) {
    let places = places(prng, case.steps.len());
    put_between(case, &places, |_, memory| step(prng, memory));
}

/// Before which of the steps probes come: after the first two, which are a check and a fresh state; often at the end.
fn places(prng: &mut Prng, steps: usize) -> Vec<usize> {
    let count = *prng.pick(&[0, 1, 2, 3, 4, 6, 8]);
    let place = |prng: &mut Prng| if prng.chance(30) { steps } else { prng.between(2.min(steps), steps) };
    (0..count).map(|_| place(prng)).collect()
}

fn step(prng: &mut Prng, memory: &Memory) -> Option<Step> {
    let bench = image::decode_bench(&memory.bench).and_then(|text| accept(text).ok());
    let state = bench.as_ref().and_then(|bench| image::decode_state(bench, &memory.state));
    let call = match (bench, state) {
        (Some(bench), Some(state)) => Probe::new(&bench, &state).call(prng)?,
        _ if prng.chance(NO_STATE_PERCENT) => without_state(prng),
        _ => return None,
    };
    let lent = lent(prng);
    Some(Step { call, lent: sometimes_short(prng, lent) })
}

/// What is refused by 32 or 33 whatever its sender is.
fn without_state(prng: &mut Prng) -> Call {
    let good = senders::any(prng, &Plan::default());
    let sender = if prng.chance(50) { senders::ill_formed(prng, &good) } else { good };
    match prng.chance(50) {
        true => Call::Row { sender },
        false => Call::Line { names: b"by n".to_vec(), values: Line::default().values(&sender, 1) },
    }
}

/// A bench and a state of it, to ask about.
struct Probe<'p> {
    bench: &'p Bench<'p>,
    state: &'p State,
    plan: Plan,
}

impl<'p> Probe<'p> {
    fn new(bench: &'p Bench<'p>, state: &'p State) -> Probe<'p> {
        Probe { bench, state, plan: Plan::of(bench) }
    }

    /// A call that leaves the state as it is; none if what was drawn would change it.
    fn call(&self, prng: &mut Prng) -> Option<Call> {
        if prng.chance(25) {
            return Some(Call::Row { sender: self.asked(prng) });
        }
        let (mut names, mut values) = self.line(prng);
        match prng.weighted(&[82, 9, 9]) {
            1 => lines::damage_head(prng, &mut names),
            2 => lines::damage_values(prng, &mut values),
            _ => {}
        }
        let changes = matches!(line::take(self.bench, self.state, &names, &values), Ok(Taken::Next(..)));
        (!changes).then_some(Call::Line { names, values })
    }

    // Senders.

    fn known(&self, prng: &mut Prng) -> Option<&'p Sender> {
        let known = &self.state.senders;
        (!known.is_empty()).then(|| &known[prng.below(known.len())])
    }

    /// A good name that is not known; often nearly one that is.
    fn stranger(&self, prng: &mut Prng) -> Vec<u8> {
        loop {
            let name = match self.known(prng) {
                Some(known) if prng.chance(50) => senders::near(prng, &known.name),
                _ => senders::any(prng, &self.plan),
            };
            if self.state.sender(&name).is_none() {
                return name;
            }
        }
    }

    /// Mostly a known sender with one fault.
    fn ill_formed(&self, prng: &mut Prng) -> Vec<u8> {
        let good = self.known(prng).map_or(b"a".to_vec(), |known| known.name.clone());
        senders::ill_formed(prng, &good)
    }

    /// Whether every further sender is a ninth.
    fn is_full(&self) -> bool {
        self.state.senders.len() == SENDERS_MOST
    }

    fn someone(&self, prng: &mut Prng) -> Vec<u8> {
        match prng.weighted(&[55, if self.is_full() { 45 } else { 25 }, 20]) {
            0 => self.known(prng).map_or_else(|| self.stranger(prng), |known| known.name.clone()),
            1 => self.stranger(prng),
            _ => self.ill_formed(prng),
        }
    }

    /// The sender of a row that is asked for.
    fn asked(&self, prng: &mut Prng) -> Vec<u8> {
        if prng.chance(6) {
            return prng.pick(&["", "", " ", "a ", " a", "a\n", "a a"]).as_bytes().to_vec();
        }
        self.someone(prng)
    }

    fn last_number(&self, sender: &[u8]) -> u64 {
        self.state.sender(sender).map_or(0, |place| u64::from(self.state.senders[place].number))
    }

    // Lines.

    fn line(&self, prng: &mut Prng) -> (Vec<u8>, Vec<u8>) {
        let ended = self.state.senders.iter().find(|sender| sender.number == u32::MAX);
        if let Some(sender) = ended.filter(|_| prng.chance(35)) {
            return self.after_the_last(prng, sender);
        }
        let strangers = if self.is_full() { 40 } else { 16 };
        match prng.weighted(&[24, strangers, 12, 16, 13, 14, 11]) {
            0 => self.again(prng),
            1 => {
                let sender = self.stranger(prng);
                self.any_number(prng, &sender)
            }
            2 => {
                let sender = self.ill_formed(prng);
                self.any_number(prng, &sender)
            }
            3 => self.known_number(prng),
            4 => self.other_readings(prng),
            5 => self.absent(prng),
            _ => self.anothers(prng),
        }
    }

    fn lent(&self, line: &Line, sender: &[u8], number: u64) -> (Vec<u8>, Vec<u8>) {
        (line.names(&self.plan), line.values(sender, number))
    }

    fn run(&self, prng: &mut Prng) -> Run<'_> {
        let mut run = Run::new(&self.plan, prng);
        run.follow(self.state);
        run
    }

    /// A line of any readings; now and then it reads an entity that is not there, or one of its values is none.
    fn any_line(&self, prng: &mut Prng) -> Line {
        if prng.chance(if self.is_full() { 30 } else { 12 }) {
            return self.absent_line(prng);
        }
        let mut line = self.run(prng).aside(prng);
        if prng.chance(if self.is_full() { 35 } else { 20 }) {
            lines::damage_field(prng, &mut line);
        }
        line
    }

    /// A known sender's last line.
    fn again(&self, prng: &mut Prng) -> (Vec<u8>, Vec<u8>) {
        let Some(known) = self.known(prng) else { return self.known_number(prng) };
        let line = last_line(known);
        let line = if prng.chance(70) { lines::same_readings(prng, &self.plan, &line) } else { line };
        // Now and then with a number that is the last one in 32 bits alone.
        let beyond = if prng.chance(6) { 1 << 32 } else { 0 };
        self.lent(&line, &known.name, u64::from(known.number) + beyond)
    }

    /// A line of a sender that is not known.
    fn any_number(&self, prng: &mut Prng, sender: &[u8]) -> (Vec<u8>, Vec<u8>) {
        let another = self.known(prng).map_or(3, |known| u64::from(known.number));
        let number = *prng.pick(&[0, 0, 1, 1, 1, 2, 3, another, another + 1, u64::from(u32::MAX), 1 << 32, (1 << 32) + 1]);
        self.lent(&self.any_line(prng), sender, number)
    }

    /// A line of a known sender, with a number that does not come next.
    fn known_number(&self, prng: &mut Prng) -> (Vec<u8>, Vec<u8>) {
        let sender = self.known(prng).map_or(b"a".to_vec(), |known| known.name.clone());
        let (last, another) = (self.last_number(&sender), self.known(prng).map_or(3, |known| u64::from(known.number)));
        let near = [0, 0, last, last + 2, last + 2, last.saturating_sub(1)];
        let far = [another, another + 1, (1 << 32) + last, (1 << 32) + last + 1, u64::from(u32::MAX), 1 << 32, 9_999_999_999];
        let number = if prng.chance(50) { *prng.pick(&near) } else { *prng.pick(&far) };
        self.lent(&self.any_line(prng), &sender, number.min(9_999_999_999))
    }

    /// After the last number nothing comes next, not even what would if it went round.
    fn after_the_last(&self, prng: &mut Prng, sender: &Sender) -> (Vec<u8>, Vec<u8>) {
        let line = self.run(prng).aside(prng);
        self.lent(&line, &sender.name, *prng.pick(&[0, 0, 1, 1 << 32, (1 << 32) + 1]))
    }

    /// A known sender's last number with other readings: in one field, those of another sender, or any.
    fn other_readings(&self, prng: &mut Prng) -> (Vec<u8>, Vec<u8>) {
        let (Some(known), Some(another)) = (self.known(prng), self.known(prng)) else { return self.known_number(prng) };
        let mut line = match prng.weighted(&[25, 30, 45]) {
            0 => self.any_line(prng),
            1 => last_line(another),
            _ => last_line(known),
        };
        // Of two zeros only the bits differ.
        let zeros: Vec<usize> = (0..line.fields.len()).filter(|&at| ZEROS.contains(&&*line.fields[at])).collect();
        if !zeros.is_empty() && prng.chance(70) {
            let at = *prng.pick(&zeros);
            line.fields[at] = lines::negated(&line.fields[at]);
        } else if prng.chance(25) {
            self.exchange_unset(prng, &mut line);
        } else if !line.fields.is_empty() && prng.chance(50) {
            let at = prng.below(line.fields.len());
            line.fields[at] = self.run(prng).other_field(prng, line.columns[at], &line.fields[at]);
        }
        let number = if prng.chance(85) { known.number } else { another.number };
        self.lent(&line, &known.name, u64::from(number))
    }

    /// Reads `-` where `?` was read, or the other way round.
    fn exchange_unset(&self, prng: &mut Prng, line: &mut Line) {
        let unset: Vec<Column> =
            line.columns.iter().copied().zip(&line.fields).filter(|(_, field)| *field == "?").map(|(at, _)| at).collect();
        let read = |column: &Column| line.columns.iter().zip(&line.fields).any(|(known, field)| known == column && field != "-");
        let mut others = lines::all_columns(&self.plan);
        others.retain(|column| matches!(column, Column::Event(..)) && self.state.now.present[column.entity()] && !read(column));
        match (unset.is_empty(), others.is_empty()) {
            (false, _) if prng.chance(50) => put(line, *prng.pick(&unset), "-"),
            (_, false) => put(line, *prng.pick(&others), "?"),
            _ => {}
        }
    }

    /// A line that reads an entity that is not there; if all are, one that makes it leave; if there is none, any.
    fn absent_line(&self, prng: &mut Prng) -> Line {
        let mut line = self.run(prng).aside(prng);
        let mut events = lines::all_columns(&self.plan);
        events.retain(|column| matches!(column, Column::Event(..)));
        let away: Vec<Column> = events.iter().copied().filter(|column| !self.state.now.present[column.entity()]).collect();
        if !events.is_empty() {
            let column = *prng.pick(if away.is_empty() { &events } else { &away });
            put(&mut line, Column::Presence(column.entity()), if away.is_empty() { "false" } else { "-" });
            put(&mut line, column, &self.reading(prng, column));
        }
        line
    }

    fn absent(&self, prng: &mut Prng) -> (Vec<u8>, Vec<u8>) {
        let sender = self.someone(prng);
        let last = self.last_number(&sender);
        let number = *prng.pick(&[last, last, last + 1, last + 1, 0, last + 2]);
        self.lent(&self.absent_line(prng), &sender, number)
    }

    /// What an event may read.
    fn reading(&self, prng: &mut Prng, column: Column) -> String {
        match column {
            Column::Event(entity, member) if prng.chance(80) => lines::value(prng, self.plan.members(entity)[member].kind),
            _ => "?".into(),
        }
    }

    /// A known sender's last line under another name.
    fn anothers(&self, prng: &mut Prng) -> (Vec<u8>, Vec<u8>) {
        let Some(known) = self.known(prng) else { return self.known_number(prng) };
        let sender = self.someone(prng);
        let own = self.last_number(&sender);
        let number = if prng.chance(60) { u64::from(known.number) } else { own };
        self.lent(&last_line(known), &sender, number)
    }
}

/// Puts a field into its column, which may be missing.
fn put(line: &mut Line, column: Column, field: &str) {
    match line.columns.iter().position(|known| *known == column) {
        Some(at) => line.fields[at] = field.into(),
        None => {
            line.columns.push(column);
            line.fields.push(field.into());
        }
    }
}

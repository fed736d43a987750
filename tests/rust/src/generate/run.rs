//! A run under way: enough of its state to make valid lines of several senders, resent ones and each kind of damaged ones.

use super::bench::Plan;
use super::case::Call;
use super::lines::{self, Column, Line};
use super::prng::Prng;
use super::senders;
use super::states::last_line;
use crate::interpreter::line::SENDERS_MOST;
use crate::interpreter::machine::{Sender, State};

/// Names and values of one call.
pub type Lent = (Vec<u8>, Vec<u8>);

/// So many of a hundred turns go to a sender that is not known yet, while there is one. A run of eight lines shall get to know eight.
const NEW_PERCENT: usize = 80;

/// A known sender.
#[derive(Clone, Debug)]
pub struct Sent {
    pub name: Vec<u8>,
    pub number: u64,
    pub last: Line,
}

pub struct Run<'p> {
    pub plan: &'p Plan,
    pub columns: Vec<Column>,
    pub present: Vec<bool>,
    /// All who send. There may be more than can be known.
    pub names: Vec<Vec<u8>>,
    /// Who of them sends next.
    pub turn: usize,
    pub known: Vec<Sent>,
}

impl<'p> Run<'p> {
    pub fn new(plan: &'p Plan, prng: &mut Prng) -> Run<'p> {
        let columns = lines::some_columns(prng, plan);
        let count = senders::count(prng);
        Run::with(plan, columns, senders::some(prng, plan, count))
    }

    pub fn with(plan: &'p Plan, columns: Vec<Column>, names: Vec<Vec<u8>>) -> Run<'p> {
        Run { plan, columns, present: vec![true; plan.entities.len()], names, turn: 0, known: Vec::new() }
    }

    /// Goes on from this state: who is known there sends too.
    pub fn follow(&mut self, state: &State) {
        self.present.clone_from(&state.now.present);
        let sent = |sender: &Sender| Sent { name: sender.name.clone(), number: u64::from(sender.number), last: last_line(sender) };
        self.known = state.senders.iter().map(sent).collect();
        for sender in &self.known {
            if !self.names.contains(&sender.name) {
                self.names.push(sender.name.clone());
            }
        }
    }

    pub fn restart(&mut self) {
        self.present.fill(true);
        self.known.clear();
    }

    // Who sends.

    /// The sender whose turn it is.
    pub fn sender(&self) -> &[u8] {
        &self.names[self.turn]
    }

    fn place_of(&self, name: &[u8]) -> Option<usize> {
        self.known.iter().position(|sent| sent.name == name)
    }

    fn sent(&self) -> Option<&Sent> {
        self.place_of(self.sender()).map(|place| &self.known[place])
    }

    /// The last number of the sender whose turn it is.
    pub fn number(&self) -> u64 {
        self.sent().map_or(0, |sent| sent.number)
    }

    /// The last line of the sender whose turn it is.
    fn last(&self) -> Line {
        self.sent().map_or(Line::default(), |sent| sent.last.clone())
    }

    /// Passes the turn to another sender, or to the same.
    pub fn pass(&mut self, prng: &mut Prng) {
        let new: Vec<usize> = (0..self.names.len()).filter(|&at| self.place_of(&self.names[at]).is_none()).collect();
        let wanted = !new.is_empty() && self.known.len() < SENDERS_MOST && prng.chance(NEW_PERCENT);
        self.turn = if wanted { *prng.pick(&new) } else { prng.below(self.names.len()) };
    }

    /// Whether the line of the sender whose turn it is would be refused by 42.
    pub fn is_ninth(&self) -> bool {
        self.sent().is_none() && self.known.len() == SENDERS_MOST
    }

    /// Passes the turn to a known sender, if there is one.
    pub fn pass_to_known(&mut self, prng: &mut Prng) {
        if !self.known.is_empty() {
            let name = prng.pick(&self.known).name.clone();
            self.turn = self.names.iter().position(|known| *known == name).expect("who is known is among all who send");
        }
    }

    // What they send.

    /// The next call: a valid line mostly, else a resent or damaged one.
    pub fn call(&mut self, prng: &mut Prng) -> Call {
        if prng.chance(10) {
            self.columns = lines::some_columns(prng, self.plan);
        }
        self.pass(prng);
        let (names, values) = match prng.weighted(&[44, 18, 5, 5, 4, 6, 6, 6, 6, 3]) {
            0 => self.next(prng),
            1 => self.switch(prng),
            2 => self.resent(prng),
            3 => self.resent_in_another_form(prng),
            4 => self.other_readings(prng),
            5 => self.other_number(prng),
            6 => self.bad_names(prng),
            7 => self.bad_values(prng),
            8 => self.bad_field(prng),
            _ => self.bad_sender(prng),
        };
        Call::Line { names, values }
    }

    /// A line with the number that comes next, as the sender whose turn it is would send it.
    pub fn values(&self, line: &Line) -> Vec<u8> {
        line.values(self.sender(), self.number() + 1)
    }

    fn lent(&self, line: &Line, number: u64) -> Lent {
        (line.names(self.plan), line.values(self.sender(), number))
    }

    pub fn resent(&mut self, prng: &mut Prng) -> Lent {
        self.pass_to_known(prng);
        self.lent(&self.last(), self.number())
    }

    fn resent_in_another_form(&mut self, prng: &mut Prng) -> Lent {
        self.pass_to_known(prng);
        self.lent(&lines::same_readings(prng, self.plan, &self.last()), self.number())
    }

    fn next(&mut self, prng: &mut Prng) -> Lent {
        self.next_switching(prng, None)
    }

    /// The next line, in which an entity comes with its readings, or goes so that it can come later.
    fn switch(&mut self, prng: &mut Prng) -> Lent {
        let to_switch = lines::to_switch(prng, self.plan, &self.present, (0..self.present.len()).collect());
        if let Some(entity) = to_switch {
            lines::complete(prng, self.plan, entity, &mut self.columns);
        }
        self.next_switching(prng, to_switch)
    }

    fn next_switching(&mut self, prng: &mut Prng, to_switch: Option<usize>) -> Lent {
        let mut present = self.present.clone();
        let line = lines::line_switching(prng, self.plan, &self.columns, &mut present, to_switch);
        let names = line.names(self.plan);
        (names, self.go_on(line, present))
    }

    /// Takes a line for the next one, after which these entities are there; gives its values. The line of a ninth sender and one beyond
    /// the last number change nothing.
    pub fn go_on(&mut self, line: Line, present: Vec<bool>) -> Vec<u8> {
        let values = self.values(&line);
        let sent = Sent { name: self.sender().to_vec(), number: self.number() + 1, last: line };
        let place = self.place_of(&sent.name);
        if sent.number > u64::from(u32::MAX) || (place.is_none() && self.known.len() == SENDERS_MOST) {
            return values;
        }
        match place {
            Some(place) => self.known[place] = sent,
            None => self.known.push(sent),
        }
        self.present = present;
        values
    }

    /// The values of a known sender's last line.
    pub fn again(&mut self, prng: &mut Prng) -> Vec<u8> {
        self.pass_to_known(prng);
        self.last().values(self.sender(), self.number())
    }

    /// A valid line that the run does not go on with.
    pub fn aside(&self, prng: &mut Prng) -> Line {
        lines::line(prng, self.plan, &self.columns, &mut self.present.clone())
    }

    /// The line that would come next; the run does not go on with it.
    pub fn ahead(&self, prng: &mut Prng) -> Lent {
        let line = self.aside(prng);
        (line.names(self.plan), self.values(&line))
    }

    /// The last number with other readings, sometimes other in form only.
    pub fn other_readings(&mut self, prng: &mut Prng) -> Lent {
        self.pass_to_known(prng);
        let mut line = self.last();
        if line.fields.is_empty() || prng.chance(40) {
            return self.lent(&self.aside(prng), self.number());
        }
        let at = prng.below(line.fields.len());
        line.fields[at] = self.other_field(prng, line.columns[at], &line.fields[at]);
        self.lent(&line, self.number())
    }

    /// Another reading in a column.
    pub fn other_field(&self, prng: &mut Prng, column: Column, field: &str) -> String {
        match column {
            Column::Presence(entity) => ["-".to_string(), self.present[entity].to_string()][prng.below(2)].clone(),
            // The other sign, so that the two zeros are told apart.
            Column::Event(..) if field.len() == 16 && prng.chance(60) => lines::negated(field),
            Column::Event(entity, member) => {
                let value = lines::value(prng, self.plan.members(entity)[member].kind);
                ["-".into(), "?".into(), value][prng.below(3)].clone()
            }
        }
    }

    pub fn other_number(&self, prng: &mut Prng) -> Lent {
        let (last, random) = (self.number(), prng.draw() >> 31);
        let number = *prng.pick(&[0, last + 2, last.saturating_sub(1), 4_294_967_295, 4_294_967_296, 9_999_999_999, random]);
        self.lent(&self.aside(prng), number)
    }

    fn bad_names(&self, prng: &mut Prng) -> Lent {
        let line = self.aside(prng);
        let mut names = line.names(self.plan);
        lines::damage_names(prng, self.plan, &mut names);
        let mut values = self.values(&line);
        if prng.chance(20) {
            lines::damage_values(prng, &mut values);
        }
        (names, values)
    }

    pub fn bad_values(&self, prng: &mut Prng) -> Lent {
        let line = self.aside(prng);
        let mut values = self.values(&line);
        lines::damage_values(prng, &mut values);
        (line.names(self.plan), values)
    }

    pub fn bad_field(&self, prng: &mut Prng) -> Lent {
        let mut line = self.aside(prng);
        lines::damage_field(prng, &mut line);
        let number = if prng.chance(80) { self.number() + 1 } else { self.number() };
        self.lent(&line, number)
    }

    pub fn bad_sender(&self, prng: &mut Prng) -> Lent {
        let line = self.aside(prng);
        let sender = senders::ill_formed(prng, self.sender());
        (line.names(self.plan), line.values(&sender, self.number() + 1))
    }
}

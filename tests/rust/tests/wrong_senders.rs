//! Lines, rows and states with senders: wrong ones, each with one flaw, are told from the right ones by the cases of the generator.

use second::generate;
use second::generate::case::{Call, Case, Step, EXACT};
use second::image::{decode_bench, decode_state, fingerprint, sender_at, state_image, store_at};
use second::image::{CELL, COUNT_AT, NAME_AT, NUMBER_AT, PLANE_AT, STATE_SIZE};
use second::interpreter::accept;
use second::interpreter::grammar::{Bench, Sort};
use second::interpreter::line::{self, Column};
use second::interpreter::machine::{cycle, Given, Reading, Readings, Sender, State, Store};
use second::interpreter::row::{field, header};
use second::interpreter::text::{name_form, RESERVED};
use second::interpreter::value::{Cell, Kind, Value};
use second::memory::{Memory, OURS};

const SEED: u64 = 3;
/// So many cases must show every flaw; a run has several times as many.
const CASES: u64 = 2_000;

#[derive(Clone, Copy, Debug, PartialEq, Eq)]
enum Flaw {
    None,
    // Names.
    /// `n` alone begins them.
    NoBy,
    /// `by` alone begins them.
    NoN,
    /// `n by` does too.
    AnyOrder,
    AnyCase,
    /// A second `by n` is passed over.
    TwoHeads,
    /// No column may be called `by` or `n`.
    ReservesBy,
    // The form of a sender.
    Longer,
    Shorter,
    NoReserved,
    UnderscoreFirst,
    DigitFirst,
    Dots,
    HighBytes,
    /// What stands behind the first byte is not looked at.
    FirstByteAlone,
    /// What lies behind 24 bytes is dropped.
    Truncates,
    /// A dot and what follows is dropped.
    CutsAtDot,
    EmptyIsSender,
    // Who is who.
    IgnoresCase,
    /// Names are told apart by their first two bytes.
    TwoBytes,
    /// By their lengths and first bytes.
    LengthAndFirst,
    // How many.
    SevenAreKnown,
    NineAreKnown,
    /// A ninth takes the place of the first.
    DropsFirst,
    /// A line that is refused for its number makes its sender known.
    KnownFromRefused,
    // The order of refusals.
    NinthBeforeIllFormed,
    IllFormedBeforeForm,
    IllFormedBeforeNames,
    NinthBeforeForm,
    NinthBeforeNames,
    ValuesBeforeIllFormed,
    ValuesBeforeNinth,
    NumberBeforeIllFormed,
    NumberBeforeNinth,
    NumberBeforeValues,
    NumberBeforeAbsent,
    ReadingsBeforeAbsent,
    ReadingsBeforeNumber,
    AbsentBeforeIllFormed,
    AbsentBeforeNinth,
    AbsentBeforeResent,
    ResentBeforeValues,
    // Numbers.
    /// One last number for all: the last that was sent, which is the greatest here.
    OneNumber,
    /// Any sender's last number counts as the own.
    AnyLast,
    /// Who is not known has the last number of the first.
    StartsAtFirst,
    Truncated,
    Wraps,
    TakesGaps,
    /// A sender starts at 0.
    StartsAtZero,
    // Lines sent again.
    ByNumber,
    /// The readings alone.
    ByReadings,
    /// Whoever sent them.
    ByAnyone,
    /// The readings of the sender that is known last.
    ByLastKnown,
    /// Presence is not compared.
    WithoutPresence,
    /// Values are not compared bit by bit.
    ByValue,
    /// Number 0 of somebody who is not known, with nothing read.
    ZeroIsResent,
    NeverResent,
    /// Kept actions are taken for readings: what fired is never sent again.
    IfNothingFired,
    RowOfCellsNow,
    /// What fired at an entity that is away by now is not shown.
    HidesAbsent,
    RowOfFirst,
    RowOfLastKnown,
    RowWithoutActions,
    /// The cycle is run again.
    RunsAgain,
    /// The store now becomes the one before.
    MovesBefore,
    // What is kept.
    ForgetsOthers,
    NewFirst,
    MovesToEnd,
    ByName,
    KeepsNoActions,
    KeepsActionsAsSeen,
    KeepsNoReadings,
    /// All senders get the readings.
    KeepsForAll,
    /// The number goes up for all.
    CountsForAll,
    /// What was read before stays where nothing is read.
    AddsReadings,
    AddsActions,
    /// What stood behind a name stays.
    LeavesPadding,
    /// What senders keep of an entity goes when it leaves.
    LeavingClearsKept,
    /// Who is there after the line is kept as if it had been read.
    KeepsPresence,
    /// The rest of the memory becomes zeros.
    ClearsRest,
    // Rows.
    NumberFirst,
    NoSender,
    // Rows that are asked for.
    AskedRefusesNinth,
    AskedRefusesUnknown,
    AskedTakesAnyName,
    AskedCellsNow,
    AskedHidesAbsent,
    AskedFirst,
    AskedUnknownIsFirst,
    AskedIllFormedFirst,
    AskedUnknownAtOne,
    HeaderWithoutBy,
}

/// Every flaw, and how many calls at least must show it.
const FLAWS: [(Flaw, usize); 91] = [
    (Flaw::NoBy, 12),
    (Flaw::NoN, 19),
    (Flaw::AnyOrder, 10),
    (Flaw::AnyCase, 20),
    (Flaw::TwoHeads, 13),
    (Flaw::ReservesBy, 710),
    (Flaw::Longer, 18),
    (Flaw::Shorter, 430),
    (Flaw::NoReserved, 810),
    (Flaw::UnderscoreFirst, 30),
    (Flaw::DigitFirst, 45),
    (Flaw::Dots, 25),
    (Flaw::HighBytes, 35),
    (Flaw::FirstByteAlone, 95),
    (Flaw::Truncates, 50),
    (Flaw::CutsAtDot, 25),
    (Flaw::EmptyIsSender, 25),
    (Flaw::IgnoresCase, 75),
    (Flaw::TwoBytes, 260),
    (Flaw::LengthAndFirst, 130),
    (Flaw::SevenAreKnown, 70),
    (Flaw::NineAreKnown, 60),
    (Flaw::DropsFirst, 60),
    (Flaw::KnownFromRefused, 620),
    (Flaw::NinthBeforeIllFormed, 20),
    (Flaw::IllFormedBeforeForm, 80),
    (Flaw::IllFormedBeforeNames, 100),
    (Flaw::NinthBeforeForm, 30),
    (Flaw::NinthBeforeNames, 35),
    (Flaw::ValuesBeforeIllFormed, 25),
    (Flaw::ValuesBeforeNinth, 6),
    (Flaw::NumberBeforeIllFormed, 410),
    (Flaw::NumberBeforeNinth, 230),
    (Flaw::NumberBeforeValues, 210),
    (Flaw::NumberBeforeAbsent, 110),
    (Flaw::ReadingsBeforeAbsent, 35),
    (Flaw::ReadingsBeforeNumber, 0),
    (Flaw::AbsentBeforeIllFormed, 45),
    (Flaw::AbsentBeforeNinth, 4),
    (Flaw::AbsentBeforeResent, 60),
    (Flaw::ResentBeforeValues, 0),
    (Flaw::OneNumber, 1_400),
    (Flaw::AnyLast, 40),
    (Flaw::StartsAtFirst, 1_100),
    (Flaw::Truncated, 30),
    (Flaw::Wraps, 3),
    (Flaw::TakesGaps, 330),
    (Flaw::StartsAtZero, 280),
    (Flaw::ByNumber, 210),
    (Flaw::ByReadings, 140),
    (Flaw::ByAnyone, 220),
    (Flaw::ByLastKnown, 230),
    (Flaw::WithoutPresence, 55),
    (Flaw::ByValue, 5),
    (Flaw::ZeroIsResent, 140),
    (Flaw::NeverResent, 620),
    (Flaw::IfNothingFired, 150),
    (Flaw::HidesAbsent, 25),
    (Flaw::RowOfCellsNow, 100),
    (Flaw::RowOfFirst, 85),
    (Flaw::RowOfLastKnown, 85),
    (Flaw::RowWithoutActions, 150),
    (Flaw::RunsAgain, 300),
    (Flaw::MovesBefore, 180),
    (Flaw::ForgetsOthers, 1_600),
    (Flaw::NewFirst, 1_000),
    (Flaw::MovesToEnd, 400),
    (Flaw::ByName, 1_300),
    (Flaw::KeepsNoActions, 630),
    (Flaw::KeepsActionsAsSeen, 720),
    (Flaw::KeepsNoReadings, 2_100),
    (Flaw::KeepsForAll, 1_400),
    (Flaw::CountsForAll, 850),
    (Flaw::AddsReadings, 390),
    (Flaw::AddsActions, 140),
    (Flaw::LeavingClearsKept, 370),
    (Flaw::KeepsPresence, 2_100),
    (Flaw::LeavesPadding, 1_400),
    (Flaw::ClearsRest, 3_200),
    (Flaw::NumberFirst, 4_600),
    (Flaw::NoSender, 4_600),
    (Flaw::AskedRefusesNinth, 60),
    (Flaw::AskedRefusesUnknown, 690),
    (Flaw::AskedTakesAnyName, 110),
    (Flaw::AskedCellsNow, 400),
    (Flaw::AskedHidesAbsent, 40),
    (Flaw::AskedFirst, 670),
    (Flaw::AskedUnknownIsFirst, 420),
    (Flaw::AskedIllFormedFirst, 7),
    (Flaw::AskedUnknownAtOne, 690),
    (Flaw::HeaderWithoutBy, 530),
];

/// Flaws that no call can show: after the other checks nothing is left for them to change.
const HIDDEN: [Flaw; 2] = [Flaw::ReadingsBeforeNumber, Flaw::ResentBeforeValues];

// Lines.

/// What is looked for, one after the other.
#[derive(Clone, Copy, PartialEq, Eq)]
enum Check {
    Names,
    Form,
    IllFormed,
    Ninth,
    Values,
    Resent,
    Absent,
    Number,
    Readings,
}

const CHECKS: [Check; 9] = [
    Check::Names,
    Check::Form,
    Check::IllFormed,
    Check::Ninth,
    Check::Values,
    Check::Resent,
    Check::Absent,
    Check::Number,
    Check::Readings,
];

fn checks(flaw: Flaw) -> Vec<Check> {
    // The first of these comes right before the second.
    let (moved, before) = match flaw {
        Flaw::NinthBeforeIllFormed => (Check::Ninth, Check::IllFormed),
        Flaw::IllFormedBeforeForm => (Check::IllFormed, Check::Form),
        Flaw::IllFormedBeforeNames => (Check::IllFormed, Check::Names),
        Flaw::NinthBeforeForm => (Check::Ninth, Check::Form),
        Flaw::NinthBeforeNames => (Check::Ninth, Check::Names),
        Flaw::ValuesBeforeIllFormed => (Check::Values, Check::IllFormed),
        Flaw::ValuesBeforeNinth => (Check::Values, Check::Ninth),
        Flaw::NumberBeforeIllFormed => (Check::Number, Check::IllFormed),
        Flaw::NumberBeforeNinth => (Check::Number, Check::Ninth),
        Flaw::NumberBeforeValues => (Check::Number, Check::Values),
        Flaw::NumberBeforeAbsent => (Check::Number, Check::Absent),
        Flaw::ReadingsBeforeAbsent => (Check::Readings, Check::Absent),
        Flaw::ReadingsBeforeNumber => (Check::Readings, Check::Number),
        Flaw::AbsentBeforeIllFormed => (Check::Absent, Check::IllFormed),
        Flaw::AbsentBeforeNinth => (Check::Absent, Check::Ninth),
        Flaw::AbsentBeforeResent => (Check::Absent, Check::Resent),
        Flaw::ResentBeforeValues => (Check::Resent, Check::Values),
        _ => return CHECKS.to_vec(),
    };
    let mut checks: Vec<Check> = CHECKS.into_iter().filter(|check| *check != moved).collect();
    let place = checks.iter().position(|check| *check == before).expect("a check");
    checks.insert(place, moved);
    checks
}

/// A line, read as far as it can be.
struct Line<'l> {
    flaw: Flaw,
    bench: &'l Bench<'l>,
    state: &'l State,
    columns: Option<Vec<Column>>,
    formed: bool,
    sender: Vec<u8>,
    number: Option<u64>,
    readings: Option<Readings>,
}

/// The state after a call and the row.
type Done = (State, Vec<u8>);

impl<'l> Line<'l> {
    fn new(flaw: Flaw, bench: &'l Bench<'l>, state: &'l State, names: &[u8], values: &[u8]) -> Line<'l> {
        let columns = columns(flaw, bench, names);
        let count = columns.as_ref().map_or(names.split(|&byte| byte == b' ').count().saturating_sub(2), Vec::len);
        // Put before an empty sender, so that only that changes.
        let lengthened = [&b"e"[..], values].concat();
        let values = if flaw == Flaw::EmptyIsSender && values.starts_with(b" ") { &lengthened } else { values };
        let record = line::record(values, count);
        let mut fields = values.split(|&byte| byte == b' ');
        let sender = sender(flaw, fields.next().unwrap_or(b""));
        let number = fields.next().and_then(line::line_number);
        let readings = columns.as_ref().zip(record.as_ref()).and_then(|(columns, record)| line::readings(bench, columns, &record.fields));
        Line { flaw, bench, state, columns, formed: record.is_some(), sender, number, readings }
    }

    fn is(&self, flaw: Flaw) -> bool {
        self.flaw == flaw
    }

    fn known(&self) -> Option<usize> {
        self.state.senders.iter().position(|sender| same_name(self.flaw, &sender.name, &self.sender))
    }

    fn last(&self) -> u64 {
        let numbers = self.state.senders.iter().map(|sender| u64::from(sender.number));
        match (self.flaw, self.known()) {
            (Flaw::OneNumber, _) => numbers.max().unwrap_or(0),
            (Flaw::StartsAtFirst, None) => self.state.senders.first().map_or(0, |sender| u64::from(sender.number)),
            (_, known) => known.map_or(0, |place| u64::from(self.state.senders[place].number)),
        }
    }

    /// The number as far as it is looked at.
    fn seen_number(&self) -> u64 {
        let number = self.number.unwrap_or(0);
        if self.is(Flaw::Truncated) {
            u64::from(number as u32)
        } else {
            number
        }
    }

    fn refused(&self, check: Check) -> Option<u8> {
        let refused = match check {
            Check::Names => self.columns.is_none().then_some(22),
            Check::Form => (!self.formed).then_some(21),
            Check::IllFormed => (!self.sender.is_empty() && !formed(self.flaw, &self.sender)).then_some(43),
            Check::Ninth => (!self.sender.is_empty() && self.known().is_none() && self.full()).then_some(42),
            Check::Values => (self.formed && self.columns.is_some() && self.readings.is_none()).then_some(23),
            Check::Resent => None,
            Check::Absent => self.readings.as_ref().is_some_and(|readings| line::reads_absent(self.state, readings)).then_some(23),
            Check::Number => self.number.is_some_and(|_| !self.follows()).then_some(24),
            Check::Readings => (self.number.is_some() && self.seen_number() == self.last() && self.last() > 0).then_some(25),
        };
        // Where absence or readings come before, a line that is sent again must not be refused by them, but for the flaw itself.
        let resent = matches!(check, Check::Absent | Check::Readings) && !self.is(Flaw::AbsentBeforeResent) && self.resent().is_some();
        refused.filter(|_| !resent)
    }

    fn full(&self) -> bool {
        let most = match self.flaw {
            Flaw::SevenAreKnown => 7,
            Flaw::NineAreKnown | Flaw::DropsFirst => 9,
            _ => 8,
        };
        self.state.senders.len() >= most
    }

    /// Whether the number is the last or comes next.
    fn follows(&self) -> bool {
        let (number, last) = (self.seen_number(), self.last());
        let next = if self.is(Flaw::Wraps) { u64::from((last as u32).wrapping_add(1)) } else { last + 1 };
        let any_last = self.is(Flaw::AnyLast) && self.state.senders.iter().any(|sender| u64::from(sender.number) == number);
        let starts = self.is(Flaw::StartsAtZero) && self.known().is_none() && number == 0;
        let gap = self.is(Flaw::TakesGaps) && number > last;
        let fits = number == last || number == next || any_last || starts || gap;
        let wraps = self.is(Flaw::Wraps) && last == u64::from(u32::MAX);
        fits && (number > 0 || wraps || starts) && number <= u64::from(u32::MAX)
    }

    /// Whose last line it is.
    fn resent(&self) -> Option<usize> {
        let readings = self.readings.as_ref()?;
        let same = |place: usize| {
            let sender = &self.state.senders[place];
            let number = self.seen_number() == u64::from(sender.number) || self.is(Flaw::ByReadings);
            number && (self.is(Flaw::ByNumber) || same_readings(self.flaw, readings, &sender.last))
        };
        let known = self.known();
        let none_read = || readings.same_bits(&Readings::none(self.bench));
        match self.flaw {
            Flaw::NeverResent => None,
            Flaw::IfNothingFired => {
                known.filter(|&place| same(place) && self.state.senders[place].fired.iter().flatten().all(Option::is_none))
            }
            Flaw::ByAnyone => known.filter(|&place| same(place)).or_else(|| (0..self.state.senders.len()).find(|&place| same(place))),
            Flaw::ByLastKnown => {
                let last = self.state.senders.last()?;
                known.filter(|&place| self.seen_number() == u64::from(self.state.senders[place].number) && readings.same_bits(&last.last))
            }
            // One that is not there.
            Flaw::ZeroIsResent if known.is_none() && self.number == Some(0) && none_read() => Some(self.state.senders.len()),
            _ => known.filter(|&place| same(place)),
        }
    }

    fn take(&self) -> Result<Done, u8> {
        for check in checks(self.flaw) {
            if let Some(number) = self.refused(check) {
                return Err(number);
            }
            if let (Check::Resent, Some(place)) = (check, self.resent()) {
                return Ok(self.sent_again(place));
            }
        }
        let readings = self.readings.as_ref().expect("values are looked at");
        let line = Given { sender: &self.sender, number: self.seen_number() as u32, readings };
        // A flaw that takes two names for one goes on with the known one.
        let name = self.known().map(|place| self.state.senders[place].name.clone());
        let line = Given { sender: name.as_deref().unwrap_or(line.sender), ..line };
        let next = cycle(self.bench, self.state, line).expect("an accepted bench");
        let sender = next.senders[next.sender(line.sender).expect("known by now")].clone();
        let row = row(self.flaw, self.bench, &Sender { name: self.sender.clone(), ..sender.clone() });
        Ok((self.kept(next, &sender), row))
    }

    /// The state after a refused line, if it is another: that is a flaw.
    fn after_refusal(&self, number: u8) -> Option<State> {
        let known = self.is(Flaw::KnownFromRefused) && number == 24 && self.known().is_none();
        known.then(|| {
            let mut state = self.state.clone();
            state.senders.push(Sender::new(self.bench, &self.sender));
            state
        })
    }

    fn sent_again(&self, place: usize) -> Done {
        let senders = &self.state.senders;
        let none = Sender::new(self.bench, &self.sender);
        let own = senders.get(place).unwrap_or(&none);
        let shown = match self.flaw {
            Flaw::RowOfCellsNow => Sender { fired: self.state.now.cells.clone(), ..own.clone() },
            Flaw::HidesAbsent => Sender { fired: hidden(self.state, &own.fired), ..own.clone() },
            Flaw::RowOfFirst => Sender { fired: senders[0].fired.clone(), ..own.clone() },
            Flaw::RowOfLastKnown => Sender { fired: senders[senders.len() - 1].fired.clone(), ..own.clone() },
            Flaw::RowWithoutActions => Sender { fired: none.fired.clone(), ..own.clone() },
            _ => own.clone(),
        };
        let state = match self.flaw {
            Flaw::RunsAgain => {
                let line = Given { sender: &own.name, number: own.number, readings: &own.last };
                cycle(self.bench, self.state, line).expect("an accepted bench")
            }
            Flaw::MovesBefore => State { before: self.state.now.clone(), ..self.state.clone() },
            _ => self.state.clone(),
        };
        let row = row(self.flaw, self.bench, &Sender { name: self.sender.clone(), ..shown });
        (state, row)
    }

    /// The state after a new line, as a flaw keeps it.
    fn kept(&self, mut next: State, sent: &Sender) -> State {
        let place = next.sender(&sent.name).expect("known by now");
        let before = self.known().map(|place| &self.state.senders[place]);
        match self.flaw {
            Flaw::ForgetsOthers => next.senders = vec![sent.clone()],
            Flaw::NewFirst if before.is_none() => next.senders.rotate_right(1),
            Flaw::MovesToEnd => next.senders[place..].rotate_left(1),
            Flaw::ByName => next.senders.sort_by(|a, b| a.name.cmp(&b.name)),
            Flaw::KeepsNoActions => next.senders[place].fired = Sender::new(self.bench, b"").fired,
            Flaw::KeepsActionsAsSeen => next.senders[place].fired = next.before.cells.clone(),
            Flaw::KeepsNoReadings => next.senders[place].last = Readings::none(self.bench),
            Flaw::KeepsForAll => next.senders.iter_mut().for_each(|sender| sender.last = sent.last.clone()),
            Flaw::CountsForAll => next.senders.iter_mut().for_each(|sender| sender.number = sent.number),
            Flaw::LeavingClearsKept => self.clear_kept(&mut next),
            Flaw::KeepsPresence => next.senders[place].last.presence = next.now.present.iter().map(|&present| Some(present)).collect(),
            Flaw::AddsReadings => add_readings(&mut next.senders[place].last, before),
            Flaw::AddsActions => add_actions(&mut next.senders[place].fired, before),
            Flaw::DropsFirst if next.senders.len() > 8 => drop(next.senders.remove(0)),
            _ => {}
        }
        next
    }

    /// Forgets what is kept of entities that left in the line.
    fn clear_kept(&self, next: &mut State) {
        let none = Sender::new(self.bench, b"");
        for entity in (0..next.now.present.len()).filter(|&entity| self.state.now.present[entity] && !next.now.present[entity]) {
            for sender in &mut next.senders {
                sender.last.cells[entity].clone_from(&none.last.cells[entity]);
                sender.fired[entity].clone_from(&none.fired[entity]);
            }
        }
    }
}

/// What fired, but for entities that are away.
fn hidden(state: &State, fired: &[Vec<Cell>]) -> Vec<Vec<Cell>> {
    let at = |(entity, cells): (usize, &Vec<Cell>)| if state.now.present[entity] { cells.clone() } else { vec![None; cells.len()] };
    fired.iter().enumerate().map(at).collect()
}

fn add_readings(last: &mut Readings, before: Option<&Sender>) {
    let Some(before) = before else { return };
    for (cells, kept) in last.cells.iter_mut().zip(&before.last.cells) {
        for (cell, kept) in cells.iter_mut().zip(kept) {
            if matches!(cell, Reading::NotRead) {
                *cell = *kept;
            }
        }
    }
}

fn add_actions(fired: &mut [Vec<Cell>], before: Option<&Sender>) {
    let Some(before) = before else { return };
    for (cells, kept) in fired.iter_mut().zip(&before.fired) {
        cells.iter_mut().zip(kept).for_each(|(cell, kept)| *cell = cell.or(*kept));
    }
}

fn columns(flaw: Flaw, bench: &Bench, names: &[u8]) -> Option<Vec<Column>> {
    let fields: Vec<&[u8]> = names.split(|&byte| byte == b' ').collect();
    let is = |at: usize, word: &[u8]| fields.get(at).is_some_and(|field| *field == word);
    let with = |rest: &[&[u8]]| line::columns(bench, &[&[&b"by"[..], b"n"], rest].concat().join(&b' '));
    match flaw {
        Flaw::NoBy if is(0, b"n") => with(&fields[1..]),
        Flaw::NoN if is(0, b"by") && !is(1, b"n") => with(&fields[1..]),
        Flaw::AnyOrder if is(0, b"n") && is(1, b"by") => with(&fields[2..]),
        Flaw::AnyCase if names.to_ascii_lowercase().starts_with(b"by n") => with(&fields[2..]),
        Flaw::TwoHeads if is(0, b"by") && is(1, b"n") && is(2, b"by") && is(3, b"n") => with(&fields[4..]),
        Flaw::ReservesBy if fields.len() > 2 && fields[2..].iter().any(|field| [&b"by"[..], b"n"].contains(field)) => None,
        _ => line::columns(bench, names),
    }
}

fn sender(flaw: Flaw, field: &[u8]) -> Vec<u8> {
    let end = match flaw {
        Flaw::Truncates => field.len().min(24),
        Flaw::CutsAtDot => field.iter().position(|&byte| byte == b'.').unwrap_or(field.len()),
        _ => field.len(),
    };
    field[..end].to_vec()
}

fn formed(flaw: Flaw, name: &[u8]) -> bool {
    let without = |unwanted: &dyn Fn(u8) -> bool| name.iter().copied().filter(|&byte| !unwanted(byte)).collect::<Vec<u8>>();
    let first = |with: &dyn Fn(u8) -> bool| name.first().is_some_and(|&byte| with(byte));
    name_form(name)
        && match flaw {
            Flaw::Shorter => name.len() < 24,
            Flaw::NoReserved => !RESERVED.iter().any(|word| word.as_bytes() == name),
            _ => true,
        }
        || match flaw {
            Flaw::Longer => name.len() == 25 && name_form(&name[1..]) && name_form(&name[..24]),
            Flaw::UnderscoreFirst => first(&|byte| byte == b'_') && name_form(&[&b"a"[..], &name[1..]].concat()),
            Flaw::DigitFirst => first(&|byte| byte.is_ascii_digit()) && name_form(&[&b"a"[..], &name[1..]].concat()),
            Flaw::Dots => name.len() <= 24 && name_form(&without(&|byte| byte == b'.')),
            Flaw::HighBytes => name.len() <= 24 && name_form(&without(&|byte| byte >= 128)),
            Flaw::FirstByteAlone => name.len() <= 24 && name_form(&name[..1]),
            _ => false,
        }
}

fn same_name(flaw: Flaw, a: &[u8], b: &[u8]) -> bool {
    let first_two = |name: &[u8]| name[..name.len().min(2)].to_vec();
    match flaw {
        Flaw::IgnoresCase => a.eq_ignore_ascii_case(b),
        Flaw::TwoBytes => first_two(a) == first_two(b),
        Flaw::LengthAndFirst => (a.len(), a.first()) == (b.len(), b.first()),
        _ => a == b,
    }
}

fn same_readings(flaw: Flaw, a: &Readings, b: &Readings) -> bool {
    // A zero without its sign.
    let plain = |reading: &Reading| match *reading {
        Reading::Set(Value::Real(value)) => Reading::Set(Value::Real(value + 0.0)),
        other => other,
    };
    let by_value = |readings: &Readings| Readings {
        presence: readings.presence.clone(),
        cells: readings.cells.iter().map(|cells| cells.iter().map(plain).collect()).collect(),
    };
    match flaw {
        Flaw::WithoutPresence => a.same_bits(&Readings { presence: a.presence.clone(), ..b.clone() }),
        Flaw::ByValue => by_value(a).same_bits(&by_value(b)),
        _ => a.same_bits(b),
    }
}

fn row(flaw: Flaw, bench: &Bench, sender: &Sender) -> Vec<u8> {
    let mut fields = match flaw {
        Flaw::NumberFirst => vec![sender.number.to_string().into_bytes(), sender.name.clone()],
        Flaw::NoSender => vec![sender.number.to_string().into_bytes()],
        _ => vec![sender.name.clone(), sender.number.to_string().into_bytes()],
    };
    for (entity, cells) in sender.fired.iter().enumerate() {
        let actions = bench.members_of(entity).iter().zip(cells).filter(|(member, _)| member.sort == Sort::Action);
        fields.extend(actions.map(|(_, cell)| field(*cell)));
    }
    fields.join(&b' ')
}

// Rows that are asked for.

fn asked(flaw: Flaw, bench: &Bench, state: &State, name: &[u8]) -> Result<Vec<u8>, u8> {
    if !name_form(name) && flaw != Flaw::AskedTakesAnyName {
        return Err(43);
    }
    let known = state.sender(name);
    match flaw {
        Flaw::AskedRefusesNinth if known.is_none() && state.senders.len() == 8 => return Err(42),
        Flaw::AskedRefusesUnknown if known.is_none() => return Err(43),
        _ => {}
    }
    let mut sender = known.map_or_else(|| Sender::new(bench, name), |place| state.senders[place].clone());
    let Store { cells, .. } = &state.now;
    let first = |sender: Sender| state.senders.first().map_or(sender, |first| Sender { name: name.to_vec(), ..first.clone() });
    match flaw {
        Flaw::AskedCellsNow => sender.fired = cells.clone(),
        Flaw::AskedHidesAbsent => sender.fired = hidden(state, &sender.fired),
        Flaw::AskedFirst => sender = first(sender),
        Flaw::AskedUnknownIsFirst if known.is_none() => sender = first(sender),
        Flaw::AskedUnknownAtOne if known.is_none() => sender.number = 1,
        _ => {}
    }
    Ok(row(flaw, bench, &sender))
}

// Telling them.

/// What a call finds in memory.
struct Found<'f> {
    bench: Bench<'f>,
    state: Option<State>,
}

fn found(memory: &Memory) -> Option<Found<'_>> {
    let bench = decode_bench(&memory.bench).and_then(|text| accept(text).ok())?;
    let state = decode_state(&bench, &memory.state);
    Some(Found { bench, state })
}

/// Hands on each line and row of the cases that is lent enough memory, with the memory before it and after it.
fn each_call(mut look: impl FnMut(&Step, &Memory, u64, &Memory)) {
    let cases = |number: u64| [generate::without_sheets(SEED, number), generate::spoils::case(SEED, number)];
    for Case { text, fill, steps } in (0..CASES).flat_map(cases) {
        let mut memory = Memory::new(fill);
        for step in &steps {
            let before = memory.clone();
            let answer = OURS.answer(&text, step, &mut memory);
            let enough = step.lent.bench >= EXACT.bench && step.lent.state >= EXACT.state && step.lent.row >= EXACT.row;
            if let (true, Some(answer), Call::Line { .. } | Call::Row { .. } | Call::Header) = (enough, answer, &step.call) {
                look(step, &before, answer, &memory);
            }
        }
    }
}

/// What a call answers and leaves.
struct Left {
    number: u8,
    /// The state's memory, if something is written to it.
    state: Option<Vec<u8>>,
    row: Vec<u8>,
}

fn left(flaw: Flaw, step: &Step, memory: &Memory, found: &Found) -> Option<Left> {
    let refused = |number: u8| Left { number, state: None, row: Vec::new() };
    let shown = |row: Vec<u8>| Left { number: 0, state: None, row };
    match (&step.call, &found.state) {
        (Call::Header, _) => {
            let row = header(&found.bench);
            Some(shown(if flaw == Flaw::HeaderWithoutBy { row[3..].to_vec() } else { row }))
        }
        (Call::Row { sender }, None) => {
            let ill_formed = flaw == Flaw::AskedIllFormedFirst && !name_form(sender);
            Some(refused(if ill_formed { 43 } else { 33 }))
        }
        (Call::Row { sender }, Some(state)) => Some(asked(flaw, &found.bench, state, sender).map_or_else(refused, shown)),
        (Call::Line { names, values }, Some(state)) => {
            let line = Line::new(flaw, &found.bench, state, names, values);
            let write = |state: State| written(flaw, &found.bench, memory, state_image(&found.bench, &state));
            Some(match line.take() {
                Ok((state, row)) => Left { number: 0, state: Some(write(state)), row },
                Err(number) => Left { number, state: line.after_refusal(number).map(write), row: Vec::new() },
            })
        }
        _ => None,
    }
}

/// The state's memory with an image written to it, which may be longer than there is room.
fn written(flaw: Flaw, bench: &Bench, memory: &Memory, image: Vec<u8>) -> Vec<u8> {
    let mut state = memory.state.clone();
    let end = image.len().min(state.len());
    state[..end].copy_from_slice(&image[..end]);
    match flaw {
        Flaw::ClearsRest => state[end.min(STATE_SIZE)..STATE_SIZE].fill(0),
        Flaw::LeavesPadding => {
            for place in 0..usize::from(image[COUNT_AT]).min(8) {
                let sender = sender_at(bench.entities.len(), place);
                let behind = sender + NAME_AT + usize::from(image[sender])..sender + NUMBER_AT;
                state[behind.clone()].copy_from_slice(&memory.state[behind]);
            }
        }
        _ => {}
    }
    state
}

impl Left {
    /// Whether this is what the interpreter answers and leaves.
    fn is_right(&self, before: &Memory, answer: u64, after: &Memory) -> bool {
        let number = (answer & 255) as u8;
        let row = if number == 0 { &after.row[..(answer >> 8) as usize] } else { &[] };
        (self.number, &self.row[..]) == (number, row) && self.state.as_ref().unwrap_or(&before.state) == &after.state
    }
}

/// Catches a generator whose lines and rows do not show some flaw. The calls without a flaw, written here once more, are the interpreter's.
#[test]
fn cases_tell_every_flaw() {
    let mut told = [0; FLAWS.len()];
    each_call(|step, before, given, after| {
        let Some(found) = found(before) else { return };
        let Some(same) = left(Flaw::None, step, before, &found) else { return };
        assert!(same.is_right(before, given, after), "without a flaw: {step:?}");
        for (count, (flaw, _)) in told.iter_mut().zip(FLAWS) {
            *count += usize::from(left(flaw, step, before, &found).is_some_and(|left| !left.is_right(before, given, after)));
        }
    });
    for ((flaw, least), count) in FLAWS.iter().zip(told) {
        println!("{flaw:?}: {count} of {least}");
    }
    for ((flaw, least), count) in FLAWS.iter().zip(told) {
        assert!(count >= *least, "{flaw:?}: told by {count} calls");
        assert!(*least > 0 || HIDDEN.contains(flaw), "{flaw:?}: no least count");
        assert!(count == 0 || !HIDDEN.contains(flaw), "{flaw:?} is not hidden");
    }
}

// States.

/// A check of the state that is left out. Gives the memory as it is without it: mended so that it passes.
type Mend = fn(&Bench, &mut [u8]);

/// The checks, and how many calls at least must show that one is missing.
const MENDS: [(&str, Mend, usize); 14] = [
    ("fingerprint", mend_fingerprint, 200),
    ("count", mend_count, 110),
    ("length 0", |bench, bytes| each_sender(bench, bytes, |sender| mend_length(sender, |length| length == 0)), 25),
    ("length above 24", |bench, bytes| each_sender(bench, bytes, |sender| mend_length(sender, |length| length > 24)), 20),
    ("form of the name", |bench, bytes| each_sender(bench, bytes, mend_form), 90),
    ("bytes behind the name", |bench, bytes| each_sender(bench, bytes, mend_padding), 100),
    ("two of one name", mend_twins, 65),
    ("number 0", |bench, bytes| each_sender(bench, bytes, mend_number), 80),
    ("flags of a store", |bench, bytes| mend_flags(bench, bytes, 1), 80),
    ("flags of a sender", |bench, bytes| mend_flags(bench, bytes, 2), 75),
    ("cells of a store", |bench, bytes| mend_cells(bench, bytes, false, &|_| true), 610),
    ("readings", |bench, bytes| mend_cells(bench, bytes, true, &|sort| sort == Some(Sort::Event)), 100),
    ("kept actions", |bench, bytes| mend_cells(bench, bytes, true, &|sort| sort == Some(Sort::Action)), 110),
    ("kept elsewhere", |bench, bytes| mend_cells(bench, bytes, true, &|sort| !matches!(sort, Some(Sort::Event | Sort::Action))), 310),
];

fn mend_fingerprint(bench: &Bench, bytes: &mut [u8]) {
    bytes[..COUNT_AT].copy_from_slice(&fingerprint(bench.text).to_le_bytes());
}

fn mend_count(_: &Bench, bytes: &mut [u8]) {
    if bytes[COUNT_AT] > 8 {
        bytes[COUNT_AT] = 0;
    }
}

/// Hands on the bytes of each known sender.
fn each_sender(bench: &Bench, bytes: &mut [u8], mut mend: impl FnMut(&mut [u8])) {
    let size = sender_at(bench.entities.len(), 1) - sender_at(bench.entities.len(), 0);
    for place in 0..usize::from(bytes[COUNT_AT]).min(8) {
        let start = sender_at(bench.entities.len(), place);
        mend(&mut bytes[start..start + size]);
    }
}

fn mend_length(sender: &mut [u8], wrong: fn(u8) -> bool) {
    if wrong(sender[0]) {
        let length = sender[NAME_AT..NUMBER_AT].iter().position(|&byte| byte == 0).unwrap_or(24);
        sender[0] = length.max(1) as u8;
    }
}

fn mend_form(sender: &mut [u8]) {
    let length = usize::from(sender[0]);
    if (1..=24).contains(&length) && !name_form(&sender[NAME_AT..NAME_AT + length]) {
        sender[NAME_AT..NAME_AT + length].fill(b'Q');
    }
}

fn mend_padding(sender: &mut [u8]) {
    let length = usize::from(sender[0]).min(24);
    sender[NAME_AT + length..NUMBER_AT].fill(0);
}

fn mend_twins(bench: &Bench, bytes: &mut [u8]) {
    let mut names: Vec<Vec<u8>> = Vec::new();
    each_sender(bench, bytes, |sender| {
        let name = sender[..NUMBER_AT].to_vec();
        if names.contains(&name) {
            let other = format!("Twin{}", names.len());
            sender[0] = other.len() as u8;
            sender[NAME_AT..NUMBER_AT].fill(0);
            sender[NAME_AT..NAME_AT + other.len()].copy_from_slice(other.as_bytes());
        }
        names.push(name);
    });
}

fn mend_number(sender: &mut [u8]) {
    if sender[NUMBER_AT..PLANE_AT] == [0; 4] {
        sender[NUMBER_AT] = 1;
    }
}

/// Lessens flags that are too great: those of stores, or those of senders.
fn mend_flags(bench: &Bench, bytes: &mut [u8], most: u8) {
    let entities = bench.entities.len();
    let mend = |flags: &mut [u8]| flags.iter_mut().for_each(|flag| *flag = (*flag).min(most));
    if most == 1 {
        (0..2).for_each(|store| mend(&mut bytes[store_at(entities, store)..store_at(entities, store) + entities]));
    } else {
        each_sender(bench, bytes, |sender| mend(&mut sender[PLANE_AT..PLANE_AT + entities]));
    }
}

/// Puts what may stand there into cells of some sorts: of the stores, or of what the senders keep.
fn mend_cells(bench: &Bench, bytes: &mut [u8], kept: bool, wanted: &dyn Fn(Option<Sort>) -> bool) {
    let entities = bench.entities.len();
    let mend = |plane: &mut [u8]| {
        for entity in 0..entities {
            for member in 0..12 {
                let known = bench.members_of(entity).get(member);
                let sort = known.map(|member| member.sort);
                let at = entities + (entity * 12 + member) * CELL;
                if wanted(sort) {
                    plane[at..at + CELL].copy_from_slice(&allowed(kept, sort, known.map(|member| member.kind)));
                }
            }
        }
    };
    if kept {
        each_sender(bench, bytes, |sender| mend(&mut sender[PLANE_AT..]));
    } else {
        (0..2).for_each(|store| mend(&mut bytes[store_at(entities, store)..store_at(entities, store + 1)]));
    }
}

/// A cell that may stand there.
fn allowed(kept: bool, sort: Option<Sort>, kind: Option<Kind>) -> [u8; CELL] {
    let tag = match (kept, sort, kind) {
        (true, Some(Sort::Event | Sort::Action), _) => 0,
        (true, _, _) => 4,
        (false, Some(Sort::Attribute), Some(Kind::Whole)) => 1,
        (false, Some(Sort::Attribute), Some(Kind::Bool)) => 2,
        (false, Some(Sort::Attribute), Some(Kind::Real)) => 3,
        _ => 0,
    };
    [tag, 0, 0, 0, 0, 0, 0, 0, 0]
}

/// Catches a generator whose states are never wrong in one part alone.
#[test]
fn cases_tell_every_check_of_a_state() {
    let mut told = [0; MENDS.len()];
    each_call(|_, before, given, _| {
        let Some(found) = found(before).filter(|_| given & 255 == 33) else { return };
        for (count, (_, mend, _)) in told.iter_mut().zip(MENDS) {
            let mut bytes = before.state[..STATE_SIZE].to_vec();
            mend(&found.bench, &mut bytes);
            *count += usize::from(decode_state(&found.bench, &bytes).is_some());
        }
    });
    for ((name, _, least), count) in MENDS.iter().zip(told) {
        println!("{name}: {count} of {least}");
    }
    for ((name, _, least), count) in MENDS.iter().zip(told) {
        assert!(count >= *least, "{name}: told by {count} calls");
    }
}

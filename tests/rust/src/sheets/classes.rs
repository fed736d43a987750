//! The classes of one sheet.

use crate::counts::Class;
use crate::generate::bench::{kind_word, KINDS};
use crate::generate::case::{Call, Step};
use crate::generate::cells::LONG;
use crate::image::{decode_bench, decode_state, sheet_size, BENCH_SIZE, STATE_SIZE};
use crate::interpreter::accept;
use crate::interpreter::grammar::{Bench, Sort};
use crate::interpreter::line;
use crate::interpreter::machine::State;
use crate::interpreter::sheet::{chosen, day, Chosen, Passed};
use crate::interpreter::value::{Cell, Kind, Value};
use crate::memory::Memory;

const ANSWERS: &str = "answers";
const ORDER: &str = "first of several refusals";
const MEMORY: &str = "memory of the sheet";
const LISTS: &str = "lists of cells";
const REFUSED_LISTS: &str = "lists refused by 41";
const CELLS: &str = "chosen cells of printed lines";
const TEXTS: &str = "readings";
const LINES: &str = "lines";
const VALUES: &str = "printed values";
const CLOSING: &str = "closing rows";

/// What one sheet tried.
#[derive(Default)]
pub struct Seen {
    pub classes: Vec<Class>,
    pub printed: u64,
    /// It has several printed lines and closing rows.
    pub full: bool,
}

impl Seen {
    fn add(&mut self, group: &'static str, name: impl Into<String>) {
        let class = (group, name.into());
        if !self.classes.contains(&class) {
            self.classes.push(class);
        }
    }

    fn add_if(&mut self, is: bool, group: &'static str, name: impl Into<String>) {
        if is {
            self.add(group, name);
        }
    }
}

/// The classes of a sheet call with its answer, and the memory after it, which holds bench and state as they were before.
pub fn of(step: &Step, answer: u64, memory: &Memory) -> Seen {
    let Call::Sheet { readings, cells, over } = &step.call else { return Seen::default() };
    let mut seen = Seen::default();
    let number = (answer & 255) as u8;
    let bench = decode_bench(&memory.bench).and_then(|text| accept(text).ok());
    let state = bench.as_ref().and_then(|bench| decode_state(bench, &memory.state));
    let faults = faults(step, readings, cells, &bench, &state);
    seen.refusals(&faults);
    seen.memory(number, *over);
    seen.texts(number, readings);
    match (number, bench, state) {
        (41, Some(bench), _) => seen.refused_list(&bench, cells),
        (0, Some(bench), Some(state)) => seen.accepted(&bench, &state, readings, cells),
        _ => {}
    }
    seen
}

/// Every number by which the call is refused, or would be if the faults before it were mended; without 41 and 22 where there is no bench.
fn faults(step: &Step, readings: &[u8], cells: &[u8], bench: &Option<Bench>, state: &Option<State>) -> Vec<(u8, &'static str)> {
    let mut faults = Vec::new();
    let mut fault = |is: bool, number: u8, name: &'static str| {
        if is {
            faults.push((number, name));
        }
    };
    fault(step.lent.bench < BENCH_SIZE, 31, "31 for the bench");
    fault(step.lent.state < STATE_SIZE, 31, "31 for the state");
    fault(step.lent_sheet() < sheet_size(readings), 31, "31 for the sheet");
    fault(bench.is_none(), 32, "32");
    fault(bench.is_some() && state.is_none(), 33, "33");
    if let Some(bench) = bench {
        fault(chosen(bench, cells).is_none(), 41, "41");
        fault(line::columns(bench, line::lines(readings).next().unwrap_or(b"")).is_none(), 22, "22");
    }
    faults
}

impl Seen {
    fn refusals(&mut self, faults: &[(u8, &'static str)]) {
        match faults {
            [] => self.add(ANSWERS, "accepted"),
            [(_, only)] => self.add(ANSWERS, *only),
            [(first, name), .., (last, _)] => {
                self.add(ANSWERS, *name);
                self.add_if(first != last, ORDER, format!("{first} before {last}"));
            }
        }
    }

    fn memory(&mut self, number: u8, over: isize) {
        let name = match (number, over) {
            (0, 0) => "exact, accepted",
            (0, 1..) => "longer, accepted",
            (31, -1) => "one byte less",
            (31, ..=-2) => "still less",
            _ => return,
        };
        self.add(MEMORY, name);
    }

    fn texts(&mut self, number: u8, readings: &[u8]) {
        let lines: Vec<&[u8]> = line::lines(readings).collect();
        match number {
            22 if readings.is_empty() => self.add(TEXTS, "empty: 22"),
            22 if lines[0].is_empty() => self.add(TEXTS, "an empty line of names: 22"),
            22 => self.add(TEXTS, "names damaged: 22"),
            0 => {
                self.add(TEXTS, if readings.ends_with(b"\n") { "last line feed" } else { "no last line feed" });
                self.add_if(lines.len() == 1, TEXTS, "names alone");
                self.add_if(lines.contains(&&b""[..]), TEXTS, "an empty line of values");
                self.add_if(readings.ends_with(b"\n\n"), TEXTS, "two last line feeds");
            }
            _ => {}
        }
    }

    fn refused_list(&mut self, bench: &Bench, cells: &[u8]) {
        let fields: Vec<&[u8]> = cells.split(|&byte| byte == b' ').collect();
        let empty = |field: &[u8]| field.is_empty();
        let known = |field: &[u8]| chosen(bench, field).is_some();
        self.add_if(cells.is_empty(), REFUSED_LISTS, "no cell");
        self.add_if(fields.len() == 6 && fields.iter().all(|field| known(field)), REFUSED_LISTS, "six known cells");
        self.add_if(fields.len() > 6, REFUSED_LISTS, "more than six");
        self.add_if(cells.len() > LONG, REFUSED_LISTS, "very long");
        self.add_if(cells.len() > LONG && !cells.contains(&b' '), REFUSED_LISTS, "one very long cell");
        // Of the others one field alone is at fault.
        let faulty: Vec<usize> = (0..fields.len()).filter(|&at| !known(fields[at])).collect();
        if let ([at], true) = (&faulty[..], (1..=5).contains(&fields.len()) && !cells.is_empty()) {
            let (at, last) = (*at, fields.len() - 1);
            match at {
                _ if !empty(fields[at]) => self.unknown_cell(bench, fields[at]),
                0 => self.add(REFUSED_LISTS, "space first"),
                _ if at == last => self.add(REFUSED_LISTS, "space last"),
                _ => self.add(REFUSED_LISTS, "two spaces"),
            }
        }
    }

    fn unknown_cell(&mut self, bench: &Bench, field: &[u8]) {
        let named = |byte: &u8| byte.is_ascii_alphanumeric() || *byte == b'_' || *byte == b'.';
        let parts: Vec<&[u8]> = field.split(|&byte| byte == b'.').collect();
        let entity = bench.entity(parts[0]).is_some();
        let name = match parts.len() {
            _ if !field.iter().all(named) => "bytes of no name",
            1 if entity => "an entity alone",
            2 if entity => "an unknown member",
            2 => "an unknown entity",
            3 if chosen(bench, &[parts[0], parts[1]].join(&b'.')).is_some() => "three parts",
            _ => return,
        };
        self.add(REFUSED_LISTS, name);
    }

    fn accepted(&mut self, bench: &Bench, state: &State, readings: &[u8], cells: &[u8]) {
        let Some(chosen) = chosen(bench, cells) else { return };
        self.add(LISTS, format!("{} of 5", chosen.len()));
        let twice = |at: usize| chosen[..at].contains(&chosen[at]);
        self.add_if((0..chosen.len()).any(twice), LISTS, "one cell twice");
        self.add_if((0..chosen.len()).any(|at| twice(at) && chosen[at].kind == Kind::Real), LISTS, "one real cell twice");
        let mut columns: Vec<Vec<Cell>> = vec![Vec::new(); chosen.len()];
        let mut first = true;
        // The sender's place and the number of each printed line.
        let mut numbers: Vec<(usize, u32)> = Vec::new();
        day(bench, state, readings, &mut |passed, after| {
            self.line(passed, first, numbers.last().map(|(sender, _)| *sender));
            first = false;
            if let Passed::Printed(sender) = passed {
                self.printed_line(bench, after, sender, &chosen, &mut columns);
                numbers.push((sender, after.senders[sender].number));
            }
        })
        .expect("an accepted sheet's names are taken");
        self.day(state);
        self.senders(&numbers);
        self.closing(&chosen, &columns);
    }

    /// `printed`: the sender of the last printed line.
    fn line(&mut self, passed: Passed, first: bool, printed: Option<usize>) {
        match passed {
            Passed::Refused(number) => self.add(LINES, format!("refused by {number}")),
            Passed::Resent(sender) => {
                self.add(LINES, if first { "the lent state's line first" } else { "resent in the day" });
                self.add_if(printed.is_some_and(|printed| printed != sender), LINES, "resent after a line of another");
            }
            Passed::Printed(_) => self.printed += 1,
        }
    }

    /// `numbers`: sender and number of each printed line.
    fn senders(&mut self, numbers: &[(usize, u32)]) {
        let several = numbers.iter().any(|(sender, _)| *sender != numbers[0].0);
        self.add_if(several, LINES, "printed lines of several senders");
        self.add_if(numbers.windows(2).any(|pair| pair[0].1 == pair[1].1), LINES, "one number twice, of two senders");
        self.add_if(numbers.windows(2).any(|pair| pair[0].1 > pair[1].1), LINES, "a lesser number after a greater");
    }

    fn day(&mut self, state: &State) {
        let name = match self.printed {
            0 => "none printed",
            1 => "one printed",
            2..=4 => "two to four printed",
            5..=39 => "five or more printed",
            _ => "forty or more printed",
        };
        self.add(LINES, name);
        self.add(LINES, if state.senders.is_empty() { "from a state that knows nobody" } else { "from a state in mid run" });
        self.add_if(state.senders.len() > 1, LINES, "from a state that knows several");
    }

    fn printed_line(&mut self, bench: &Bench, after: &State, sender: usize, chosen: &[Chosen], columns: &mut [Vec<Cell>]) {
        self.add_if(after.senders[sender].number >= 1_000_000_000, LINES, "a number of ten digits");
        for (column, cell) in columns.iter_mut().zip(chosen) {
            let member = &bench.members_of(cell.entity)[cell.member];
            let read = after.now.read(cell.entity, cell.member);
            column.push(read);
            self.add(CELLS, cell_name(member.sort, member.kind));
            self.value(read);
            self.add_if(read.is_some() && member.sort == Sort::Action, VALUES, "a fired action");
            let stored = after.now.cells[cell.entity][cell.member];
            self.add_if(read.is_none() && stored.is_some(), VALUES, "absent, its value kept");
            self.add_if(!after.now.present[cell.entity], VALUES, "absent");
        }
    }

    fn value(&mut self, cell: Cell) {
        let name = match cell {
            None => "unset",
            Some(Value::Whole(i32::MIN)) => "the least whole",
            Some(Value::Whole(value)) if value < 0 => "a whole below 0",
            Some(Value::Whole(_)) => "a whole",
            Some(Value::Bool(true)) => "true",
            Some(Value::Bool(false)) => "false",
            Some(Value::Real(_)) => "a real",
        };
        self.add(VALUES, name);
    }

    /// `columns`: for each chosen cell what the printed lines show of it.
    fn closing(&mut self, chosen: &[Chosen], columns: &[Vec<Cell>]) {
        let lines = columns.first().map_or(0, Vec::len);
        let set = |line: usize| columns.iter().any(|column| matches!(column[line], Some(Value::Real(_))));
        let second_rows = (0..lines).filter(|&line| set(line)).count();
        self.add_if(second_rows > 0, LINES, "a second row");
        let reals: Vec<&Vec<Cell>> =
            columns.iter().zip(chosen).filter(|(_, cell)| cell.kind == Kind::Real).map(|(column, _)| column).collect();
        self.add_if(!reals.is_empty() && second_rows > 0 && second_rows < lines, LINES, "a second row in some lines");
        self.add_if(columns.iter().any(|column| column.len() > 1) && reals.len() == columns.len(), LINES, "real columns alone");
        self.full = !reals.is_empty() && self.printed > 1;
        self.add(CLOSING, ["no real column", "one real column", "several real columns"][reals.len().min(2)]);
        let unset = |column: &&&Vec<Cell>| column.iter().all(Option::is_none);
        let never = reals.iter().filter(unset).count();
        self.add_if(never > 0, CLOSING, "never set");
        self.add_if(never > 0 && lines == 0, CLOSING, "never set, no line");
        self.add_if(never > 0 && lines > 1, CLOSING, "never set in several lines");
        self.add_if(never > 0 && never < reals.len(), CLOSING, "one never set beside one set");
        reals.iter().for_each(|column| self.extremes(column));
    }

    /// The closing rows of one real column.
    fn extremes(&mut self, column: &[Cell]) {
        let reals: Vec<f64> =
            column.iter().filter_map(|cell| if let Some(Value::Real(value)) = cell { Some(*value) } else { None }).collect();
        let (Some(first), Some(last)) = (reals.first(), reals.last()) else { return };
        let lowest = reals.iter().copied().fold(f64::INFINITY, f64::min);
        let highest = reals.iter().copied().fold(f64::NEG_INFINITY, f64::max);
        self.add(CLOSING, "set");
        self.add_if(column.last().is_some_and(Option::is_none), CLOSING, "last set before the last line");
        self.add_if(lowest < highest, CLOSING, "lowest is not highest");
        self.add_if(lowest < *first && lowest < *last, CLOSING, "lowest in between");
        self.add_if(highest > *first && highest > *last, CLOSING, "highest in between");
        self.add_if(lowest < 0.0 && highest > 0.0, CLOSING, "both signs");
        let zeros: Vec<bool> = reals.iter().filter(|value| **value == 0.0).map(|value| value.is_sign_negative()).collect();
        if let Some(later) = zeros.iter().find(|negative| **negative != zeros[0]) {
            let order = if *later { "0 before -0" } else { "-0 before 0" };
            self.add_if(lowest == 0.0, CLOSING, format!("lowest {order}"));
            self.add_if(highest == 0.0, CLOSING, format!("highest {order}"));
        }
    }
}

fn cell_name(sort: Sort, kind: Kind) -> String {
    let sort = match sort {
        Sort::Attribute => "attribute",
        Sort::Event => "event",
        Sort::Action => "action",
    };
    format!("{sort} {}", kind_word(kind))
}

/// Every class that a run must have.
pub fn required() -> Vec<Class> {
    let groups: [(&'static str, &[&str]); 9] = [
        (ANSWERS, &["accepted", "31 for the bench", "31 for the state", "31 for the sheet", "32", "33", "41", "22"]),
        (ORDER, &["31 before 32", "31 before 41", "31 before 22", "33 before 41", "33 before 22", "41 before 22"]),
        (MEMORY, &["exact, accepted", "longer, accepted", "one byte less", "still less"]),
        (LISTS, &["1 of 5", "2 of 5", "3 of 5", "4 of 5", "5 of 5", "one cell twice", "one real cell twice"]),
        (REFUSED_LISTS, &REFUSED),
        (TEXTS, &READINGS),
        (LINES, &DAYS),
        (VALUES, &PRINTED),
        (CLOSING, &CLOSED),
    ];
    let mut required: Vec<Class> = groups.iter().flat_map(|(group, names)| names.iter().map(|name| (*group, name.to_string()))).collect();
    for sort in [Sort::Attribute, Sort::Event, Sort::Action] {
        required.extend(KINDS.map(|kind| (CELLS, cell_name(sort, kind))));
    }
    required
}

const REFUSED: [&str; 13] = [
    "no cell",
    "six known cells",
    "more than six",
    "very long",
    "one very long cell",
    "space first",
    "space last",
    "two spaces",
    "bytes of no name",
    "an entity alone",
    "an unknown member",
    "an unknown entity",
    "three parts",
];

const READINGS: [&str; 8] = [
    "empty: 22",
    "an empty line of names: 22",
    "names damaged: 22",
    "last line feed",
    "no last line feed",
    "names alone",
    "an empty line of values",
    "two last line feeds",
];

const DAYS: [&str; 24] = [
    "refused by 21",
    "refused by 43",
    "refused by 42",
    "refused by 23",
    "refused by 24",
    "refused by 25",
    "the lent state's line first",
    "resent in the day",
    "resent after a line of another",
    "printed lines of several senders",
    "one number twice, of two senders",
    "a lesser number after a greater",
    "none printed",
    "one printed",
    "two to four printed",
    "five or more printed",
    "forty or more printed",
    "from a state that knows nobody",
    "from a state in mid run",
    "from a state that knows several",
    "a number of ten digits",
    "a second row",
    "a second row in some lines",
    "real columns alone",
];

const PRINTED: [&str; 9] =
    ["unset", "a whole below 0", "a whole", "true", "false", "a real", "a fired action", "absent, its value kept", "absent"];

const CLOSED: [&str; 17] = [
    "no real column",
    "one real column",
    "several real columns",
    "never set",
    "never set, no line",
    "never set in several lines",
    "one never set beside one set",
    "set",
    "last set before the last line",
    "lowest is not highest",
    "lowest in between",
    "highest in between",
    "both signs",
    "lowest 0 before -0",
    "lowest -0 before 0",
    "highest 0 before -0",
    "highest -0 before 0",
];

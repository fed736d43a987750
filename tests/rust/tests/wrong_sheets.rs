//! The sheets of the generator: each sort of input comes up, and wrong sheets, each with one flaw, are told from the right one.

use second::calls::answer;
use second::generate;
use second::generate::case::{Call, Step};
use second::image::{decode_bench, decode_state, sheet_size, BENCH_SIZE, STATE_SIZE};
use second::interpreter::grammar::{Bench, Sort};
use second::interpreter::machine::{fresh, State};
use second::interpreter::sheet::{chosen, day, Chosen, Passed};
use second::interpreter::value::{Cell, Kind, Value};
use second::interpreter::{accept, line};
use second::memory::{self, Memory, Tally, OURS};
use std::borrow::Cow;

const SEED: u64 = 3;
/// So many cases must show every flaw; a run has several times as many.
const CASES: u64 = 3_000;

#[derive(Clone, Copy, Debug, PartialEq, Eq)]
enum Flaw {
    None,
    // Memory.
    /// The stated size counts one line more.
    NeedsMore,
    /// The stated size counts lines of values, not line feeds.
    CountsLines,
    /// 31 only if the sheet itself does not fit.
    AsksForSheetAlone,
    /// Spaces past the sheet.
    ClearsRest,
    // Refusals.
    NamesBeforeCells,
    CellsBeforeState,
    /// The names are not looked at if no line of values follows.
    NamesOfNoLine,
    // Lists of cells.
    TakesSix,
    TakesNone,
    /// Empty fields are passed over.
    DropsEmptyFields,
    RefusesTwice,
    RefusesAttributes,
    /// What stands after a second dot is not looked at.
    DropsThirdPart,
    // Lines.
    PrintsResent,
    PrintsRefused,
    StopsAtRefusal,
    StartsFresh,
    /// From the lent state, but without its senders.
    ForgetsSenders,
    /// A line without a line feed is not seen.
    NeedsLastFeed,
    // Cells.
    /// As the rules saw them, without the fired actions.
    ReadsSeen,
    /// As they read before the line.
    ReadsBefore,
    /// What absent entities keep is shown.
    ReadsAbsent,
    /// An action that is not fired shows what it fired last.
    KeepsActions,
    // Numbers.
    /// That of the sender that is known longest.
    FirstSendersNumber,
    /// The count of all lines.
    NumberOfAll,
    /// The sender stands before the number.
    SenderBefore,
    // Rows.
    LeftNumber,
    LeftCells,
    LastDigitsAbove,
    SecondRowAlways,
    SecondRowForRealColumns,
    SecondRowIfAllSet,
    NoSecondRow,
    DashesInSecondRow,
    NumberInSecondRow,
    NotFilled,
    NoLastFeed,
    CapitalDigits,
    UnsetAsQuestion,
    // Closing rows.
    NoClosing,
    /// Only if some line is printed.
    ClosesPrinted,
    /// All columns in the same rows.
    SideBySide,
    /// First the lowest of every column, then the highest, then the last.
    ValueByValue,
    SixDashes,
    OneDash,
    HighestFirst,
    /// The last value is that of the last line, unset as `-`.
    LastOfLastLine,
    LaterLowestZero,
    LaterHighestZero,
    /// -0 is less than 0.
    ZerosBySign,
    /// Compares the bits as one number.
    ByBits,
    /// A cell that is chosen twice closes once.
    ClosesOnce,
    ClosesAllKinds,
    /// Lowest and highest start at 0.
    StartsAtZero,
    FoldsLentState,
    FoldsResent,
    /// Every column closes in the first one's place.
    ClosesInFirst,
}

/// Every flaw, and how many sheets at least must show it.
const FLAWS: [(Flaw, usize); 57] = [
    (Flaw::NeedsMore, 1_500),
    (Flaw::CountsLines, 40),
    (Flaw::AsksForSheetAlone, 80),
    (Flaw::ClearsRest, 1_000),
    (Flaw::NamesBeforeCells, 15),
    (Flaw::CellsBeforeState, 10),
    (Flaw::NamesOfNoLine, 20),
    (Flaw::TakesSix, 6),
    (Flaw::TakesNone, 15),
    (Flaw::DropsEmptyFields, 30),
    (Flaw::RefusesTwice, 550),
    (Flaw::RefusesAttributes, 550),
    (Flaw::DropsThirdPart, 10),
    (Flaw::PrintsResent, 450),
    (Flaw::PrintsRefused, 650),
    (Flaw::StopsAtRefusal, 550),
    (Flaw::StartsFresh, 500),
    (Flaw::ForgetsSenders, 400),
    (Flaw::NeedsLastFeed, 200),
    (Flaw::ReadsSeen, 150),
    (Flaw::ReadsBefore, 650),
    (Flaw::ReadsAbsent, 150),
    (Flaw::KeepsActions, 100),
    (Flaw::FirstSendersNumber, 400),
    (Flaw::NumberOfAll, 400),
    (Flaw::SenderBefore, 850),
    (Flaw::LeftNumber, 850),
    (Flaw::LeftCells, 950),
    (Flaw::LastDigitsAbove, 400),
    (Flaw::SecondRowAlways, 600),
    (Flaw::SecondRowForRealColumns, 250),
    (Flaw::SecondRowIfAllSet, 200),
    (Flaw::NoSecondRow, 450),
    (Flaw::DashesInSecondRow, 300),
    (Flaw::NumberInSecondRow, 450),
    (Flaw::NotFilled, 900),
    (Flaw::NoLastFeed, 950),
    (Flaw::CapitalDigits, 300),
    (Flaw::UnsetAsQuestion, 800),
    (Flaw::NoClosing, 650),
    (Flaw::ClosesPrinted, 60),
    (Flaw::SideBySide, 500),
    (Flaw::ValueByValue, 500),
    (Flaw::SixDashes, 300),
    (Flaw::OneDash, 300),
    (Flaw::HighestFirst, 200),
    (Flaw::LastOfLastLine, 90),
    (Flaw::LaterLowestZero, 30),
    (Flaw::LaterHighestZero, 30),
    (Flaw::ZerosBySign, 40),
    (Flaw::ByBits, 150),
    (Flaw::ClosesOnce, 300),
    (Flaw::ClosesAllKinds, 650),
    (Flaw::StartsAtZero, 300),
    (Flaw::FoldsLentState, 90),
    (Flaw::FoldsResent, 20),
    (Flaw::ClosesInFirst, 550),
];

/// A call for a sheet as it is lent, read as far as all sheets agree.
struct Given<'g> {
    step: &'g Step,
    readings: &'g [u8],
    cells: &'g [u8],
    bench: Option<Bench<'g>>,
    state: Option<State>,
    /// What becomes of each line, and the state after it; none if the names are refused.
    lines: Option<Vec<(Passed, State)>>,
    memory: &'g [u8],
}

impl<'g> Given<'g> {
    fn new(step: &'g Step, memory: &'g Memory) -> Given<'g> {
        let Call::Sheet { readings, cells, .. } = &step.call else { panic!("not a sheet") };
        let bench = decode_bench(&memory.bench).and_then(|text| accept(text).ok());
        let state = bench.as_ref().and_then(|bench| decode_state(bench, &memory.state));
        let mut given = Given { step, readings, cells, bench, state: None, lines: None, memory: &memory.sheet };
        given.lines = state.as_ref().and_then(|state| given.run(state));
        given.state = state;
        given
    }

    fn run(&self, state: &State) -> Option<Vec<(Passed, State)>> {
        let mut lines = Vec::new();
        day(self.bench.as_ref()?, state, self.readings, &mut |passed, after| lines.push((passed, after.clone()))).ok()?;
        Some(lines)
    }

    /// The answer and all bytes of the sheet's memory, as a call with a flaw gives them.
    fn call(&self, flaw: Flaw) -> (u64, Vec<u8>) {
        let mut memory = self.memory.to_vec();
        match self.sheet(flaw) {
            Err(number) => (answer(number, 0), memory),
            Ok(sheet) => {
                memory[..sheet.len()].copy_from_slice(&sheet);
                if flaw == Flaw::ClearsRest {
                    memory[sheet.len()..self.step.lent_sheet()].fill(b' ');
                }
                (answer(0, sheet.len()), memory)
            }
        }
    }

    fn sheet(&self, flaw: Flaw) -> Result<Vec<u8>, u8> {
        let lent = self.step.lent;
        if lent.bench < BENCH_SIZE || lent.state < STATE_SIZE || self.step.lent_sheet() < self.least(flaw) {
            return Err(31);
        }
        let bench = self.bench.as_ref().ok_or(32)?;
        let cells = cells(flaw, bench, self.cells);
        if flaw == Flaw::CellsBeforeState && cells.is_none() {
            return Err(41);
        }
        let state = self.state.as_ref().ok_or(33)?;
        let names = line::lines(self.readings).next().unwrap_or(b"");
        let no_line = flaw == Flaw::NamesOfNoLine && line::lines(self.readings).count() == 1;
        let names_refused = line::columns(bench, names).is_none() && !no_line;
        if flaw == Flaw::NamesBeforeCells && names_refused {
            return Err(22);
        }
        let cells = cells.ok_or(41)?;
        if names_refused {
            return Err(22);
        }
        let lines = self.lines(flaw, bench);
        let sheet = Printer { flaw, bench, cells, sheet: Vec::new() }.print(state, &lines);
        if self.step.lent_sheet() < sheet.len() {
            return Err(31);
        }
        Ok(sheet)
    }

    fn least(&self, flaw: Flaw) -> usize {
        match flaw {
            Flaw::NeedsMore => sheet_size(self.readings) + 162,
            Flaw::CountsLines => 2_430 + 162 * (line::lines(self.readings).count() - 1),
            Flaw::AsksForSheetAlone => 0,
            _ => sheet_size(self.readings),
        }
    }

    fn lines(&self, flaw: Flaw, bench: &Bench) -> Cow<'_, [(Passed, State)]> {
        let lines = self.lines.as_deref().unwrap_or_default();
        let refused = |(passed, _): &(Passed, State)| matches!(passed, Passed::Refused(_));
        match flaw {
            Flaw::StopsAtRefusal => lines[..lines.iter().position(refused).unwrap_or(lines.len())].into(),
            Flaw::NeedsLastFeed if !self.readings.ends_with(b"\n") => lines[..lines.len().saturating_sub(1)].into(),
            Flaw::StartsFresh => self.run(&fresh(bench).expect("an accepted bench")).expect("the names are taken").into(),
            Flaw::ForgetsSenders => {
                let state = State { senders: Vec::new(), ..self.state.clone().expect("a state") };
                self.run(&state).expect("the names are taken").into()
            }
            _ => lines.into(),
        }
    }
}

fn cells(flaw: Flaw, bench: &Bench, list: &[u8]) -> Option<Vec<Chosen>> {
    let mut fields: Vec<&[u8]> = list.split(|&byte| byte == b' ').collect();
    if flaw == Flaw::DropsEmptyFields && !list.is_empty() {
        fields.retain(|field| !field.is_empty());
    }
    if flaw == Flaw::TakesNone && list.is_empty() {
        return Some(Vec::new());
    }
    if flaw == Flaw::TakesSix && fields.len() == 6 {
        // The sixth has no place.
        return cells(flaw, bench, &fields[..5].join(&b' ')).filter(|_| chosen(bench, fields[5]).is_some());
    }
    if flaw == Flaw::DropsThirdPart {
        let two_parts = |field: &[u8]| field.split(|&byte| byte == b'.').take(2).collect::<Vec<_>>().join(&b'.');
        let fields: Vec<Vec<u8>> = fields.iter().map(|field| two_parts(field)).collect();
        return chosen(bench, &fields.join(&b' '));
    }
    let cells = chosen(bench, &fields.join(&b' '))?;
    let twice = (0..cells.len()).any(|at| cells[..at].contains(&cells[at]));
    let attribute = |cell: &Chosen| bench.members_of(cell.entity)[cell.member].sort == Sort::Attribute;
    let refused = (flaw == Flaw::RefusesTwice && twice) || (flaw == Flaw::RefusesAttributes && cells.iter().any(attribute));
    (!refused).then_some(cells)
}

struct Printer<'p> {
    flaw: Flaw,
    bench: &'p Bench<'p>,
    cells: Vec<Chosen>,
    sheet: Vec<u8>,
}

impl Printer<'_> {
    fn is(&self, flaw: Flaw) -> bool {
        self.flaw == flaw
    }

    fn print(mut self, lent: &State, lines: &[(Passed, State)]) -> Vec<u8> {
        let mut shown: Vec<Vec<Cell>> = Vec::new();
        if self.is(Flaw::FoldsLentState) {
            shown.push(self.read(lent, lent, &[]));
        }
        let mut before = lent;
        let mut any = false;
        for (passed, after) in lines {
            let cells = self.read(before, after, &shown);
            let printed = match passed {
                Passed::Printed(sender) => Some(after.senders[*sender].number),
                Passed::Resent(sender) if self.is(Flaw::PrintsResent) => Some(after.senders[*sender].number),
                Passed::Refused(_) if self.is(Flaw::PrintsRefused) => Some(0),
                _ => None,
            };
            if let Some(number) = printed {
                self.number(*passed, number, after, &cells);
                any = true;
            }
            if matches!(passed, Passed::Printed(_)) || (self.is(Flaw::FoldsResent) && matches!(passed, Passed::Resent(_))) {
                shown.push(cells);
            }
            before = after;
        }
        if !(self.is(Flaw::NoClosing) || self.is(Flaw::ClosesPrinted) && !any) {
            self.close(&shown);
        }
        if self.is(Flaw::NoLastFeed) {
            self.sheet.pop();
        }
        self.sheet
    }

    /// Prints a line with its number, or with what a flaw takes for it.
    fn number(&mut self, passed: Passed, number: u32, after: &State, cells: &[Cell]) {
        let sender = if let Passed::Printed(sender) | Passed::Resent(sender) = passed { Some(&after.senders[sender]) } else { None };
        let text = match (self.flaw, sender) {
            (Flaw::FirstSendersNumber, _) => after.senders.first().map_or(0, |first| first.number).to_string(),
            (Flaw::NumberOfAll, _) => after.senders.iter().map(|sender| u64::from(sender.number)).sum::<u64>().to_string(),
            (Flaw::SenderBefore, Some(sender)) => format!("{}{number}", String::from_utf8_lossy(&sender.name[..1])),
            _ => number.to_string(),
        };
        self.line(&text[..text.len().min(10)], cells);
    }

    fn read(&self, before: &State, after: &State, shown: &[Vec<Cell>]) -> Vec<Cell> {
        let read = |(column, cell): (usize, &Chosen)| {
            let store = match self.flaw {
                Flaw::ReadsSeen => &after.before,
                Flaw::ReadsBefore => &before.now,
                _ => &after.now,
            };
            let (kept, read) = (store.cells[cell.entity][cell.member], store.read(cell.entity, cell.member));
            let action = self.bench.members_of(cell.entity)[cell.member].sort == Sort::Action;
            match self.flaw {
                Flaw::ReadsAbsent => kept,
                Flaw::KeepsActions if action => read.or(shown.last().and_then(|line| line[column])),
                _ => read,
            }
        };
        self.cells.iter().enumerate().map(read).collect()
    }

    /// Prints fields into 80 columns: the number, then the chosen cells.
    fn row(&mut self, number: &str, fields: &[String]) {
        let mut row = vec![b' '; 80];
        let mut put = |from: usize, width: usize, text: &str, left: bool| {
            let at = if left { from } else { from + width - text.len() };
            row[at..at + text.len()].copy_from_slice(text.as_bytes());
        };
        put(0, 10, number, self.flaw == Flaw::LeftNumber);
        for (column, field) in fields.iter().enumerate() {
            put(10 + 14 * column, 14, field, self.flaw == Flaw::LeftCells);
        }
        while self.is(Flaw::NotFilled) && row.last() == Some(&b' ') {
            row.pop();
        }
        self.sheet.extend(row);
        self.sheet.push(b'\n');
    }

    fn digits(&self, value: f64) -> [String; 2] {
        let digits = format!("{:016x}", value.to_bits());
        let digits = if self.is(Flaw::CapitalDigits) { digits.to_uppercase() } else { digits };
        let halves = [digits[..8].to_string(), digits[8..].to_string()];
        match self.flaw {
            Flaw::LastDigitsAbove => [halves[1].clone(), halves[0].clone()],
            _ => halves,
        }
    }

    fn unset(&self) -> String {
        if self.is(Flaw::UnsetAsQuestion) { "?" } else { "-" }.into()
    }

    fn line(&mut self, number: &str, cells: &[Cell]) {
        let upper = |cell: &Cell| match cell {
            None => self.unset(),
            Some(Value::Whole(value)) => value.to_string(),
            Some(Value::Bool(value)) => value.to_string(),
            Some(Value::Real(value)) => self.digits(*value)[0].clone(),
        };
        let lower = |cell: &Cell| match cell {
            Some(Value::Real(value)) => self.digits(*value)[1].clone(),
            None if self.is(Flaw::DashesInSecondRow) => "-".into(),
            _ => String::new(),
        };
        let (first, second): (Vec<String>, Vec<String>) = (cells.iter().map(upper).collect(), cells.iter().map(lower).collect());
        let reals = self.cells.iter().filter(|cell| cell.kind == Kind::Real).count();
        let set = cells.iter().filter(|cell| matches!(cell, Some(Value::Real(_)))).count();
        let has_second = match self.flaw {
            Flaw::SecondRowAlways => true,
            Flaw::SecondRowForRealColumns => reals > 0,
            Flaw::SecondRowIfAllSet => set > 0 && set == reals,
            Flaw::NoSecondRow => false,
            _ => set > 0,
        };
        self.row(number, &first);
        if has_second {
            let number = if self.is(Flaw::NumberInSecondRow) { number } else { "" };
            self.row(number, &second);
        }
    }

    fn close(&mut self, shown: &[Vec<Cell>]) {
        let mut columns: Vec<usize> = (0..self.cells.len()).collect();
        columns.retain(|&column| self.cells[column].kind == Kind::Real || self.is(Flaw::ClosesAllKinds));
        if self.is(Flaw::ClosesOnce) {
            columns.retain(|&column| !self.cells[..column].contains(&self.cells[column]));
        }
        // For each column the rows of its lowest, highest and last value.
        let blocks: Vec<(usize, [Vec<String>; 3])> = columns.iter().map(|&column| (column, self.block(column, shown))).collect();
        match self.flaw {
            Flaw::SideBySide => self.close_side_by_side(&blocks),
            Flaw::ValueByValue => {
                for value in 0..3 {
                    blocks.iter().for_each(|(column, rows)| self.close_value(*column, &rows[value]));
                }
            }
            _ => {
                for (column, rows) in &blocks {
                    rows.iter().for_each(|rows| self.close_value(*column, rows));
                }
            }
        }
    }

    fn close_value(&mut self, column: usize, rows: &[String]) {
        let column = if self.is(Flaw::ClosesInFirst) { 0 } else { column };
        for row in rows {
            let mut fields = vec![String::new(); column];
            fields.push(row.clone());
            self.row("", &fields);
        }
    }

    fn close_side_by_side(&mut self, blocks: &[(usize, [Vec<String>; 3])]) {
        let rows = |rows: &[Vec<String>; 3]| rows.concat();
        let most = blocks.iter().map(|(_, block)| rows(block).len()).max().unwrap_or(0);
        for at in 0..most {
            let mut fields = vec![String::new(); self.cells.len()];
            for (column, block) in blocks {
                fields[*column] = rows(block).get(at).cloned().unwrap_or_default();
            }
            self.row("", &fields);
        }
    }

    /// The rows of a column's lowest, highest and last value.
    fn block(&self, column: usize, shown: &[Vec<Cell>]) -> [Vec<String>; 3] {
        let value = |line: &Vec<Cell>| if let Some(Value::Real(value)) = line[column] { Some(value) } else { None };
        let values: Vec<f64> = shown.iter().filter_map(value).collect();
        let dashes = match self.flaw {
            Flaw::SixDashes => [2, 2, 2],
            Flaw::OneDash => [1, 0, 0],
            _ => [1, 1, 1],
        };
        let (Some(&first), Some(&last)) = (values.first(), values.last()) else {
            return dashes.map(|count| vec![self.unset(); count]);
        };
        let start = if self.is(Flaw::StartsAtZero) { 0.0 } else { first };
        let lowest = values.iter().fold(start, |best, &value| if self.less(value, best, Flaw::LaterLowestZero) { value } else { best });
        let highest = values.iter().fold(start, |best, &value| if self.less(best, value, Flaw::LaterHighestZero) { value } else { best });
        let rows = [lowest, highest, last].map(|value| self.digits(value).to_vec());
        match (self.flaw, rows) {
            (Flaw::HighestFirst, [lowest, highest, last]) => [highest, lowest, last],
            (Flaw::LastOfLastLine, [lowest, highest, _]) if shown.last().and_then(value).is_none() => [lowest, highest, vec!["-".into()]],
            (_, rows) => rows,
        }
    }

    /// `later`: the flaw by which equal values count as less.
    fn less(&self, a: f64, b: f64, later: Flaw) -> bool {
        match self.flaw {
            Flaw::ZerosBySign => a.total_cmp(&b).is_lt(),
            Flaw::ByBits => a.to_bits() < b.to_bits(),
            flaw if flaw == later => a <= b,
            _ => a < b,
        }
    }
}

/// Hands on each sheet of the cases with the memory before it, filled, and what the interpreter gives.
fn each_sheet(mut look: impl FnMut(&Given, (u64, Vec<u8>))) {
    for case in (0..CASES).map(|number| generate::case(SEED, number)) {
        let mut memory = Memory::new(case.fill);
        for step in &case.steps {
            memory.lend(step);
            let before = matches!(step.call, Call::Sheet { .. }).then(|| memory.clone());
            let answer = OURS.answer(&case.text, step, &mut memory);
            if let (Some(before), Some(answer)) = (before, answer) {
                look(&Given::new(step, &before), (answer, memory.sheet.clone()));
            }
        }
    }
}

/// Catches a generator whose sheets do not show some flaw. The sheet without a flaw, written here once more, is the interpreter's.
#[test]
fn sheets_tell_every_flaw() {
    let mut told = [0; FLAWS.len()];
    each_sheet(|given, right| {
        assert!(given.call(Flaw::None) == right, "without a flaw");
        for (count, (flaw, _)) in told.iter_mut().zip(FLAWS) {
            *count += usize::from(given.call(flaw) != right);
        }
    });
    for ((flaw, least), count) in FLAWS.iter().zip(told) {
        assert!(count >= *least, "{flaw:?}: told by {count} sheets");
    }
}

/// Catches a generator that no longer makes some sort of sheet, or too few that are accepted, print several lines and close real columns.
#[test]
fn cases_make_every_sort_of_sheet() {
    let mut tally = Tally::default();
    for number in 0..CASES {
        tally.add(&memory::answers(&generate::case(SEED, number)));
    }
    assert_eq!(tally.sheets.lacking(2), Vec::<String>::new());
}

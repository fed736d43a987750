//! Bench and state in memory: the forms the engine chose, needed here to lend both sides the same bytes.

use crate::interpreter::grammar::{Bench, Member, Sort};
use crate::interpreter::line::SENDERS_MOST;
use crate::interpreter::machine::{Reading, Readings, Sender, State, Store};
use crate::interpreter::text::{name_form, NAME_MOST, TEXT_MOST};
use crate::interpreter::value::{Cell, Kind, Value};

pub const BENCH_SIZE: usize = 32_772;
pub const STATE_SIZE: usize = 35_117;
pub const ROW_SIZE: usize = 32_768;
/// The stated size of a set of rules: a bit for each of at most 64.
pub const TRIED_SIZE: usize = 8;
/// The stated size of a sheet: 30 closing rows, and two rows more for each line feed of the readings.
pub const SHEET_LEAST: usize = 2_430;
pub const SHEET_MORE: usize = 162;

const MEMBERS: usize = 12;
/// A tag and its payload.
pub const CELL: usize = 9;

const UNSET: u8 = 0;
const WHOLE: u8 = 1;
const BOOL: u8 = 2;
const REAL: u8 = 3;
const NOT_READ: u8 = 4;

/// The prime of the fingerprint.
const PRIME: u64 = 4_294_967_291;

// Where the parts of a state image stand.

/// The count of known senders, after the fingerprint.
pub const COUNT_AT: usize = 4;
/// In a sender: its name, after the name's length; its number; the presence that it read, and then its cells.
pub const NAME_AT: usize = 1;
pub const NUMBER_AT: usize = NAME_AT + NAME_MOST;
pub const PLANE_AT: usize = NUMBER_AT + 4;

/// A flag and the cells of every entity: a store, or what a sender read and fired.
fn plane_bytes(entities: usize) -> usize {
    entities + entities * MEMBERS * CELL
}

/// The store now is that of number 0, the one before that of number 1. Its flags come first.
pub fn store_at(entities: usize, store: usize) -> usize {
    COUNT_AT + 1 + store * plane_bytes(entities)
}

/// Where the known sender in this place starts.
pub fn sender_at(entities: usize, place: usize) -> usize {
    store_at(entities, 2) + place * (PLANE_AT + plane_bytes(entities))
}

/// Where a member's cell stands in a store or plane that starts with its flags.
pub fn cell_in_plane(entities: usize, entity: usize, member: usize) -> usize {
    entities + (entity * MEMBERS + member) * CELL
}

/// Bytes that the state image of a bench takes while so many senders are known.
pub fn state_bytes(entities: usize, senders: usize) -> usize {
    sender_at(entities, senders)
}

/// The stated size of the sheet of these readings.
pub fn sheet_size(readings: &[u8]) -> usize {
    SHEET_LEAST + SHEET_MORE * readings.iter().filter(|&&byte| byte == b'\n').count()
}

/// What a state keeps of the text of its bench.
pub fn fingerprint(text: &[u8]) -> u32 {
    text.iter().fold(0, |sum, &byte| (sum * 257 + u64::from(byte) + 1) % PRIME) as u32
}

pub fn encode_bench(text: &[u8], memory: &mut [u8]) {
    memory[..4].copy_from_slice(&(text.len() as u32).to_le_bytes());
    memory[4..4 + text.len()].copy_from_slice(text);
}

/// The text in a bench image; whether it is accepted is for the reader to see.
pub fn decode_bench(memory: &[u8]) -> Option<&[u8]> {
    let length = u32::from_le_bytes(memory[..4].try_into().expect("four bytes")) as usize;
    (length <= TEXT_MOST).then(|| &memory[4..4 + length])
}

// Writing a state.

pub fn encode_state(bench: &Bench, state: &State, memory: &mut [u8]) {
    let image = state_image(bench, state);
    memory[..image.len()].copy_from_slice(&image);
}

pub fn state_image(bench: &Bench, state: &State) -> Vec<u8> {
    let mut image = fingerprint(bench.text).to_le_bytes().to_vec();
    image.push(state.senders.len() as u8);
    encode_store(&state.now, &mut image);
    encode_store(&state.before, &mut image);
    state.senders.iter().for_each(|sender| encode_sender(bench, sender, &mut image));
    image
}

fn encode_store(store: &Store, image: &mut Vec<u8>) {
    image.extend(store.present.iter().map(|&present| u8::from(present)));
    for cells in &store.cells {
        for member in 0..MEMBERS {
            push_cell(cells.get(member).map_or((UNSET, 0), |&cell| encode_cell(cell)), image);
        }
    }
}

fn encode_sender(bench: &Bench, sender: &Sender, image: &mut Vec<u8>) {
    image.push(sender.name.len() as u8);
    image.extend_from_slice(&sender.name);
    image.resize(image.len() + NAME_MOST - sender.name.len(), 0);
    image.extend_from_slice(&sender.number.to_le_bytes());
    image.extend(sender.last.presence.iter().map(|reading| reading.map_or(0, |present| 1 + u8::from(present))));
    for entity in 0..bench.entities.len() {
        for member in 0..MEMBERS {
            push_cell(kept_cell(bench, sender, entity, member), image);
        }
    }
}

/// "at an event of the entity's interface the reading, at an action the fired value, everywhere else no reading".
fn kept_cell(bench: &Bench, sender: &Sender, entity: usize, member: usize) -> (u8, u64) {
    match bench.members_of(entity).get(member).map(|member| member.sort) {
        Some(Sort::Event) => encode_reading(sender.last.cells[entity][member]),
        Some(Sort::Action) => encode_cell(sender.fired[entity][member]),
        _ => (NOT_READ, 0),
    }
}

fn push_cell((tag, payload): (u8, u64), image: &mut Vec<u8>) {
    image.push(tag);
    image.extend_from_slice(&payload.to_le_bytes());
}

fn encode_cell(cell: Cell) -> (u8, u64) {
    match cell {
        None => (UNSET, 0),
        Some(Value::Whole(value)) => (WHOLE, (i64::from(value) + (1 << 31)) as u64),
        Some(Value::Bool(value)) => (BOOL, u64::from(value)),
        Some(Value::Real(value)) => (REAL, value.to_bits()),
    }
}

fn encode_reading(reading: Reading) -> (u8, u64) {
    match reading {
        Reading::NotRead => (NOT_READ, 0),
        Reading::Unset => (UNSET, 0),
        Reading::Set(value) => encode_cell(Some(value)),
    }
}

// Reading a state.

/// The state that memory stands for, if it is a state of that bench.
pub fn decode_state(bench: &Bench, memory: &[u8]) -> Option<State> {
    let mut image = Image { bytes: memory };
    if image.number()? != fingerprint(bench.text) {
        return None;
    }
    let count = usize::from(image.take(1)?[0]);
    let now = image.store(bench, now_cell)?;
    let before = image.store(bench, before_cell)?;
    let set_before = |entity: usize| !before.present[entity] || attributes_set(bench, entity, &before);
    if count > SENDERS_MOST || !(0..bench.entities.len()).all(set_before) {
        return None;
    }
    let senders = (0..count).map(|_| image.sender(bench)).collect::<Option<Vec<Sender>>>()?;
    let twice = |place: usize| senders[..place].iter().any(|sender| sender.name == senders[place].name);
    (!(0..count).any(twice)).then_some(State { now, before, senders })
}

fn attributes_set(bench: &Bench, entity: usize, store: &Store) -> bool {
    let mut cells = bench.members_of(entity).iter().zip(&store.cells[entity]);
    cells.all(|(member, cell)| member.sort != Sort::Attribute || cell.is_some())
}

/// Reads one cell for a member, or for the lack of one. The outer `None`: not allowed there.
type DecodeCell<T> = fn(Option<&Member>, Reading) -> Option<T>;

/// What is left to read of an image.
struct Image<'m> {
    bytes: &'m [u8],
}

impl<'m> Image<'m> {
    fn take(&mut self, count: usize) -> Option<&'m [u8]> {
        let (taken, rest) = self.bytes.split_at_checked(count)?;
        self.bytes = rest;
        Some(taken)
    }

    fn number(&mut self) -> Option<u32> {
        Some(u32::from_le_bytes(self.take(4)?.try_into().expect("four bytes")))
    }

    fn store(&mut self, bench: &Bench, decode: DecodeCell<Cell>) -> Option<Store> {
        let present = decode_flags(self.take(bench.entities.len())?)?;
        Some(Store { present, cells: self.cells(bench, decode)? })
    }

    /// Twelve cells for each entity, of which those without a member are looked at only.
    fn cells<T>(&mut self, bench: &Bench, decode: DecodeCell<T>) -> Option<Vec<Vec<T>>> {
        let mut rows = Vec::new();
        for entity in 0..bench.entities.len() {
            let members = bench.members_of(entity);
            let mut row = Vec::new();
            for member in 0..MEMBERS {
                let cell = decode(members.get(member), decode_cell(self.take(CELL)?)?)?;
                if member < members.len() {
                    row.push(cell);
                }
            }
            rows.push(row);
        }
        Some(rows)
    }

    fn sender(&mut self, bench: &Bench) -> Option<Sender> {
        let length = usize::from(self.take(1)?[0]);
        let (name, zeros) = self.take(NAME_MOST)?.split_at_checked(length)?;
        let number = self.number()?;
        let presence = decode_presence(self.take(bench.entities.len())?)?;
        let kept = self.cells(bench, kept_reading)?;
        if !name_form(name) || zeros.iter().any(|&byte| byte != 0) || number == 0 {
            return None;
        }
        let (cells, fired) = parted(bench, &kept);
        Some(Sender { name: name.to_vec(), number, last: Readings { presence, cells }, fired })
    }
}

/// What was read, and what was fired.
fn parted(bench: &Bench, kept: &[Vec<Reading>]) -> (Vec<Vec<Reading>>, Vec<Vec<Cell>>) {
    let mut sender = Sender::new(bench, b"");
    for (entity, cells) in kept.iter().enumerate() {
        for ((member, known), &cell) in bench.members_of(entity).iter().enumerate().zip(cells) {
            match (known.sort, cell) {
                (Sort::Event, _) => sender.last.cells[entity][member] = cell,
                (Sort::Action, Reading::Set(value)) => sender.fired[entity][member] = Some(value),
                _ => {}
            }
        }
    }
    (sender.last.cells, sender.fired)
}

fn decode_flags(bytes: &[u8]) -> Option<Vec<bool>> {
    bytes.iter().map(|&byte| (byte < 2).then_some(byte == 1)).collect()
}

fn decode_presence(bytes: &[u8]) -> Option<Vec<Option<bool>>> {
    bytes.iter().map(|&byte| (byte < 3).then_some((byte > 0).then_some(byte == 2))).collect()
}

fn decode_cell(bytes: &[u8]) -> Option<Reading> {
    let payload = u64::from_le_bytes(bytes[1..].try_into().expect("eight bytes"));
    match (bytes[0], payload) {
        (UNSET, 0) => Some(Reading::Unset),
        (NOT_READ, 0) => Some(Reading::NotRead),
        (WHOLE, _) if payload < 1 << 32 => Some(Reading::Set(Value::Whole((payload as i64 - (1 << 31)) as i32))),
        (BOOL, 0 | 1) => Some(Reading::Set(Value::Bool(payload == 1))),
        (REAL, _) if f64::from_bits(payload).is_finite() => Some(Reading::Set(Value::Real(f64::from_bits(payload)))),
        _ => None,
    }
}

fn of_kind(kind: Kind, reading: Reading) -> Option<Cell> {
    match reading {
        Reading::Unset => Some(None),
        Reading::Set(value) if value.kind() == kind => Some(Some(value)),
        _ => None,
    }
}

fn now_cell(member: Option<&Member>, reading: Reading) -> Option<Cell> {
    match (member, reading) {
        (Some(member), Reading::Unset) if member.sort == Sort::Attribute => None,
        _ => before_cell(member, reading),
    }
}

/// An attribute may be unset here: whether its entity was present is asked of the whole store.
fn before_cell(member: Option<&Member>, reading: Reading) -> Option<Cell> {
    match (member, reading) {
        (Some(member), _) => of_kind(member.kind, reading),
        (None, Reading::Unset) => Some(None),
        (None, _) => None,
    }
}

/// A reading at an event, a fired value or unset at an action, and nothing else but "no reading" elsewhere.
fn kept_reading(member: Option<&Member>, reading: Reading) -> Option<Reading> {
    match (member.map(|member| (member.sort, member.kind)), reading) {
        (Some((Sort::Action, kind)), _) => of_kind(kind, reading).map(|_| reading),
        (_, Reading::NotRead) => Some(reading),
        (Some((Sort::Event, kind)), _) => of_kind(kind, reading).map(|_| reading),
        _ => None,
    }
}

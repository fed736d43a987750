//! Lines of readings for a plan: valid ones, among them many in which an entity comes, resent ones, and each kind of damage.

use super::bench::Plan;
use super::prng::Prng;
use crate::interpreter::grammar::Sort;
use crate::interpreter::value::Kind;

#[derive(Clone, Copy, Debug, PartialEq, Eq)]
pub enum Column {
    Presence(usize),
    Event(usize, usize),
}

impl Column {
    pub fn entity(self) -> usize {
        match self {
            Column::Presence(entity) | Column::Event(entity, _) => entity,
        }
    }
}

/// A line as columns with their fields; sender and number stand apart.
#[derive(Clone, Debug, Default)]
pub struct Line {
    pub columns: Vec<Column>,
    pub fields: Vec<String>,
}

impl Line {
    pub fn names(&self, plan: &Plan) -> Vec<u8> {
        let mut names = "by n".to_string();
        for column in &self.columns {
            names.push(' ');
            match *column {
                Column::Presence(entity) => names.push_str(&plan.entities[entity].name),
                Column::Event(entity, member) => {
                    names.push_str(&format!("{}.{}", plan.entities[entity].name, plan.members(entity)[member].name))
                }
            }
        }
        names.into_bytes()
    }

    pub fn values(&self, sender: &[u8], number: u64) -> Vec<u8> {
        let mut values = sender.to_vec();
        values.extend_from_slice(format!(" {number}").as_bytes());
        for field in &self.fields {
            values.push(b' ');
            values.extend_from_slice(field.as_bytes());
        }
        values
    }
}

/// Every column that a line of names may have.
pub fn all_columns(plan: &Plan) -> Vec<Column> {
    let mut columns = Vec::new();
    for entity in 0..plan.entities.len() {
        columns.push(Column::Presence(entity));
        for (member, known) in plan.members(entity).iter().enumerate() {
            if known.sort == Sort::Event {
                columns.push(Column::Event(entity, member));
            }
        }
    }
    columns
}

/// Some of the columns, in any order; events more often than presence.
pub fn some_columns(prng: &mut Prng, plan: &Plan) -> Vec<Column> {
    let (events, presence) = ([100, 90, 60, 0][prng.weighted(&[40, 30, 22, 8])], *prng.pick(&[0, 20, 50, 100]));
    let mut columns = all_columns(plan);
    columns.retain(|column| prng.chance(if matches!(column, Column::Presence(_)) { presence } else { events }));
    prng.shuffle(&mut columns);
    columns
}

/// One of these entities for a line to switch: one at which filters can stand rather than another, an absent one rather than one there.
pub fn to_switch(prng: &mut Prng, plan: &Plan, present: &[bool], mut entities: Vec<usize>) -> Option<usize> {
    let has = |entity: usize, sort: Sort| plan.members(entity).iter().any(|member| member.sort == sort);
    prng.shuffle(&mut entities);
    entities.into_iter().max_by_key(|&entity| (has(entity, Sort::Attribute) && has(entity, Sort::Event), !present[entity]))
}

/// Puts in the columns of an entity that are missing.
pub fn complete(prng: &mut Prng, plan: &Plan, entity: usize, columns: &mut Vec<Column>) {
    for column in all_columns(plan) {
        if column.entity() == entity && !columns.contains(&column) {
            columns.insert(prng.below(columns.len() + 1), column);
        }
    }
}

/// A valid line; `present` is moved on as the line says.
pub fn line(prng: &mut Prng, plan: &Plan, columns: &[Column], present: &mut [bool]) -> Line {
    line_switching(prng, plan, columns, present, None)
}

/// A valid line in which the entity to switch, if any, comes where it was absent and else goes. Its presence is among the columns.
pub fn line_switching(prng: &mut Prng, plan: &Plan, columns: &[Column], present: &mut [bool], to_switch: Option<usize>) -> Line {
    let before = present.to_vec();
    let mut fields = vec![String::new(); columns.len()];
    for (column, field) in columns.iter().zip(&mut fields) {
        if let Column::Presence(entity) = *column {
            *field = if to_switch == Some(entity) { (!before[entity]).to_string() } else { presence(prng, before[entity]) };
            present[entity] = field == "true" || (field == "-" && present[entity]);
        }
    }
    for (column, field) in columns.iter().zip(&mut fields) {
        if let Column::Event(entity, member) = *column {
            *field = event(prng, plan.members(entity)[member].kind, before[entity], present[entity]);
        }
    }
    Line { columns: columns.to_vec(), fields }
}

/// Who is absent comes back soon, so that many lines have somebody come.
fn presence(prng: &mut Prng, before: bool) -> String {
    let weights = if before { [58, 22, 20] } else { [25, 60, 15] };
    ["-", "true", "false"][prng.weighted(&weights)].to_string()
}

/// Who comes in this line mostly brings readings: clauses at it can hold at once.
fn event(prng: &mut Prng, kind: Kind, before: bool, present: bool) -> String {
    if !present {
        return "-".into();
    }
    let weights = if before { [20, 6, 74] } else { [5, 3, 92] };
    match prng.weighted(&weights) {
        0 => "-".into(),
        1 => "?".into(),
        _ => value(prng, kind),
    }
}

/// A value in the form of readings: mostly small ones, some at the edges, some random.
pub fn value(prng: &mut Prng, kind: Kind) -> String {
    match kind {
        Kind::Bool => prng.chance(50).to_string(),
        Kind::Whole => whole(prng).to_string(),
        Kind::Real => format!("{:016x}", real(prng).to_bits()),
    }
}

pub fn whole(prng: &mut Prng) -> i32 {
    match prng.below(10) {
        0 => *prng.pick(&[i32::MAX, i32::MIN, i32::MIN + 1, 46341, -46341, 65536]),
        1 => prng.draw() as i32,
        _ => *prng.pick(&[0, 1, 2, 3, -1, -2, -3]),
    }
}

pub fn real(prng: &mut Prng) -> f64 {
    const EDGES: [f64; 12] =
        [0.0, -0.0, f64::MAX, f64::MIN, f64::MIN_POSITIVE, -f64::MIN_POSITIVE, 5e-324, -5e-324, 1e308, 1e-308, 9007199254740993.0, 0.1];
    match prng.below(10) {
        0..=2 => *prng.pick(&EDGES),
        3 => {
            let any = f64::from_bits(prng.draw());
            if any.is_finite() {
                any
            } else {
                1.5
            }
        }
        _ => *prng.pick(&[0.0, -0.0, 1.0, 2.0, 3.0, -1.0]),
    }
}

/// The field of a real with the other sign.
pub fn negated(field: &str) -> String {
    u64::from_str_radix(field, 16).map_or(field.to_string(), |bits| format!("{:016x}", bits ^ 1 << 63))
}

/// The same readings in another form: columns in another order, those with `-` perhaps left out or put in.
pub fn same_readings(prng: &mut Prng, plan: &Plan, line: &Line) -> Line {
    let mut pairs: Vec<(Column, String)> = line.columns.iter().copied().zip(line.fields.iter().cloned()).collect();
    pairs.retain(|(_, field)| field != "-" || prng.chance(50));
    for column in all_columns(plan) {
        if !line.columns.contains(&column) && prng.chance(30) {
            pairs.push((column, "-".into()));
        }
    }
    prng.shuffle(&mut pairs);
    let (columns, fields) = pairs.into_iter().unzip();
    Line { columns, fields }
}

/// Ill formed names: 22, mostly.
pub fn damage_names(prng: &mut Prng, plan: &Plan, names: &mut Vec<u8>) {
    let at = prng.below(names.len() + 1);
    match prng.below(18) {
        0 => names.insert(at, b' '),
        1 => names.push(b' '),
        2 => names.extend_from_slice(b" nobody"),
        3 => names.extend(other_member(prng, plan)),
        4 => drop_byte(prng, names),
        5 => names.insert(at, *prng.pick(b"\n\t\r.n\0#")),
        6 => double_field(prng, names),
        7 => *names = prng.bytes(at),
        8 => names[0] = *prng.pick(b"B1m "),
        9 => names.extend_from_slice(prng.pick(&[" n", " by", " by n"]).as_bytes()),
        10 => lengthen(prng, names, 32_768),
        11 => names.clear(),
        12 => {
            let byte = prng.below(names.len());
            names[byte] = prng.draw() as u8;
        }
        _ => damage_head(prng, names),
    }
}

/// Ill formed names that do not begin `by n`, or that have it twice: 22, but for the one with a column `n` or `by`.
pub fn damage_head(prng: &mut Prng, names: &mut Vec<u8>) {
    const HEADS: [&str; 20] = [
        "n",
        "by",
        "by",
        "",
        "n by",
        "by by",
        "n n",
        "by by n",
        "by n n",
        "by n by",
        "by n by n",
        "By n",
        "by N",
        "by  n",
        "byn",
        "by\tn",
        " by n",
        "by m",
        "b n",
        "by. n",
    ];
    let end = if prng.chance(35) { names.len() } else { "by n".len().min(names.len()) };
    names.splice(..end, prng.pick(&HEADS).bytes());
}

/// An attribute or action as a column, or a member of another entity.
fn other_member(prng: &mut Prng, plan: &Plan) -> Vec<u8> {
    if plan.entities.is_empty() {
        return b" a.b".to_vec();
    }
    let (entity, other) = (prng.below(plan.entities.len()), prng.below(plan.entities.len()));
    let member = plan.members(other).first().map_or("x", |_| &prng.pick(plan.members(other)).name);
    format!(" {}.{}", plan.entities[entity].name, member).into_bytes()
}

fn drop_byte(prng: &mut Prng, bytes: &mut Vec<u8>) {
    if !bytes.is_empty() {
        bytes.remove(prng.below(bytes.len()));
    }
}

fn double_field(prng: &mut Prng, bytes: &mut Vec<u8>) {
    let fields: Vec<Vec<u8>> = bytes.split(|&byte| byte == b' ').map(<[u8]>::to_vec).collect();
    bytes.push(b' ');
    bytes.extend(prng.pick(&fields).iter());
}

/// Makes a line about as long as its most.
fn lengthen(prng: &mut Prng, bytes: &mut Vec<u8>, most: usize) {
    let length = most + prng.below(4) - 1;
    let byte = *prng.pick(b" 0x-");
    bytes.resize(length.max(bytes.len()), byte);
}

/// Ill formed values: 21, mostly.
pub fn damage_values(prng: &mut Prng, values: &mut Vec<u8>) {
    let at = prng.below(values.len() + 1);
    // Sender and number are the first fields.
    let number = values.iter().position(|&byte| byte == b' ').map_or(0, |space| space + 1);
    let end = values[number..].iter().position(|&byte| byte == b' ').map_or(values.len(), |space| number + space);
    match prng.below(16) {
        0 => values.insert(at, b' '),
        1 => values.push(b' '),
        2 => values.extend_from_slice(b" -"),
        3 => values.insert(number, b'0'),
        4 => values.insert(number, *prng.pick(b" +-xn")),
        5 => values.insert(at, *prng.pick(b"\n\t\r\0")),
        6 => values.truncate(at),
        7 => values.clear(),
        8 => lengthen(prng, values, 8_192),
        9 => *values = prng.bytes(at),
        10 => drop(values.splice(number..number, *b"12345678901")),
        11 => drop_byte(prng, values),
        // No sender, an empty one, no number, the two in the other order.
        12 => drop(values.drain(..number)),
        13 => drop(values.drain(..number.saturating_sub(1))),
        14 => drop(values.drain(number.saturating_sub(1)..end)),
        _ => {
            let swapped = [&values[number..end], b" ", &values[..number.saturating_sub(1)], &values[end..]].concat();
            *values = swapped;
        }
    }
}

/// A field that is no value of its column: 23, mostly.
pub fn damage_field(prng: &mut Prng, line: &mut Line) {
    const BAD: [&str; 34] = [
        "?",
        "-0",
        "00",
        "01",
        "-01",
        "+1",
        "--1",
        "2147483648",
        "-2147483649",
        "-2147483648",
        "2147483647",
        "99999999999",
        "1.5",
        "1r",
        "0x1",
        "True",
        "TRUE",
        "truee",
        "tru",
        "false",
        "0",
        "7ff0000000000000",
        "fff0000000000000",
        "7ff8000000000000",
        "7ff0000000000001",
        "7fefffffffffffff",
        "3FF0000000000000",
        "3ff000000000000",
        "3ff00000000000000",
        "3ff000000000000g",
        "8000000000000000",
        "1\t",
        "\r",
        "?-",
    ];
    if !line.fields.is_empty() {
        let at = prng.below(line.fields.len());
        line.fields[at] = prng.pick(&BAD).to_string();
    }
}

//! Lists of chosen cells for a sheet: good ones, and each kind of damage.

use super::bench::Plan;
use super::prng::Prng;
use crate::interpreter::value::Kind;

/// An entity and its member.
pub type PlanCell = (usize, usize);

/// A list of this length is called very long.
pub const LONG: usize = 32_768;

/// The most cells of a list.
const MOST: usize = 5;

fn all(plan: &Plan) -> Vec<PlanCell> {
    (0..plan.entities.len()).flat_map(|entity| (0..plan.members(entity).len()).map(move |member| (entity, member))).collect()
}

/// One to five cells; none if the bench has no cell. Real ones often, as they alone have second and closing rows, and now and then one
/// cell twice.
pub fn good(prng: &mut Prng, plan: &Plan) -> Vec<PlanCell> {
    let cells = all(plan);
    if cells.is_empty() {
        return Vec::new();
    }
    let reals: Vec<PlanCell> = cells.iter().copied().filter(|&(entity, member)| plan.members(entity)[member].kind == Kind::Real).collect();
    let count = prng.weighted(&[15, 20, 25, 20, 20]) + 1;
    let mut chosen: Vec<PlanCell> = Vec::new();
    while chosen.len() < count {
        let cell = match prng.weighted(&[55, 37, 8]) {
            0 if !reals.is_empty() => *prng.pick(&reals),
            2 if !chosen.is_empty() => *prng.pick(&chosen),
            _ => *prng.pick(&cells),
        };
        chosen.push(cell);
    }
    chosen
}

fn name(plan: &Plan, (entity, member): PlanCell) -> String {
    format!("{}.{}", plan.entities[entity].name, plan.members(entity)[member].name)
}

pub fn text(plan: &Plan, cells: &[PlanCell]) -> Vec<u8> {
    let names: Vec<String> = cells.iter().map(|&cell| name(plan, cell)).collect();
    names.join(" ").into_bytes()
}

/// A list that is refused by 41, mostly: good cells and some damage. A bench without cells has none that is not.
pub fn damaged(prng: &mut Prng, plan: &Plan, cells: &[PlanCell]) -> Vec<u8> {
    let mut names: Vec<String> = cells.iter().map(|&cell| name(plan, cell)).collect();
    let some = if names.is_empty() { "a.b".to_string() } else { prng.pick(&names).clone() };
    let at = prng.below(names.len() + 1);
    match prng.below(16) {
        0 => names.clear(),
        1 => {
            let more = prng.weighted(&[70, 20, 10]) + 1;
            names.resize(MOST + more, some);
        }
        2 | 15 => names.extend([String::new(), some]),
        3 => names.insert(0, String::new()),
        4 => names.push(String::new()),
        5 => names.insert(at, prng.pick(&["nobody.x", "Nobody.y", "q.q"]).to_string()),
        6 => names.insert(at, format!("{}.nothing", owner(&some))),
        7 => names.insert(at, owner(&some).to_string()),
        8 => names.insert(at, format!("{some}.{}", prng.pick(&["x", "a", ""]))),
        9 => return odd_byte(prng, names.join(" ").into_bytes()),
        10 | 11 => return long(prng, &some),
        12 => {
            let length = prng.between(1, 40);
            return prng.bytes(length);
        }
        13 => names = vec![prng.pick(&[" ", ".", "-", "n", "  ", ". .", ".x", "x."]).to_string()],
        _ => names.insert(at, other_form(prng, &some)),
    }
    names.join(" ").into_bytes()
}

fn owner(cell: &str) -> &str {
    cell.split('.').next().expect("a part")
}

/// A cell's name as nobody wrote it.
fn other_form(prng: &mut Prng, cell: &str) -> String {
    match prng.below(5) {
        0 => cell.to_uppercase() + "_",
        1 => format!("{}.", owner(cell)),
        2 => cell.trim_start_matches(|byte| byte != '.').to_string(),
        3 => cell[..cell.len() - 1].to_string(),
        _ => format!("{cell}{cell}"),
    }
}

/// Puts in a byte that no name has.
fn odd_byte(prng: &mut Prng, mut text: Vec<u8>) -> Vec<u8> {
    let at = if prng.chance(30) { text.len() } else { prng.below(text.len() + 1) };
    text.insert(at, *prng.pick(b"\n\t\r\0,;#\x80\xff"));
    text
}

/// A great many cells, or one with a great many letters.
fn long(prng: &mut Prng, cell: &str) -> Vec<u8> {
    let length = LONG + prng.between(1, 9_000);
    let filler = if prng.chance(50) { format!("{cell} ") } else { "a".into() };
    let mut text = cell.as_bytes().to_vec();
    text.extend(filler.bytes().cycle().take(length - cell.len()));
    text
}

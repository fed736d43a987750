//! Names of senders: good ones, ones that are nearly another's, and ill-formed ones.

use super::bench::Plan;
use super::prng::Prng;
use crate::interpreter::text::{name_form, NAME_MOST, RESERVED};

/// Many differ in one byte, in case or in length; two are words of every line of names.
const STOCK: [&str; 20] = [
    "a",
    "b",
    "A",
    "a1",
    "a_",
    "ab",
    "by",
    "n",
    "n1",
    "S",
    "stage",
    "Stage",
    "stage_box",
    "camera",
    "cam",
    "z9_Z",
    "refused",
    "abcdefghijklmnopqrstuvwx",
    "abcdefghijklmnopqrstuvwy",
    "abcdefghijklmnopqrstuvw",
];

/// How many senders a run has: often one or two, often enough eight, sometimes more than can be known.
pub fn count(prng: &mut Prng) -> usize {
    prng.weighted(&[30, 22, 14, 6, 4, 3, 3, 8, 6, 6]) + 1
}

/// A good name: of the stock, a reserved word, or one that the bench has too.
pub fn any(prng: &mut Prng, plan: &Plan) -> Vec<u8> {
    let of_bench: Vec<&str> = plan.entities.iter().map(|entity| &*entity.name).collect();
    match prng.weighted(&[60, 20, 20]) {
        1 => prng.pick(&RESERVED).as_bytes().to_vec(),
        2 if !of_bench.is_empty() => prng.pick(&of_bench).as_bytes().to_vec(),
        _ => prng.pick(&STOCK).as_bytes().to_vec(),
    }
}

/// So many names, no two alike; some are nearly alike.
pub fn some(prng: &mut Prng, plan: &Plan, count: usize) -> Vec<Vec<u8>> {
    let mut names: Vec<Vec<u8>> = Vec::new();
    while names.len() < count {
        let name = match prng.chance(25) && !names.is_empty() {
            true => {
                let known = prng.pick(&names).clone();
                near(prng, &known)
            }
            false => any(prng, plan),
        };
        if !names.contains(&name) {
            names.push(name);
        }
    }
    names
}

/// Another good name that is nearly this one.
pub fn near(prng: &mut Prng, name: &[u8]) -> Vec<u8> {
    loop {
        let mut other = name.to_vec();
        let at = prng.below(other.len());
        match prng.below(6) {
            0 => other.push(*prng.pick(b"a1_Z")),
            1 => drop(other.pop()),
            2 => other[at] ^= 0x20,
            3 => other[at] = *prng.pick(b"ab1_Z"),
            4 => other.resize(NAME_MOST, *prng.pick(b"x0_")),
            _ => other.insert(0, *prng.pick(b"aZ")),
        }
        if other != name && name_form(&other) {
            return other;
        }
    }
}

/// A sender that is no name, made from a good one. It is not empty and has no space or line feed, so that a line with it has its fields.
pub fn ill_formed(prng: &mut Prng, name: &[u8]) -> Vec<u8> {
    let mut bytes = name.to_vec();
    let at = prng.below(bytes.len() + 1);
    match prng.below(11) {
        0 => bytes.insert(0, prng.between(b'0'.into(), b'9'.into()) as u8),
        1 => bytes.insert(0, b'_'),
        2 => bytes.insert(at, b'.'),
        3 => bytes.resize(NAME_MOST + 1, *prng.pick(b"x1_")),
        4 => bytes.resize(NAME_MOST + prng.between(2, 300), b'x'),
        5 => bytes.insert(at, prng.between(128, 255) as u8),
        6 => bytes.insert(at, *prng.pick(b"\t\r\0\x01\x1f\x7f")),
        7 => bytes.insert(at, *prng.pick(b"-?+#:{}(),*/=;!\"$%&'<>@[\\]^`|~")),
        8 => bytes = prng.pick(&["-", "?", "0", "1", "_", "."]).as_bytes().to_vec(),
        9 => bytes[0] = *prng.pick(b"@[`{/:\xc1"),
        _ => bytes.push(*prng.pick(b"@[`{/:^\xc1")),
    }
    bytes
}

//! State images with one part spoilt. Most are no state any more; some still are, such as one with a sender less.

use super::bench::{self, SMALL};
use super::case::{Call, Case, Step, EXACT};
use super::prng::Prng;
use super::run::Run;
use super::{senders, states};
use crate::image::{cell_in_plane, sender_at, state_image, store_at, CELL, COUNT_AT, NAME_AT, NUMBER_AT, PLANE_AT, STATE_SIZE};
use crate::interpreter::accept;
use crate::interpreter::grammar::{Bench, Sort};
use crate::interpreter::line::SENDERS_MOST;
use crate::interpreter::text::NAME_MOST;

/// Spoilt states are drawn from a source of their own.
const SPOILS: u64 = 0x0073_706f_696c_0000;

/// The ways to spoil an image: the first of them one part each, the others the cells.
const PARTS: usize = 12;
const COUNT: usize = 1;
const WAYS: usize = PARTS + SORTS.len() * CONTENTS;

/// Where a cell stands: at a member of a sort, or at none.
const SORTS: [Option<Sort>; 4] = [None, Some(Sort::Attribute), Some(Sort::Event), Some(Sort::Action)];
/// What is put there: unset or not read, something well formed, something that is not, something near what was there.
const CONTENTS: usize = 4;

/// A state with one part spoilt, each in turn, and calls that find it.
pub fn case(seed: u64, number: u64) -> Case {
    let mut prng = Prng::for_case(seed ^ SPOILS, number);
    let plan = bench::bench(&mut prng, SMALL);
    let text = bench::render(&mut prng, &plan.words);
    let bench = accept(&text).expect("generated benches are valid");
    let way = number as usize % WAYS;
    let mut state = states::random_state(&mut prng, &bench);
    while way == COUNT && state.senders.len() < SENDERS_MOST {
        state = states::random_state(&mut prng, &bench);
    }
    let bytes = in_way(&mut prng, &bench, state_image(&bench, &state), way);
    let mut run = Run::new(&plan, &mut prng);
    run.follow(&state);
    let line = run.call(&mut prng);
    let sender = if prng.chance(15) { senders::ill_formed(&mut prng, run.sender()) } else { run.sender().to_vec() };
    let row = Call::Row { sender };
    let calls = [Call::Check, Call::Fresh, Call::SetState { at: 0, bytes }, row, line];
    Case { text, fill: prng.draw(), steps: calls.map(|call| Step { call, lent: EXACT }).to_vec() }
}

/// An image that stands for a state of the bench, spoilt in any way.
pub fn spoilt(prng: &mut Prng, bench: &Bench, bytes: Vec<u8>) -> Vec<u8> {
    let way = prng.below(WAYS);
    in_way(prng, bench, bytes, way)
}

fn in_way(prng: &mut Prng, bench: &Bench, bytes: Vec<u8>, way: usize) -> Vec<u8> {
    let mut image = Image { bench, bytes };
    match way {
        0 => image.fingerprint(prng),
        // A ninth where eight are known, or a count alone.
        COUNT if prng.chance(50) => image.one_more(prng),
        COUNT => image.bytes[COUNT_AT] = *prng.pick(&[9, 9, 10, 16, 128, 255]),
        2 => image.one_more(prng),
        3 => image.bytes[COUNT_AT] = image.bytes[COUNT_AT].saturating_sub(1),
        4 => image.name_length(prng),
        5 => image.name_byte(prng),
        6 => image.padding(prng),
        7 => image.same_name(prng),
        8 => image.no_number(prng),
        9 => image.read_flag(prng),
        10 => image.store_flag(prng),
        11 => image.attribute(prng),
        cell => image.cell(prng, SORTS[(cell - PARTS) % SORTS.len()], (cell - PARTS) / SORTS.len()),
    }
    image.bytes
}

struct Image<'i> {
    bench: &'i Bench<'i>,
    bytes: Vec<u8>,
}

impl Image<'_> {
    fn entities(&self) -> usize {
        self.bench.entities.len()
    }

    /// The start of a known sender, if there is one.
    fn sender(&self, prng: &mut Prng) -> Option<usize> {
        let count = usize::from(self.bytes[COUNT_AT]);
        (count > 0).then(|| sender_at(self.entities(), prng.below(count)))
    }

    fn name(&self, sender: usize) -> &[u8] {
        &self.bytes[sender + NAME_AT..sender + NAME_AT + usize::from(self.bytes[sender])]
    }

    fn set_name(&mut self, sender: usize, name: &[u8]) {
        self.bytes[sender] = name.len() as u8;
        self.bytes[sender + NAME_AT..sender + NUMBER_AT].fill(0);
        self.bytes[sender + NAME_AT..sender + NAME_AT + name.len()].copy_from_slice(name);
    }

    fn fingerprint(&mut self, prng: &mut Prng) {
        self.bytes[prng.below(COUNT_AT)] ^= 1 << prng.below(8);
    }

    /// One sender more than are there: what lies behind the image is taken for it, or a copy of another, mostly with a name of its own.
    fn one_more(&mut self, prng: &mut Prng) {
        let count = usize::from(self.bytes[COUNT_AT]);
        self.bytes[COUNT_AT] += 1;
        let (end, size) = (sender_at(self.entities(), count), sender_at(self.entities(), 1) - sender_at(self.entities(), 0));
        // A ninth may find no room.
        if count == 0 || end + size > STATE_SIZE || prng.chance(20) {
            return;
        }
        let copied = sender_at(self.entities(), prng.below(count));
        self.bytes.extend_from_within(copied..copied + size);
        if prng.chance(70) {
            let name = senders::near(prng, self.name(end));
            self.set_name(end, &name);
        }
    }

    fn name_length(&mut self, prng: &mut Prng) {
        let Some(sender) = self.sender(prng) else { return };
        let length = self.bytes[sender];
        self.bytes[sender] = *prng.pick(&[0, 0, NAME_MOST as u8 + 1, NAME_MOST as u8 + 1, 255, length + 1, length - 1]);
    }

    fn name_byte(&mut self, prng: &mut Prng) {
        let Some(sender) = self.sender(prng) else { return };
        let last = self.name(sender).len() - 1;
        let any = prng.between(0, last);
        let at = *prng.pick(&[0, last, any]);
        self.bytes[sender + NAME_AT + at] = *prng.pick(b"1_. \0\n-@[`{\xc1\xff");
    }

    /// A byte behind the name.
    fn padding(&mut self, prng: &mut Prng) {
        let Some(sender) = self.sender(prng) else { return };
        let length = self.name(sender).len();
        if length < NAME_MOST {
            let at = if prng.chance(40) { length } else { prng.between(length, NAME_MOST - 1) };
            self.bytes[sender + NAME_AT + at] = *prng.pick(b"a1_\x01\xff");
        }
    }

    fn same_name(&mut self, prng: &mut Prng) {
        let (Some(one), Some(other)) = (self.sender(prng), self.sender(prng)) else { return };
        let name = self.name(one).to_vec();
        self.set_name(other, &name);
    }

    fn no_number(&mut self, prng: &mut Prng) {
        if let Some(sender) = self.sender(prng) {
            self.bytes[sender + NUMBER_AT..sender + PLANE_AT].fill(0);
        }
    }

    fn read_flag(&mut self, prng: &mut Prng) {
        let Some(sender) = self.sender(prng) else { return };
        if self.entities() > 0 {
            let flag = sender + PLANE_AT + prng.below(self.entities());
            self.bytes[flag] = *prng.pick(&[3, 4, 255]);
        }
    }

    fn store_flag(&mut self, prng: &mut Prng) {
        if self.entities() > 0 {
            let flag = store_at(self.entities(), prng.below(2)) + prng.below(self.entities());
            self.bytes[flag] = *prng.pick(&[2, 3, 255]);
        }
    }

    /// A cell of a store or, as often, of a sender. Any content may be right where it comes to stand.
    fn cell(&mut self, prng: &mut Prng, sort: Option<Sort>, content: usize) {
        let plane = match self.sender(prng) {
            Some(sender) if prng.chance(60) => sender + PLANE_AT,
            _ => store_at(self.entities(), prng.below(2)),
        };
        let Some((entity, member)) = self.place(prng, sort) else { return };
        let at = plane + cell_in_plane(self.entities(), entity, member);
        match content {
            0 => {
                self.bytes[at..at + CELL].fill(0);
                self.bytes[at] = *prng.pick(&[0, 4]);
            }
            1 => self.bytes[at..at + CELL].copy_from_slice(&FORMED[prng.below(FORMED.len())]),
            2 => self.bytes[at..at + CELL].copy_from_slice(&MALFORMED[prng.below(MALFORMED.len())]),
            _ if prng.chance(50) => self.bytes[at] = prng.below(6) as u8,
            _ => self.bytes[at + 1 + prng.below(8)] ^= 1 << prng.below(8),
        }
    }

    /// Unsets an attribute in the store now.
    fn attribute(&mut self, prng: &mut Prng) {
        let Some((entity, member)) = self.place(prng, Some(Sort::Attribute)) else { return };
        let at = store_at(self.entities(), 0) + cell_in_plane(self.entities(), entity, member);
        self.bytes[at..at + CELL].fill(0);
    }

    /// An entity and the number of a member of this sort, or of one that its interface has not.
    fn place(&self, prng: &mut Prng, sort: Option<Sort>) -> Option<(usize, usize)> {
        let sort_at = |entity: usize, member: usize| self.bench.members_of(entity).get(member).map(|member| member.sort);
        let all = (0..self.entities()).flat_map(|entity| (0..12).map(move |member| (entity, member)));
        let fitting: Vec<(usize, usize)> = all.filter(|&(entity, member)| sort_at(entity, member) == sort).collect();
        (!fitting.is_empty()).then(|| *prng.pick(&fitting))
    }
}

/// Cells that are right in some places: tag, then eight bytes, lowest first.
const FORMED: [[u8; CELL]; 5] = [
    [1, 5, 0, 0, 128, 0, 0, 0, 0],
    [1, 255, 255, 255, 255, 0, 0, 0, 0],
    [2, 1, 0, 0, 0, 0, 0, 0, 0],
    [3, 0, 0, 0, 0, 0, 0, 0, 0x80],
    [3, 255, 255, 255, 255, 255, 255, 0xef, 0x7f],
];

/// Cells that are right nowhere.
const MALFORMED: [[u8; CELL]; 7] = [
    [0, 0, 0, 0, 0, 0, 0, 0, 1],
    [1, 0, 0, 0, 0, 1, 0, 0, 0],
    [2, 2, 0, 0, 0, 0, 0, 0, 0],
    [3, 0, 0, 0, 0, 0, 0, 0xf0, 0x7f],
    [3, 1, 0, 0, 0, 0, 0, 0xf8, 0xff],
    [4, 1, 0, 0, 0, 0, 0, 0, 0],
    [5, 0, 0, 0, 0, 0, 0, 0, 0],
];

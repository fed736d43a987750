//! Seeded cases: valid benches and readings of several senders, damage in every way of document 01's table, limits, random bytes; in
//! between sheets, and calls about senders that leave the state alone. Texts with bytes put in, texts with a fault at a rank, calls for
//! entities' names, states with a part spoilt and runs whose lines move little are cases of their own.

pub mod agains;
pub mod bench;
pub mod case;
pub mod cells;
pub mod damage;
pub mod days;
pub mod limits;
pub mod lines;
pub mod names;
pub mod places;
pub mod prng;
pub mod probes;
pub mod quotients;
pub mod ranks;
pub mod rests;
pub mod run;
pub mod senders;
pub mod sheets;
pub mod spoils;
pub mod states;

use bench::{Size, LARGE, LOOSE, SMALL};
use case::{Call, Case, Lent, Step, EXACT, LONGER_MOST};
use prng::Prng;
use run::Run;

use crate::image::{self, BENCH_SIZE};
use crate::interpreter::accept;
use crate::interpreter::grammar::Bench;
use crate::interpreter::machine::State;
use crate::interpreter::text::TEXT_MOST;
use crate::memory::{Memory, OURS};

/// Sheets and probes are drawn from sources of their own, so that the other steps of a case stay what they are without them.
const SHEETS: u64 = 0x0073_6865_6574_0000;
const PROBES: u64 = 0x7072_6f62_6500_0000;

/// The case of this number.
pub fn case(seed: u64, number: u64) -> Case {
    let mut case = without_sheets(seed, number);
    sheets::put_in(&mut Prng::for_case(seed ^ SHEETS, number), &mut case);
    case
}

/// The same case without its sheets.
pub fn without_sheets(seed: u64, number: u64) -> Case {
    let mut case = plain(seed, number);
    probes::put_in(&mut Prng::for_case(seed ^ PROBES, number), &mut case);
    case
}

/// The same case without its sheets and probes.
pub fn plain(seed: u64, number: u64) -> Case {
    let mut prng = Prng::for_case(seed, number);
    let prng = &mut prng;
    let (text, calls) = match prng.weighted(&[36, 4, 19, 6, 4, 3, 4, 14, 5, 5]) {
        0 => readings(prng, SMALL, 12),
        1 => from_words(prng, ranks::faulty),
        2 => damaged(prng),
        3 => from_words(prng, limits::counted),
        4 => from_words(prng, limits::nested),
        5 => long(prng),
        6 => random_text(prng),
        7 => odd_state(prng),
        8 => odd_bench(prng),
        _ if prng.chance(25) => readings(prng, LARGE, 2),
        _ => readings(prng, LOOSE, 8),
    };
    let lent = lent(prng);
    let steps = calls.into_iter().map(|call| Step { call, lent: sometimes_short(prng, lent) }).collect();
    Case { text, fill: prng.draw(), steps }
}

/// Puts steps before those of a case at these places. Each is made for the memory that it finds there, and leaves it as it is.
fn put_between<Made: IntoIterator<Item = Step>>(case: &mut Case, places: &[usize], mut made: impl FnMut(&[u8], &mut Memory) -> Made) {
    let plain = std::mem::take(&mut case.steps);
    let mut memory = Memory::new(case.fill);
    for at in 0..=plain.len() {
        for _ in places.iter().filter(|&&place| place == at) {
            case.steps.extend(made(&case.text, &mut memory));
        }
        let Some(step) = plain.get(at) else { break };
        if places.iter().any(|&place| place > at) {
            OURS.answer(&case.text, step, &mut memory);
        }
        case.steps.push(step.clone());
    }
}

fn lent(prng: &mut Prng) -> Lent {
    if prng.chance(50) {
        return EXACT;
    }
    let mut longer = |size: usize| size + prng.below(LONGER_MOST + 1);
    Lent { bench: longer(EXACT.bench), state: longer(EXACT.state), row: longer(EXACT.row) }
}

fn sometimes_short(prng: &mut Prng, lent: Lent) -> Lent {
    if !prng.chance(4) {
        return lent;
    }
    let short = |prng: &mut Prng, size: usize| if prng.chance(60) { size - 1 } else { prng.below(size) };
    match prng.below(3) {
        0 => Lent { bench: short(prng, EXACT.bench), ..lent },
        1 => Lent { state: short(prng, EXACT.state), ..lent },
        _ => Lent { row: short(prng, EXACT.row), ..lent },
    }
}

type Made = (Vec<u8>, Vec<Call>);

/// A run of so many senders has a line more for each.
const MANY: usize = 4;

/// A valid bench with a run of lines, most of them valid.
fn readings(prng: &mut Prng, size: Size, lines: usize) -> Made {
    let plan = bench::bench(prng, size);
    let text = bench::render(prng, &plan.words);
    let mut calls = vec![Call::Check, Call::Fresh, Call::Header];
    let mut run = Run::new(&plan, prng);
    // Many senders have many lines, as each shall send one.
    let count = prng.between(1, lines) + if run.names.len() >= MANY { run.names.len() } else { 0 };
    calls.extend((0..count).map(|_| run.call(prng)));
    calls.push(row(&run));
    (text, calls)
}

/// The row of who sent last.
fn row(run: &Run) -> Call {
    Call::Row { sender: run.sender().to_vec() }
}

/// Calls on a text that is likely refused: the memory before it stays.
fn checks(text: Vec<u8>) -> Made {
    let line = Call::Line { names: b"by n".to_vec(), values: b"a 1".to_vec() };
    (text, vec![Call::Check, Call::Fresh, Call::Header, line, Call::Row { sender: b"a".to_vec() }])
}

fn from_words(prng: &mut Prng, make: fn(&mut Prng) -> Vec<String>) -> Made {
    let words = make(prng);
    checks(bench::render(prng, &words))
}

/// A bench with one to three faults.
fn damaged(prng: &mut Prng) -> Made {
    let mut words = bench::bench(prng, SMALL).words;
    let main = prng.weighted(&[25, 60, 15]);
    let count = prng.weighted(&[60, 25, 15]) + 1;
    let mut bad_bytes = 0;
    for _ in 0..count {
        let kind = if prng.chance(85) { main } else { prng.below(3) };
        match kind {
            0 => damage::words(prng, &mut words),
            1 => damage::meaning(prng, &mut words),
            _ => bad_bytes += 1,
        }
    }
    let mut text = bench::render(prng, &words);
    for _ in 0..bad_bytes {
        damage::bytes(prng, &mut text);
    }
    checks(text)
}

fn long(prng: &mut Prng) -> Made {
    let mut words = bench::bench(prng, SMALL).words;
    if prng.chance(30) {
        damage::words(prng, &mut words);
    }
    checks(limits::long_text(prng, &words))
}

fn random_text(prng: &mut Prng) -> Made {
    let text = match prng.below(4) {
        0 => {
            let length = prng.below(200);
            prng.bytes(length)
        }
        1 => {
            let length = prng.below(60);
            (0..length).map(|_| *prng.pick(b"ab1r _{}():=,.+-*/#\n\t ruleson")).collect()
        }
        2 => {
            let words = damage::soup(prng);
            bench::render(prng, &words)
        }
        _ => {
            let words = bench::bench(prng, SMALL).words;
            let mut text = bench::render(prng, &words);
            text.truncate(prng.below(text.len() + 1));
            text
        }
    };
    checks(text)
}

/// Calls with the memory that they are lent, as far as it can be told before their sizes are drawn.
struct Told {
    text: Vec<u8>,
    calls: Vec<Call>,
    memory: Memory,
}

impl Told {
    fn new(text: Vec<u8>) -> Told {
        Told { text, calls: Vec::new(), memory: Memory::new(0) }
    }

    fn push(&mut self, call: Call) {
        let step = Step { call, lent: EXACT };
        OURS.answer(&self.text, &step, &mut self.memory);
        self.calls.push(step.call);
    }

    /// The state that the memory stands for, if it is one of this bench.
    fn state(&self, bench: &Bench) -> Option<State> {
        image::decode_state(bench, &self.memory.state)
    }
}

/// A valid bench whose state memory is written by somebody else in between.
fn odd_state(prng: &mut Prng) -> Made {
    let plan = bench::bench(prng, SMALL);
    let text = bench::render(prng, &plan.words);
    let bench = accept(&text).expect("generated benches are valid");
    let mut told = Told::new(text.clone());
    [Call::Check, Call::Fresh].into_iter().for_each(|call| told.push(call));
    let mut run = Run::new(&plan, prng);
    for _ in 0..prng.below(5) {
        told.push(run.call(prng));
    }
    for _ in 0..prng.between(2, 5) {
        told.push(states::odd_state(prng, &bench, &told.memory.state));
        if let Some(state) = told.state(&bench) {
            run.follow(&state);
        }
        told.push(row(&run));
        for _ in 0..prng.between(1, 2) {
            told.push(run.call(prng));
        }
        if prng.chance(40) {
            told.push(Call::Fresh);
            run.restart();
        }
    }
    (text, told.calls)
}

/// A valid bench whose image is then written over, often by that of a text that is nearly the same.
fn odd_bench(prng: &mut Prng) -> Made {
    let plan = bench::bench(prng, SMALL);
    let text = bench::render(prng, &plan.words);
    let mut calls = vec![Call::Check, Call::Fresh];
    let mut run = Run::new(&plan, prng);
    calls.push(run.call(prng));
    for _ in 0..prng.between(1, 3) {
        if prng.chance(50) {
            calls.push(set_bench(&edited(prng, &plan, &text)));
            let (names, values) = run.ahead(prng);
            calls.extend([row(&run), Call::Line { names, values }]);
            // The state is one of this text alone.
            calls.push(set_bench(&text));
        } else {
            calls.push(odd_image(prng, &text));
        }
        calls.extend([Call::Header, run.call(prng), row(&run), Call::Fresh, row(&run)]);
    }
    (text, calls)
}

/// The image of a bench text, whether it is one or not.
fn set_bench(text: &[u8]) -> Call {
    let mut bytes = (text.len() as u32).to_le_bytes().to_vec();
    bytes.extend_from_slice(text);
    Call::SetBench { at: 0, bytes }
}

/// Another accepted text that is nearly this one: a name, a literal, a blank or a comment is another.
fn edited(prng: &mut Prng, plan: &bench::Plan, text: &[u8]) -> Vec<u8> {
    for _ in 0..20 {
        let edited = match prng.below(5) {
            0 => renamed(prng, plan),
            1 => [text, prng.pick(&[" ", "\n", "#", "\t"]).as_bytes()].concat(),
            2 => [prng.pick(&[" ", "\n", "#\n"]).as_bytes(), text].concat(),
            3 => one_byte(prng, text, b" \n\t"),
            _ => one_byte(prng, text, b"0123456789"),
        };
        if edited != text && edited.len() <= TEXT_MOST && accept(&edited).is_ok() {
            return edited;
        }
    }
    [b"\n", text].concat()
}

/// The words with one entity's name, wherever it stands for whatever, turned into another.
fn renamed(prng: &mut Prng, plan: &bench::Plan) -> Vec<u8> {
    let mut words = plan.words.clone();
    if !plan.entities.is_empty() {
        let name = &prng.pick(&plan.entities).name;
        words.iter_mut().filter(|word| *word == name).for_each(|word| *word = "renamed".into());
    }
    words.join(" ").into_bytes()
}

/// Turns one of these bytes into another of them.
fn one_byte(prng: &mut Prng, text: &[u8], bytes: &[u8]) -> Vec<u8> {
    let places: Vec<usize> = (0..text.len()).filter(|&at| bytes.contains(&text[at])).collect();
    let mut text = text.to_vec();
    if !places.is_empty() {
        text[*prng.pick(&places)] = *prng.pick(bytes);
    }
    text
}

fn odd_image(prng: &mut Prng, text: &[u8]) -> Call {
    let length = text.len() as u32;
    let set_length = |length: u32| Call::SetBench { at: 0, bytes: length.to_le_bytes().to_vec() };
    match prng.below(7) {
        0 => set_length(prng.draw() as u32),
        1 => set_length(*prng.pick(&[32_768, 32_769, 0, length + 1, u32::MAX, 65_536 + length, 1 << 31 | length])),
        2 => set_length(length.saturating_sub(1)),
        3 => Call::SetBench { at: 4 + prng.below(text.len() + 1), bytes: prng.bytes(1) },
        4 => Call::SetBench { at: 0, bytes: prng.bytes(BENCH_SIZE) },
        5 => {
            // Another bench, whose state this likely is not.
            let words = bench::bench(prng, SMALL).words;
            set_bench(&bench::render(prng, &words))
        }
        _ => Call::SetBench { at: 4 + text.len(), bytes: prng.bytes(1) },
    }
}

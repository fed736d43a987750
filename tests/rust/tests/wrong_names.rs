//! Entities' names: wrong ways to give them, each with one flaw, are told from the right one by the calls of the generator, and these try
//! everything that they must.

use second::calls::bench_entity_name;
use second::generate;
use second::generate::case::Call;
use second::interpreter::accept;
use second::interpreter::grammar::{self, Bench, Entity, Sort};
use second::interpreter::text::{words, Refusal, Token, Word, TEXT_MOST};
use second::memory::{self, Tally};
use second::names::{by_interface, by_name, required, shown, Shown};

const SEED: u64 = 3;
/// So many texts must show every flaw; a run has several times as many.
const TEXTS: u64 = 2_000;

/// A text, read once for all ways and numbers.
struct Read<'t> {
    text: &'t [u8],
    accepted: Result<Bench<'t>, Refusal>,
    grammatical: Option<Bench<'t>>,
    /// What there is without the bytes from 32,768 on.
    cut: Option<Bench<'t>>,
    words: Vec<Word<'t>>,
    shown: Vec<Shown>,
    /// The same if no `#` began a comment.
    uncommented: Vec<Shown>,
}

impl<'t> Read<'t> {
    fn new(text: &'t [u8]) -> Read<'t> {
        let uncommented: Vec<u8> = text.iter().map(|&byte| if byte == b'#' { b' ' } else { byte }).collect();
        Read {
            text,
            accepted: accept(text),
            grammatical: grammar::read(text).ok(),
            cut: accept(&text[..text.len().min(TEXT_MOST)]).ok(),
            words: words(text).unwrap_or_default(),
            shown: shown(text),
            uncommented: shown(&uncommented),
        }
    }

    /// The entities of an accepted text; none of another.
    fn entities(&self) -> &[Entity<'t>] {
        self.accepted.as_ref().map_or(&[], |bench| &bench.entities)
    }
}

/// The answer to a text and a number.
type Way = fn(&Read, usize) -> u64;

/// Offset and length, which may be anything.
fn told((offset, length): (usize, usize)) -> u64 {
    65_536 * offset as u64 + 256 * length as u64
}

fn name(entity: &Entity) -> u64 {
    told((entity.name.place, entity.name.text.len()))
}

fn right(read: &Read, number: usize) -> u64 {
    read.entities().get(number).map_or(0, name)
}

// Wrong ways with accepted texts.

/// Another entity than that of the number, or none.
fn other(read: &Read, choose: impl Fn(&Bench) -> Option<usize>) -> u64 {
    let number = read.accepted.as_ref().ok().and_then(choose);
    number.map_or(0, |number| right(read, number))
}

/// The entity of the number, but another part of the text.
fn apart(read: &Read, number: usize, part: impl Fn(&Entity) -> (usize, usize)) -> u64 {
    read.entities().get(number).map_or(0, |entity| told(part(entity)))
}

/// The right part, but for its offset.
fn offset(read: &Read, number: usize, offset: impl Fn(&Entity, usize) -> usize) -> u64 {
    apart(read, number, |entity| (offset(entity, entity.name.place), entity.name.text.len()))
}

/// The right part, but for its length.
fn length(read: &Read, number: usize, length: impl Fn(&Entity, usize) -> usize) -> u64 {
    apart(read, number, |entity| (entity.name.place, length(entity, entity.name.text.len())))
}

/// Another answer where an accepted text has no such entity.
fn for_none(read: &Read, number: usize, answer: u64) -> u64 {
    if read.accepted.is_ok() && number >= read.entities().len() {
        return answer;
    }
    right(read, number)
}

fn interface(read: &Read, number: usize) -> Option<u64> {
    let interface = read.accepted.as_ref().ok()?.interfaces.get(number)?;
    Some(told((interface.name.place, interface.name.text.len())))
}

/// The interfaces' names and then the entities'.
fn both(read: &Read, number: usize) -> u64 {
    let interfaces = read.accepted.as_ref().map_or(0, |bench| bench.interfaces.len());
    interface(read, number).unwrap_or_else(|| right(read, number - interfaces.min(number)))
}

/// Only entities that have members of this sort count.
fn with_sort(read: &Read, number: usize, sort: Sort) -> u64 {
    other(read, |bench| {
        let has = |entity: &usize| bench.members_of(*entity).iter().any(|member| member.sort == sort);
        (0..bench.entities.len()).filter(has).nth(number)
    })
}

/// Who finds `entity` in comments too.
fn in_comments(read: &Read, number: usize) -> u64 {
    let found = read.uncommented.get(number).filter(|_| read.accepted.is_ok());
    found.map_or(0, |entity| told(entity.name))
}

/// Who takes names that begin `entity` for that word.
fn begun(read: &Read, number: usize) -> u64 {
    let begins = |pair: &&[Word]| read.text[pair[0].place..].starts_with(b"entity");
    match read.words.windows(2).filter(begins).nth(number) {
        Some([_, Word { token: Token::Name(name), place }]) if read.accepted.is_ok() => told((*place, name.len())),
        _ => 0,
    }
}

/// How many bytes of comments stand before a place.
fn commented(text: &[u8], place: usize) -> usize {
    let lines = text[..place].split(|&byte| byte == b'\n');
    lines.map(|line| line.iter().position(|&byte| byte == b'#').map_or(0, |at| line.len() - at)).sum()
}

/// How many bytes of its line stand before a place.
fn column(text: &[u8], place: usize) -> usize {
    text[..place].iter().rev().take_while(|&&byte| byte != b'\n').count()
}

fn first_bytes(text: &[u8], name: &[u8]) -> usize {
    text.windows(name.len()).position(|bytes| bytes == name).expect("a part of the text")
}

fn first_word(words: &[Word], name: &[u8]) -> usize {
    words.iter().find(|word| word.token == Token::Name(name)).expect("a word of the text").place
}

fn up_to_colon(text: &[u8], place: usize) -> usize {
    text[place..].iter().take_while(|&&byte| byte != b':').count()
}

// Wrong ways with refused texts.

/// An entity that a refused text shows, if the refusal is of some sort.
fn despite(read: &Read, number: usize, is: impl Fn(Refusal, Shown) -> bool) -> u64 {
    let Err(refusal) = read.accepted else { return right(read, number) };
    read.shown.get(number).filter(|entity| is(refusal, **entity)).map_or(0, |entity| told(entity.name))
}

fn ignoring(read: &Read, number: usize, ignored: u8) -> u64 {
    despite(read, number, |refusal, _| refusal.number == ignored)
}

/// Whether a text is refused after its word `rules`.
fn in_rules(text: &[u8], refusal: Refusal) -> bool {
    let before = words(&text[..refusal.place]).unwrap_or_default();
    refusal.number != 11 && before.iter().any(|word| word.token == Token::Reserved("rules"))
}

fn of_bench(bench: Option<&Bench>, number: usize) -> u64 {
    bench.and_then(|bench| bench.entities.get(number)).map_or(0, name)
}

fn refusal(read: &Read, number: usize) -> u64 {
    match read.accepted {
        Err(refusal) => 256 * refusal.place as u64 + u64::from(refusal.number),
        Ok(_) => right(read, number),
    }
}

/// Wrong ways, and how many texts at least must show each.
const WRONG: [(&str, Way, usize); 60] = [
    // Which entity.
    ("numbers from 1", |read, number| other(read, |_| number.checked_sub(1)), 640),
    ("numbers from 1, and 0 the first", |read, number| other(read, |_| Some(number.saturating_sub(1))), 640),
    ("the next", |read, number| other(read, |_| number.checked_add(1)), 640),
    ("from the last on", |read, number| other(read, |bench| bench.entities.len().checked_sub(number)?.checked_sub(1)), 570),
    ("by the order of interfaces", |read, number| other(read, |bench| by_interface(bench).get(number).copied()), 330),
    ("by the order of names", |read, number| other(read, |bench| by_name(bench).get(number).copied()), 500),
    ("of interfaces", |read, number| interface(read, number).unwrap_or(0), 660),
    ("of interfaces, then of entities", both, 660),
    ("the first always", |read, number| other(read, |bench| (number < bench.entities.len()).then_some(0)), 570),
    ("the last for later numbers", |read, number| other(read, |bench| Some(number.min(bench.entities.len().checked_sub(1)?))), 640),
    ("the last once more", |read, number| other(read, |bench| number.checked_sub(usize::from(number == bench.entities.len()))), 640),
    ("again from the first", |read, number| other(read, |bench| number.checked_rem(bench.entities.len())), 640),
    ("low 5 bits", |read, number| right(read, number & 31), 500),
    ("low 8 bits", |read, number| right(read, number & 255), 370),
    ("low 16 bits", |read, number| right(read, number & 65_535), 300),
    ("low 32 bits", |read, number| right(read, number & 4_294_967_295), 210),
    ("without the highest bit", |read, number| right(read, number & (usize::MAX >> 1)), 130),
    ("the first below 0", |read, number| right(read, (number as isize).max(0) as usize), 560),
    ("16 at most", |read, number| if number < 16 { right(read, number) } else { 0 }, 100),
    ("31 at most", |read, number| if number < 31 { right(read, number) } else { 0 }, 9),
    ("those with actions", |read, number| with_sort(read, number, Sort::Action), 210),
    ("those with events", |read, number| with_sort(read, number, Sort::Event), 220),
    ("`entity` in comments", in_comments, 250),
    ("names that begin `entity`", begun, 80),
    // Which part of the text.
    ("offset of the word `entity`", |read, number| offset(read, number, |entity, _| entity.place), 640),
    ("offset one after the word `entity`", |read, number| offset(read, number, |entity, _| entity.place + "entity ".len()), 120),
    ("offset of the interface", |read, number| offset(read, number, |entity, _| entity.interface.place), 640),
    ("offset of the end", |read, number| offset(read, number, |entity, place| place + entity.name.text.len()), 640),
    ("offset from 1", |read, number| offset(read, number, |_, place| place + 1), 640),
    ("offset in 8 bits", |read, number| offset(read, number, |_, place| place & 255), 460),
    ("offset in 12 bits", |read, number| offset(read, number, |_, place| place & 4_095), 20),
    ("offset in 14 bits", |read, number| offset(read, number, |_, place| place & 16_383), 11),
    ("offset by words", |read, number| offset(read, number, |_, place| words(&read.text[..place]).map_or(0, |words| words.len())), 640),
    ("offset without comments", |read, number| offset(read, number, |_, place| place - commented(read.text, place)), 230),
    ("offset in the line", |read, number| offset(read, number, |_, place| column(read.text, place)), 230),
    ("offset of its first bytes", |read, number| offset(read, number, |entity, _| first_bytes(read.text, entity.name.text)), 560),
    ("offset of the first word like it", |read, number| offset(read, number, |entity, _| first_word(&read.words, entity.name.text)), 480),
    ("length of the interface's name", |read, number| length(read, number, |entity, _| entity.interface.text.len()), 590),
    ("length with the next byte", |read, number| length(read, number, |_, length| length + 1), 640),
    ("length up to the colon", |read, number| length(read, number, |entity, _| up_to_colon(read.text, entity.name.place)), 490),
    ("length of 23 at most", |read, number| length(read, number, |_, length| length.min(23)), 190),
    ("length of the entity", |read, number| length(read, number, |entity, _| entity.close + 1 - entity.name.place), 640),
    ("the interface's name", |read, number| apart(read, number, |entity| (entity.interface.place, entity.interface.text.len())), 640),
    ("offset and length exchanged", |read, number| apart(read, number, |entity| (entity.name.text.len(), entity.name.place)), 640),
    ("no entity: the text's end", |read, number| for_none(read, number, told((read.text.len(), 0))), 680),
    ("no entity: 16", |read, number| for_none(read, number, 16), 680),
    // Refused texts.
    ("the refusal", refusal, 610),
    ("11 not looked at", |read, number| ignoring(read, number, 11), 40),
    ("12 not looked at", |read, number| ignoring(read, number, 12), 100),
    ("13 not looked at", |read, number| ignoring(read, number, 13), 170),
    ("14 not looked at", |read, number| ignoring(read, number, 14), 75),
    ("15 not looked at", |read, number| ignoring(read, number, 15), 55),
    ("16 not looked at", |read, number| ignoring(read, number, 16), 45),
    ("17 not looked at", |read, number| ignoring(read, number, 17), 13),
    ("18 not looked at", |read, number| ignoring(read, number, 18), 25),
    ("44 not looked at", |read, number| ignoring(read, number, 44), 18),
    ("as soon as it is read", |read, number| despite(read, number, |refusal, entity| entity.name.0 < refusal.place), 440),
    ("the rules not looked at", |read, number| despite(read, number, |refusal, _| in_rules(read.text, refusal)), 270),
    ("the grammar alone", |read, number| of_bench(read.grammatical.as_ref(), number), 230),
    ("cut at 32768 bytes", |read, number| of_bench(read.cut.as_ref(), number), 9),
];

/// Catches a generator whose texts and numbers do not show some flaw. The way without a flaw is the interpreter's.
#[test]
fn calls_tell_every_flaw() {
    let mut told = [0; WRONG.len()];
    for case in (0..TEXTS).map(|number| generate::names::case(SEED, number)) {
        let read = Read::new(&case.text);
        let mut found = [false; WRONG.len()];
        for step in &case.steps {
            let Call::Name { number } = step.call else { panic!("a call for something else") };
            let right = right(&read, number);
            assert_eq!(right, bench_entity_name(&case.text, number), "without a flaw");
            for (found, (_, wrong, _)) in found.iter_mut().zip(WRONG) {
                *found = *found || wrong(&read, number) != right;
            }
        }
        told.iter_mut().zip(found).for_each(|(count, found)| *count += usize::from(found));
    }
    for ((name, _, least), count) in WRONG.iter().zip(told) {
        println!("{name}: {count} of {least}");
    }
    for ((name, _, least), count) in WRONG.iter().zip(told) {
        assert!(count >= *least, "{name}: told by {count} texts");
    }
}

/// Catches a generator that no longer tries some sort of text, name or number.
#[test]
fn calls_try_everything() {
    let mut tally = Tally::default();
    for number in 0..TEXTS {
        tally.names.add(&memory::answers(&generate::names::case(SEED, number)).names);
    }
    assert_eq!(tally.names.lacking(required(), 6), []);
}

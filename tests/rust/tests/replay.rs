//! The folders themselves and the way they are judged: lines come out as long as asked, files as large, and a difference is seen.

use second::generate::bench::{render, Plan};
use second::generate::prng::Prng;
use second::generate::senders;
use second::interpreter::accept;
use second::interpreter::grammar::Bench;
use second::options::Options;
use second::replay::benches::{self, Mirror, SHORT_NAMES};
use second::replay::draft::Draft;
use second::replay::judge::difference;
use second::replay::program::{start, Ended};
use second::replay::required::{required, TEXT_REFUSALS};
use second::replay::{coverage, exact, folder, Folder};
use second::runner;
use std::path::Path;
use std::process::Command;

const MIRROR: Mirror = Mirror { entities: 2, wholes: 1, reals: 1, actions: 2, names: SHORT_NAMES };

/// Makes a draft on a bench that shows all readings, and hands it on.
fn with_draft(seed: u64, test: impl Fn(&mut Prng, Draft, &[u8])) {
    let mut prng = Prng::new(seed);
    let plan: Plan = MIRROR.plan(&mut prng);
    let text = render(&mut prng, &plan.words);
    let bench: Bench = accept(&text).expect("a good bench");
    let count = senders::count(&mut prng);
    let senders = senders::some(&mut prng, &plan, count);
    let draft = Draft::new(&plan, &bench, benches::event_columns(&mut prng, &plan), senders);
    test(&mut prng, draft, &text);
}

fn printed(text: &[u8], readings: &[u8]) -> Vec<u8> {
    let mut out = Vec::new();
    runner::run(text, readings, &mut out).expect("writing to memory does not fail");
    out
}

#[test]
fn good_lines_of_any_length_are_taken() {
    with_draft(1, |prng, mut draft, text| {
        for more in 0..40 {
            let length = exact::shortest(&draft.run) + more;
            let line = exact::good(prng, &draft.run, length).expect("two wholes and two reals take up to 50 bytes more");
            assert_eq!(line.len(), length);
            draft.push(&line);
        }
        let printed = printed(text, &draft.bytes);
        assert!(!String::from_utf8_lossy(&printed).contains("refused"));
    });
}

#[test]
fn bad_lines_have_the_length_asked_for() {
    with_draft(2, |prng, mut draft, _| {
        for length in (0..300).chain([8_191, 8_192, 8_193, 70_000]) {
            let line = exact::bad(prng, &draft.run, length);
            assert_eq!((line.len(), line.contains(&b'\n')), (length, false));
            draft.push(&line);
        }
    });
}

#[test]
fn some_short_lines_are_always_refused() {
    with_draft(3, |prng, mut draft, _| {
        for _ in 0..200 {
            let before = draft.printed;
            draft.push(&exact::refused(prng));
            assert_eq!(draft.printed, before + 11);
        }
    });
}

#[test]
fn line_feeds_come_to_their_places() {
    for seed in 0..20 {
        with_draft(seed, |prng, mut draft, text| {
            draft.sparse = seed % 2 == 0;
            let start = draft.bytes.len();
            for offset in [start + 3, 4_095, 4_096, 9_000, 9_001, 40_000] {
                draft.reach(prng, offset);
                assert_eq!((draft.bytes.len(), draft.bytes[offset]), (offset + 1, b'\n'));
            }
            draft.end_at(prng, 65_536, seed % 3 == 0);
            assert_eq!((draft.bytes.len(), draft.bytes.ends_with(b"\n")), (65_536, seed % 3 == 0));
            // The draft knows what is printed.
            assert_eq!(draft.printed, printed(text, &draft.bytes).len());
        });
    }
}

#[test]
fn printing_comes_to_its_length() {
    let hit = |seed: u64, length: usize| {
        let count = std::cell::Cell::new(0);
        with_draft(seed, |prng, mut draft, text| {
            draft.print_up_to(prng, length);
            count.set(printed(text, &draft.bytes).len());
        });
        count.get() == length
    };
    let hits = (0..30).filter(|&seed| hit(seed, 4_096 + seed as usize)).count();
    assert!(hits >= 27, "only {hits} of 30 lengths were reached");
}

#[test]
fn refused_benches_are_refused() {
    let mut prng = Prng::new(4);
    for number in TEXT_REFUSALS {
        let text = benches::refused(&mut prng, number);
        assert_eq!(accept(&text).expect_err("refused").number, number);
    }
}

#[test]
fn padded_texts_keep_their_meaning() {
    let mut prng = Prng::new(5);
    for length in [32_767, 32_768, 32_769, 65_537] {
        let text = benches::padded(&mut prng, b"rules end # and a comment", length);
        assert_eq!((text.len(), accept(&text).is_ok()), (length, length <= 32_768));
    }
}

/// Catches folders that are drawn from something else than their seed and number.
#[test]
fn a_seed_makes_a_folder_again() {
    for number in 0..64 {
        assert_eq!(folder(7, number), folder(7, number));
    }
    let same = (0..64).filter(|&number| folder(7, number) == folder(8, number)).count();
    // Those with two missing or empty files can be the same.
    assert!(same < 8, "{same} of 64 folders do not depend on the seed");
}

/// The classes are measured, so a run of poor folders lacks some: here one that has readings of one line only.
#[test]
fn poor_folders_lack_classes() {
    let poor = |readings: &[u8]| Folder {
        recipe: "poor",
        bench: Some(b"rules end".to_vec()),
        readings: Some(readings.to_vec()),
        ..Folder::default()
    };
    let mut coverage = coverage::Coverage::default();
    assert_eq!(coverage.lacking().len(), required().len());
    for readings in [&b"by n"[..], b"by n\n", b"m"] {
        let folder = poor(readings);
        coverage.take(&folder, &folder.wanted());
    }
    let lacking = coverage.lacking();
    assert!(lacking.len() > 100, "{lacking:?}");
    assert!(!lacking.contains(&("sizes of readings", "one line".into())));
    assert!(lacking.contains(&("sizes of readings", "several chunks".into())));
}

#[test]
fn differences() {
    assert_eq!(difference(b"by n\na 1\n", b"by n\na 1\n"), None);
    assert_eq!(difference(b"by n\na 1\n", b"by n\na 2\n"), Some(7));
    assert_eq!(difference(b"by n\na 1\n", b"by n\na 1"), Some(8));
    assert_eq!(difference(b"by n\n", b"by n\nrefused 21\n"), Some(5));
    assert_eq!(difference(b"", b"by n"), Some(0));
}

/// `cat` copies its standard input: it finds nothing in /dev/null, and fails where there is no input.
#[test]
fn standard_input_is_closed() {
    let run = |closed_input| {
        let folder = Folder { closed_input, ..Folder::default() };
        start(Command::new("/bin/cat"), &folder, Path::new("/")).expect("cat starts").finish().expect("cat ends")
    };
    assert_eq!((run(false).ended, run(false).printed.len()), (Ended::Code(0), 0));
    assert_eq!((run(true).ended, run(true).printed.len()), (Ended::Code(1), 0));
}

#[test]
fn words_of_the_programs() {
    let read = |words: &str| Options::read(words.split_whitespace().map(str::to_string));
    let plain = read("").expect("no word is needed");
    assert_eq!(read("compare --seed 5 --folders 3 --cases 2"), Some(Options { seed: 5, folders: 3, cases: 2, ..plain }));
    assert_eq!(read("--only 4").map(|options| (options.case_numbers(), options.folder_numbers())), Some((4..5, 0..0)));
    assert_eq!(read("--only-folder 4").map(|options| (options.case_numbers(), options.folder_numbers())), Some((0..0, 4..5)));
    for words in ["--seed", "--seed x", "--program ./other", "--cases 1 2"] {
        assert_eq!(read(words), None, "{words}");
    }
}

//! The interpreter against the engine's archive. These tests exist only where the archive is linked.

use second::generate;
use second::image::BENCH_SIZE;
use second::interpreter::texts_read;
use second::two_runs::{judge, trial, Verdict};
use second::{archive, calls, compare};

#[test]
fn the_archive_is_the_one_on_disk() {
    archive::assert_current();
}

/// Fails if the archive's calls are the interpreter's own, in whatever way they got linked.
#[test]
fn the_engine_is_not_the_interpreter() {
    let mut bench = vec![0; BENCH_SIZE];
    let before = texts_read();
    assert_eq!(archive::bench_check(b"rules end", &mut bench), 0);
    assert_eq!(archive::bench_entity_name(b"rules end", 0), 0);
    assert_eq!(texts_read(), before);
    assert_eq!(calls::bench_check(b"rules end", &mut bench), 0);
    assert_eq!(calls::bench_entity_name(b"rules end", 0), 0);
    assert_eq!(texts_read(), before + 2);
}

#[test]
fn byte_classes_agree() {
    assert_eq!(compare::other_classes(), []);
}

#[test]
fn placed_bytes_agree() {
    for (place, byte, case) in generate::places::every() {
        assert!(compare::run(&case).is_ok(), "byte {byte}, {place:?}");
    }
}

#[test]
fn cases_agree() {
    for number in 0..100 {
        assert!(compare::run(&generate::case(3, number)).is_ok(), "case {number}");
        assert!(compare::run(&generate::ranks::case(3, number)).is_ok(), "text {number} with ranks");
        assert!(compare::run(&generate::names::case(3, number)).is_ok(), "case {number} with names");
        assert!(compare::run(&generate::rests::case(3, number)).is_ok(), "case {number} with rules at rest");
    }
}

/// A line sent again at any later point gives the very row that it gave when it was taken and leaves every byte of the state.
#[test]
fn lines_sent_again_after_every_step_agree() {
    let mut late = 0;
    for number in 0..60 {
        let mut case = generate::without_sheets(3, number);
        generate::agains::put_in(&mut case);
        let Ok(tally) = compare::run(&case) else { panic!("case {number}") };
        late += tally.resent.late;
    }
    assert!(late >= 350, "only {late} lines were sent again after lines of others");
}

/// Catches trials that fail, and trials whose sets hardly ever have an entity come in a line that fires, an action given again after lines
/// of others, or a write that gives way to a higher rank.
#[test]
fn trials_hold() {
    let (mut joining, mut late, mut gave_way) = (0, 0, 0);
    for number in 0..60 {
        let Verdict::Holds(shown) = judge(&trial(5, number)) else { panic!("trial {number}") };
        joining += u64::from(shown.fired_joining);
        late += u64::from(shown.fired_late);
        gave_way += u64::from(shown.gave_way);
    }
    assert!(joining >= 13 && late >= 10 && gave_way >= 8, "only {joining}, {late} and {gave_way} of 60 trials");
}

//! `compare`: random benches, the engine's archive against the second interpreter, call by call. Its words are those of src/options.rs.

use second::compare::{self, Mismatch};
use second::generate::{self, case::Case};
use second::interpreter::line::SENDERS_MOST;
use second::memory::{Tally, NUMBERS};
use second::options::{Options, USAGE};
use second::places::coverage::place_name;
use second::resent::Seen;
use second::two_runs::{self, Verdict};
use second::{archive, names, ranks, rests, shrink};
use std::env;
use std::process::ExitCode;

/// One case in so many tries the promise about two runs.
const TWO_RUNS_EVERY: u64 = 6;
/// In one case of so many every sender's last line is sent again after each step.
const AGAIN_EVERY: u64 = 10;
/// With one case of so many comes one whose lines move little.
const REST_EVERY: u64 = 8;
/// Only the first failing cases are shown.
const SHOWN_MOST: u64 = 3;

/// What all cases showed.
#[derive(Default)]
struct Report {
    tally: Tally,
    passed: u64,
    failed: u64,
    trials: u64,
    void: u64,
    proper: u64,
    proper_and_fired: u64,
    proper_fired_differing: u64,
    proper_joining_differing: u64,
    proper_late_differing: u64,
    pairs: u64,
    /// Pairs of lines sent again, and those after new lines of others.
    again: u64,
    late: u64,
    /// Trials with eight senders.
    eight: u64,
    /// Trials in which a rule with a rank above 0 can write to the set.
    ranked: u64,
    proper_ranked_differing: u64,
    /// Bytes whose classes differ.
    other_classes: u64,
    /// Texts with one byte at one kind of place, and those of them that are checked otherwise.
    placed: u64,
    other_placed: u64,
}

fn main() -> ExitCode {
    let Some(options) = Options::read(env::args().skip(1)) else {
        eprintln!("usage: compare {USAGE}");
        return ExitCode::from(2);
    };
    archive::assert_current();
    let mut report = Report::default();
    report.byte_classes();
    report.placed_bytes();
    options.case_numbers().for_each(|number| report.case(options.seed, number));
    report.print();
    let failures = report.failed + report.other_classes + report.other_placed;
    let complete = options.single() || failures > 0 || report.complete(options.cases);
    println!("{} passed, {} failed", report.passed, failures + u64::from(!complete));
    ExitCode::from(u8::from(failures > 0 || !complete))
}

impl Report {
    /// The class of every byte.
    fn byte_classes(&mut self) {
        for (byte, ours, theirs) in compare::other_classes() {
            println!("byte {byte}: class {ours} by the interpreter, {theirs} by the engine");
            self.other_classes += 1;
        }
    }

    /// A check of every byte at every kind of place.
    fn placed_bytes(&mut self) {
        for (place, byte, case) in generate::places::every() {
            self.placed += 1;
            let Err(mismatch) = compare::run(&case) else { continue };
            if self.other_placed < SHOWN_MOST {
                println!("byte {byte}, {}: {}\n{}", place_name(place), mismatch.what, compare::show(&case, &mismatch));
            }
            self.other_placed += 1;
        }
    }

    fn case(&mut self, seed: u64, number: u64) {
        let ran = if number % TWO_RUNS_EVERY == TWO_RUNS_EVERY - 1 { self.two_runs(seed, number) } else { self.one_run(seed, number) };
        // Each of these counts for what it is made for alone: the answers of the table are for the other cases to draw.
        let put_in = self.compared(number, &generate::places::case(seed, number), |tally, of| tally.places.add(&of.places));
        let spoilt = self.compared(number, &generate::spoils::case(seed, number), |tally, of| tally.senders.add(&of.senders));
        let ranked = self.compared(number, &generate::ranks::case(seed, number), |tally, of| tally.ranks.add(&of.ranks));
        let rested = !number.is_multiple_of(REST_EVERY)
            || self.compared(number, &generate::rests::case(seed, number), |tally, of| tally.rests.add(&of.rests));
        let named = self.compared(number, &generate::names::case(seed, number), |tally, of| tally.names.add(&of.names));
        let passed = put_in && spoilt && ranked && named && rested && ran;
        self.passed += u64::from(passed);
        self.failed += u64::from(!passed);
    }

    /// Compares the two on a case, and counts what it showed.
    fn compared(&mut self, number: u64, case: &Case, count: fn(&mut Tally, &Tally)) -> bool {
        match compare::run(case) {
            Ok(tally) => {
                count(&mut self.tally, &tally);
                true
            }
            Err(mismatch) => self.show(number, case, &mismatch),
        }
    }

    fn one_run(&mut self, seed: u64, number: u64) -> bool {
        let mut case = generate::case(seed, number);
        if number.is_multiple_of(AGAIN_EVERY) {
            generate::agains::put_in(&mut case);
        }
        self.compared(number, &case, Tally::add)
    }

    fn two_runs(&mut self, seed: u64, number: u64) -> bool {
        let trial = two_runs::trial(seed, number);
        self.trials += 1;
        match two_runs::judge(&trial) {
            Verdict::Holds(shown) => {
                self.tally.add(&shown.tally);
                self.pairs += shown.pairs;
                self.proper += u64::from(shown.proper);
                self.proper_and_fired += u64::from(shown.proper && shown.fired);
                self.proper_fired_differing += u64::from(shown.proper && shown.fired && shown.differing);
                self.proper_joining_differing += u64::from(shown.proper && shown.fired_joining && shown.differing);
                self.proper_late_differing += u64::from(shown.proper && shown.fired_late && shown.differing);
                self.again += shown.again;
                self.late += shown.late;
                self.eight += u64::from(shown.senders == SENDERS_MOST);
                self.ranked += u64::from(shown.ranked);
                self.proper_ranked_differing += u64::from(shown.proper && shown.gave_way && shown.differing);
                true
            }
            Verdict::Parts(case, mismatch) => self.show(number, &case, &mismatch),
            Verdict::Fails(what) => {
                if self.failed < SHOWN_MOST {
                    println!("case {number}: two runs part on a closed set: {what}\n{}", two_runs::show(&two_runs::smaller(&trial)));
                }
                false
            }
            Verdict::Void(why) => {
                self.void += 1;
                println!("case {number}: the trial of two runs is void: {why}");
                false
            }
        }
    }

    /// Shows a mismatch, made smaller. Always false: the case failed.
    fn show(&self, number: u64, case: &Case, mismatch: &Mismatch) -> bool {
        if self.failed < SHOWN_MOST {
            println!("case {number}: {}", mismatch.what);
            match shrink::shrink(case) {
                Some((small, mismatch)) => println!("{}", compare::show(&small, &mismatch)),
                None => println!("{}", compare::show(case, mismatch)),
            }
        }
        false
    }

    fn print(&self) {
        println!("the second interpreter against the engine's archive");
        println!("256 byte classes: {} differ", self.other_classes);
        println!("{} texts, every byte at every kind of place: {} differ", self.placed, self.other_placed);
        println!("{} cases, {} calls, {} accepted lines with fired actions", self.passed + self.failed, self.tally.calls, self.tally.fired);
        let counts: Vec<String> = NUMBERS.iter().map(|number| format!("{number}: {}", self.count(*number))).collect();
        println!("answers: {}", counts.join(", "));
        self.tally.places.print();
        self.tally.sheets.print();
        self.tally.senders.print();
        println!("texts and lines by what they try of ranks, each being in many:");
        self.tally.ranks.print();
        println!("calls for entities' names by what they try, each being in many:");
        self.tally.names.print();
        println!("lines and calls by the rules that are tried, each being in many:");
        self.tally.rests.print();
        let Seen { again, late, asked } = self.tally.resent;
        println!("{again} lines sent again that were taken in the same run, {late} of them after lines of others; {asked} rows of such asked for");
        println!(
            "two runs: {} trials ({} void), {} pairs of accepted lines; {} with a nonempty proper closed set, {} of these with a fired action of the set, {} of these with other readings elsewhere, {} of these with an action fired in a line in which an entity of the set comes, {} with one given again after lines of others",
            self.trials,
            self.void,
            self.pairs,
            self.proper,
            self.proper_and_fired,
            self.proper_fired_differing,
            self.proper_joining_differing,
            self.proper_late_differing
        );
        println!("{} pairs sent again, {} of them after lines of others; {} trials with eight senders", self.again, self.late, self.eight);
        println!(
            "{} trials with a rule of a rank above 0 that can write to the set; {} with a nonempty proper closed set, other readings elsewhere and a write to the set that gives way to a higher rank",
            self.ranked, self.proper_ranked_differing
        );
    }

    fn count(&self, number: u8) -> u64 {
        self.tally.answers.get(&number).copied().unwrap_or(0)
    }

    /// Whether every number came up often enough for the cases to mean something.
    fn complete(&self, cases: u64) -> bool {
        let least = (cases / 1000).max(1);
        let mut complete = true;
        for number in NUMBERS.iter().filter(|number| self.count(**number) < least) {
            println!("answer {number} came up less than {least} times");
            complete = false;
        }
        let Tally { places, sheets, senders, .. } = &self.tally;
        for lack in [places.lacking(least), sheets.lacking(least), senders.lacking(least)].concat() {
            println!("{lack}");
            complete = false;
        }
        for (group, name) in self.tally.ranks.lacking(ranks::required(), least) {
            println!("ranks, {group}: {name}: less than {least}");
            complete = false;
        }
        for (group, name) in self.tally.names.lacking(names::required(), least) {
            println!("names, {group}: {name}: less than {least}");
            complete = false;
        }
        for (group, name) in self.tally.rests.lacking(rests::required(), least) {
            println!("rests, {group}: {name}: less than {least}");
            complete = false;
        }
        if self.ranked * 2 < self.trials || self.proper_ranked_differing < (cases / 500).max(1) {
            println!("too few trials of two runs had ranks at the set, or a write to it that gives way to a higher rank");
            complete = false;
        }
        if self.proper_fired_differing < (cases / 200).max(1) {
            println!("too few trials of two runs had a nonempty proper closed set, a fired action and other readings elsewhere");
            complete = false;
        }
        if self.proper_joining_differing < (cases / 200).max(1) {
            println!("too few of such trials had an action of the set fired in a line in which an entity of the set comes");
            complete = false;
        }
        if self.proper_late_differing < (cases / 200).max(1) {
            println!("too few of such trials had an action of the set given again after lines of others");
            complete = false;
        }
        if self.tally.resent.late < (cases / 10).max(1) || self.eight < (cases / 200).max(1) {
            println!("too few lines were sent again after lines of others, or too few trials of two runs had eight senders");
            complete = false;
        }
        complete
    }
}

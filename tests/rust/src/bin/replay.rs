//! `replay`: random folders, the bench runner against the second interpreter, byte by byte. Its words are those of src/options.rs.

use second::options::{Options, USAGE};
use second::replay::coverage::Coverage;
use second::replay::judge::{self, Judged};
use second::replay::program::{self, Ended, PLACE, RUNNER};
use second::replay::{folder, Folder};
use std::collections::BTreeMap;
use std::path::{Path, PathBuf};
use std::process::ExitCode;
use std::{env, fs, io};

/// Only the first failing folders are shown and left for a look.
const SHOWN_MOST: u64 = 3;
/// After so many the rest is not run: each may have hung.
const FAILED_MOST: u64 = 12;

#[derive(Default)]
struct Report {
    coverage: Coverage,
    passed: u64,
    failed: u64,
    ended: BTreeMap<String, u64>,
}

fn main() -> ExitCode {
    let Some(options) = Options::read(env::args().skip(1)) else {
        eprintln!("usage: replay {USAGE}");
        return ExitCode::from(2);
    };
    let mut report = Report::default();
    if let Err(error) = report.run(&options) {
        println!("the bench runner {RUNNER} cannot be run: {error}");
        report.failed += 1;
    }
    report.print();
    let complete = options.single() || report.failed > 0 || report.complete();
    println!("{} passed, {} failed", report.passed, report.failed + u64::from(!complete));
    ExitCode::from(u8::from(report.failed > 0 || !complete))
}

impl Report {
    fn run(&mut self, options: &Options) -> io::Result<()> {
        // A missing program is a failure even where no folder is wanted.
        fs::metadata(RUNNER)?;
        let place = program::work_place();
        for number in options.folder_numbers() {
            if self.failed == FAILED_MOST {
                println!("{FAILED_MOST} folders failed: the rest is not run");
                break;
            }
            self.folder(options.seed, number, &place)?;
        }
        remove_all(&place)
    }

    fn folder(&mut self, seed: u64, number: u64, place: &Path) -> io::Result<()> {
        let folder = folder(seed, number);
        let judged = judge::judge(&folder, place)?;
        self.coverage.take(&folder, &judged.wanted);
        *self.ended.entry(ended(judged.outcome.ended)).or_default() += 1;
        if judged.passed() {
            self.passed += 1;
            return Ok(());
        }
        println!("seed {seed}, folder {number} ({}) fails: --seed {seed} --only-folder {number}", folder.recipe);
        if self.failed < SHOWN_MOST {
            println!("{}", judged.show(&folder));
            keep(&folder, &judged, &kept_place(seed, number, ""))?;
        }
        // Runs that hang are not tried again and again.
        if self.failed < SHOWN_MOST && judged.outcome.ended != Ended::Hung {
            show_smaller(&folder, place, &kept_place(seed, number, "-smaller"))?;
        }
        self.failed += 1;
        Ok(())
    }

    fn print(&self) {
        println!("the second interpreter against the bench runner");
        let ended: Vec<String> = self.ended.iter().map(|(how, count)| format!("{how}: {count}")).collect();
        println!("{} folders, ended: {}", self.passed + self.failed, ended.join(", "));
        self.coverage.print();
    }

    /// Whether every intended class was made.
    fn complete(&self) -> bool {
        let lacking = self.coverage.lacking();
        for (group, name) in &lacking {
            println!("no folder of the class: {group}: {name}");
        }
        lacking.is_empty()
    }
}

fn ended(ended: Ended) -> String {
    match ended {
        Ended::Code(code) => format!("code {code}"),
        Ended::Killed => "by a signal".into(),
        Ended::Hung => "not in time".into(),
    }
}

fn kept_place(seed: u64, number: u64, more: &str) -> PathBuf {
    Path::new(PLACE).join(format!("failed-{seed}-{number}{more}"))
}

/// Leaves a folder for a look, with both printings. What came through a pipe is left as a file, with the places where it was cut.
fn keep(folder: &Folder, judged: &Judged, place: &Path) -> io::Result<()> {
    remove_all(place)?;
    program::write(&Folder { cuts: None, ..folder.clone() }, place)?;
    if let Some(cuts) = &folder.cuts {
        fs::write(place.join("cuts.txt"), format!("{cuts:?}\n"))?;
    }
    fs::write(place.join("wanted.txt"), &judged.wanted)?;
    fs::write(place.join("printed.txt"), &judged.outcome.printed)?;
    println!("left in {}", place.display());
    Ok(())
}

fn show_smaller(folder: &Folder, work: &Path, place: &Path) -> io::Result<()> {
    let small = judge::smaller(folder, work);
    let judged = judge::judge(&small, work)?;
    println!("made smaller: {}", judged.show(&small));
    keep(&small, &judged, place)
}

fn remove_all(place: &Path) -> io::Result<()> {
    match fs::remove_dir_all(place) {
        Err(error) if error.kind() == io::ErrorKind::NotFound => Ok(()),
        result => result,
    }
}

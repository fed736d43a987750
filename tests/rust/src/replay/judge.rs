//! Runs a folder, compares byte by byte, and shows a difference.

use super::pieces::{self, CutLine};
use super::program::{self, Ended, Outcome};
use super::Folder;
use crate::show::show_bytes;
use crate::thin;
use std::io;
use std::path::Path;
use std::process::Command;
use std::time::{Duration, Instant};

/// Bytes shown on each side of the first difference.
const CONTEXT: usize = 60;
/// Making a folder smaller is a courtesy to the reader: it ends after this time.
const PATIENCE: Duration = Duration::from_secs(10);

/// What was to be printed, and what was.
pub struct Judged {
    pub wanted: Vec<u8>,
    pub outcome: Outcome,
}

/// Runs a folder in this place. The interpreter works while the program does.
pub fn judge(folder: &Folder, place: &Path) -> io::Result<Judged> {
    program::write(folder, place)?;
    let started = program::start(Command::new(program::RUNNER), folder, place)?;
    let wanted = folder.wanted();
    Ok(Judged { wanted, outcome: started.finish()? })
}

impl Judged {
    /// A run passes if it printed each byte right and ended by itself.
    pub fn passed(&self) -> bool {
        matches!(self.outcome.ended, Ended::Code(_)) && self.wanted == self.outcome.printed
    }

    /// The first byte that differs, and what stands around it.
    pub fn show(&self, folder: &Folder) -> String {
        let (wanted, printed) = (&self.wanted, &self.outcome.printed);
        let input = if folder.closed_input { "closed" } else { "/dev/null" };
        let mut shown = format!(
            "{} bytes of bench, {} bytes of readings {}, standard input {input}; ended: {:?}\n",
            folder.bench_text().len(),
            folder.readings_text().len(),
            show_way(folder),
            self.outcome.ended
        );
        let Some(at) = difference(wanted, printed) else { return shown + "the printed bytes are right\n" };
        let line = wanted[..at].iter().filter(|&&byte| byte == b'\n').count();
        shown.push_str(&format!(
            "first difference at byte {at}, in line {line} (from 0) of {} and {} bytes\n",
            wanted.len(),
            printed.len()
        ));
        shown.push_str(&format!("interpreter: [{}]\nprogram:     [{}]\n", around(wanted, at), around(printed, at)));
        shown + &show_line(folder.readings_text(), line)
    }
}

/// Where two printings first differ; the end of the shorter one counts.
pub fn difference(wanted: &[u8], printed: &[u8]) -> Option<usize> {
    let same = wanted.iter().zip(printed).take_while(|(a, b)| a == b).count();
    (wanted != printed).then_some(same)
}

fn around(bytes: &[u8], at: usize) -> String {
    show_bytes(&bytes[at.saturating_sub(CONTEXT)..bytes.len().min(at + CONTEXT)])
}

/// How the readings came.
fn show_way(folder: &Folder) -> String {
    match &folder.cuts {
        Some(cuts) => format!("through a pipe, cut at {cuts:?}"),
        None => "in a regular file".into(),
    }
}

/// The line of readings of a number, if it is there.
fn show_line(readings: &[u8], number: usize) -> String {
    let mut start = 0;
    for (line, bytes) in readings.split(|&byte| byte == b'\n').enumerate() {
        if line == number {
            let cut = &bytes[..bytes.len().min(2 * CONTEXT)];
            return format!("its line of readings, {} bytes from offset {start}: [{}]\n", bytes.len(), show_bytes(cut));
        }
        start += bytes.len() + 1;
    }
    String::new()
}

/// A smaller folder that still fails: no pipe if it can be, fewer lines, fewer pieces, then a shorter bench.
pub fn smaller(folder: &Folder, place: &Path) -> Folder {
    let deadline = Instant::now() + PATIENCE;
    let fails = |folder: &Folder| Instant::now() < deadline && judge(folder, place).is_ok_and(|judged| !judged.passed());
    let mut best = folder.clone();
    let regular = Folder { cuts: None, ..folder.clone() };
    if folder.cuts.is_some() && fails(&regular) {
        best = regular;
    }
    fewer_lines(&mut best, &fails);
    fewer_cuts(&mut best, &fails);
    if let Some(text) = &folder.bench {
        let base = best.clone();
        let with = |text: &[u8]| Folder { bench: Some(text.to_vec()), ..base.clone() };
        best.bench = Some(thin::smaller_text(text, &mut |text| fails(&with(text))));
    }
    best
}

/// The lines that are left keep their cuts.
fn fewer_lines(folder: &mut Folder, fails: &dyn Fn(&Folder) -> bool) {
    let Some(readings) = &folder.readings else { return };
    let lines = pieces::lines(readings, folder.cuts.as_deref().unwrap_or(&[]));
    let with = |lines: &[CutLine]| {
        let (readings, cuts) = pieces::joined(lines);
        Folder { readings: Some(readings), cuts: folder.cuts.as_ref().map(|_| cuts), ..folder.clone() }
    };
    let fewer = thin::thin(lines, &mut |lines| fails(&with(lines)));
    *folder = with(&fewer);
}

fn fewer_cuts(folder: &mut Folder, fails: &dyn Fn(&Folder) -> bool) {
    let Some(cuts) = folder.cuts.clone() else { return };
    let with = |cuts: &[usize]| Folder { cuts: Some(cuts.to_vec()), ..folder.clone() };
    let fewer = thin::thin(cuts, &mut |cuts| fails(&with(cuts)));
    folder.cuts = Some(fewer);
}

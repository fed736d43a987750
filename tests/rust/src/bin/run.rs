//! `run FOLDER`: reads bench.txt and readings.txt and prints the rows.

use second::runner;
use std::io::{self, BufWriter, Write};
use std::path::Path;
use std::process::ExitCode;
use std::{env, fs};

fn main() -> ExitCode {
    let Some(folder) = env::args_os().nth(1) else {
        eprintln!("usage: run FOLDER");
        return ExitCode::from(2);
    };
    match run(Path::new(&folder)) {
        Ok(()) => ExitCode::SUCCESS,
        Err(error) => {
            eprintln!("run: {error}");
            ExitCode::FAILURE
        }
    }
}

fn run(folder: &Path) -> io::Result<()> {
    let bench = read(&folder.join("bench.txt"))?;
    let readings = read(&folder.join("readings.txt"))?;
    let mut out = BufWriter::new(io::stdout().lock());
    runner::run(&bench, &readings, &mut out)?;
    out.flush()
}

/// A missing file is empty.
fn read(path: &Path) -> io::Result<Vec<u8>> {
    match fs::read(path) {
        Err(error) if error.kind() == io::ErrorKind::NotFound => Ok(Vec::new()),
        result => result,
    }
}

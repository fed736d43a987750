//! The bench runner in its fixed place, started in a folder.

use super::pipe::{self, Feeder};
use super::Folder;
use std::io::{self, Read};
use std::os::unix::process::CommandExt;
use std::path::{Path, PathBuf};
use std::process::{Child, ChildStdout, Command, Stdio};
use std::sync::mpsc::{self, Receiver};
use std::time::{Duration, Instant};
use std::{fs, thread};

/// The runner under test. Nothing chooses another one.
pub const RUNNER: &str = concat!(env!("CARGO_MANIFEST_DIR"), "/../../target/bin/bench");

/// Where folders are made, and where those stay that show a difference.
pub const PLACE: &str = concat!(env!("CARGO_MANIFEST_DIR"), "/../../target/cargo/replay");

const BENCH: &str = "bench.txt";
const READINGS: &str = "readings.txt";

/// A run that takes longer hangs: it is ended and has failed.
const PATIENCE: Duration = Duration::from_secs(30);
/// What a runner prints beyond this is not read.
const PRINTED_MOST: u64 = 64 << 20;

extern "C" {
    fn close(descriptor: i32) -> i32;
}

/// How a run ended. Document 01 gives no meaning to an exit code, so any code is fine.
#[derive(Clone, Copy, Debug, PartialEq, Eq)]
pub enum Ended {
    Code(i32),
    /// By a signal.
    Killed,
    /// Not in time.
    Hung,
}

#[derive(Clone, Debug)]
pub struct Outcome {
    pub printed: Vec<u8>,
    pub ended: Ended,
}

/// A run under way; its output is read as it comes.
pub struct Started {
    child: Child,
    printed: Receiver<io::Result<Vec<u8>>>,
    feeder: Option<Feeder>,
}

/// Writes a folder's files; a missing file is not there. Of readings through a pipe only the pipe is made: `start` feeds it.
pub fn write(folder: &Folder, place: &Path) -> io::Result<()> {
    fs::create_dir_all(place)?;
    for (name, file) in [(BENCH, &folder.bench), (READINGS, &folder.readings)] {
        // What was there may be a pipe: writing to it would wait for a reader.
        remove(&place.join(name))?;
        match file {
            Some(_) if name == READINGS && folder.cuts.is_some() => pipe::make(&place.join(name))?,
            Some(bytes) => fs::write(place.join(name), bytes)?,
            None => {}
        }
    }
    Ok(())
}

fn remove(file: &Path) -> io::Result<()> {
    match fs::remove_file(file) {
        Err(error) if error.kind() == io::ErrorKind::NotFound => Ok(()),
        result => result,
    }
}

/// A folder of this process alone.
pub fn work_place() -> PathBuf {
    Path::new(PLACE).join(format!("work-{}", std::process::id()))
}

/// Starts a program in a place where the folder is written.
pub fn start(mut command: Command, folder: &Folder, place: &Path) -> io::Result<Started> {
    command.current_dir(place).env_clear().stdin(Stdio::null()).stdout(Stdio::piped()).stderr(Stdio::null());
    if folder.closed_input {
        // Runs in the child, right before the program: `close` is allowed there.
        unsafe { command.pre_exec(close_input) };
    }
    let mut child = command.spawn()?;
    let output = child.stdout.take().expect("the output is piped");
    let (sender, printed) = mpsc::channel();
    // Nobody listens any more if the run was given up.
    thread::spawn(move || drop(sender.send(read(output))));
    Ok(Started { child, printed, feeder: feeder(folder, place) })
}

fn feeder(folder: &Folder, place: &Path) -> Option<Feeder> {
    folder.cuts.as_ref()?;
    let pieces = folder.pieces().into_iter().map(<[u8]>::to_vec).collect();
    Some(Feeder::start(place.join(READINGS), pieces))
}

fn close_input() -> io::Result<()> {
    match unsafe { close(0) } {
        0 => Ok(()),
        _ => Err(io::Error::last_os_error()),
    }
}

fn read(output: ChildStdout) -> io::Result<Vec<u8>> {
    let mut printed = Vec::new();
    output.take(PRINTED_MOST).read_to_end(&mut printed)?;
    Ok(printed)
}

impl Started {
    /// Waits for the end, but not for ever.
    pub fn finish(mut self) -> io::Result<Outcome> {
        let outcome = self.wait()?;
        self.feeder.map_or(Ok(()), Feeder::end)?;
        Ok(outcome)
    }

    fn wait(&mut self) -> io::Result<Outcome> {
        let deadline = Instant::now() + PATIENCE;
        let Ok(printed) = self.printed.recv_timeout(PATIENCE) else { return self.give_up() };
        let printed = printed?;
        while Instant::now() < deadline {
            if let Some(status) = self.child.try_wait()? {
                return Ok(Outcome { printed, ended: status.code().map_or(Ended::Killed, Ended::Code) });
            }
            thread::sleep(Duration::from_micros(50));
        }
        self.give_up()
    }

    fn give_up(&mut self) -> io::Result<Outcome> {
        self.child.kill()?;
        self.child.wait()?;
        let printed = self.printed.recv().unwrap_or_else(|_| Ok(Vec::new()))?;
        Ok(Outcome { printed, ended: Ended::Hung })
    }
}

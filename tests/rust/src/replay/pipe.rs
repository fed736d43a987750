//! A named pipe that is fed piece by piece. The next piece comes only when all before it is read, so each read ends where a piece does,
//! unless it is full.

use std::ffi::{c_char, c_int, c_ulong, CString};
use std::fs::{File, OpenOptions};
use std::io::{self, ErrorKind, Write};
use std::os::fd::AsRawFd;
use std::os::unix::ffi::OsStrExt;
use std::os::unix::fs::OpenOptionsExt;
use std::path::{Path, PathBuf};
use std::sync::mpsc::{self, Receiver, RecvTimeoutError, Sender};
use std::thread::{self, JoinHandle};
use std::time::Duration;

/// Between two looks at the pipe.
const PAUSE: Duration = Duration::from_micros(50);
/// What an empty pipe takes at once. More would leave it to chance where a read ends.
const TAKES: usize = 65_536;

// Linux's numbers.
const FIONREAD: c_ulong = 0x541b;
const O_NONBLOCK: i32 = 0o4000;
/// Nobody has the pipe open for reading.
const ENXIO: i32 = 6;

extern "C" {
    fn mkfifo(path: *const c_char, mode: u32) -> c_int;
    fn ioctl(descriptor: c_int, request: c_ulong, ...) -> c_int;
}

/// Makes a pipe of this name.
pub fn make(path: &Path) -> io::Result<()> {
    let path = CString::new(path.as_os_str().as_bytes())?;
    done(unsafe { mkfifo(path.as_ptr(), 0o600) })
}

fn done(result: c_int) -> io::Result<()> {
    match result {
        0 => Ok(()),
        _ => Err(io::Error::last_os_error()),
    }
}

/// Writes the pieces while a program reads them. A program may read nothing, or stop: its end ends the writing too.
pub struct Feeder {
    /// Dropped when the program has ended: the thread sees that and ends.
    running: Sender<()>,
    thread: JoinHandle<io::Result<()>>,
}

impl Feeder {
    pub fn start(pipe: PathBuf, pieces: Vec<Vec<u8>>) -> Feeder {
        let (running, program) = mpsc::channel();
        let thread = thread::spawn(move || feed(&pipe, &pieces, &Program(program)));
        Feeder { running, thread }
    }

    /// To be called when the program has ended.
    pub fn end(self) -> io::Result<()> {
        drop(self.running);
        self.thread.join().expect("the writer does not panic")
    }
}

/// What the writer knows of the program that reads.
struct Program(Receiver<()>);

impl Program {
    /// Waits a little; false if the program has ended.
    fn runs_on(&self) -> bool {
        self.0.recv_timeout(PAUSE) == Err(RecvTimeoutError::Timeout)
    }
}

fn feed(path: &Path, pieces: &[Vec<u8>], program: &Program) -> io::Result<()> {
    let Some(mut pipe) = open(path, program)? else { return Ok(()) };
    for part in pieces.iter().flat_map(|piece| piece.chunks(TAKES)) {
        if !is_read(&pipe, program)? || !write(&mut pipe, part, program)? {
            return Ok(());
        }
    }
    Ok(())
}

/// Opens the pipe as soon as the program has opened it; `None` if it never does. The open does not wait, as nothing could end that.
fn open(path: &Path, program: &Program) -> io::Result<Option<File>> {
    loop {
        match OpenOptions::new().write(true).custom_flags(O_NONBLOCK).open(path) {
            Err(error) if error.raw_os_error() == Some(ENXIO) => {}
            opened => return opened.map(Some),
        }
        if !program.runs_on() {
            return Ok(None);
        }
    }
}

/// Waits until all that was written is read; false if that never happens.
fn is_read(pipe: &File, program: &Program) -> io::Result<bool> {
    while unread(pipe)? > 0 {
        if !program.runs_on() {
            return Ok(false);
        }
    }
    Ok(true)
}

/// How many bytes wait in the pipe.
fn unread(pipe: &File) -> io::Result<c_int> {
    let mut count: c_int = 0;
    done(unsafe { ioctl(pipe.as_raw_fd(), FIONREAD, &mut count as *mut c_int) })?;
    Ok(count)
}

/// Writes a part whole, though the pipe may be smaller than usual; false if nobody reads any more.
fn write(pipe: &mut File, mut part: &[u8], program: &Program) -> io::Result<bool> {
    while !part.is_empty() {
        match pipe.write(part) {
            Ok(count) => part = &part[count..],
            Err(error) if error.kind() == ErrorKind::WouldBlock && program.runs_on() => {}
            Err(error) if matches!(error.kind(), ErrorKind::WouldBlock | ErrorKind::BrokenPipe) => return Ok(false),
            Err(error) => return Err(error),
        }
    }
    Ok(true)
}

//! `second-calls FOLDER`: CPU time of one call of the second interpreter, as `calls` measures the archive's. A call for a line gets a bench
//! that is read and checked anew, as the archive does; prints NAME, the median, least and most in microseconds a call,
//! and the sum of the rows.

use second::interpreter::line::{self, Taken};
use second::interpreter::{accept, machine, row};
use std::hint::black_box;
use std::path::Path;
use std::{env, fs};

const ROUNDS: usize = 15;

#[repr(C)]
struct Timespec {
    seconds: i64,
    nanoseconds: i64,
}

extern "C" {
    fn clock_gettime(clock: i32, time: *mut Timespec) -> i32;
}

/// CPU time of this thread in microseconds, on 64-bit Linux.
fn microseconds() -> f64 {
    const THREAD_CPU_TIME: i32 = 3;
    let mut time = Timespec { seconds: 0, nanoseconds: 0 };
    // SAFETY: the call writes one timespec to the memory that it is given.
    let status = unsafe { clock_gettime(THREAD_CPU_TIME, &mut time) };
    assert_eq!(status, 0);
    time.seconds as f64 * 1e6 + time.nanoseconds as f64 / 1e3
}

fn report(name: &str, mut times: Vec<f64>, sum: u64) {
    times.sort_by(f64::total_cmp);
    println!("{name} {:.3} {:.3} {:.3} {sum:016x}", times[ROUNDS / 2], times[0], times[ROUNDS - 1]);
}

/// FNV-1a over the bytes of a row.
fn summed(sum: u64, row: &[u8]) -> u64 {
    row.iter().fold(sum, |sum, &byte| (sum ^ u64::from(byte)).wrapping_mul(1_099_511_628_211))
}

fn line_calls(folder: &Path, name: &str, most: usize) {
    let text = fs::read(folder.join(name).join("bench.txt")).expect("bench.txt");
    let readings = fs::read(folder.join(name).join("readings.txt")).expect("readings.txt");
    let mut lines = readings.split(|&byte| byte == b'\n');
    let names = lines.next().expect("names");
    let lines: Vec<&[u8]> = lines.take(most).collect();
    let mut sum = 14_695_981_039_346_656_037;
    let mut times = Vec::new();
    for round in 0..=ROUNDS {
        let mut state = machine::fresh(&accept(&text).ok().expect("accepted")).ok().expect("fresh");
        let from = microseconds();
        for values in &lines {
            let bench = accept(&text).ok().expect("accepted");
            let sender = match line::take(&bench, &state, names, values) {
                Ok(Taken::Resent(sender)) => sender,
                Ok(Taken::Next(next, sender, _)) => {
                    state = next;
                    sender
                }
                Err(_) => continue,
            };
            let row = row::row(&bench, &state.senders[sender]);
            if round == 0 {
                sum = summed(sum, &row);
            }
            black_box(row);
        }
        // The first round sums the rows and is not timed.
        if round > 0 {
            times.push((microseconds() - from) / lines.len() as f64);
        }
    }
    report(&format!("line-{name}"), times, sum);
}

/// The check of a text, and a line under a header that is none.
fn check_calls(folder: &Path, name: &str, file: &str, calls: usize) {
    let text = fs::read(folder.join(file)).expect("a text");
    let state = machine::fresh(&accept(&text).ok().expect("accepted")).ok().expect("fresh");
    timed(&format!("check-{name}"), calls, || {
        black_box(accept(black_box(&text)).is_ok());
    });
    timed(&format!("refused-22-{name}"), calls, || {
        let bench = accept(black_box(&text)).ok().expect("accepted");
        black_box(line::take(&bench, &state, b"x", b"x").is_err());
    });
}

fn timed(label: &str, calls: usize, call: impl Fn()) {
    let times = (0..ROUNDS).map(|_| {
        let from = microseconds();
        for _ in 0..calls {
            call();
        }
        (microseconds() - from) / calls as f64
    });
    report(label, times.collect(), 0);
}

fn main() {
    let folder = env::args_os().nth(1).expect("usage: second-calls FOLDER");
    let folder = Path::new(&folder);
    line_calls(folder, "pedal", 10_000);
    line_calls(folder, "usual", 5_000);
    line_calls(folder, "heavy", 20);
    check_calls(folder, "usual", "usual/bench.txt", 1_000);
    check_calls(folder, "1k", "check/1k.txt", 2_000);
    check_calls(folder, "32k", "check/32k.txt", 50);
}

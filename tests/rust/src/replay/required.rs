//! The names of classes, and those that a run must have: without one of them it has not tried what it is there to try.

use super::pieces::READS;
use super::{CHUNK, CHUNKS};
use crate::counts::Class;

pub const FILES: &str = "missing and empty files";
pub const INPUT: &str = "standard input";
pub const TEXTS: &str = "bench texts";
pub const SIZES: &str = "sizes of readings";
pub const NAMES: &str = "lines of names";
pub const ENDS: &str = "at the ends of chunks";
pub const LENGTHS: &str = "lengths of records";
pub const ANSWERS: &str = "answers to lines";
pub const BYTES: &str = "bytes in readings";
pub const PRINTED: &str = "printed";
pub const ROWS: &str = "rows";
pub const STRETCHES: &str = "stretches";
pub const SENDERS: &str = "senders";
pub const PIPES: &str = "readings through a pipe";

/// Lengths of records that are counted one by one.
pub const RECORDS: [usize; 4] = [8_191, 8_192, 8_193, 8_194];
/// A record that is taken is called long beyond this.
pub const LONG: usize = 4_096;
/// Lengths of what is printed that are counted one by one.
pub const PRINTED_EXACTLY: [usize; 13] =
    [4_096, 8_192, 16_384, 32_767, 32_768, 32_769, 65_535, 65_536, 65_537, 131_071, 131_072, 131_073, 196_608];
pub const TEXT_LENGTHS: [usize; 3] = [32_767, 32_768, 32_769];
/// The numbers that refuse a bench text, in their order.
pub const TEXT_REFUSALS: [u8; 9] = [11, 12, 13, 44, 14, 15, 16, 17, 18];
pub const NAMES_REFUSED: [usize; 3] = [32_767, 32_768, 32_769];
pub const NAMES_BEYOND: [usize; 6] = [4_096, 8_192, 16_384, 20_000, CHUNK, 2 * CHUNK];
pub const ODD_BYTES: [u8; 4] = [0, 9, 13, 255];
pub const STRETCH: usize = 1_000;
pub const MANY_CELLS: usize = 100;
/// Every folder with a pipe is of this class.
pub const ANY_PIPE: &str = "any";
/// Where a record lies.
pub const WITHIN: &str = "in one chunk";
pub const ACROSS: &str = "across chunks";

// Names, the same where a class is seen and where it is required.

pub fn both(bench: &str, readings: &str) -> String {
    format!("bench {bench}, readings {readings}")
}

pub fn answered(number: u8) -> String {
    if number == 0 {
        "accepted".into()
    } else {
        format!("refused {number}")
    }
}

pub fn more_than(chunks: usize) -> String {
    format!("more than {} bytes", chunks * CHUNK)
}

pub fn exactly(length: usize) -> String {
    format!("exactly {length}")
}

pub fn size_name(chunk: usize, off: isize, feed: bool) -> String {
    format!("k*{chunk}{off:+}, {}", if feed { "line feed last" } else { "no line feed last" })
}

pub fn end_name(chunk: usize, what: &str) -> String {
    format!("{chunk} {what}")
}

pub fn piece_name(read: usize, off: isize) -> String {
    format!("a piece of {read}{off:+} bytes")
}

/// Every class that a run must have.
pub fn required() -> Vec<Class> {
    let groups: [(&'static str, Vec<String>); 14] = [
        (FILES, files()),
        (INPUT, input()),
        (TEXTS, texts()),
        (SIZES, sizes()),
        (NAMES, names()),
        (ENDS, ends()),
        (LENGTHS, lengths()),
        (ANSWERS, answers()),
        (BYTES, bytes()),
        (PRINTED, printed()),
        (ROWS, words(&["no cell", "one cell", "a hundred cells or more", "more than 4096 bytes", "more than 16384 bytes"])),
        (STRETCHES, stretches()),
        (SENDERS, senders()),
        (PIPES, pipes()),
    ];
    groups.into_iter().flat_map(|(group, names)| names.into_iter().map(move |name| (group, name))).collect()
}

fn words(names: &[&str]) -> Vec<String> {
    names.iter().map(|name| name.to_string()).collect()
}

fn files() -> Vec<String> {
    let states = ["missing", "empty", "there"];
    states.iter().flat_map(|bench| states.map(|readings| both(bench, readings))).collect()
}

fn input() -> Vec<String> {
    let more = ["", ", readings of several chunks", ", no bench", ", no readings"];
    ["closed", "null"].iter().flat_map(|state| more.map(|more| format!("{state}{more}"))).collect()
}

fn texts() -> Vec<String> {
    let mut names = vec![answered(0)];
    names.extend(TEXT_REFUSALS.map(answered));
    names.extend(words(&["32767 bytes: accepted", "32768 bytes: accepted", "32768 bytes: refused 13", "32769 bytes: refused 11"]));
    names.extend([more_than(1), more_than(2), "too long, but accepted if cut".into()]);
    names
}

fn sizes() -> Vec<String> {
    let mut names = words(&["several chunks", "more than 300000 bytes", "an empty last line", "one line"]);
    for chunk in CHUNKS {
        names.extend([-1, 0, 1].iter().flat_map(|&off| [true, false].map(|feed| size_name(chunk, off, feed))));
    }
    names
}

fn names() -> Vec<String> {
    let mut names = words(&["taken", "refused", "taken, no line feed in the file", "refused, no line feed in the file"]);
    names.push("refused, several chunks without a line feed".into());
    names.extend(NAMES_BEYOND[..4].iter().map(|length| format!("taken, more than {length} bytes")));
    names.extend(NAMES_BEYOND.iter().map(|length| format!("refused, more than {length} bytes")));
    names.extend(NAMES_REFUSED.iter().map(|length| format!("refused, {length} bytes")));
    names.extend([-2, -1, 0, 1].iter().map(|off| format!("taken, line feed at {off:+} of 4096")));
    names
}

fn ends() -> Vec<String> {
    let feeds = ["line feed last", "line feed first", "empty line across"];
    let bytes = ["one byte before", "one byte after", "sender split", "number split", "value split"];
    let kinds = feeds.iter().chain(&bytes);
    kinds.flat_map(|kind| CHUNKS.map(|chunk| end_name(chunk, kind))).collect()
}

fn lengths() -> Vec<String> {
    let mut names = vec![more_than(1), more_than(2)];
    for place in [WITHIN, ACROSS] {
        names.extend(RECORDS.iter().map(|length| format!("{length}, {place}")));
        names.extend([format!("8195 to 65536, {place}"), format!("4097 or more and taken, {place}")]);
    }
    names
}

fn answers() -> Vec<String> {
    let mut names = words(&["taken", "21", "43", "42", "23", "24", "25"]);
    names.extend(words(&["8191 bytes: 23", "8192 bytes: 21", "8192 bytes: 23", "8192 bytes: 43", "8193 bytes: 21", "8194 bytes: 21"]));
    names.extend(["taken", "23", "24", "25"].map(|answer| format!("4097 to 8191 bytes, regular: {answer}")));
    names.extend(words(&["8193 bytes, else regular: 21", "more than 8193 bytes, else regular: 21"]));
    names
}

fn bytes() -> Vec<String> {
    let mut names = words(&["all 256"]);
    names.extend(ODD_BYTES.iter().map(|byte| byte.to_string()));
    names
}

fn printed() -> Vec<String> {
    let mut names = words(&["less than 65536 bytes", "a row ends with a chunk, more follow", "a row lies across chunks"]);
    names.extend((1..=4).map(more_than));
    names.extend(PRINTED_EXACTLY.iter().map(|&length| exactly(length)));
    names
}

fn stretches() -> Vec<String> {
    words(&["1000 lines refused", "1000 lines resent", "more than 65536 bytes refused", "more than 65536 bytes resent"])
}

fn senders() -> Vec<String> {
    let mut names: Vec<String> = (1..=8).map(|count| format!("{count} known")).collect();
    names.extend(words(&["a name of 24 bytes", "a reserved word", "the last new line again", "an earlier line again"]));
    names.extend(words(&["an earlier line again, a chunk later", "an earlier line again that lay across chunks"]));
    names
}

fn pipes() -> Vec<String> {
    let mut names = words(&[ANY_PIPE, "refused bench", "refused line of names", "cut inside a line of names", "a piece of one byte"]);
    names.extend(words(&["cut after a line's first byte", "cut within a line's sender", "cut within a line's number"]));
    names.push("a line in three pieces or more".into());
    names.extend(words(&["cut right before a line feed", "cut right after a line feed", "a record of more than 8192 bytes, cut"]));
    names.push("a record too long before a cut, regular after it".into());
    names.extend(READS.iter().flat_map(|&read| [-1, 1].map(|off| piece_name(read, off))));
    names
}

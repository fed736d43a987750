//! Wrong runners, each with one flaw, and that the folders tell every one of them from the right one.

use second::interpreter::accept;
use second::interpreter::grammar::Bench;
use second::interpreter::line::{self, Taken};
use second::interpreter::machine::{self, Sender, State};
use second::interpreter::row;
use second::replay::{folder, Folder};

/// Sizes of the chunks in which the wrong runners read and print.
const CHUNKS: [usize; 5] = [4_096, 8_192, 16_384, 32_768, 65_536];
const SEED: u64 = 11;
/// So many folders must show every flaw; a run has several times as many.
const FOLDERS: u64 = 480;
/// So many for the flaws of short reads, as only those with a pipe can show them; a run has twice as many.
const PIPE_FOLDERS: u64 = 1_200;

#[derive(Clone, Copy, Debug, PartialEq, Eq)]
struct Runner {
    flaw: Flaw,
    chunk: usize,
}

#[derive(Clone, Copy, Debug, PartialEq, Eq)]
enum Flaw {
    None,
    // Reading in chunks.
    /// A line that lies across the end of a chunk becomes two.
    CutsAtChunks,
    /// What is too long is dropped at the end of a chunk, and the rest is taken for a line.
    ForgetsLongLines,
    /// Where a line feed is a chunk's last byte, the next chunk starts with an empty line.
    EmptyLineAtChunks,
    /// Where a line feed is a chunk's first byte, it is passed over.
    LosesFeedAtChunks,
    /// The last line is lost if the file's size is a multiple of a chunk and the last line feed is missing.
    LosesLineAtFullChunk,
    /// Only the first chunk is read.
    OneChunk,
    // Lines.
    /// A line without a line feed is not seen.
    NeedsLastFeed,
    /// A last line feed opens another line.
    FeedOpensLine,
    SkipsEmptyLines,
    /// One byte less than the most is already too long.
    ShortRecords,
    /// Of a record that is too long the first 8,192 bytes are looked at.
    CutsRecords,
    /// Lines of names end at 16,384 bytes.
    ShortNames,
    StopsAtZero,
    DropsCarriageReturn,
    // Going on.
    StopsAtRefusal,
    /// A refused line of names is told for each line.
    GoesOnAfterNames,
    SilentOnResent,
    /// A line sent again shows what fires now.
    RowOfCellsNow,
    /// Rows begin with the number.
    NoSender,
    /// The senders of a file are forgotten where a chunk ends.
    ForgetsSenders,
    // Files.
    MissingBenchIsSilent,
    MissingReadingsHaveNames,
    /// A bench's bytes beyond the most are not read.
    CutsBench,
    NoPlace,
    // Printing in chunks.
    /// A full buffer is not written at the end.
    LosesFullBuffer,
    /// A row that just fills the buffer is lost.
    LosesFittingRow,
    /// A row that lies across the end of a buffer is cut there.
    CutsRows,
    NoLastFeed,
    // Short reads: those of less than a chunk that are not the last.
    /// A short read is taken for the file's end.
    EndsAtShortRead,
    LosesLastByte,
    /// The end of a short read is taken for a line's end.
    CutsAtShortRead,
    /// The part of a line with which a short read ends is lost.
    LosesPart,
    /// That part is lost if it is one byte.
    LosesFirstByte,
    /// That part is lost if the line's sender is cut.
    LosesSender,
    /// That part is lost if the line's number is cut.
    LosesNumber,
    /// That part is lost if it is already too long, and the rest is taken for a line.
    ForgetsLongPart,
    /// A read that has neither the start nor the end of its line is lost.
    LosesMiddle,
    /// A line feed right after a short read is passed over.
    LosesFeedAfterShortRead,
    /// Where a short read ends with a line feed, the next one starts with an empty line.
    EmptyLineAfterShortRead,
    /// A read of one byte is taken for nothing.
    SkipsOneByte,
    /// The line of names ends with the first short read.
    NamesInFullReads,
    /// A read that is one byte short is taken for a full one.
    TakesOldByte,
}

const FLAWS: [Flaw; 28] = [
    Flaw::CutsAtChunks,
    Flaw::ForgetsLongLines,
    Flaw::EmptyLineAtChunks,
    Flaw::LosesFeedAtChunks,
    Flaw::LosesLineAtFullChunk,
    Flaw::OneChunk,
    Flaw::NeedsLastFeed,
    Flaw::FeedOpensLine,
    Flaw::SkipsEmptyLines,
    Flaw::ShortRecords,
    Flaw::CutsRecords,
    Flaw::ShortNames,
    Flaw::StopsAtZero,
    Flaw::DropsCarriageReturn,
    Flaw::StopsAtRefusal,
    Flaw::GoesOnAfterNames,
    Flaw::SilentOnResent,
    Flaw::RowOfCellsNow,
    Flaw::NoSender,
    Flaw::ForgetsSenders,
    Flaw::MissingBenchIsSilent,
    Flaw::MissingReadingsHaveNames,
    Flaw::CutsBench,
    Flaw::NoPlace,
    Flaw::LosesFullBuffer,
    Flaw::LosesFittingRow,
    Flaw::CutsRows,
    Flaw::NoLastFeed,
];

/// These show only where the readings come through a pipe.
const SHORT_READS: [Flaw; 14] = [
    Flaw::EndsAtShortRead,
    Flaw::LosesLastByte,
    Flaw::CutsAtShortRead,
    Flaw::LosesPart,
    Flaw::LosesFirstByte,
    Flaw::LosesSender,
    Flaw::LosesNumber,
    Flaw::ForgetsLongPart,
    Flaw::LosesMiddle,
    Flaw::LosesFeedAfterShortRead,
    Flaw::EmptyLineAfterShortRead,
    Flaw::SkipsOneByte,
    Flaw::NamesInFullReads,
    Flaw::TakesOldByte,
];

/// What the runner prints.
fn run(runner: Runner, folder: &Folder) -> Vec<u8> {
    print(runner, &rows(runner, folder))
}

fn rows(runner: Runner, folder: &Folder) -> Vec<Vec<u8>> {
    let flaw = runner.flaw;
    let mut text = folder.bench_text();
    if flaw == Flaw::MissingBenchIsSilent && folder.bench.is_none() {
        return Vec::new();
    }
    if flaw == Flaw::CutsBench {
        text = &text[..text.len().min(32_768)];
    }
    match accept(text) {
        Ok(bench) => lines_rows(runner, folder, &bench),
        Err(refusal) if flaw == Flaw::NoPlace => vec![format!("refused {}", refusal.number).into_bytes()],
        Err(refusal) => vec![format!("refused {} {}", refusal.number, refusal.place).into_bytes()],
    }
}

fn lines_rows(runner: Runner, folder: &Folder, bench: &Bench) -> Vec<Vec<u8>> {
    let flaw = runner.flaw;
    let mut lines = read(runner, &gathered(runner, folder)).into_iter();
    let mut names = lines.next().unwrap_or_default();
    if flaw == Flaw::MissingReadingsHaveNames && folder.readings.is_none() {
        names = b"by n".to_vec();
    }
    let columns = line::columns(bench, &names).filter(|_| flaw != Flaw::ShortNames || names.len() <= 16_384);
    let Some(columns) = columns else {
        let told = if flaw == Flaw::GoesOnAfterNames { 1 + lines.len() } else { 1 };
        return vec![b"refused 22".to_vec(); told];
    };
    let mut rows = vec![row::header(bench)];
    let mut state = machine::fresh(bench).expect("a state");
    let mut bytes = names.len() + 1;
    for values in lines {
        let end = bytes + values.len() + 1;
        if flaw == Flaw::ForgetsSenders && bytes / runner.chunk != end / runner.chunk {
            state.senders.clear();
        }
        bytes = end;
        let values = changed(flaw, values);
        match answer(flaw, bench, &mut state, &columns, &values) {
            Ok(row) => rows.extend(row),
            Err(number) => rows.push(format!("refused {number}").into_bytes()),
        }
        if flaw == Flaw::StopsAtRefusal && rows.last().is_some_and(|row| row.starts_with(b"r")) {
            break;
        }
    }
    rows
}

fn answer(flaw: Flaw, bench: &Bench, state: &mut State, columns: &[line::Column], values: &[u8]) -> Result<Option<Vec<u8>>, u8> {
    if flaw == Flaw::ShortRecords && values.len() >= 8_192 {
        return Err(21);
    }
    match line::take_values(bench, state, columns, values)? {
        Taken::Resent(_) if flaw == Flaw::SilentOnResent => Ok(None),
        // That of the cells now.
        Taken::Resent(sender) if flaw == Flaw::RowOfCellsNow => {
            let now = Sender { fired: state.now.cells.clone(), ..state.senders[sender].clone() };
            Ok(Some(row::row(bench, &now)))
        }
        Taken::Resent(sender) => Ok(Some(row::row(bench, &state.senders[sender]))),
        Taken::Next(next, sender, _) => {
            *state = next;
            let row = row::row(bench, &state.senders[sender]);
            Ok(Some(if flaw == Flaw::NoSender { row[state.senders[sender].name.len() + 1..].to_vec() } else { row }))
        }
    }
}

/// The bytes of a file, put together from what the reads give: a chunk, or what is left of a piece.
fn gathered(runner: Runner, folder: &Folder) -> Vec<u8> {
    let Runner { flaw, chunk } = runner;
    let reads: Vec<&[u8]> = folder.pieces().into_iter().flat_map(|piece| piece.chunks(chunk)).collect();
    let mut bytes = Vec::new();
    let mut after_short = false;
    for (number, read) in reads.iter().enumerate() {
        let passed_over = flaw == Flaw::LosesFeedAfterShortRead && after_short && read.starts_with(b"\n");
        bytes.extend_from_slice(&read[usize::from(passed_over)..]);
        after_short = read.len() < chunk && number + 1 < reads.len();
        if after_short && flaw == Flaw::EndsAtShortRead {
            break;
        }
        if after_short {
            at_short_end(runner, read.len(), &mut bytes);
        }
    }
    bytes
}

fn at_short_end(Runner { flaw, chunk }: Runner, read: usize, bytes: &mut Vec<u8>) {
    let start = bytes.iter().rposition(|&byte| byte == b'\n').map_or(0, |feed| feed + 1);
    let part = &bytes[start..];
    match flaw {
        Flaw::LosesLastByte => drop(bytes.pop()),
        Flaw::CutsAtShortRead if !part.is_empty() => bytes.push(b'\n'),
        Flaw::LosesPart => bytes.truncate(start),
        Flaw::LosesFirstByte if part.len() == 1 => bytes.truncate(start),
        Flaw::LosesSender if !part.contains(&b' ') => bytes.truncate(start),
        Flaw::LosesNumber if part.iter().filter(|&&byte| byte == b' ').count() == 1 => bytes.truncate(start),
        Flaw::ForgetsLongPart if start > 0 && part.len() > 8_192 => bytes.truncate(start),
        Flaw::LosesMiddle if part.len() > read => bytes.truncate(bytes.len() - read),
        Flaw::EmptyLineAfterShortRead if part.is_empty() => bytes.push(b'\n'),
        Flaw::SkipsOneByte if read == 1 => drop(bytes.pop()),
        Flaw::NamesInFullReads if start == 0 => bytes.push(b'\n'),
        Flaw::TakesOldByte if read + 1 == chunk => bytes.push(0),
        _ => {}
    }
}

/// The lines of a file, read in chunks.
fn read(Runner { flaw, chunk }: Runner, readings: &[u8]) -> Vec<Vec<u8>> {
    let mut lines = Vec::new();
    let mut line = Vec::new();
    for (at, &byte) in readings.iter().enumerate() {
        if at > 0 && at.is_multiple_of(chunk) {
            at_chunk_end(flaw, &mut line, &mut lines);
        }
        match byte {
            _ if flaw == Flaw::OneChunk && at >= chunk => return lines,
            b'\n' if flaw == Flaw::LosesFeedAtChunks && at > 0 && at.is_multiple_of(chunk) => {}
            b'\n' if flaw == Flaw::SkipsEmptyLines && line.is_empty() => {}
            b'\n' => lines.push(std::mem::take(&mut line)),
            _ => line.push(byte),
        }
    }
    let lost = flaw == Flaw::NeedsLastFeed || (flaw == Flaw::LosesLineAtFullChunk && readings.len().is_multiple_of(chunk));
    let opened = flaw == Flaw::FeedOpensLine && readings.ends_with(b"\n");
    if (!line.is_empty() && !lost) || opened {
        lines.push(line);
    }
    lines
}

fn at_chunk_end(flaw: Flaw, line: &mut Vec<u8>, lines: &mut Vec<Vec<u8>>) {
    match flaw {
        Flaw::CutsAtChunks if !line.is_empty() => lines.push(std::mem::take(line)),
        Flaw::ForgetsLongLines if line.len() > 8_192 => line.clear(),
        Flaw::EmptyLineAtChunks if line.is_empty() => lines.push(Vec::new()),
        _ => {}
    }
}

fn changed(flaw: Flaw, mut values: Vec<u8>) -> Vec<u8> {
    match flaw {
        Flaw::CutsRecords => values.truncate(8_192),
        Flaw::StopsAtZero => values.truncate(values.iter().position(|&byte| byte == 0).unwrap_or(values.len())),
        Flaw::DropsCarriageReturn if values.ends_with(b"\r") => drop(values.pop()),
        _ => {}
    }
    values
}

/// Prints rows through a buffer of one chunk.
fn print(Runner { flaw, chunk }: Runner, rows: &[Vec<u8>]) -> Vec<u8> {
    let mut out = Vec::new();
    for row in rows {
        let room = chunk - out.len() % chunk;
        match flaw {
            Flaw::LosesFittingRow if row.len() + 1 == room => continue,
            Flaw::CutsRows if row.len() + 1 > room => out.extend_from_slice(&row[..room.min(row.len())]),
            _ => out.extend_from_slice(row),
        }
        out.push(b'\n');
    }
    match flaw {
        Flaw::LosesFullBuffer if out.len().is_multiple_of(chunk) => out.truncate(out.len().saturating_sub(chunk)),
        Flaw::NoLastFeed => drop(out.pop()),
        _ => {}
    }
    out
}

/// Checks that each flaw shows in some of these folders.
fn all_show(flaws: &[Flaw], folders: impl Iterator<Item = (u64, Folder)>) {
    let with_chunks = |flaw: &Flaw| CHUNKS.map(|chunk| Runner { flaw: *flaw, chunk });
    let mut hidden: Vec<Runner> = flaws.iter().flat_map(with_chunks).collect();
    for (number, folder) in folders {
        let wanted = folder.wanted();
        let right = Runner { flaw: Flaw::None, chunk: CHUNKS[number as usize % CHUNKS.len()] };
        assert!(run(right, &folder) == wanted, "this test reads or prints chunks wrong, folder {number}");
        hidden.retain(|&runner| run(runner, &folder) == wanted);
    }
    assert!(hidden.is_empty(), "no folder shows {hidden:?}");
}

fn folders(count: u64) -> impl Iterator<Item = (u64, Folder)> {
    (0..count).map(|number| (number, folder(SEED, number)))
}

#[test]
fn every_flaw_shows() {
    all_show(&FLAWS, folders(FOLDERS));
}

#[test]
fn every_flaw_of_short_reads_shows() {
    all_show(&SHORT_READS, folders(PIPE_FOLDERS).filter(|(_, folder)| folder.cuts.is_some()));
}

/// Without the pipes a runner that goes wrong at short reads would pass.
#[test]
fn regular_files_hide_short_reads() {
    for (number, folder) in folders(64) {
        let regular = Folder { cuts: None, ..folder };
        let runner = Runner { flaw: SHORT_READS[number as usize % SHORT_READS.len()], chunk: 4_096 };
        assert!(run(runner, &regular) == regular.wanted(), "folder {number} shows {runner:?}");
    }
}

//! Readings through a pipe: every byte comes, reads come short where they should, and a program that does not read holds nobody up.

use second::generate::prng::Prng;
use second::replay::pieces::{self, PIECES_MOST};
use second::replay::program::{self, start, Ended, Outcome};
use second::replay::required::PIPES;
use second::replay::{classes, exact, folder, Folder};
use std::process::Command;
use std::{fs, io};

/// Feeds readings in pieces to a few words of the shell, in a place of this name.
fn fed(name: &str, words: &str, readings: &[u8], cuts: &[usize]) -> io::Result<Outcome> {
    let folder = Folder { readings: Some(readings.to_vec()), cuts: Some(cuts.to_vec()), ..Folder::default() };
    let place = program::work_place().with_extension(name);
    program::write(&folder, &place)?;
    let mut shell = Command::new("/bin/sh");
    shell.args(["-c", words]);
    let outcome = start(shell, &folder, &place)?.finish()?;
    // A file takes the place of the pipe, as it does in the next folder of a run.
    program::write(&Folder { cuts: None, ..folder }, &place)?;
    assert!(fs::read(place.join("readings.txt"))? == readings, "the file that takes the pipe's place");
    fs::remove_dir_all(place)?;
    Ok(outcome)
}

#[test]
fn all_bytes_come() {
    let mut prng = Prng::new(6);
    for length in [0, 1, 2, 500, 70_000, 200_000] {
        let readings = prng.bytes(length);
        let cuts = pieces::cuts(&mut prng, &readings);
        let outcome = fed("all", "cat readings.txt", &readings, &cuts).expect("the shell runs");
        assert_eq!(outcome.ended, Ended::Code(0));
        assert!(outcome.printed == readings, "{length} bytes cut at {cuts:?}");
    }
}

/// `dd` tells how many of its reads were full and how many short.
#[test]
fn reads_end_where_pieces_do() {
    let reads = |cuts: &[usize]| {
        let words = "dd if=readings.txt of=/dev/null bs=32768 2>&1";
        let printed = fed("reads", words, &[b'1'; 70_000], cuts).expect("the shell runs").printed;
        String::from_utf8_lossy(&printed).lines().next().unwrap_or("").to_string()
    };
    assert_eq!(reads(&[1, 2, 3, 1_000, 32_000, 40_000, 69_999]), "0+8 records in");
    assert_eq!(reads(&[32_767, 65_534]), "0+3 records in");
    assert_eq!(reads(&[32_769]), "2+2 records in");
}

/// A program that is given up ends as `Hung`, not by a code.
#[test]
fn a_program_that_does_not_read_holds_nobody_up() {
    let ended = |words: &str| {
        let outcome = fed("unread", words, &[b'1'; 200_000], &[1, 2, 100_000]).expect("the shell runs");
        (outcome.ended, String::from_utf8_lossy(&outcome.printed).to_string())
    };
    assert_eq!(ended("echo never opened"), (Ended::Code(0), "never opened\n".into()));
    assert_eq!(ended("echo opened only <readings.txt"), (Ended::Code(0), "opened only\n".into()));
    assert_eq!(ended("head -c 2 readings.txt"), (Ended::Code(0), "11".into()));
    assert_eq!(ended("head -c 70000 readings.txt | wc -c; exit 3"), (Ended::Code(3), "70000\n".into()));
}

#[test]
fn cuts_are_places_within_the_file() {
    for seed in 0..200 {
        let mut prng = Prng::new(seed);
        let mut readings = exact::noise(&mut prng, 7 * seed as usize * seed as usize);
        readings.iter_mut().filter(|byte| **byte == 0).for_each(|byte| *byte = b'\n');
        let cuts = pieces::cuts(&mut prng, &readings);
        assert!(cuts.len() < PIECES_MOST && cuts.is_sorted_by(|a, b| a < b), "{cuts:?}");
        assert!(cuts.iter().all(|&cut| 0 < cut && cut < readings.len()), "{cuts:?}");
        assert!(pieces::pieces(&readings, &cuts).concat() == readings, "{cuts:?}");
    }
}

#[test]
fn lines_take_their_cuts_along() {
    let lines = pieces::lines(b"n\n1 22\n\n2 3", &[1, 2, 4, 8, 10]);
    assert_eq!(pieces::joined(&lines), (b"n\n1 22\n\n2 3".to_vec(), vec![1, 2, 4, 8, 10]));
    assert_eq!(pieces::joined(&lines[1..]), (b"1 22\n\n2 3".to_vec(), vec![2, 6, 8]));
    // A cut at the file's end would be none.
    assert_eq!(pieces::joined(&lines[1..3]), (b"1 22\n\n".to_vec(), vec![2]));
}

#[test]
fn some_readings_come_through_a_pipe() {
    let (with, without): (Vec<Folder>, Vec<Folder>) =
        (0..320).map(|number| folder(9, number)).partition(|folder| folder.readings.is_some());
    let pipes = with.iter().filter(|folder| folder.cuts.is_some()).count();
    assert!((with.len() / 20..with.len() / 6).contains(&pipes), "{pipes} of {}", with.len());
    assert!(without.iter().all(|folder| folder.cuts.is_none()));
}

/// The classes of a folder that only a pipe has, but for the one that every pipe has.
fn seen(bench: &str, readings: &[u8], cuts: &[usize]) -> Vec<String> {
    let folder = Folder { bench: Some(bench.into()), readings: Some(readings.into()), cuts: Some(cuts.into()), ..Folder::default() };
    let classes = classes::of(&folder, &folder.wanted());
    classes.into_iter().filter(|(group, name)| *group == PIPES && name != "any").map(|(_, name)| name).collect()
}

#[test]
fn classes_of_cuts() {
    let bench = "interface I { event x : whole } entity e : I { } rules end";
    let lines = |cuts: &[usize]| seen(bench, b"by n e.x\na 1 -\na 2 34\ncam 1 5\n", cuts);
    assert_eq!(lines(&[]), [""; 0]);
    assert_eq!(lines(&[3]), ["cut inside a line of names"]);
    assert_eq!(lines(&[9]), ["cut right after a line feed"]);
    assert_eq!(lines(&[10]), ["cut after a line's first byte"]);
    assert_eq!(lines(&[13, 14]), ["a piece of one byte", "cut right before a line feed"]);
    assert_eq!(lines(&[15, 17, 18]), ["a line in three pieces or more", "a piece of one byte", "cut right after a line feed"]);
    assert_eq!(lines(&[23]), ["cut after a line's first byte", "cut within a line's sender"]);
    assert_eq!(lines(&[24]), ["cut within a line's sender"]);
    assert_eq!(lines(&[25]), [""; 0]);
    let ten = b"by n\na 1\na 2\na 3\na 4\na 5\na 6\na 7\na 8\na 9\na 10";
    assert_eq!(seen("rules end", ten, &[ten.len() - 1]), ["a piece of one byte", "cut within a line's number"]);
    assert_eq!(seen("rules", b"by n\na 1", &[2]), ["refused bench"]);
    assert_eq!(seen("rules end", b"m\na 1", &[2]), ["refused line of names"]);
}

/// Lines that are refused show little, so they count only where they are too long.
#[test]
fn classes_of_cuts_in_long_records() {
    let long = [&b"by n\n"[..], &[b'a'; 9_000], b" 1"].concat();
    assert_eq!(seen("rules end", &long, &[100, 101]), ["a record of more than 8192 bytes, cut"]);
    let tail = ["a record of more than 8192 bytes, cut", "a record too long before a cut, regular after it"];
    assert_eq!(seen("rules end", &long, &[8_999]), tail);
    assert_eq!(seen("rules end", &long, &[4_097]), ["a piece of 4096+1 bytes", tail[0]]);
}

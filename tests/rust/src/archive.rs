//! Safe wrappers over the eight calls of the engine's archive, and over the one call of the archive that is there for tests alone.

use std::collections::hash_map::DefaultHasher;
use std::fs;
use std::hash::Hasher;

/// Where the linked archives lay when they were linked, and what they were.
const LINKED: [(&str, &str); 2] =
    [(env!("ENGINE_ARCHIVE"), env!("ENGINE_ARCHIVE_SUM")), (env!("PROBE_ARCHIVE"), env!("PROBE_ARCHIVE_SUM"))];

/// Ends the program unless the archives that were linked are those that lie there now.
pub fn assert_current() {
    for (path, linked) in LINKED {
        let bytes = fs::read(path).unwrap_or_else(|error| panic!("the archive is gone, {path}: {error}"));
        assert_eq!(format!("{:016x}", sum(&bytes)), linked, "another archive was linked than {path}");
    }
}

/// The same sum as in build.rs.
fn sum(bytes: &[u8]) -> u64 {
    let mut hasher = DefaultHasher::new();
    hasher.write(bytes);
    hasher.finish()
}

mod c {
    extern "C" {
        pub fn bench_check(text: *const u8, text_length: usize, bench: *mut u8, bench_length: usize) -> u64;
        pub fn bench_entity_name(text: *const u8, text_length: usize, number: usize) -> u64;
        pub fn bench_fresh(bench: *const u8, bench_length: usize, state: *mut u8, state_length: usize) -> u64;
        pub fn bench_line(
            bench: *const u8,
            bench_length: usize,
            state: *mut u8,
            state_length: usize,
            names: *const u8,
            names_length: usize,
            values: *const u8,
            values_length: usize,
            row: *mut u8,
            row_length: usize,
        ) -> u64;
        pub fn bench_header(bench: *const u8, bench_length: usize, row: *mut u8, row_length: usize) -> u64;
        pub fn bench_row(
            bench: *const u8,
            bench_length: usize,
            state: *const u8,
            state_length: usize,
            sender: *const u8,
            sender_length: usize,
            row: *mut u8,
            row_length: usize,
        ) -> u64;
        pub fn bench_sheet(
            bench: *const u8,
            bench_length: usize,
            state: *const u8,
            state_length: usize,
            readings: *const u8,
            readings_length: usize,
            cells: *const u8,
            cells_length: usize,
            sheet: *mut u8,
            sheet_length: usize,
        ) -> u64;
        pub fn bench_byte_class(byte: u8) -> u64;
        pub fn rules_tried(
            bench: *const u8,
            bench_length: usize,
            before: *const u8,
            before_length: usize,
            after: *const u8,
            after_length: usize,
            tried: *mut u8,
            tried_length: usize,
        ) -> u64;
    }
}

// In each call: slices are valid for their lengths, and two borrows of which one is exclusive never overlap.

pub fn bench_check(text: &[u8], bench: &mut [u8]) -> u64 {
    unsafe { c::bench_check(text.as_ptr(), text.len(), bench.as_mut_ptr(), bench.len()) }
}

pub fn bench_entity_name(text: &[u8], number: usize) -> u64 {
    unsafe { c::bench_entity_name(text.as_ptr(), text.len(), number) }
}

pub fn bench_fresh(bench: &[u8], state: &mut [u8]) -> u64 {
    unsafe { c::bench_fresh(bench.as_ptr(), bench.len(), state.as_mut_ptr(), state.len()) }
}

pub fn bench_line(bench: &[u8], state: &mut [u8], names: &[u8], values: &[u8], row: &mut [u8]) -> u64 {
    unsafe {
        c::bench_line(
            bench.as_ptr(),
            bench.len(),
            state.as_mut_ptr(),
            state.len(),
            names.as_ptr(),
            names.len(),
            values.as_ptr(),
            values.len(),
            row.as_mut_ptr(),
            row.len(),
        )
    }
}

pub fn bench_header(bench: &[u8], row: &mut [u8]) -> u64 {
    unsafe { c::bench_header(bench.as_ptr(), bench.len(), row.as_mut_ptr(), row.len()) }
}

pub fn bench_row(bench: &[u8], state: &[u8], sender: &[u8], row: &mut [u8]) -> u64 {
    unsafe {
        c::bench_row(bench.as_ptr(), bench.len(), state.as_ptr(), state.len(), sender.as_ptr(), sender.len(), row.as_mut_ptr(), row.len())
    }
}

pub fn bench_sheet(bench: &[u8], state: &[u8], readings: &[u8], cells: &[u8], sheet: &mut [u8]) -> u64 {
    unsafe {
        c::bench_sheet(
            bench.as_ptr(),
            bench.len(),
            state.as_ptr(),
            state.len(),
            readings.as_ptr(),
            readings.len(),
            cells.as_ptr(),
            cells.len(),
            sheet.as_mut_ptr(),
            sheet.len(),
        )
    }
}

pub fn rules_tried(bench: &[u8], before: &[u8], after: &[u8], tried: &mut [u8]) -> u64 {
    unsafe {
        c::rules_tried(
            bench.as_ptr(),
            bench.len(),
            before.as_ptr(),
            before.len(),
            after.as_ptr(),
            after.len(),
            tried.as_mut_ptr(),
            tried.len(),
        )
    }
}

/// Lends nothing.
pub fn bench_byte_class(byte: u8) -> u64 {
    unsafe { c::bench_byte_class(byte) }
}

//! Memory: sizes, bench images, state images, and that refused calls leave every byte.

mod common;
use common::PEDAL;
use second::calls::{bench_check, bench_fresh, bench_header, bench_line, bench_row, bench_sheet};
use second::image::{fingerprint, state_bytes, BENCH_SIZE, ROW_SIZE, SHEET_LEAST, STATE_SIZE};

const FILL: u8 = 0xa5;

struct Memory {
    bench: Vec<u8>,
    state: Vec<u8>,
    row: Vec<u8>,
}

/// A bench with a fresh state, in memory longer than the stated sizes.
fn fresh(text: &str) -> Memory {
    let filled = |size: usize| vec![FILL; size + 9];
    let mut memory = Memory { bench: filled(BENCH_SIZE), state: filled(STATE_SIZE), row: filled(ROW_SIZE) };
    assert_eq!(bench_check(text.as_bytes(), &mut memory.bench), 0);
    assert_eq!(bench_fresh(&memory.bench, &mut memory.state), 0);
    memory
}

/// The pedal bench.
fn pedal() -> Memory {
    fresh(PEDAL)
}

impl Memory {
    fn line(&mut self, values: &str) -> u64 {
        bench_line(&self.bench, &mut self.state, b"by n p.down s.pos", values.as_bytes(), &mut self.row)
    }

    /// A line that is accepted.
    fn sent(mut self, values: &str) -> Memory {
        assert_eq!(self.line(values) & 255, 0, "{values}");
        self
    }

    fn row(&mut self) -> u64 {
        bench_row(&self.bench, &self.state, b"a", &mut self.row)
    }
}

/// The state image of the pedal bench: three entities of one member each.
mod at {
    pub const COUNT: usize = 4;

    /// The flags of the store now, or one cycle before.
    pub fn store(store: usize) -> usize {
        5 + store * 327
    }

    pub fn store_cell(number: usize, entity: usize, member: usize) -> usize {
        store(number) + 3 + entity * 108 + member * 9
    }

    /// The length of a sender's name; the name is at 1, the number at 25, the presence it read at 29.
    pub fn sender(place: usize) -> usize {
        659 + place * 356
    }

    pub fn kept_cell(place: usize, entity: usize, member: usize) -> usize {
        sender(place) + 32 + entity * 108 + member * 9
    }
}

// Bytes.

#[test]
fn bytes_written() {
    let mut memory = pedal();
    assert_eq!(memory.bench[..4], (PEDAL.len() as u32).to_le_bytes());
    assert_eq!(&memory.bench[4..4 + PEDAL.len()], PEDAL.as_bytes());
    assert!(memory.bench[4 + PEDAL.len()..].iter().all(|&byte| byte == FILL));
    assert_eq!(bench_header(&memory.bench, &mut memory.row), 11 << 8);
    assert_eq!(&memory.row[..12], b"by n k.keep\xa5");
    assert_eq!(memory.row(), 5 << 8);
    assert_eq!(&memory.row[..12], b"a 0 -k.keep\xa5");
    assert_eq!(memory.line("a 1 true -5"), 6 << 8);
    assert_eq!(&memory.row[..8], b"a 1 -5.k");
}

#[test]
fn fingerprints() {
    assert_eq!(fingerprint(b""), 0);
    assert_eq!(fingerprint(b"a"), 98);
    assert_eq!(fingerprint(b"ab"), 98 * 257 + 99);
    assert_eq!(fingerprint(b"rules end"), 0x7715_e84f);
    assert_eq!(fingerprint(b"rules end "), 0x8cfe_39c3);
    assert_eq!(fingerprint(&[255; 5]), 0x0a0a_0a19);
    assert_eq!(fingerprint(PEDAL.as_bytes()), 0x5e88_a6c9);
}

#[test]
fn fresh_state() {
    let memory = pedal();
    let length = 5 + 218 * 3;
    assert_eq!(memory.state[..5], [0xc9, 0xa6, 0x88, 0x5e, 0]);
    // All present now, none before; every cell unset.
    assert_eq!(memory.state[at::store(0)..at::store(0) + 3], [1, 1, 1]);
    assert!(memory.state[at::store_cell(0, 0, 0)..length].iter().all(|&byte| byte == 0));
    assert!(memory.state[length..].iter().all(|&byte| byte == FILL));
    // Attributes are set: those of the first entity are at 5 + 2.
    let memory = fresh(
        "interface I { attribute a : whole attribute b : real } entity e : I { a = - 7 b = - 0r } entity f : I { a = 1 b = 1r } rules end",
    );
    assert_eq!(memory.state[4..7], [0, 1, 1]);
    assert_eq!(memory.state[7..16], [1, 249, 255, 255, 127, 0, 0, 0, 0]);
    assert_eq!(memory.state[16..25], [3, 0, 0, 0, 0, 0, 0, 0, 0x80]);
    assert_eq!(memory.state[7 + 108..7 + 108 + 9], [1, 1, 0, 0, 128, 0, 0, 0, 0]);
    assert!(memory.state[7 + 216..5 + 218 * 2].iter().all(|&byte| byte == 0));
}

#[test]
fn state_sizes() {
    assert_eq!(state_bytes(0, 0), 5);
    assert_eq!(state_bytes(3, 0), 659);
    assert_eq!(state_bytes(3, 2), 659 + 2 * 356);
    assert_eq!(state_bytes(0, 8), 5 + 8 * 29);
    assert_eq!(state_bytes(32, 8), STATE_SIZE);
}

/// Every byte of the image after two senders' lines.
#[test]
fn senders_in_the_image() {
    let memory = pedal().sent("cam_1 1 true -5").sent("a 1 - 7").sent("cam_1 2 ? -");
    let mut wanted = vec![0xc9, 0xa6, 0x88, 0x5e, 2];
    let cells = |image: &mut Vec<u8>, filler: u8, first: [[u8; 9]; 3]| {
        for cell in first {
            image.extend(cell);
            (0..11).for_each(|_| image.extend([filler, 0, 0, 0, 0, 0, 0, 0, 0]));
        }
    };
    let (unset, not_read) = ([0; 9], [4, 0, 0, 0, 0, 0, 0, 0, 0]);
    let seven = [1, 7, 0, 0, 128, 0, 0, 0, 0];
    // Now and as the rules saw it: down is unset, pos 7; nothing fired last.
    for _ in 0..2 {
        wanted.extend([1, 1, 1]);
        cells(&mut wanted, 0, [unset, seven, unset]);
    }
    // cam_1 came first: its last line read `?` and fired nothing.
    wanted.extend(*b"\x05cam_1\0\0\0\0\0\0\0\0\0\0\0\0\0\0\0\0\0\0\0\x02\0\0\0");
    wanted.extend([0, 0, 0]);
    cells(&mut wanted, 4, [unset, not_read, unset]);
    wanted.extend(*b"\x01a\0\0\0\0\0\0\0\0\0\0\0\0\0\0\0\0\0\0\0\0\0\0\0\x01\0\0\0");
    wanted.extend([0, 0, 0]);
    cells(&mut wanted, 4, [not_read, seven, unset]);
    assert_eq!(wanted.len(), state_bytes(3, 2));
    assert!(memory.state[..wanted.len()] == wanted);
    assert!(memory.state[wanted.len()..].iter().all(|&byte| byte == FILL));
}

#[test]
fn values_in_the_image() {
    let mut memory = pedal().sent("abcdefghijklmnopqrstuvwx 1 true -5");
    let cell = |at: usize| memory.state[at..at + 9].to_vec();
    assert_eq!(cell(at::store_cell(0, 0, 0)), [2, 1, 0, 0, 0, 0, 0, 0, 0]);
    assert_eq!(cell(at::store_cell(0, 1, 0)), [1, 251, 255, 255, 127, 0, 0, 0, 0]);
    // The fired action stands in the store now, not in the one the rules saw; the sender keeps it beside its readings.
    assert_eq!(cell(at::store_cell(0, 2, 0))[0], 1);
    assert_eq!(cell(at::store_cell(1, 2, 0))[0], 0);
    assert_eq!(cell(at::kept_cell(0, 0, 0)), [2, 1, 0, 0, 0, 0, 0, 0, 0]);
    assert_eq!(cell(at::kept_cell(0, 1, 0)), [1, 251, 255, 255, 127, 0, 0, 0, 0]);
    assert_eq!(cell(at::kept_cell(0, 2, 0)), [1, 251, 255, 255, 127, 0, 0, 0, 0]);
    assert_eq!(cell(at::kept_cell(0, 2, 1)), [4, 0, 0, 0, 0, 0, 0, 0, 0]);
    assert_eq!(&memory.state[at::sender(0)..at::sender(0) + 25], b"\x18abcdefghijklmnopqrstuvwx");
    // Presence is kept as it was read.
    for (values, flags) in [("a 1 - - -", [0, 0, 0]), ("a 2 true false true", [2, 1, 2]), ("a 3 - true false", [0, 2, 1])] {
        assert_eq!(bench_line(&memory.bench, &mut memory.state, b"by n p s k", values.as_bytes(), &mut memory.row) & 255, 0);
        assert_eq!(memory.state[at::sender(1) + 29..at::sender(1) + 32], flags);
    }
    assert_eq!(memory.state[at::store(0)..at::store(0) + 3], [1, 1, 0]);
}

/// Names that are not kept any more leave nothing behind, and a sender keeps its place.
#[test]
fn senders_keep_their_places() {
    let memory = pedal().sent("b 1 - 1").sent("a 1 - 2").sent("b 2 - 3").sent("c 1 - 4").sent("a 2 - 5").sent("a 3 - 6");
    assert_eq!(memory.state[at::COUNT], 3);
    let sender = |place: usize| (memory.state[at::sender(place) + 1], memory.state[at::sender(place) + 25]);
    assert_eq!([sender(0), sender(1), sender(2)], [(b'b', 2), (b'a', 3), (b'c', 1)]);
}

// Refusals.

#[test]
fn short_memory() {
    let mut memory = pedal();
    let (bench, state, row) = (BENCH_SIZE - 1, STATE_SIZE - 1, ROW_SIZE - 1);
    assert_eq!(bench_check(&[b' '; 40_000], &mut memory.bench[..bench]), 31);
    assert_eq!(bench_fresh(&memory.bench[..bench], &mut memory.state), 31);
    assert_eq!(bench_fresh(&memory.bench, &mut memory.state[..state]), 31);
    assert_eq!(bench_header(&memory.bench[..bench], &mut memory.row), 31);
    assert_eq!(bench_header(&memory.bench, &mut memory.row[..row]), 31);
    assert_eq!(bench_row(&memory.bench[..bench], &memory.state, b"a", &mut memory.row), 31);
    assert_eq!(bench_row(&memory.bench, &memory.state[..state], b"a", &mut memory.row), 31);
    assert_eq!(bench_row(&memory.bench, &memory.state, b"a", &mut memory.row[..row]), 31);
    assert_eq!(bench_line(&memory.bench, &mut memory.state[..state], b"", b"", &mut memory.row), 31);
    assert_eq!(bench_line(&memory.bench, &mut memory.state, b"", b"", &mut memory.row[..row]), 31);
    // 31 before 32, and before 43.
    assert_eq!(bench_row(&memory.bench, &memory.state, b"", &mut memory.row[..row]), 31);
    memory.bench[..4].fill(255);
    assert_eq!(bench_line(&memory.bench, &mut memory.state, b"", b"", &mut memory.row[..row]), 31);
    assert_eq!(bench_line(&memory.bench, &mut memory.state, b"", b"", &mut memory.row), 32);
}

#[test]
fn no_bench() {
    let mut memory = pedal();
    memory.bench[4] = b'I';
    assert_eq!(memory.line("a 1 - -"), 32);
    assert_eq!(bench_header(&memory.bench, &mut memory.row), 32);
    // A bench that is refused elsewhere than in its state comes first.
    memory.state[4] = 9;
    assert_eq!(memory.row(), 32);
    assert_eq!(bench_row(&memory.bench, &memory.state, b"1", &mut memory.row), 32);
    memory.bench[..4].copy_from_slice(&32_769u32.to_le_bytes());
    assert_eq!(bench_fresh(&memory.bench, &mut memory.state), 32);
}

/// Writes these bytes at this place of a state with two senders. Gives the number that a row, a line and a sheet answer; a line sent again,
/// so that it leaves the state, and a refused one leaves it anyway.
fn spoilt(at: usize, bytes: &[u8]) -> u64 {
    let mut memory = pedal().sent("bc 1 true -5").sent("a 1 - 7").sent("a 2 ? 7");
    memory.state[at..at + bytes.len()].copy_from_slice(bytes);
    let state = memory.state.clone();
    let row = memory.row() & 255;
    let mut sheet = vec![0; SHEET_LEAST];
    assert_eq!(bench_sheet(&memory.bench, &memory.state, b"by n", b"k.keep", &mut sheet) & 255, row);
    let line = bench_line(&memory.bench, &mut memory.state, b"by n", b"a 0", &mut memory.row);
    assert_eq!(line, if row == 0 { 24 } else { row });
    assert!(memory.state == state);
    row
}

#[test]
fn no_state_stores() {
    let cell = at::store_cell;
    for store in 0..2 {
        assert_eq!(spoilt(at::store(store), &[0]), 0);
        assert_eq!(spoilt(at::store(store) + 2, &[2]), 33);
        assert_eq!(spoilt(at::store(store) + 1, &[255]), 33);
        // The bool event: bools and unset only, and not "not read".
        assert_eq!(spoilt(cell(store, 0, 0), &[2, 1]), 0);
        assert_eq!(spoilt(cell(store, 0, 0), &[2, 2]), 33);
        assert_eq!(spoilt(cell(store, 0, 0), &[1, 0]), 33);
        assert_eq!(spoilt(cell(store, 0, 0), &[4, 0]), 33);
        assert_eq!(spoilt(cell(store, 0, 0), &[0, 1]), 33);
        assert_eq!(spoilt(cell(store, 0, 0), &[5, 0]), 33);
        // A whole stays below 2^32.
        assert_eq!(spoilt(cell(store, 1, 0), &[1, 255, 255, 255, 255, 0]), 0);
        assert_eq!(spoilt(cell(store, 1, 0), &[1, 0, 0, 0, 0, 1]), 33);
        // No member, no value.
        assert_eq!(spoilt(cell(store, 0, 1), &[2, 1]), 33);
        assert_eq!(spoilt(cell(store, 0, 11), &[4, 0]), 33);
    }
}

#[test]
fn no_state_fingerprint() {
    for byte in 0..4 {
        for bit in 0..8 {
            let right = fingerprint(PEDAL.as_bytes()).to_le_bytes()[byte];
            assert_eq!(spoilt(byte, &[right ^ 1 << bit]), 33);
        }
    }
    assert_eq!(spoilt(0, &fingerprint(PEDAL.as_bytes()).to_le_bytes()), 0);
}

#[test]
fn no_state_count() {
    // Fewer senders than were there are a state; more are one only if somebody stands there.
    assert_eq!(spoilt(at::COUNT, &[0]), 0);
    assert_eq!(spoilt(at::COUNT, &[1]), 0);
    assert_eq!(spoilt(at::COUNT, &[2]), 0);
    for count in [3, 8, 9, 10, 128, 130, 255] {
        assert_eq!(spoilt(at::COUNT, &[count]), 33);
    }
}

#[test]
fn no_state_names() {
    let (first, second) = (at::sender(0), at::sender(1));
    let name = |place: usize, length: u8, bytes: &[u8]| spoilt(place, &[&[length], bytes].concat());
    // The first is `bc`, the second `a`.
    assert_eq!(name(first, 2, b"bd"), 0);
    assert_eq!(name(first, 2, b"by"), 0);
    assert_eq!(name(first, 3, b"end"), 0);
    assert_eq!(name(first, 24, b"abcdefghijklmnopqrstuvwx"), 0);
    for length in [0, 25, 26, 128, 255] {
        assert_eq!(name(first, length, b"bc"), 33);
    }
    // A length that is not the name's: bytes behind the name, or zeros in it.
    assert_eq!(name(first, 1, b"bc"), 33);
    assert_eq!(name(first, 3, b"bc"), 33);
    assert_eq!(name(first, 24, b"bc"), 33);
    for bytes in [b"1c", b"_c", b".c", b"b.", b"b ", b" c", b"b\0", b"\0c", b"b-", b"@c", b"[c", b"`c", b"{c", b"b\xc1", b"\xe1c", b"b\n"] {
        assert_eq!(name(first, 2, bytes), 33, "{bytes:?}");
    }
    assert_eq!(name(first, 2, b"bc\0x"), 33);
    assert_eq!(spoilt(first + 3, &[1]), 33);
    assert_eq!(spoilt(first + 24, &[255]), 33);
    // Two of one name, whichever comes first.
    assert_eq!(name(second, 2, b"bc"), 33);
    assert_eq!(name(first, 1, b"a\0"), 33);
    assert_eq!(name(first, 1, b"A\0"), 0);
    assert_eq!(name(second, 1, b"b"), 0);
}

#[test]
fn no_state_kept() {
    for place in 0..2 {
        let (sender, cell) = (at::sender(place), |entity, member| at::kept_cell(place, entity, member));
        assert_eq!(spoilt(sender + 25, &[0, 0, 0, 0]), 33);
        assert_eq!(spoilt(sender + 25, &[0, 0, 0, 1]), 0);
        assert_eq!(spoilt(sender + 25, &[255, 255, 255, 255]), 0);
        assert_eq!(spoilt(sender + 29, &[2]), 0);
        assert_eq!(spoilt(sender + 31, &[3]), 33);
        // Readings at events: of its kind, unset, none.
        assert_eq!(spoilt(cell(0, 0), &[0, 0]), 0);
        assert_eq!(spoilt(cell(0, 0), &[4, 0]), 0);
        assert_eq!(spoilt(cell(0, 0), &[2, 1]), 0);
        assert_eq!(spoilt(cell(0, 0), &[2, 2]), 33);
        assert_eq!(spoilt(cell(0, 0), &[1, 0]), 33);
        assert_eq!(spoilt(cell(0, 0), &[4, 1]), 33);
        assert_eq!(spoilt(cell(0, 0), &[5, 0]), 33);
        // Fired actions: of its kind or unset, and not "not read".
        assert_eq!(spoilt(cell(2, 0), &[1, 0, 0, 0, 128, 0]), 0);
        assert_eq!(spoilt(cell(2, 0), &[0; 9]), 0);
        assert_eq!(spoilt(cell(2, 0), &[4, 0, 0, 0, 0]), 33);
        assert_eq!(spoilt(cell(2, 0), &[2, 0, 0, 0, 0]), 33);
        assert_eq!(spoilt(cell(2, 0), &[1, 0, 0, 0, 0, 1]), 33);
        // No member, no reading.
        assert_eq!(spoilt(cell(0, 1), &[0, 0]), 33);
        assert_eq!(spoilt(cell(0, 1), &[2, 1]), 33);
        assert_eq!(spoilt(cell(2, 11), &[1, 0]), 33);
    }
}

#[test]
fn no_reading_at_an_attribute() {
    let text = "interface I { attribute a : real event r : real action k ( real ) } entity e : I { a = 1r } rules end";
    let answer = |member: usize, cell: [u8; 9]| {
        let mut memory = fresh(text);
        assert_eq!(bench_line(&memory.bench, &mut memory.state, b"by n", b"a 1", &mut memory.row) & 255, 0);
        let at = 5 + 218 + 29 + 1 + 9 * member;
        memory.state[at..at + 9].copy_from_slice(&cell);
        memory.row() & 255
    };
    let finite = [3, 0, 0, 0, 0, 0, 0, 0xe0, 0x7f];
    let infinite = [3, 0, 0, 0, 0, 0, 0, 0xf0, 0x7f];
    let not_a_number = [3, 1, 0, 0, 0, 0, 0, 0xf0, 0xff];
    let not_read = [4, 0, 0, 0, 0, 0, 0, 0, 0];
    assert_eq!([0, 1, 2].map(|member| answer(member, finite)), [33, 0, 0]);
    assert_eq!([0, 1, 2].map(|member| answer(member, infinite)), [33, 33, 33]);
    assert_eq!([0, 1, 2].map(|member| answer(member, not_a_number)), [33, 33, 33]);
    assert_eq!([0, 1, 2].map(|member| answer(member, [0; 9])), [33, 0, 0]);
    assert_eq!([0, 1, 2].map(|member| answer(member, not_read)), [0, 0, 33]);
}

/// "A state belongs to the bench file's text".
#[test]
fn a_state_of_another_text() {
    let text = "interface I { event x : whole } entity e : I { } rules end";
    let others = [
        "interface I { event x : whole } entity e : I { } rules end ",
        " interface I { event x : whole } entity e : I { } rules end",
        "interface I { event x : whole } entity e : I { } rules end#",
        "interface I { event x : whole } entity f : I { } rules end",
        "interface I { event y : whole } entity e : I { } rules end",
        "interface J { event x : whole } entity e : J { } rules end",
        "interface I { event x : whole } entity e : I { }  rules end",
        "interface I { event x : whole } entity e : I { }\nrules end",
    ];
    let mut memory = fresh(text);
    let state = memory.state.clone();
    let line = |memory: &mut Memory| bench_line(&memory.bench, &mut memory.state, b"by n", b"a 1", &mut memory.row) & 255;
    for other in others {
        assert_eq!(bench_check(other.as_bytes(), &mut memory.bench), 0);
        assert_eq!((memory.row() & 255, line(&mut memory)), (33, 33), "{other}");
        let sheet = bench_sheet(&memory.bench, &memory.state, b"by n", b"e.x", &mut vec![0; SHEET_LEAST]);
        assert_eq!(sheet, 33);
        assert!(memory.state == state);
    }
    assert_eq!(bench_check(text.as_bytes(), &mut memory.bench), 0);
    assert_eq!((memory.row() & 255, line(&mut memory)), (0, 0));
}

#[test]
fn attributes_are_set_now() {
    let mut memory = fresh("interface I { attribute a : real } entity e : I { a = 1r } rules end");
    let fresh = memory.state.clone();
    memory.state[6..15].fill(0);
    assert_eq!(memory.row() & 255, 33);
    memory.state = fresh;
    memory.state[6..15].copy_from_slice(&[3, 0, 0, 0, 0, 0, 0, 0xf0, 0x7f]);
    assert_eq!(memory.row() & 255, 33);
    memory.state[12..15].copy_from_slice(&[0, 0xe0, 0x7f]);
    assert_eq!(memory.row() & 255, 0);
}

/// A fresh state of two entities with two attributes each, whose store one cycle before then has these flags and these cells set.
/// Gives the answers of `bench_row` and of a line, which leaves all as lent if it is refused.
fn attributes_before(present: [u8; 2], set: [[bool; 2]; 2]) -> (u64, u64) {
    let text =
        "interface I { attribute a : whole attribute b : bool } entity e : I { a = 1 b = true } entity f : I { a = 2 b = true } rules end";
    let mut memory = fresh(text);
    let before = 5 + 218;
    memory.state[before..before + 2].copy_from_slice(&present);
    for (entity, [a, b]) in set.into_iter().enumerate() {
        let cell = before + 2 + entity * 108;
        memory.state[cell] = u8::from(a);
        memory.state[cell + 9] = 2 * u8::from(b);
    }
    let (state, row) = (memory.state.clone(), memory.row() & 255);
    let line = bench_line(&memory.bench, &mut memory.state, b"by n", b"a 1", &mut memory.row) & 255;
    assert!(line == 0 || memory.state == state);
    (row, line)
}

#[test]
fn attributes_are_set_before_where_present() {
    let (both, none) = ([true; 2], [false; 2]);
    assert_eq!(attributes_before([1, 1], [both, both]), (0, 0));
    assert_eq!(attributes_before([1, 1], [[false, true], both]), (33, 33));
    assert_eq!(attributes_before([1, 1], [[true, false], both]), (33, 33));
    assert_eq!(attributes_before([1, 1], [both, [true, false]]), (33, 33));
    assert_eq!(attributes_before([1, 1], [none, none]), (33, 33));
    // The flag of the same entity counts, not that of another.
    assert_eq!(attributes_before([1, 0], [both, none]), (0, 0));
    assert_eq!(attributes_before([0, 1], [both, none]), (33, 33));
    assert_eq!(attributes_before([1, 0], [none, both]), (33, 33));
}

#[test]
fn attributes_may_be_unset_before_where_absent() {
    for set in [[false, false], [true, false], [false, true], [true, true]] {
        assert_eq!(attributes_before([0, 0], [set, [false, false]]), (0, 0));
        assert_eq!(attributes_before([0, 1], [set, [true, true]]), (0, 0));
    }
}

#[test]
fn refused_lines_leave_every_byte() {
    let mut memory = pedal().sent("a 1 true 1");
    for name in ["b", "c", "d", "e", "f", "g", "h"] {
        memory = memory.sent(&format!("{name} 1 - -"));
    }
    let (state, row) = (memory.state.clone(), memory.row.clone());
    let refused = [
        ("a 1", 21),
        ("1 2 - -", 43),
        ("i 1 - -", 42),
        ("a 2 x 1", 23),
        ("a 3 - -", 24),
        ("b 0 - -", 24),
        ("a 1 - -", 25),
        ("b 1 - 1", 25),
    ];
    for (values, number) in refused {
        assert_eq!(memory.line(values), number);
        assert!(memory.state == state && memory.row == row, "{values}");
    }
    // A resent line leaves the state too.
    assert_eq!(memory.line("a 1 true 1"), 5 << 8);
    assert_eq!(memory.line("h 1 - -"), 5 << 8);
    assert!(memory.state == state);
}

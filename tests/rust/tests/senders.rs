//! Order 5 of document 02: each controller numbers its own lines.

mod common;
use common::{prints, PEDAL};
use second::calls::{bench_check, bench_fresh, bench_header, bench_line, bench_row, bench_sheet};
use second::image::{state_bytes, BENCH_SIZE, ROW_SIZE, SHEET_LEAST, STATE_SIZE};
use second::interpreter::text::{name_form, RESERVED};

/// A bench with a state, in memory.
struct Lent {
    bench: Vec<u8>,
    state: Vec<u8>,
    row: Vec<u8>,
}

fn fresh(text: &str) -> Lent {
    let mut lent = Lent { bench: vec![0; BENCH_SIZE], state: vec![0; STATE_SIZE], row: vec![0; ROW_SIZE] };
    assert_eq!(bench_check(text.as_bytes(), &mut lent.bench), 0);
    assert_eq!(bench_fresh(&lent.bench, &mut lent.state), 0);
    lent
}

impl Lent {
    /// The row of an answer, or the number of a refusal.
    fn given(&self, answer: u64) -> Result<String, u64> {
        match answer & 255 {
            0 => Ok(String::from_utf8(self.row[..(answer >> 8) as usize].to_vec()).expect("rows are ASCII")),
            number => Err(number),
        }
    }

    fn line(&mut self, names: &str, values: &[u8]) -> Result<String, u64> {
        let answer = bench_line(&self.bench, &mut self.state, names.as_bytes(), values, &mut self.row);
        self.given(answer)
    }

    fn row(&mut self, sender: &[u8]) -> Result<String, u64> {
        let answer = bench_row(&self.bench, &self.state, sender, &mut self.row);
        self.given(answer)
    }
}

// Numbers.

#[test]
fn each_sender_numbers_its_own_lines() {
    prints(
        PEDAL,
        "by n p.down s.pos|stage 1 - 100|pedal 1 true -|stage 2 - 140|stage 3 - 150|pedal 2 false -|pedal 3 true -|stage 4 - 1|camera 1 - -",
        "by n k.keep|stage 1 -|pedal 1 100|stage 2 -|stage 3 -|pedal 2 -|pedal 3 150|stage 4 -|camera 1 -",
    );
}

#[test]
fn another_senders_number_does_not_count() {
    prints("rules end", "by n|a 1|a 2|b 2|b 3|b 1|b 3|b 2|a 2|a 1", "by n|a 1|a 2|refused 24|refused 24|b 1|refused 24|b 2|a 2|refused 24");
    // A sender that is not known has the last number 0, which is no number to send again.
    prints("rules end", "by n|a 0|b 0|a 1|b 0|a 0|b 1", "by n|refused 24|refused 24|a 1|refused 24|refused 24|b 1");
    prints("rules end", "by n|a 2|a 4294967295|a 4294967296|a 4294967297|a 1", "by n|refused 24|refused 24|refused 24|refused 24|a 1");
}

// Lines sent again.

/// Keeps what x reads when it changes.
const KEEPER: &str = "interface I { event x : whole event y : whole action k ( whole ) } entity e : I { } entity f : I { } \
    rules when event x from v : I value changed trigger action k ( v.x ) on v end end";

#[test]
fn a_line_sent_again_gives_its_senders_row() {
    let lines =
        "by n e.x f.x|a 1 1 -|b 1 - 2|a 1 1 -|b 1 - 2|a 2 3 4|b 1 - 2|c 1 - -|a 2 3 4|b 1 - 2|c 1 - -|b 2 5 -|a 2 3 4|b 2 5 -|b 1 - 2";
    let rows =
        "by n e.k f.k|a 1 1 -|b 1 - 2|a 1 1 -|b 1 - 2|a 2 3 4|b 1 - 2|c 1 - -|a 2 3 4|b 1 - 2|c 1 - -|b 2 5 -|a 2 3 4|b 2 5 -|refused 24";
    prints(KEEPER, lines, rows);
}

#[test]
fn a_line_sent_again_starts_no_cycle() {
    // The press of b is not lost by a's line sent again in between, nor fired twice.
    let lines = "by n p.down s.pos|a 1 - 5|b 1 false -|a 1 - 5|b 2 true -|a 1 - 5|a 2 - 6|b 2 true -|b 3 true -|b 4 false -|b 5 true -";
    prints(PEDAL, lines, "by n k.keep|a 1 -|b 1 -|a 1 -|b 2 5|a 1 -|a 2 -|b 2 5|b 3 -|b 4 -|b 5 6");
}

#[test]
fn the_readings_are_the_senders_last() {
    // b's readings under a's number are other readings; so are a's under b's.
    let lines = "by n e.x f.x|a 1 1 -|b 1 - 2|a 1 - 2|b 1 1 -|a 1 1 2|a 1 - -|a 1 1 -|b 1 - 2";
    prints(KEEPER, lines, "by n e.k f.k|a 1 1 -|b 1 - 2|refused 25|refused 25|refused 25|refused 25|a 1 1 -|b 1 - 2");
    // The same number and readings of another sender are a line of its own.
    prints(KEEPER, "by n e.x|a 1 1|b 1 1|c 1 1|a 1 1|b 1 1", "by n e.k f.k|a 1 1 -|b 1 - -|c 1 - -|a 1 1 -|b 1 - -");
}

#[test]
fn a_line_sent_again_in_other_columns() {
    let mut lent = fresh(KEEPER);
    assert_eq!(lent.line("by n e.x f.x e", b"a 1 1 - true").as_deref(), Ok("a 1 1 -"));
    assert_eq!(lent.line("by n f.x", b"b 1 3").as_deref(), Ok("b 1 - 3"));
    let state = lent.state.clone();
    for (names, values) in [("by n e e.x", "a 1 true 1"), ("by n f e.x e.y e", "a 1 - 1 - true"), ("by n e.x e f.x f.y", "a 1 1 true - -")]
    {
        assert_eq!(lent.line(names, values.as_bytes()).as_deref(), Ok("a 1 1 -"));
    }
    for (names, values) in [("by n e.x", "a 1 1"), ("by n e e.x f.x", "a 1 true 1 ?"), ("by n e e.x", "a 1 - 1")] {
        assert_eq!(lent.line(names, values.as_bytes()), Err(25));
    }
    assert!(lent.state == state);
}

#[test]
fn a_line_sent_again_after_refused_lines() {
    let lines = "by n e.x|a 1 1|a 3 -|b 2 -|a 2 x|1 1 -|a 1 2|a 2|a 1 1|b 1 7|x 0 -|b 3 -|a 1 1|b 1 7";
    let rows = "by n e.k f.k|a 1 1 -|refused 24|refused 24|refused 23|refused 43|refused 25|refused 21|a 1 1 -|b 1 7 -|refused 24|refused 24|a 1 1 -|b 1 7 -";
    prints(KEEPER, lines, rows);
}

#[test]
fn absent_entities_of_a_line_sent_again() {
    // e leaves after a's line. Sent again it is accepted; every other line that reads e is refused by 23, whatever its number is.
    let lines =
        "by n e e.x|a 1 - 1|b 1 false -|a 1 - 1|a 1 - 2|a 2 - 1|a 0 - 1|a 7 - 1|b 1 - 1|b 2 - 3|c 1 - 1|c 9 - ?|a 1 - 1|b 1 false -";
    let refused = "refused 23|refused 23|refused 23|refused 23|refused 23|refused 23|refused 23|refused 23";
    prints(KEEPER, lines, &format!("by n e.k f.k|a 1 1 -|b 1 - -|a 1 1 -|{refused}|a 1 1 -|b 1 - -"));
    // The readings' form comes before: a value of no form is 23 in any case, so is presence of no form.
    prints(KEEPER, "by n e e.x|a 1 false -|a 1 false x|a 1 ? -|a 1 false -", "by n e.k f.k|a 1 - -|refused 23|refused 23|a 1 - -");
    // The line that makes its entity leave, sent again when it is back.
    prints(KEEPER, "by n e e.x|a 1 false -|b 1 true 5|a 1 false -|b 2 - 6", "by n e.k f.k|a 1 - -|b 1 5 -|a 1 - -|b 2 6 -");
}

#[test]
fn the_row_is_of_the_actions_then_fired() {
    let mut lent = fresh(KEEPER);
    assert_eq!(lent.line("by n e.x f.x", b"a 1 1 2").as_deref(), Ok("a 1 1 2"));
    // An entity that leaves takes its cells along, but not the kept row.
    assert_eq!(lent.line("by n e", b"b 1 false").as_deref(), Ok("b 1 - -"));
    assert_eq!(lent.line("by n e", b"b 2 true").as_deref(), Ok("b 2 - -"));
    let state = lent.state.clone();
    assert_eq!(lent.line("by n e.x f.x", b"a 1 1 2").as_deref(), Ok("a 1 1 2"));
    assert_eq!(lent.row(b"a").as_deref(), Ok("a 1 1 2"));
    assert_eq!(lent.row(b"b").as_deref(), Ok("b 2 - -"));
    assert!(lent.state == state);
}

// Senders.

/// The names of lines, one for each sender.
fn first_lines(senders: &[&str]) -> String {
    senders.iter().map(|sender| format!("|{sender} 1")).collect()
}

const EIGHT: [&str; 8] = ["a", "b", "c", "d", "e", "f", "g", "h"];

#[test]
fn eight_senders_are_known() {
    let lines = format!("by n{}|i 1|i 0|i 2|h 2|a 2|A 1|aa 1|i 1|d 1|h 2", first_lines(&EIGHT));
    let rows = format!("by n{}|refused 42|refused 42|refused 42|h 2|a 2|refused 42|refused 42|refused 42|d 1|h 2", first_lines(&EIGHT));
    prints("rules end", &lines, &rows);
}

#[test]
fn a_sender_is_known_from_its_first_taken_line() {
    // None of the refused lines makes its sender known.
    let seven = first_lines(&EIGHT[..7]);
    let refused = "|i 2 |j 0 |k 1 x|l 1 - -|1m 1 |o 1".replace(" |", " -|");
    let lines = format!("by n e.x{}{refused}|h 1 -|i 1 -|h 2 -", seven.replace(" 1", " 1 -"));
    let rows = "|refused 24|refused 24|refused 23|refused 21|refused 43|refused 21|h 1 - -|refused 42|h 2 - -";
    prints(KEEPER, &lines, &format!("by n e.k f.k{}{rows}", seven.replace(" 1", " 1 - -")));
    // A fresh state knows nobody.
    let mut lent = fresh("rules end");
    for sender in EIGHT {
        assert_eq!(lent.line("by n", format!("{sender} 1").as_bytes()), Ok(format!("{sender} 1")));
    }
    assert_eq!(lent.line("by n", b"i 1"), Err(42));
    assert_eq!(bench_fresh(&lent.bench, &mut lent.state), 0);
    assert_eq!(lent.line("by n", b"i 1").as_deref(), Ok("i 1"));
    assert_eq!(lent.line("by n", b"a 2"), Err(24));
}

#[test]
fn names_of_senders() {
    let longest = "abcdefghijklmnopqrstuvwx";
    for sender in ["a", "Z", "a1", "a_", "z9_Z", "by", "n", "refused", longest].iter().chain(&RESERVED) {
        prints("rules end", &format!("by n|{sender} 1|{sender} 1|{sender} 2"), &format!("by n|{sender} 1|{sender} 1|{sender} 2"));
    }
    // Entities' names, and names that differ in case, length or one byte.
    let senders = ["e", "E", "ee", "e1", "e_", "f", &longest[..23], longest];
    let lines = first_lines(&senders).replace(" 1", " 1 -");
    prints(KEEPER, &format!("by n e{lines}{lines}"), &format!("by n e.k f.k{0}{0}", first_lines(&senders).replace(" 1", " 1 - -")));
}

#[test]
fn ill_formed_senders() {
    let mut lent = fresh("rules end");
    let bad: [&[u8]; 24] = [
        b"1",
        b"1a",
        b"0",
        b"_",
        b"_a",
        b"a.b",
        b"a.",
        b".a",
        b"-",
        b"?",
        b"a-b",
        b"a\t",
        b"\ta",
        b"a\r",
        b"a\0",
        b"\0",
        b"a\x80",
        b"\xe4",
        b"\xff\xff",
        b"a#",
        b"@a",
        b"[a",
        b"{",
        b"abcdefghijklmnopqrstuvwxy",
    ];
    for sender in bad {
        assert!(!name_form(sender));
        assert_eq!(lent.line("by n", &[sender, b" 1"].concat()), Err(43), "{sender:?}");
        assert_eq!(lent.row(sender), Err(43), "{sender:?}");
    }
    assert_eq!(lent.line("by n", &[&[b'a'; 8_190][..], b" 1"].concat()), Err(43));
    // A line with an empty sender, or with two, has no right fields; a row is asked of a name alone.
    assert_eq!(lent.line("by n", b" 1"), Err(21));
    assert_eq!(lent.line("by n", b"a b 1"), Err(21));
    for sender in [&b""[..], b" ", b"a ", b" a", b"a b", b"a\n", b"a 1"] {
        assert_eq!(lent.row(sender), Err(43), "{sender:?}");
    }
}

/// The form, byte by byte: only letters begin a name, only letters, digits and `_` go on.
#[test]
fn bytes_of_senders() {
    for byte in 0..=255u8 {
        let letter = byte.is_ascii_alphabetic();
        assert_eq!(name_form(&[byte]), letter, "{byte}");
        assert_eq!(name_form(&[byte, b'a']), letter, "{byte}");
        assert_eq!(name_form(&[b'a', byte]), letter || byte.is_ascii_digit() || byte == b'_', "{byte}");
    }
    for length in [0, 1, 23, 24, 25, 26, 255, 256, 280] {
        assert_eq!(name_form(&vec![b'a'; length]), (1..=24).contains(&length), "{length}");
    }
}

// Refusals.

/// Faults of a line, each by itself, in the order in which they are looked for. A line for a state that knows eight senders, `a` among
/// them, with the last number 3 and e away. Any two of them together: the earlier one refuses.
#[test]
fn order_of_refusals() {
    let mut lent = fresh(KEEPER);
    for values in ["a 1 - -", "a 2 - -", "a 3 - 4", "b 1 - -", "c 1 - -", "d 1 - -", "e 1 - -", "f 1 - -", "g 1 - -", "h 1 false -"] {
        assert!(lent.line("by n e f.x", values.as_bytes()).is_ok(), "{values}");
    }
    let state = lent.state.clone();
    // Names, sender, number, f.x and e.x; the good ones are a line that is taken.
    let good = ["by n f.x e.x", "a", "4", "5", "-"];
    let faults: [(u64, usize, &str); 9] = [
        (22, 0, "by n f.x e.z"),
        (22, 0, "n by f.x e.x"),
        (21, 2, "04"),
        (43, 1, "4a"),
        (42, 1, "i"),
        (23, 3, "x"),
        (23, 4, "1"),
        (24, 2, "5"),
        (25, 2, "3"),
    ];
    let mut answer = |with: &[usize]| {
        let mut parts = good;
        with.iter().for_each(|&fault| parts[faults[fault].1] = faults[fault].2);
        let values = parts[1..].join(" ");
        let answer = lent.line(parts[0], values.as_bytes());
        assert!(answer.is_ok() || lent.state == state, "{values}");
        answer
    };
    for first in 0..faults.len() {
        assert_eq!(answer(&[first]), Err(faults[first].0));
        for second in (first + 1..faults.len()).filter(|&second| faults[second].1 != faults[first].1) {
            assert_eq!(answer(&[first, second]), Err(faults[first].0), "{first} {second}");
            // And with a third.
            for third in (second + 1..faults.len()).filter(|&third| ![faults[first].1, faults[second].1].contains(&faults[third].1)) {
                assert_eq!(answer(&[first, second, third]), Err(faults[first].0), "{first} {second} {third}");
            }
        }
    }
    assert_eq!(answer(&[]).as_deref(), Ok("a 4 - 5"));
}

/// What has no place in the table above: faults of one field.
#[test]
fn order_of_refusals_of_one_field() {
    let mut lent = fresh(KEEPER);
    for sender in EIGHT {
        assert!(lent.line("by n e.x", format!("{sender} 1 1").as_bytes()).is_ok());
    }
    let mut refused = |names: &str, values: &str| lent.line(names, values.as_bytes()).expect_err("refused");
    // 43 before 42: an ill-formed sender is not known either.
    assert_eq!(refused("by n e.x", "i. 1 -"), 43);
    // 21 before 43 and 42: a missing field, one too many, a number of no form, an empty field.
    for sender in ["i", "1", "a"] {
        for rest in ["1", "1 - -", "01 -", "x -", "1  -", " 1 -", "1 - "] {
            assert_eq!(refused("by n e.x", &format!("{sender} {rest}")), 21, "{sender} {rest}");
        }
    }
    // 42 before 24, whatever the number; 24 for a known one.
    for number in ["0", "3", "4294967295", "4294967296", "9999999999"] {
        assert_eq!(refused("by n e.x", &format!("i {number} -")), 42);
        assert_eq!(refused("by n e.x", &format!("a {number} -")), 24);
    }
    // 22 before all.
    for values in ["", "1", "i 1 -", "a 1 -", "a 2 x"] {
        assert_eq!(refused("by n e.x ", values), 22);
    }
}

// Rows.

#[test]
fn row_of_a_sender() {
    let mut lent = fresh(KEEPER);
    assert_eq!(lent.row(b"a").as_deref(), Ok("a 0 - -"));
    assert_eq!(lent.row(b"end").as_deref(), Ok("end 0 - -"));
    assert_eq!(lent.line("by n e.x f.x", b"a 1 1 -").as_deref(), Ok("a 1 1 -"));
    assert_eq!(lent.line("by n e.x f.x", b"b 1 2 3").as_deref(), Ok("b 1 2 3"));
    assert_eq!(lent.line("by n e.x f.x", b"a 2 - 4").as_deref(), Ok("a 2 - 4"));
    assert_eq!(lent.line("by n e.x f.x", b"c 2 - 4"), Err(24));
    for (sender, row) in [("a", "a 2 - 4"), ("b", "b 1 2 3"), ("c", "c 0 - -"), ("A", "A 0 - -"), ("ab", "ab 0 - -")] {
        assert_eq!(lent.row(sender.as_bytes()).as_deref(), Ok(row));
    }
}

#[test]
fn row_of_a_ninth_sender() {
    let mut lent = fresh("rules end");
    for sender in EIGHT {
        assert!(lent.line("by n", format!("{sender} 1").as_bytes()).is_ok());
    }
    assert_eq!(lent.row(b"i").as_deref(), Ok("i 0"));
    assert_eq!(lent.row(b"h").as_deref(), Ok("h 1"));
    assert_eq!(lent.row(b"1"), Err(43));
    assert_eq!(lent.row(b""), Err(43));
}

#[test]
fn order_of_refusals_of_a_row() {
    let mut lent = fresh("rules end");
    lent.state[4] = 9;
    lent.bench[4] = b'R';
    let row = |lent: &Lent, state: usize, sender: &[u8]| bench_row(&lent.bench, &lent.state[..state], sender, &mut vec![0; ROW_SIZE]);
    assert_eq!(row(&lent, STATE_SIZE - 1, b"1"), 31);
    assert_eq!(row(&lent, STATE_SIZE, b"1"), 32);
    lent.bench[4] = b'r';
    assert_eq!(row(&lent, STATE_SIZE, b"1"), 33);
    lent.state[4] = 0;
    assert_eq!(row(&lent, STATE_SIZE, b"1"), 43);
    assert_eq!(row(&lent, STATE_SIZE, b"a"), 3 << 8);
}

#[test]
fn header_of_rows() {
    let mut lent = fresh(KEEPER);
    let answer = bench_header(&lent.bench, &mut lent.row);
    assert_eq!(lent.given(answer).as_deref(), Ok("by n e.k f.k"));
    let mut lent = fresh("rules end");
    let answer = bench_header(&lent.bench, &mut lent.row);
    assert_eq!(lent.given(answer).as_deref(), Ok("by n"));
}

// The day sheet.

#[test]
fn the_sheet_shows_the_number_alone() {
    let mut lent = fresh(PEDAL);
    for values in ["stage 1 - 5", "pedal 1 true -", "stage 2 - 6"] {
        assert!(lent.line("by n p.down s.pos", values.as_bytes()).is_ok());
    }
    let state = lent.state.clone();
    // Both lent lines sent again, first and late; a ninth after six more, an ill-formed one, a gap, another's number.
    let day = "by n p.down s.pos\npedal 1 true -\npedal 2 false -\nstage 2 - 6\nstage 3 - 7\npedal 3 true -\nstage 2 - 6\nstage 4 - 8\n\
               pedal 3 true -\ncamera 1 - 9\n1 1 - -\ncamera 3 - -\na 1 - -\nb 1 - -\nc 1 - -\nd 1 - -\ne 1 - 10\nf 1 - -\ncamera 1 - 9\n";
    let rows = [
        "         2             6             -",
        "         3             7             -",
        "         3             7             7",
        "         4             8             -",
        "         1             9             -",
        "         1             9             -",
        "         1             9             -",
        "         1             9             -",
        "         1             9             -",
        "         1            10             -",
    ];
    let mut sheet = vec![0; SHEET_LEAST + 162 * 19];
    let answer = bench_sheet(&lent.bench, &lent.state, day.as_bytes(), b"s.pos k.keep", &mut sheet);
    let wanted: String = rows.iter().map(|row| format!("{row:<80}\n")).collect();
    assert_eq!(answer, (wanted.len() as u64) << 8);
    assert_eq!(String::from_utf8_lossy(&sheet[..wanted.len()]), wanted);
    assert!(lent.state == state);
}

// Memory.

#[test]
fn a_new_sender_takes_more_memory() {
    let mut lent = fresh(KEEPER);
    lent.state[state_bytes(2, 0)..].fill(0xa5);
    for (known, sender) in (1..).zip(EIGHT) {
        assert!(lent.line("by n", format!("{sender} 1").as_bytes()).is_ok());
        assert!(lent.state[state_bytes(2, known)..].iter().all(|&byte| byte == 0xa5), "{known}");
        assert_ne!(lent.state[state_bytes(2, known) - 1], 0xa5);
    }
}

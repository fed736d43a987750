//! Order 3 of document 02: the day sheet. The sheets here are written out by hand.

mod common;
use common::PEDAL;
use second::calls::{bench_check, bench_fresh, bench_line, bench_sheet};
use second::image::{sender_at, sheet_size, store_at, BENCH_SIZE, NUMBER_AT, ROW_SIZE, STATE_SIZE};

const FILL: u8 = 0xa5;
/// Bytes past the stated size of a sheet.
const MORE: usize = 7;

/// A bench and a state of it, in memory.
struct Lent {
    bench: Vec<u8>,
    state: Vec<u8>,
}

/// A bench with its fresh state.
fn fresh(text: &str) -> Lent {
    let mut lent = Lent { bench: vec![FILL; BENCH_SIZE], state: vec![FILL; STATE_SIZE] };
    assert_eq!(bench_check(text.as_bytes(), &mut lent.bench), 0);
    assert_eq!(bench_fresh(&lent.bench, &mut lent.state), 0);
    lent
}

impl Lent {
    /// The state after one more line.
    fn after(mut self, names: &str, values: &str) -> Lent {
        let answer = bench_line(&self.bench, &mut self.state, names.as_bytes(), values.as_bytes(), &mut vec![0; ROW_SIZE]);
        assert_eq!(answer & 255, 0, "{values}");
        self
    }

    /// The state of a bench with one entity, whose first sender has another last number.
    fn numbered(mut self, number: u32) -> Lent {
        let at = sender_at(1, 0) + NUMBER_AT;
        self.state[at..at + 4].copy_from_slice(&number.to_le_bytes());
        self
    }

    /// The sheet, or the number of the refusal. Checks the bytes that have to stay.
    fn sheet(&self, readings: &str, cells: &str) -> Result<String, u64> {
        let mut memory = vec![FILL; sheet_size(readings.as_bytes()) + MORE];
        let answer = bench_sheet(&self.bench, &self.state, readings.as_bytes(), cells.as_bytes(), &mut memory);
        let length = (answer >> 8) as usize;
        assert!(memory[length..].iter().all(|&byte| byte == FILL), "bytes past the sheet");
        if answer & 255 != 0 {
            assert_eq!(length, 0, "a refusal has no length");
            return Err(answer & 255);
        }
        Ok(String::from_utf8(memory[..length].to_vec()).expect("sheets are ASCII"))
    }

    /// Checks a sheet; the lines of its readings have `|` between, its rows come without the spaces at their ends.
    fn shows(&self, readings: &str, cells: &str, rows: &[&str]) {
        let sheet = self.sheet(&readings.replace('|', "\n"), cells).expect("a sheet");
        let wanted: String = rows.iter().map(|row| filled(row)).collect();
        assert_eq!(sheet, wanted, "\n{sheet}\n{wanted}");
    }

    fn refuses(&self, number: u64, readings: &str, cells: &str) {
        assert_eq!(self.sheet(&readings.replace('|', "\n"), cells), Err(number), "{readings:?} {cells:?}");
    }
}

/// "each line filled with spaces to exactly 80 and closed by a line feed"
fn filled(row: &str) -> String {
    assert!(row.len() <= 80);
    row.to_string() + &" ".repeat(80 - row.len()) + "\n"
}

// Six days.

#[test]
fn wholes_and_bools() {
    // Of the last two lines the first is sent again, the second is refused.
    fresh(PEDAL).shows(
        "by n p.down s.pos|a 1 false 100|a 2 true 140|a 2 true 140|a 3 - 150|a 4 false 150|a 5 true 190|a 5 true 190|a 4 - -",
        "p.down s.pos k.keep",
        &[
            "         1         false           100             -",
            "         2          true           140           140",
            "         3          true           150             -",
            "         4         false           150             -",
            "         5          true           190           190",
        ],
    );
}

/// Fires the temperature and its offset, added up, whenever the temperature changes.
const TEMPERATURE: &str = "interface T { attribute offset : real event temp : real event fan : bool action sum ( real ) } \
    entity t : T { offset = - 1r } \
    rules when event temp from t value changed trigger action sum ( t.temp + t.offset ) on t end end";

#[test]
fn reals_over_two_rows() {
    let day = "by n t.temp t.fan|a 1 400921fb54442d18 true|a 2 - false|a 3 3fd5555555555555 -|a 4 ? true|";
    fresh(TEMPERATURE).shows(
        day,
        "t.temp t.fan t.sum t.offset",
        &[
            "         1      400921fb          true      400121fb      bff00000",
            "                54442d18                    54442d18      00000000",
            "         2      400921fb         false             -      bff00000",
            "                54442d18                                  00000000",
            "         3      3fd55555         false      bfe55555      bff00000",
            "                55555555                    55555556      00000000",
            "         4             -          true             -      bff00000",
            "                                                          00000000",
            "                3fd55555",
            "                55555555",
            "                400921fb",
            "                54442d18",
            "                3fd55555",
            "                55555555",
            "                                            bfe55555",
            "                                            55555556",
            "                                            400121fb",
            "                                            54442d18",
            "                                            bfe55555",
            "                                            55555556",
            "                                                          bff00000",
            "                                                          00000000",
            "                                                          bff00000",
            "                                                          00000000",
            "                                                          bff00000",
            "                                                          00000000",
        ],
    );
    // In line 4 no chosen real is set, so it has one row.
    fresh(TEMPERATURE).shows(
        day,
        "t.fan t.temp",
        &[
            "         1          true      400921fb",
            "                              54442d18",
            "         2         false      400921fb",
            "                              54442d18",
            "         3         false      3fd55555",
            "                              55555555",
            "         4          true             -",
            "                              3fd55555",
            "                              55555555",
            "                              400921fb",
            "                              54442d18",
            "                              3fd55555",
            "                              55555555",
        ],
    );
}

#[test]
fn of_equal_zeros_the_earlier_is_shown() {
    let bench = "interface Z { event a : real event b : real event c : real event d : real } entity z : Z { } rules end";
    let (zero, minus) = ("0000000000000000", "8000000000000000");
    let (one, minus_one) = ("3ff0000000000000", "bff0000000000000");
    let lines = [
        "by n z.a z.b z.c z.d".to_string(),
        format!("a 1 {zero} {minus} {one} {minus_one}"),
        format!("a 2 {minus} {zero} {minus} {zero}"),
        format!("a 3 {minus} {zero} {zero} {minus}"),
    ];
    fresh(bench).shows(
        &lines.join("|"),
        "z.a z.b z.c z.d",
        &[
            "         1      00000000      80000000      3ff00000      bff00000",
            "                00000000      00000000      00000000      00000000",
            "         2      80000000      00000000      80000000      00000000",
            "                00000000      00000000      00000000      00000000",
            "         3      80000000      00000000      00000000      80000000",
            "                00000000      00000000      00000000      00000000",
            "                00000000",
            "                00000000",
            "                00000000",
            "                00000000",
            "                80000000",
            "                00000000",
            "                              80000000",
            "                              00000000",
            "                              80000000",
            "                              00000000",
            "                              00000000",
            "                              00000000",
            "                                            80000000",
            "                                            00000000",
            "                                            3ff00000",
            "                                            00000000",
            "                                            00000000",
            "                                            00000000",
            "                                                          bff00000",
            "                                                          00000000",
            "                                                          00000000",
            "                                                          00000000",
            "                                                          80000000",
            "                                                          00000000",
        ],
    );
}

#[test]
fn absent_entities_read_unset() {
    let bench = "interface L { attribute bay : whole attribute gain : real event lit : bool action show ( real ) } \
        entity a : L { bay = 2 gain = 3r } \
        rules when event lit from a value = true trigger action show ( a.gain ) on a end end";
    fresh(bench).shows(
        "by n a a.lit|a 1 - true|a 2 false -|a 3 - -|a 4 true -|a 5 - true",
        "a.bay a.gain a.lit a.show",
        &[
            "         1             2      40080000          true      40080000",
            "                              00000000                    00000000",
            "         2             -             -             -             -",
            "         3             -             -             -             -",
            "         4             2      40080000             -             -",
            "                              00000000",
            "         5             2      40080000          true      40080000",
            "                              00000000                    00000000",
            "                              40080000",
            "                              00000000",
            "                              40080000",
            "                              00000000",
            "                              40080000",
            "                              00000000",
            "                                                          40080000",
            "                                                          00000000",
            "                                                          40080000",
            "                                                          00000000",
            "                                                          40080000",
            "                                                          00000000",
        ],
    );
}

#[test]
fn a_day_runs_on_from_the_lent_state() {
    let names = "by n t.temp t.fan";
    let lent = fresh(TEMPERATURE).after(names, "a 1 4034000000000000 false").after(names, "a 2 c034000000000000 true");
    // The lent state's own line is sent again, in other columns; then line 3, again, with other readings, with a gap, with a field that
    // is no value, without a field, an empty line, and line 4. What was read before the day is neither lowest nor highest.
    lent.shows(
        "by n t t.fan t.temp|a 2 - true c034000000000000|a 3 - - 3ff0000000000000|a 3 - - 3ff0000000000000|a 3 - - 4000000000000000|a 5 - - -|a 4 - - x|\
         a 4 - -||a 4 - - 4000000000000000",
        "t.temp t.fan",
        &[
            "         3      3ff00000          true",
            "                00000000",
            "         4      40000000          true",
            "                00000000",
            "                3ff00000",
            "                00000000",
            "                40000000",
            "                00000000",
            "                40000000",
            "                00000000",
        ],
    );
}

#[test]
fn without_a_printed_line_only_the_closing_rows_stand() {
    let rows = [
        "                       -",
        "                       -",
        "                       -",
        "                                                   -",
        "                                                   -",
        "                                                   -",
    ];
    let lent = fresh(TEMPERATURE).after("by n t.temp", "a 1 4034000000000000");
    // Nothing, the lent line again, and what is refused by 21, 43, 23, 24, 25.
    for day in
        ["by n", "by n|", "by n t.temp|a 1 4034000000000000", "by n t.temp|a 1 -|a 2|1 1 -|a 2 5|a 3 -|b 2 -|a 0 -|a 01 -||\r|a 2 - -"]
    {
        lent.shows(day, "t.temp t.fan t.sum", &rows);
        lent.shows(day, "t.fan", &[]);
    }
}

#[test]
fn all_eighty_columns() {
    let bench = "interface I { event w : whole event b : bool event r : real } entity e : I { } rules end";
    let lent = fresh(bench).after("by n", "a 1").numbered(4_294_967_293);
    // The last number is 4294967295: the line after it is refused.
    let day = "by n e.w e.b e.r\na 4294967294 -2147483648 false 7fefffffffffffff\na 4294967295 2147483647 true -\na 4294967296 0 true -\n";
    let sheet = lent.sheet(day, "e.w e.b e.w e.b e.w").expect("a sheet");
    let wanted = "4294967294   -2147483648         false   -2147483648         false   -2147483648\n\
                  4294967295    2147483647          true    2147483647          true    2147483647\n";
    assert_eq!(sheet, wanted);
    // The same cell in all columns, each with its closing rows.
    let sheet = lent.sheet(day, "e.r e.r e.r e.r e.r").expect("a sheet");
    assert_eq!(sheet.len(), (2 * 2 + 5 * 6) * 81);
    let upper = "4294967294      7fefffff      7fefffff      7fefffff      7fefffff      7fefffff\n";
    let lower = "                ffffffff      ffffffff      ffffffff      ffffffff      ffffffff\n";
    assert_eq!(&sheet[..2 * 81], upper.to_string() + lower);
    assert_eq!(&sheet[2 * 81..4 * 81], upper.replace("294 ", "295 ") + lower);
    let last = &sheet[sheet.len() - 2 * 81..];
    assert_eq!(last, format!("{:>80}\n{:>80}\n", "7fefffff", "ffffffff"));
}

// Texts.

#[test]
fn forms_of_the_readings() {
    let lent = fresh("interface I { event x : whole } entity e : I { } rules end");
    let one = ["         1             5"];
    let two = ["         1             5", "         2             6"];
    lent.shows("by n e.x|a 1 5", "e.x", &one);
    lent.shows("by n e.x|a 1 5|", "e.x", &one);
    lent.shows("by n e.x|a 1 5||", "e.x", &one);
    lent.shows("by n e.x||a 1 5|a 2 6", "e.x", &two);
    lent.shows("by n e.x|a 1 5|a 2 6\r|a 2 6", "e.x", &two);
    lent.shows("by n e.x|a 1 5|a 2 6\r|", "e.x", &one);
    // Presence counts as a column, and a line of names without columns is one.
    lent.shows("by n e e.x|a 1 true 5", "e.x", &one);
    lent.shows("by n|a 1", "e.x", &["         1             -"]);
    for names in [
        "",
        "|",
        "|by n e.x|a 1 5",
        "by n |a 1",
        "by n e.y|a 1 5",
        "by n e.x e.x|a 1 5 5",
        "by n\r|a 1",
        " by n|a 1",
        "By n|a 1",
        "by N|a 1",
        "n|a 1",
        "by|a 1",
        "n by|a 1",
        "by n e.x.|a 1 5",
    ] {
        lent.refuses(22, names, "e.x");
    }
}

#[test]
fn long_lines() {
    let lent = fresh("interface I { event x : whole } entity e : I { } rules end");
    let one = ["         1             5"];
    // A line of values that is too long is passed over as any refused one; a line of names that is too long refuses the day.
    lent.shows(&format!("by n e.x|a 1 {}|a 1 5", "5".repeat(8_191)), "e.x", &one);
    lent.shows(&format!("by n e.x|a 1 {}|a 1 5", "5".repeat(100_000)), "e.x", &one);
    lent.refuses(22, &format!("by n e.x{}|a 1 5", " e.x".repeat(8_191)), "e.x");
}

#[test]
fn lists_of_cells() {
    let lent = fresh(
        "interface I { attribute a : whole event x : whole action k ( whole ) } entity e : I { a = 7 } entity f : I { a = 8 } \
         rules when event x from e value changed trigger action k ( e.a + e.x ) on f end end",
    );
    let day = "by n e.x|a 1 5";
    // Members of any sort, the same one again, up to five.
    lent.shows(day, "e.a", &["         1             7"]);
    lent.shows(day, "f.k", &["         1            12"]);
    lent.shows(day, "e.x e.x", &["         1             5             5"]);
    lent.shows(day, "e.k f.a f.x f.k e.a", &["         1             -             8             -            12             7"]);
    let refused = [
        "",
        " ",
        "e.a e.a e.a e.a e.a e.a",
        "e.a  f.a",
        " e.a",
        "e.a ",
        "e",
        "e.b",
        "g.a",
        "I.a",
        "e.a.x",
        "e.",
        ".a",
        ".",
        "e..a",
        "E.a",
        "e.A",
        "e.a\n",
        "e.a\tf.a",
        "e.a,f.a",
        "e.a e",
        "n",
        "by",
        "-",
        "e.a\0",
    ];
    for cells in refused {
        lent.refuses(41, day, cells);
    }
    lent.refuses(41, day, &"e.a ".repeat(20_000));
    lent.refuses(41, day, &format!("e.{}", "a".repeat(70_000)));
    // A bench without cells has no list.
    fresh("rules end").refuses(41, "by n|a 1", "");
    fresh("interface I { } entity e : I { } rules end").refuses(41, "by n|a 1", "e");
}

// Memory.

/// Two lines with a set real in each of five columns: they need the whole stated size.
const LARGEST: &str = "by n e.r\na 1 3ff0000000000000\na 2 4000000000000000";

fn one_real() -> Lent {
    fresh("interface I { event r : real } entity e : I { } rules end")
}

#[test]
fn stated_size() {
    assert_eq!(sheet_size(b""), 2_430);
    assert_eq!(sheet_size(b"by n e.r"), 2_430);
    assert_eq!(sheet_size(b"\n"), 2_592);
    assert_eq!(sheet_size(LARGEST.as_bytes()), 2_754);
    assert_eq!(sheet_size(&[b'\n'; 1_000]), 164_430);
}

#[test]
fn exact_size_and_one_byte_less() {
    let lent = one_real();
    let sheet = |readings: &str, cells: &str, size: usize| {
        let mut memory = vec![FILL; size];
        let answer = bench_sheet(&lent.bench, &lent.state, readings.as_bytes(), cells.as_bytes(), &mut memory);
        assert!(answer & 255 == 0 || memory.iter().all(|&byte| byte == FILL));
        answer
    };
    let five = "e.r e.r e.r e.r e.r";
    assert_eq!(sheet(LARGEST, five, 2_754), 2_754 << 8);
    assert_eq!(sheet(LARGEST, five, 2_753), 31);
    assert_eq!(sheet(LARGEST, five, 0), 31);
    // The size is asked for even if the sheet is shorter, empty, or refused.
    assert_eq!(sheet(LARGEST, "e.r", 2_754), (10 * 81) << 8);
    assert_eq!(sheet(LARGEST, "e.r", 2_753), 31);
    assert_eq!(sheet("by n", "e.r", 2_430), (3 * 81) << 8);
    assert_eq!(sheet("by n", "e.r", 2_429), 31);
    assert_eq!(sheet("by n\n\n\n", "e.r", 2_916), (3 * 81) << 8);
    assert_eq!(sheet("by n\n\n\n", "e.r", 2_915), 31);
    assert_eq!(sheet("", "", 2_429), 31);
    assert_eq!(sheet("", "", 2_430), 41);
}

#[test]
fn order_of_refusals() {
    let mut lent = one_real();
    let sheet = |lent: &Lent, bench: usize, state: usize, readings: &str, cells: &str, size: usize| {
        let mut memory = vec![FILL; size];
        let answer = bench_sheet(&lent.bench[..bench], &lent.state[..state], readings.as_bytes(), cells.as_bytes(), &mut memory);
        assert!(memory.iter().all(|&byte| byte == FILL));
        answer
    };
    // All is wrong, then one thing after another is mended.
    lent.state[store_at(1, 0)] = 2;
    lent.bench[4] = b'I';
    assert_eq!(sheet(&lent, BENCH_SIZE - 1, STATE_SIZE, "", "", 2_430), 31);
    assert_eq!(sheet(&lent, BENCH_SIZE, STATE_SIZE - 1, "", "", 2_430), 31);
    assert_eq!(sheet(&lent, BENCH_SIZE, STATE_SIZE, "", "", 2_429), 31);
    assert_eq!(sheet(&lent, BENCH_SIZE, STATE_SIZE, "", "", 2_430), 32);
    lent.bench[4] = b'i';
    assert_eq!(sheet(&lent, BENCH_SIZE, STATE_SIZE, "", "", 2_430), 33);
    lent.state[store_at(1, 0)] = 1;
    assert_eq!(sheet(&lent, BENCH_SIZE, STATE_SIZE, "", "", 2_430), 41);
    assert_eq!(sheet(&lent, BENCH_SIZE, STATE_SIZE, "", "e.r", 2_430), 22);
    lent.shows("by n", "e.r", &["                       -"; 3]);
}

/// The sheet of a day is the same whether its lines run on in one sheet or start from the state in between.
#[test]
fn days_one_after_another() {
    let names = "by n p.down s.pos";
    let lines = ["a 1 false 100", "b 1 true 140", "a 2 - 150", "c 1 false 150", "a 3 true 190"];
    let day = |lines: &[&str]| format!("{names}\n{}", lines.join("\n"));
    let whole = fresh(PEDAL).sheet(&day(&lines), "k.keep p.down").expect("a sheet");
    for cut in 0..=lines.len() {
        let start = fresh(PEDAL);
        let first = start.sheet(&day(&lines[..cut]), "k.keep p.down").expect("a sheet");
        let later = lines[..cut].iter().fold(start, |lent, line| lent.after(names, line));
        let second = later.sheet(&day(&lines[cut..]), "k.keep p.down").expect("a sheet");
        assert_eq!(first + &second, whole, "{cut}");
    }
}

"""Makes the cases that the program `trials` runs: crates/trials/args, data/NAME/{bench.txt,readings.txt} and stdout.

They are the stored cases of cases.json, and further ones of this file: limits at and beyond them, missing, empty and long files. What
is printed comes from bench_oracle.py; next to each case of this file stands what the documents give, worked out by hand, and the two must
agree. `python3 tests/oracle/to_program.py`, or with --check, compares: it fails if the files are not what they should be. --write writes
them.
"""

import json
import shutil
import sys
from itertools import cycle, zip_longest
from pathlib import Path

from bench_oracle import run
from make_cases import asked_to_write

HERE = Path(__file__).resolve().parent
CRATE = HERE.parent.parent / "crates" / "trials"

CASES = []


def add(name, bench, readings, printed):
    """A case; None stands for a file that is missing, and for a print that is not worked out by hand."""
    assert all(case[0] != name for case in CASES), name
    output = run(bench or b"", readings or b"")
    assert printed is None or output == printed, (name, first_unlike(output, printed))
    CASES.append((name, bench, readings, output))


def first_unlike(output, printed):
    """The number of the first line in which the two differ, with the beginning of that line in each."""
    pairs = enumerate(zip_longest(output.split(b"\n"), printed.split(b"\n"), fillvalue=b"(no line)"))
    return next((number, one[:100], other[:100]) for number, (one, other) in pairs if one != other)


def lines(*parts):
    return b"".join(part + b"\n" for part in parts)


# --------------------------------------------------------------------------
# The stored cases
# --------------------------------------------------------------------------


def add_stored():
    for case in json.loads((HERE / "cases.json").read_text()):
        name = case["name"][len("run-"):] if case["name"].startswith("run-") else case["name"]
        bench = case["bench"].encode("ascii")
        if case["readings"] is not None:
            add(name, bench, case["readings"].encode("ascii"), case["printed"].encode("ascii"))
        elif case["check"] == [0, 0]:
            add(name, bench, b"by n\na 1\n", None)
        else:
            add(name, bench, None, b"refused %d %d\n" % tuple(case["check"]))


# --------------------------------------------------------------------------
# Trial cases of document 01, as document 02 amends them, that have no stored case of their own
# --------------------------------------------------------------------------

PLAIN = (
    b"interface I { attribute a : whole event e : whole action k ( whole ) } entity s : I { a = 1 } "
    b"rules when event e from s value changed trigger action k ( s.e ) on s end end"
)


def interfaces(count):
    return b"".join(b"interface i%d { } " % number for number in range(count))


def add_trials():
    add("trial-rules-end", b"rules end", lines(b"by n", b"a 1"), lines(b"by n", b"a 1"))
    add("trial-no-bytes", b"", None, b"refused 13 0\n")
    twice = PLAIN.replace(b"action k ( s.e ) on s", b"action k ( 1 ) on s , action k ( 2 ) on s")
    # document 02, order 6: "The case keep(1), keep(2) now leaves 1"
    add("trial-keep-twice", twice, lines(b"by n s.e", b"a 1 7"), lines(b"by n s.k", b"a 1 1"))
    for name, test in ((b"changed", b"value changed"), (b"equal", b"value = s.e")):
        text = PLAIN.replace(b"from s value changed", b"from s with a = 1 " + test)
        row = b"a 2 8" if name == b"changed" else b"a 2 -"
        add("trial-with-" + name.decode(), text, lines(b"by n s.e", b"a 1 7", b"a 2 8"), lines(b"by n s.k", b"a 1 7", row))
    add("trial-16-interfaces", interfaces(16) + b"rules end", lines(b"by n", b"a 1"), lines(b"by n", b"a 1"))
    seventeen = interfaces(17) + b"rules end"
    add("trial-17-interfaces", seventeen, None, b"refused 14 %d\n" % seventeen.rindex(b"interface"))
    add("trial-24-letters", b"interface " + b"a" * 24 + b" { } rules end", lines(b"by n", b"a 1"), lines(b"by n", b"a 1"))
    add("trial-25-letters", b"interface " + b"a" * 25 + b" { } rules end", None, b"refused 12 10\n")


# --------------------------------------------------------------------------
# Limits of a bench
# --------------------------------------------------------------------------

CLAUSE = b"event e from s value changed"
CALL = b"action k ( s.e ) on s"


def add_bench_limits():
    add("text-32768", b"rules end".ljust(32768), lines(b"by n", b"a 1"), lines(b"by n", b"a 1"))
    add("text-32769", b"\xff rules end".ljust(32769), None, b"refused 11 32768\n")
    members = b"".join(b"event e%d : whole " % number for number in range(11)) + b"action k ( whole ) "
    twelve = b"interface I { " + members + b"} entity s : I { } rules when event e10 from s value changed trigger action k ( s.e10 ) on s end end"
    add("members-12", twelve, lines(b"by n s.e10", b"a 1 5"), lines(b"by n s.k", b"a 1 5"))
    head = PLAIN[: PLAIN.index(b"entity")]
    entities = b"".join(b"entity s%d : I { a = %d } " % (number, number) for number in range(32))
    rule = b"rules when event e from s31 value changed trigger action k ( x.a ) on x : I end end"
    names = b"by n " + b" ".join(b"s%d.k" % number for number in range(32))
    row = b"a 1 " + b" ".join(b"%d" % number for number in range(32))
    add("entities-32", head + entities + rule, lines(b"by n s31.e", b"a 1 5"), lines(names, row))
    begun = PLAIN[: PLAIN.index(b"when")]
    rules = b"".join(b"when event e from s value = %d trigger action k ( %d ) on s end " % (number, number + 100) for number in range(64))
    printed = lines(b"by n s.k", b"a 1 100", b"a 2 163", b"a 3 -")
    add("rules-64", begun + rules + b"end", lines(b"by n s.e", b"a 1 0", b"a 2 63", b"a 3 64"), printed)
    add_rank_limits(begun)
    three = b"when event e from x : I value changed and event e from y : I value changed trigger action k ( x.e + y.e ) on z : I end end"
    add("variables-3", begun + three, lines(b"by n s.e", b"a 1 5"), lines(b"by n s.k", b"a 1 10"))
    eight = b"when " + b" and ".join([CLAUSE] * 8) + b" trigger " + b" , ".join([CALL] * 8) + b" end end"
    add("clauses-8-calls-8", begun + eight, lines(b"by n s.e", b"a 1 5"), lines(b"by n s.k", b"a 1 5"))
    numbers = PLAIN.replace(b"s.e ) on", b"s.e - 2147483647 + 0000000007 ) on")
    add("number-2147483647", numbers, lines(b"by n s.e", b"a 1 2147483647"), lines(b"by n s.k", b"a 1 7"))


def add_rank_limits(begun):
    """64 rules that write one cell, the safety rule first or last among them, and 66 rules, the last of a rank above 9."""
    ordinary = b"".join(b"when rank %d event e from s value changed trigger action k ( %d ) on s end " % (number % 9, number) for number in range(63))
    safety = b"when rank 9 event e from s value = 5 trigger action k ( 100 ) on s end "
    # 8 is the first of the highest rank below 9
    readings = lines(b"by n s.e", b"a 1 4", b"a 2 5", b"a 2 5", b"a 3 5", b"a 4 6")
    printed = lines(b"by n s.k", b"a 1 8", b"a 2 100", b"a 2 100", b"a 3 -", b"a 4 8")
    add("rules-64-safety-first", begun + safety + ordinary + b"end", readings, printed)
    add("rules-64-safety-last", begun + ordinary + safety + b"end", readings, printed)
    many = begun + safety + ordinary + safety + safety.replace(b"9", b"10") + b"end"
    add("rules-66-rank-10", many, readings, b"refused 44 %d\n" % many.rindex(b"10 event"))


# --------------------------------------------------------------------------
# Limits of lines
# --------------------------------------------------------------------------


def long_name(first, number):
    return (first + b"%d_" % number).ljust(24, b"x")


def most_columns():
    """A bench of 32 entities with 12 events each, and its longest line of names: as many columns as can be."""
    entities = [long_name(b"s", number) for number in range(32)]
    events = [long_name(b"e", number) for number in range(12)]
    bench = b"interface I { " + b"".join(b"event " + event + b" : real " for event in events) + b"} "
    bench += b"".join(b"entity " + entity + b" : I { } " for entity in entities) + b"rules end"
    columns = b"".join(b" " + entity + b"".join(b" " + entity + b"." + event for event in events) for entity in entities)
    return bench, b"by n" + columns


def every_column():
    bench, names = most_columns()
    fields = b" true" + b" 3ff0000000000001" * 12
    first = b"a 1" + fields * 32
    other = first[:-1] + b"0"
    readings = lines(names, first, first, other, b"a 2" + fields * 31, b"a 2" + b" -" * 416)
    add("columns-416", bench, readings, lines(b"by n", b"a 1", b"a 1", b"refused 25", b"refused 21", b"a 2"))


def most_actions():
    """A bench of 31 entities with 12 actions each, and one with 11, and its row of names: as many as one event leaves room for."""
    actions = [long_name(b"k", number) for number in range(12)]
    declared = [b"action " + action + b" ( real ) " for action in actions]
    entities = [long_name(b"s", number) for number in range(31)]
    bench = b"interface I { " + b"".join(declared) + b"} interface J { event e : real " + b"".join(declared[:11]) + b"} "
    bench += b"".join(b"entity " + entity + b" : I { } " for entity in entities) + b"entity t : J { } rules "
    for part, place, declaration in ((actions[:8], b"x", b" : I"), (actions[8:], b"x", b" : I"), (actions[:8], b"t", b""), (actions[8:11], b"t", b"")):
        first, *others = [b"action " + action + b" ( - t.e ) on " + place for action in part]
        bench += b"when event e from t value changed trigger " + b" , ".join([first + declaration, *others]) + b" end "
    names = b"".join(b" " + entity + b"." + action for entity in entities for action in actions)
    names += b"".join(b" t." + action for action in actions[:11])
    return bench + b"end", b"by n" + names


def every_action():
    bench, names = most_actions()
    readings = lines(b"by n t.e", b"a 1 0123456789abcdef", b"a 2 -")
    add("actions-383", bench, readings, lines(names, b"a 1" + b" 8123456789abcdef" * 383, b"a 2" + b" -" * 383))


def largest_state():
    """Eight senders with the longest names, and the most actions; lines sent again after lines of others."""
    bench, names = most_actions()
    table = Table(b"by n t.e", names)
    sent = [(long_name(b"a", number) + b" 1", b"0123456789abcde%d" % number) for number in range(8)]
    for begin, value in sent + sent[::3]:
        table.line(begin + b" " + value, begin + (b" 8" + value[1:]) * 383)
    table.line(b"a 1 -", b"refused 42")
    table.add("senders-8-actions-383", bench)


def add_line_limits():
    longest = b"a 1 " + b"9" * 8188
    readings = lines(b"by n s.e", longest, longest + b"9", b"a 1 5") + b"9" * 8193
    add("record-8193", PLAIN, readings, lines(b"by n s.k", b"refused 23", b"refused 21", b"a 1 5", b"refused 21"))
    add("record-20000", PLAIN, lines(b"by n s.e", b"a 1 5".ljust(20000), b"a 1 5"), lines(b"by n s.k", b"refused 21", b"a 1 5"))
    add("names-40000", PLAIN, lines(b"by n s.e".ljust(40000), b"a 1 5"), b"refused 22\n")
    every_column()
    every_action()
    largest_state()


# --------------------------------------------------------------------------
# Files
# --------------------------------------------------------------------------


def add_files():
    add("no-folder", None, None, b"refused 13 0\n")
    add("no-bench", None, lines(b"by n", b"a 1"), b"refused 13 0\n")
    add("no-readings", b"rules end", None, b"refused 22\n")
    add("empty-files", b"", b"", b"refused 13 0\n")
    add("empty-names", b"rules end", lines(b"", b"a 1"), b"refused 22\n")
    add("no-last-feed", PLAIN, b"by n s.e\na 1 5\na 2 6", lines(b"by n s.k", b"a 1 5", b"a 2 6"))
    add("return-in-bench", b"rules\r\nend\r\n", None, b"refused 12 5\n")
    add("return-in-names", PLAIN, b"by n s.e\r\na 1 5\r\n", b"refused 22\n")
    printed = lines(b"by n s.k", b"refused 23", b"refused 21", b"refused 43", b"a 1 5")
    add("return-in-values", PLAIN, b"by n s.e\na 1 5\r\na 1\r 5\na\r 1 5\na 1 5\n", printed)
    printed = lines(b"by n s.k", b"refused 23", b"refused 21", b"refused 23", b"refused 43", b"refused 43", b"a 1 5")
    add("any-bytes", PLAIN, b"by n s.e\na 1 \xff\na \x00 5\na 1 \x005\n\xff 1 5\na\x00 1 5\na 1 5\n", printed)
    # records on both sides of byte 65536, where a second part of the file is read
    filled = lines(b"by n s.e") + (b"a 1 " + b"9" * 8000 + b"\n") * 8
    filled += b"a 1 " + b"9" * (65536 - len(filled) - 10) + b"\n"
    assert len(filled) == 65531
    rows = lines(b"by n s.k", *[b"refused 23"] * 9)
    add("second-part", PLAIN, filled + lines(b"a 1 50", b"a 2 60"), rows + lines(b"a 1 50", b"a 2 60"))


# --------------------------------------------------------------------------
# Long files: what a runner reads and prints part by part
# --------------------------------------------------------------------------

PART = 65536  # as many bytes as a runner may read, or gather before it prints, at once


class Table:
    """Readings and, line by line, what is to be printed for them."""

    def __init__(self, names, row):
        self.columns = names.count(b" ") - 1
        self.readings = bytearray(lines(names))
        self.printed = bytearray(lines(row))

    def line(self, values, row):
        self.readings += lines(values)
        self.printed += lines(row)

    def same(self, values):
        """A line that is printed as it stands."""
        self.line(values, values)

    def fill(self, size):
        """Lines with one ill-formed value until the readings have this many bytes: 23, or 21 if there should be more values."""
        row = b"refused 23" if self.columns == 1 else b"refused 21"
        while len(self.readings) < size:
            missing = size - len(self.readings)
            length = missing if missing <= 8000 else 7000
            self.line(b"a 1 ".ljust(length - 1, b"x"), row)
        assert len(self.readings) == size

    def drop_last_feed(self):
        del self.readings[-1:]

    def add(self, name, bench):
        add(name, bench, bytes(self.readings), bytes(self.printed))


def plain_table():
    """A table for PLAIN: a line with another value than the one before is printed as it stands."""
    return Table(b"by n s.e", b"by n s.k")


# -- lines at the end of a part

SUMMED = [entity + b".e%d" % number for entity in (b"a", b"b") for number in range(12)]
SUMS = (
    b"interface I { " + b"".join(b"event e%d : whole " % number for number in range(12)) + b"} interface O { action k ( whole ) } "
    b"entity a : I { } entity b : I { } entity z : O { } "
    b"rules when event e0 from a value changed trigger action k ( " + b" + ".join(SUMMED) + b" ) on z end end"
)


def sum_line(number):
    """A line of 24 values, and the row with their sum: each digit that is read counts."""
    values = [(7654321 * number + 1234577 * place) % 80000000 for place in range(24)]
    return b" ".join([b"a", *(b"%d" % value for value in [number, *values])]), b"a %d %d" % (number, sum(values))


def long_readings():
    """Three parts: a line feed is the last byte of the first, another one is the first byte of the third."""
    table = Table(b" ".join([b"by n", *SUMMED]), b"by n z.k")
    feeds = [PART - 1, 2 * PART]
    for number in range(1, 1000):
        values, row = sum_line(number)
        if feeds and len(table.readings) > feeds[0] - 500:
            table.fill(feeds.pop(0) - len(values))
        table.line(values, row)
        if len(table.readings) > 148900:
            break
    assert not feeds and table.readings[PART - 1] == table.readings[2 * PART] == ord("\n")
    table.add("long-readings", SUMS)


def number_cut():
    """The first digit of the number 20 is the last byte of a part; the line before begins with another digit."""
    table = plain_table()
    for number in range(1, 20):
        table.same(b"a %d %d" % (number, 700 + number))
    table.fill(PART - 3)
    table.same(b"a 20 31")
    table.same(b"a 21 32")
    assert table.readings[PART - 1 : PART + 5] == b"20 31\n"
    table.add("number-cut", PLAIN)


def sender_cut():
    """The longest name of a sender across the end of a part; the names before are parts of it."""
    table = plain_table()
    sender = long_name(b"s", 0)
    table.same(sender[:12] + b" 1 31")
    table.same(sender[12:] + b" 1 32")
    table.same(sender + b" 1 33")
    table.fill(PART - 12)
    table.same(sender + b" 1 33")
    table.same(sender + b" 2 34")
    assert table.readings[PART:].startswith(sender[12:])
    table.add("sender-cut", PLAIN)


def eight_senders():
    """Two parts of lines of eight senders in turn, each sent again after lines of all; a ninth is refused."""
    table = plain_table()
    senders = [long_name(b"s", number) for number in range(8)]
    number = 0
    while len(table.readings) < PART + 1000:
        number += 1
        sent = [sender + b" %d %d" % (number, 10 * number + place) for place, sender in enumerate(senders)]
        for values in sent + sent:
            table.same(values)
        table.line(b"s %d %d" % (number, number), b"refused 42")
    table.add("senders-8", PLAIN)


def file_of_size(name, size, last_feed):
    """The file's last line ends where the file has this many bytes."""
    table = plain_table()
    table.fill(size - len(b"a 1 57\n" if last_feed else b"a 1 57"))
    table.same(b"a 1 57")
    if not last_feed:
        table.drop_last_feed()
    assert len(table.readings) == size
    table.add(name, PLAIN)


# -- long records and lines of names


def record_cut(length, before, row):
    """A record of this length inside a part, and one with this many bytes before the end of the part and the others behind it.

    Between the two stand longer records that end like a good line.
    """
    record = b"a 20 ".ljust(length, b"9")
    table = plain_table()
    table.line(record, row)
    for beginning in (8192, 32768):
        table.line(b"x" * beginning + b"a 1 57", b"refused 21")
    table.fill(PART - before)
    table.line(record, row)
    table.same(b"a 1 57")
    table.add("record-%d-cut" % length, PLAIN)


def record_of_a_part():
    """A record that fills its part up to the end; what stands of it in the next part would be a good line."""
    table = plain_table()
    table.same(b"a 1 57")
    record = b"x" * (PART - len(table.readings)) + b"a 2 58"
    table.line(record, b"refused 21")
    table.same(b"a 2 59")
    assert table.readings[PART:].startswith(b"a 2 58\n")
    table.add("record-%d" % len(record), PLAIN)


LONGEST_SENDER = long_name(b"s", 0)


def longest_record(number):
    """The longest name of a sender, and a value for each of 416 columns, as long as can be (`false` would leave only `-` for events): with a
    number of one digit, no accepted record is longer."""
    fields = [LONGEST_SENDER, b"%d" % number]
    for entity in range(32):
        fields += [b"true"] + [b"3ff%05x%08x" % (number, 12 * entity + event) for event in range(12)]
    return b" ".join(fields)


def longest_record_cut():
    """Longest records: taken, refused by their number, across the end of a part, and sent again."""
    bench, names = most_columns()
    table = Table(names, b"by n")
    table.line(longest_record(1), LONGEST_SENDER + b" 1")
    for _ in range(5):
        table.line(longest_record(3), b"refused 24")
    assert len(table.readings) < PART
    table.line(longest_record(2), LONGEST_SENDER + b" 2")
    assert len(table.readings) > PART
    table.line(longest_record(2), LONGEST_SENDER + b" 2")
    table.add("record-%d-cut" % len(longest_record(2)), bench)


def add_long_names():
    """Too long lines of names that begin or end like good ones; good lines follow."""
    bench, names = most_columns()
    for length in (32768, 32769):
        long_names = (names + b" ").ljust(length - 4, b"x") + b"by n"
        add("names-%d" % length, bench, lines(long_names, b"by n", b"a 1"), b"refused 22\n")
    for parts in (1, 2):
        long_names = b"by n s.e ".ljust(parts * PART, b"x") + b"by n s.e"
        add("names-%d" % len(long_names), PLAIN, lines(long_names, b"by n s.e", b"a 1 57", b"a 2 58"), b"refused 22\n")


# -- long prints


def print_to(table, number, size):
    """Empty lines until PLAIN has printed almost this many bytes, then a good line that prints the others; returns that line."""
    length = size - len(table.printed) - len(b"a %d \n" % number)
    while length > 11:
        table.line(b"", b"refused 21")
        length -= len(b"refused 21\n")
    values = b"a %d " % number + (b"1" * length if length <= 10 else b"-1111111111")
    table.same(values)
    assert len(table.printed) == size
    return values


def output_of_a_part():
    """65536 bytes are printed; a row ends where 32768 are."""
    table = plain_table()
    print_to(table, 1, PART // 2)
    print_to(table, 2, PART)
    table.add("output-65536", PLAIN)


def output_of_long_rows():
    """Long rows, of which one lies across byte 32768 of the print and another across byte 65536."""
    bench, names = most_actions()
    table = Table(b"by n t.e", names)
    for number in range(1, 9):
        table.line(b"a %d 0123456789abcde%d" % (number, number), b"a %d" % number + b" 8123456789abcde%d" % number * 383)
    table.line(b"a 7 -", b"refused 24")
    table.add("output-%d" % len(table.printed), bench)


def refusals(last):
    """Lines that are refused after a line with this number, some of each refusal."""
    values = [b"", b"a", b"a 0%d 2147483647" % last, b"_ %d 57" % last, b"9 %d 57" % last, b"a 1 2147483648", b"a %d -2147483649" % (last + 1)]
    values += [b"a %d 2147483647" % (last + 2), b"a 4294967296 57", b"a %d -2147483648" % last, b"a %d ?" % last]
    return cycle(zip(values, [b"refused %d" % number for number in (21, 21, 21, 43, 43, 23, 23, 24, 24, 25, 25)]))


def refused_and_resent():
    """More than 65536 bytes of refusals; a row ends where 65536 bytes are printed; a line is sent again across the end of a part."""
    table = plain_table()
    table.same(b"a 1 57")
    refused = refusals(1)
    while len(table.printed) < PART - 50:
        table.line(*next(refused))
    accepted = print_to(table, 2, PART)
    refused = refusals(2)
    while len(table.readings) < PART - 50:
        table.line(*next(refused))
    table.same(accepted)
    table.fill(PART - 4)
    table.same(accepted)
    table.same(accepted)
    assert table.readings[PART - 4 :].startswith(accepted)
    for _ in range(8):
        table.line(*next(refused))
    table.line(b"a 3" + accepted[3:], b"a 3 -")
    table.same(b"a 4 58")
    assert table.printed.count(b"refused ") * len(b"refused 21\n") > PART
    table.add("refused-resent", PLAIN)


def add_long_files():
    long_readings()
    number_cut()
    sender_cut()
    eight_senders()
    file_of_size("file-65536", PART, False)
    file_of_size("file-65536-feed", PART, True)
    file_of_size("file-65537", PART + 1, False)
    record_cut(8192, 8191, b"refused 23")
    record_cut(8193, 1, b"refused 21")
    record_of_a_part()
    longest_record_cut()
    add_long_names()
    output_of_a_part()
    output_of_long_rows()
    refused_and_resent()


# --------------------------------------------------------------------------
# All files: compared, or written
# --------------------------------------------------------------------------


def part_of_stdout(name, output):
    return b"== " + name.encode() + b"\n" + output


def wanted():
    """All files below the crate's folder that this program makes, by their names."""
    files = {Path("args"): lines(*[case[0].encode() for case in CASES])}
    files[Path("stdout")] = b"".join(part_of_stdout(name, output) for name, _, _, output in CASES)
    for name, bench, readings, _ in CASES:
        for file, content in (("bench.txt", bench), ("readings.txt", readings)):
            if content is not None:
                files[Path("data", name, file)] = content
    return files


def present():
    paths = [path for path in [CRATE / "args", CRATE / "stdout", *CRATE.glob("data/**/*")] if path.is_file()]
    return {path.relative_to(CRATE): path.read_bytes() for path in paths}


def add_all():
    add_stored()
    add_trials()
    add_bench_limits()
    add_line_limits()
    add_files()
    add_long_files()


def unlike_case(stdout):
    """The first case whose part of stdout is not what it should be."""
    place = 0
    for name, _, _, output in CASES:
        part = part_of_stdout(name, output)
        if not stdout.startswith(part, place):
            return "from case " + name + " on"
        place += len(part)
    return "behind the last case"


def unlike_files(files):
    """The files that are missing, too many, or not what they should be, in words."""
    have = present()
    unlike = sorted(str(path) for path in files.keys() | have.keys() if files.get(path) != have.get(path))
    stdout = have.get(Path("stdout"), b"")
    return [path + " (" + unlike_case(stdout) + ")" if path == "stdout" else path for path in unlike]


def write_files(files):
    shutil.rmtree(CRATE / "data", ignore_errors=True)
    for path, content in files.items():
        (CRATE / path).parent.mkdir(parents=True, exist_ok=True)
        (CRATE / path).write_bytes(content)


def main(arguments):
    write = asked_to_write(arguments)
    add_all()
    files = wanted()
    if write:
        write_files(files)
    else:
        unlike = unlike_files(files)
        if unlike:
            print("not what to_program.py makes (--write would write them): " + ", ".join(unlike))
            return 1
    print("%d cases" % len(CASES))
    return 0


if __name__ == "__main__":
    sys.exit(main(sys.argv[1:]))

#!/usr/bin/env python3
"""Checks docs/LANGUAGE.md against the program: every example is run, and grammar, reserved words, limits and refusals are tried as the page states
them. The last line is 'N passed, M failed'.

    tests/bin/language.py [PAGE]

The program is target/bin/bench or BENCH_PROGRAM; sheets go through bin/bench --sheet.
"""
import sys

sys.dont_write_bytecode = True

import json
import os
import random
import re
import struct
import subprocess
import tempfile
from pathlib import Path
from typing import Callable, Dict, List, NamedTuple, Optional, Set, Tuple

ROOT = Path(__file__).resolve().parents[2]
FENCE = "```"
RUN_SECONDS = 20  # a run takes milliseconds
CANNOT_RUN = 3  # status of bin/bench: a program could not be built or run
GRAMMAR_TEXTS = 300  # random texts, half of them damaged
DEEP = 12  # from here on a random text is brought to its end
FOREIGN_BYTES = (0, 8, 11, 13, 27, 31, 127, 128, 195, 239, 255)  # also a carriage return, first bytes of an accented letter and of a byte order mark
MOST_OPENERS = 16  # random texts with more are left to the limits

# The refusals that an example of the page has to show; 31 to 33 are about memory lent from C.
SHOWN_REFUSALS = {12, 13, 44, 14, 15, 16, 17, 18, 21, 22, 23, 24, 25, 41, 42, 43}
FILE_REFUSALS = [11, 12, 13, 44, 14, 15, 16, 17, 18]  # in the order in which they are given
LINE_REFUSALS = [21, 43, 42, 23, 23, 24, 25]


class Block(NamedTuple):
    form: str
    name: str
    lines: List[str]
    place: int  # the page's line of the fence


class Refused(NamedTuple):
    number: int
    offset: int


# The page.


def read_blocks(page: List[str]) -> List[Block]:
    blocks = []
    opened: Optional[Block] = None
    for number, line in enumerate(page, 1):
        if not line.startswith(FENCE):
            if opened:
                opened.lines.append(line)
            continue
        if opened:
            blocks.append(opened)
            opened = None
            continue
        words = line[len(FENCE):].split() + ["", ""]
        opened = Block(words[0], words[1], [], number)
    if opened:
        raise ValueError(f"line {opened.place}: the block has no end")
    return blocks


def read_tables(page: List[str]) -> Dict[str, List[List[str]]]:
    """Tables by their row of headings; the cells of each row without their blanks and backticks."""
    tables: Dict[str, List[List[str]]] = {}
    current: Optional[List[List[str]]] = None
    for line in page:
        if not line.startswith("|"):
            current = None
            continue
        cells = [cell.strip() for cell in line.strip().strip("|").split("|")]
        if current is None:
            current = tables.setdefault(" ".join(cells), [])
            continue
        if set("".join(cells)) != {"-"}:
            current.append(cells)
    return tables


def bare(cell: str) -> str:
    return cell[1:-1] if cell.startswith("`") and cell.endswith("`") else cell


def amount(cell: str) -> int:
    return int(cell.replace(",", ""))


# The program.


def script(*words: str) -> List[str]:
    """What bin/bench prints. It may have to build its programs first, so it has no limit of time."""
    done = subprocess.run([str(ROOT / "bin/bench"), *words], stdin=subprocess.DEVNULL, stdout=subprocess.PIPE, stderr=subprocess.PIPE)
    if done.returncode == CANNOT_RUN:
        raise RuntimeError("bin/bench: " + done.stderr.decode("latin-1").strip())
    return done.stdout.decode("latin-1").splitlines()


class Bench:
    """Runs the program in a folder of its own."""

    def __init__(self, folder: Path) -> None:
        self.folder = folder
        self.program = str(Path(os.environ.get("BENCH_PROGRAM") or ROOT / "target/bin/bench").resolve())

    def _put(self, text: str, readings: str) -> None:
        (self.folder / "bench.txt").write_bytes(text.encode("latin-1"))
        (self.folder / "readings.txt").write_bytes(readings.encode("latin-1"))

    def rows(self, text: str, readings: str) -> List[str]:
        self._put(text, readings)
        done = subprocess.run([self.program], cwd=self.folder, stdin=subprocess.DEVNULL, stdout=subprocess.PIPE, timeout=RUN_SECONDS)
        if done.returncode != 0:
            raise RuntimeError(f"{self.program} ended with status {done.returncode}")
        return done.stdout.decode("latin-1").splitlines()

    def sheet(self, text: str, readings: str, cells: str) -> List[str]:
        self._put(text, readings)
        return script("--sheet", cells, str(self.folder))

    def refusal(self, text: str) -> Optional[Refused]:
        """Of a bench file; None if it is accepted."""
        first = self.rows(text, "by n")[0].split()
        if first[0] != "refused":
            return None
        return Refused(int(first[1]), int(first[2]))


class Count:
    def __init__(self) -> None:
        self.passed = 0
        self.failed = 0

    def equal(self, what: str, page: object, program: object) -> None:
        if page == program:
            self.passed += 1
            return
        self.failed += 1
        print(f"failed: {what}\n  expected: {page}\n  is:       {program}")


# Examples: lines beside rows, texts with their refusals, sheets.


def fields_of(line: str) -> Tuple[str, str]:
    """The left part of a line of a block and what stands right of it; a remark may follow."""
    parts = [part.strip() for part in line.split("|")] + [""]
    return parts[0], parts[1]


def check_lines(block: Block, text: str, bench: Bench, count: Count) -> None:
    pairs = [fields_of(line) for line in block.lines]
    rows = bench.rows(text, "\n".join(left for left, _ in pairs))
    rows += [""] * (len(pairs) - len(rows))
    count.equal(f"line {block.place}: as many rows as lines", len(pairs), len(rows))
    for number, ((_, right), row) in enumerate(zip(pairs, rows), block.place + 1):
        count.equal(f"line {number}: the row", right, row)


def check_names(block: Block, text: str, bench: Bench, count: Count) -> None:
    for number, line in enumerate(block.lines, block.place + 1):
        left, right = fields_of(line)
        first = bench.rows(text, left)[0]
        count.equal(f"line {number}: a line of names", right, first if first.startswith("refused") else "taken")


def check_cells(block: Block, text: str, bench: Bench, count: Count) -> None:
    for number, line in enumerate(block.lines, block.place + 1):
        left, right = fields_of(line)
        for readings in ("by n", "no names"):  # cells are looked at before the names
            answer = bench.sheet(text, readings, left)
            expected = ["refused 41"] if right == "refused 41" else [] if readings == "by n" else ["refused 22"]
            count.equal(f"line {number}: cells, with {readings}", expected, answer)
            count.equal(f"line {number}: a word for it", True, right in ("taken", "refused 41"))


def check_sheet(block: Block, text: str, readings: str, bench: Bench, count: Count) -> None:
    command = re.match(r"\$ bin/bench --sheet '([^']*)' FOLDER$", block.lines[0])
    count.equal(f"line {block.place}: the command", True, command is not None)
    if not command:
        return
    rows = bench.sheet(text, readings, command.group(1))
    count.equal(f"line {block.place}: the sheet", block.lines[1:], [row.rstrip() for row in rows])
    count.equal(f"line {block.place}: 80 columns", {80}, {len(row) for row in rows})


def check_texts(block: Block, bench: Bench, count: Count) -> Set[int]:
    """Texts, each with a line below it: a caret under the fault with number and place, or `accepted`. Gives the numbers shown."""
    shown = set()
    lines: List[str] = []
    for number, line in enumerate(block.lines, block.place + 1):
        verdict = re.match(r" +(?:\^ (\d+) at (\d+)|accepted\b)", line)
        if not verdict:
            lines.append(line)
            continue
        expected = Refused(int(verdict.group(1)), int(verdict.group(2))) if verdict.group(1) else None
        count.equal(f"line {number}: the answer", expected, bench.refusal("\n".join(lines)))
        if expected:
            shown.add(expected.number)
            # The caret stands under the last line of the text.
            before = sum(len(each) + 1 for each in lines[:-1])
            count.equal(f"line {number}: the caret", expected.offset, before + line.index("^"))
        lines = []
    count.equal(f"line {block.place}: each text has its answer", [], lines)
    return shown


def check_shell(block: Block, count: Count) -> None:
    for command, expected in zip(block.lines[::2], block.lines[1::2]):
        done = subprocess.run(["sh", "-c", command.lstrip("$ ")], stdout=subprocess.PIPE, timeout=RUN_SECONDS)
        count.equal(f"line {block.place}: {command}", expected, done.stdout.decode().strip())


# Sums and reals.


def rule_of(expression: str, kind: str) -> str:
    return (f"interface I {{ event e : bool action k ( {kind} ) }} entity s : I {{ }} "
            f"rules when event e from s value = true trigger action k ( {expression} ) on s end end")


def check_sum(expression: str, value: str, bench: Bench, count: Count) -> None:
    texts = [rule_of(expression, kind) for kind in ("whole", "real")]
    fitting = [text for text in texts if bench.refusal(text) is None]
    count.equal(f"{expression} has one kind", 1, len(fitting))
    if fitting:
        row = bench.rows(fitting[0], "by n s.e\na 1 true")[1]
        count.equal(expression, "a 1 " + ("-" if value == "unset" else value), row)


def check_reals(page: str, count: Count) -> None:
    said = re.findall(r"(-?[\d.]+) is `([0-9a-f]{16})`", page)
    count.equal("the page says some reals", True, len(said) >= 3)
    for decimal, digits in said:
        count.equal(f"digits of {decimal}", digits, struct.pack(">d", float(decimal)).hex())


# Grammar: the page's block is read, texts are made from it and damaged, and what it says of each is compared with the program's 13.

Part = Tuple  # ("word", w) | ("rule", name) | ("all", parts) | ("one", parts) | ("many", part) | ("maybe", part)
WORD = re.compile(r"#[^\n]*|([A-Za-z]\w*|\d+r?|[{}():=,.+*/-])", re.ASCII)  # a comment, or a word
SAMPLES = {"name": ["a", "b2", "Lamp", "s_1"], "number": ["0", "7", "2r"], "whole_number": ["0", "9"]}


def read_grammar(lines: List[str]) -> Dict[str, Part]:
    rules = {}
    for line in lines:
        head, body = line.split("=", 1)
        pieces = re.findall(r'"[^"]*"|\w+|[][()|*]', body)
        part, rest = read_choice(pieces)
        if rest:
            raise ValueError(f"the grammar's line of {head.strip()} cannot be read at {rest[0]}")
        rules[head.strip()] = part
    return rules


def read_choice(pieces: List[str]) -> Tuple[Part, List[str]]:
    options, parts = [], []
    while pieces and pieces[0] not in "])":
        if pieces[0] == "|":
            options.append(("all", parts))
            parts, pieces = [], pieces[1:]
            continue
        part, pieces = read_part(pieces)
        parts.append(part)
    options.append(("all", parts))
    return (options[0] if len(options) == 1 else ("one", options)), pieces


def read_part(pieces: List[str]) -> Tuple[Part, List[str]]:
    first, rest = pieces[0], pieces[1:]
    if first in "[(":
        inner, rest = read_choice(rest)
        part: Part = ("maybe", inner) if first == "[" else inner
        rest = rest[1:]
    elif first.startswith('"'):
        part = ("word", first[1:-1])
    else:
        part = ("rule", first)
    if rest[:1] == ["*"]:
        return ("many", part), rest[1:]
    return part, rest


def words_in(part: Part) -> Set[str]:
    if part[0] == "word":
        return {part[1]}
    if part[0] == "rule":
        return set()
    inner = part[1] if part[0] in ("all", "one") else [part[1]]
    return set().union(*(words_in(each) for each in inner)) if inner else set()


class Maker:
    """Random words that a grammar admits."""

    def __init__(self, rules: Dict[str, Part], chance: random.Random) -> None:
        self.rules, self.chance = rules, chance

    def make(self, part: Part, depth: int = 0) -> List[str]:
        kind, inner = part
        if kind == "word":
            return [inner]
        if kind == "rule":
            return self._rule(inner, depth + 1)
        if kind == "all":
            return [word for each in inner for word in self.make(each, depth)]
        if kind == "one":
            return self.make(self._option(inner, depth), depth)
        most = 1 if kind == "maybe" else 2
        times = self.chance.randint(0, most) if depth < DEEP else 0
        return [word for _ in range(times) for word in self.make(inner, depth)]

    def _rule(self, name: str, depth: int) -> List[str]:
        if name in SAMPLES:
            return [self.chance.choice(SAMPLES[name])]
        return self.make(self.rules[name], depth)

    def _option(self, options: List[Part], depth: int) -> Part:
        # Deep down the first option ends the text: it never leads back to the rule.
        return self.chance.choice(options) if depth < DEEP else options[0]


class Reader:
    """How far words go along a grammar: all ways at once, and the furthest word that was looked at."""

    def __init__(self, rules: Dict[str, Part], reserved: Set[str], words: List[str]) -> None:
        self.rules, self.reserved, self.words = rules, reserved, words
        self.furthest = 0
        self.known: Dict[Tuple[str, int], Set[int]] = {}

    def fault(self) -> Optional[int]:
        """The first word that no text of the grammar has there; the number of words if there are too few; None if the words are a text."""
        ends = self.ends(("rule", "file"), 0)
        if len(self.words) in ends:
            return None
        return max([self.furthest, *ends])

    def ends(self, part: Part, at: int) -> Set[int]:
        kind, inner = part
        if kind == "word":
            return self._take(at, lambda word: word == inner)
        if kind == "rule":
            return self._rule(inner, at)
        if kind == "all":
            return self._sequence(inner, at)
        if kind == "one":
            return set().union(*(self.ends(each, at) for each in inner))
        if kind == "maybe":
            return {at} | self.ends(inner, at)
        return self._many(inner, at)

    def _take(self, at: int, fits: Callable[[str], bool]) -> Set[int]:
        self.furthest = max(self.furthest, at)
        return {at + 1} if at < len(self.words) and fits(self.words[at]) else set()

    def _rule(self, name: str, at: int) -> Set[int]:
        if name == "name":
            return self._take(at, lambda word: word[0].isalpha() and word not in self.reserved)
        if name in ("number", "whole_number"):
            return self._take(at, lambda word: word[0].isdigit() and not (name == "whole_number" and word.endswith("r")))
        if (name, at) not in self.known:
            self.known[name, at] = self.ends(self.rules[name], at)
        return self.known[name, at]

    def _sequence(self, parts: List[Part], at: int) -> Set[int]:
        places = {at}
        for part in parts:
            places = set().union(*(self.ends(part, place) for place in places)) if places else places
        return places

    def _many(self, part: Part, at: int) -> Set[int]:
        places, fresh = {at}, {at}
        while fresh:
            fresh = set().union(*(self.ends(part, place) for place in fresh)) - places
            places |= fresh
        return places


def damaged(words: List[str], vocabulary: List[str], chance: random.Random) -> List[str]:
    at = chance.randrange(len(words))
    how = chance.choice(["drop", "put", "change", "cut"])
    if how == "cut":
        return words[:at]
    put = [] if how == "drop" else [chance.choice(vocabulary)]
    return words[:at] + put + words[at + (how != "put"):]


def openers_too_deep(words: List[str]) -> bool:
    return sum(word in ("(", "-", "real") for word in words) > MOST_OPENERS


def check_grammar(rules: Dict[str, Part], reserved: List[str], bench: Bench, count: Count) -> None:
    chance = random.Random(1)
    vocabulary = reserved + list("{}():=,.+-*/") + [sample for samples in SAMPLES.values() for sample in samples]
    maker = Maker(rules, chance)
    tried = {"grammatical": 0, "damaged": 0}
    for turn in range(GRAMMAR_TEXTS):
        words = maker.make(("rule", "file"))
        if turn % 2:
            words = damaged(words, vocabulary, chance)
        if openers_too_deep(words):
            continue
        fault = Reader(rules, set(reserved), words).fault()
        text = " ".join(words)
        expected = None if fault is None else Refused(13, len(" ".join(words[:fault] + [""]) if 0 < fault < len(words) else text if fault else ""))
        answer = bench.refusal(text)
        answer = answer if answer and answer.number == 13 else None
        count.equal(f"the grammar on: {text}", expected, answer)
        tried["damaged" if fault is not None else "grammatical"] += 1
    count.equal("many texts of both sorts", True, min(tried.values()) > GRAMMAR_TEXTS // 8)


def check_stored_texts(rules: Dict[str, Part], reserved: List[str], count: Count) -> None:
    """The stored bench texts with their answers, which the program is held to elsewhere: they have what random texts meet too seldom."""
    cases = json.loads((ROOT / "tests/oracle/cases.json").read_text())
    tried = {"grammatical": 0, "damaged": 0}
    for case in cases:
        number, offset = case["check"]
        if number in (11, 12):
            continue
        found = [match for match in WORD.finditer(case["bench"]) if match.group(1)]
        words = [match.group(1) for match in found]
        if openers_too_deep(words):
            continue
        fault = Reader(rules, set(reserved), words).fault()
        place = None if fault is None else found[fault].start() if fault < len(found) else len(case["bench"])
        count.equal(f"the grammar on the stored text {case['name']}", offset if number == 13 else None, place)
        tried["damaged" if number == 13 else "grammatical"] += 1
    count.equal("stored texts of both sorts", True, min(tried.values()) > 20)


def check_words(reserved: List[str], marks: Set[str], rules: Dict[str, Part], bench: Bench, count: Count) -> None:
    quoted = set().union(*(words_in(part) for part in rules.values()))
    count.equal("the grammar's words are the reserved words and the marks", set(reserved) | marks, quoted)
    for word in reserved:
        count.equal(f"{word} is no name", Refused(13, 10), bench.refusal(f"interface {word} {{ }} rules end"))
        count.equal(f"{word.title()} is a name", None, bench.refusal(f"interface {word.title()} {{ }} rules end"))
    allowed = "\t" + "".join(chr(byte) for byte in range(32, 127))
    count.equal("all allowed bytes in a comment", None, bench.refusal(f"# {allowed}\nrules end"))
    for byte in FOREIGN_BYTES:
        count.equal(f"byte {byte} in a comment", Refused(12, 2), bench.refusal(f"# {chr(byte)}\nrules end"))


def check_classes(page: str, marks: Set[str], count: Count) -> None:
    """The sentence about the classes of bytes, against what bin/bench --classes prints."""
    sets = {"letter": str.isalpha, "digit": str.isdigit, "`_`": "_".__eq__, "mark": marks.__contains__, "blank": " \t\n".__contains__,
            "`#`": "#".__eq__, "for comments only": lambda byte: "!" <= byte <= "~", "not allowed": lambda byte: True}
    said = re.findall(r"\b([0-7]) (" + "|".join(sets) + r")(?=[ ,.\n])", page)
    count.equal("eight classes in order", list("01234567"), [number for number, _ in said])
    printed = script("--classes")
    count.equal("256 classes", 256, len(printed))
    for line in printed:
        byte, number = line.split()
        character = chr(int(byte))
        # Letters and digits are those of ASCII; of the classes that fit, the first of the page's sentence counts.
        fitting = [each for each, name in said if sets[name](character) and (name == "not allowed" or int(byte) < 127)]
        count.equal(f"the class of byte {byte}", fitting[0], number)


# Limits: for each row of the page a text or line of that size, and one beyond it.

EVENTS = "interface I { event e : whole action k ( whole ) } entity s : I { } "
PLAIN_RULE = "when event e from s value changed trigger action k ( 1 ) on s end"


def bench_of_rule(rule: str) -> str:
    return f"{EVENTS}rules {rule} end"


def repeated(item: str, size: int, between: str = " ") -> str:
    return between.join(item.replace("#", str(index)) for index in range(size))


FILE_LIMITS: Dict[str, Callable[[int], str]] = {
    "bytes of a bench file": lambda size: "rules end".ljust(size),
    "bytes of a name": lambda size: f"interface {'n' * size} {{ }} rules end",
    "digits of a number": lambda size: bench_of_rule(PLAIN_RULE.replace("( 1 )", f"( {'1'.zfill(size)} )")),
    "value of a number": lambda size: bench_of_rule(PLAIN_RULE.replace("( 1 )", f"( {size} )")),
    "openers around one another": lambda size: bench_of_rule(PLAIN_RULE.replace("( 1 )", f"( {'- ' * size}1 )")),
    "rank of a rule": lambda size: bench_of_rule(PLAIN_RULE.replace("when", f"when rank {size}")),
    "interfaces": lambda size: repeated("interface I# { }", size) + " rules end",
    "members of an interface": lambda size: f"interface I {{ {repeated('event e# : bool', size)} }} rules end",
    "entities": lambda size: f"interface I {{ }} {repeated('entity s# : I { }', size)} rules end",
    "rules": lambda size: bench_of_rule(repeated(PLAIN_RULE, size)),
    "variables of a rule": lambda size: bench_of_rule(PLAIN_RULE.replace("action k ( 1 ) on s", repeated("action k ( 1 ) on v# : I", size, " , "))),
    "clauses of a rule": lambda size: bench_of_rule(PLAIN_RULE.replace("event e from s value changed",
                                                                        repeated("event e from s value changed", size, " or "))),
    "calls of a rule": lambda size: bench_of_rule(PLAIN_RULE.replace("action k ( 1 ) on s", repeated("action k ( 1 ) on s", size, " , "))),
}


def last_row(bench: Bench, *lines: str) -> str:
    row = bench.rows(f"{EVENTS}rules end", "\n".join(("by n s.e",) + lines))[-1]
    return row if row.startswith("refused") else "taken"


# What a line of the given size gets. No well-formed line of values is as long as it may be, so the longest has an ill-formed value (23); and no run
# of this script reaches a number of ten digits, so one that is well formed is out of turn (24).
LINE_LIMITS: Dict[str, Tuple[str, Callable[[Bench, int], str]]] = {
    "bytes of a line of values": ("refused 23", lambda bench, size: last_row(bench, "a 1 ".ljust(size, "1"))),
    "digits of a line's number": ("refused 24", lambda bench, size: last_row(bench, "a " + "1" * size + " -")),
    "bytes of a sender's name": ("taken", lambda bench, size: last_row(bench, "n" * size + " 1 -")),
    "senders": ("taken", lambda bench, size: last_row(bench, *(f"s{index} 1 -" for index in range(size)))),
    "cells of a day sheet": ("taken", lambda bench, size: (bench.sheet(f"{EVENTS}rules end", "by n", repeated("s.e", size)) or ["taken"])[0]),
}


def check_limit(what: str, most: int, number: int, bench: Bench, count: Count) -> None:
    if what in FILE_LIMITS:
        make = FILE_LIMITS[what]
        beyond = bench.refusal(make(most + 1))
        count.equal(f"{what}: {most} are taken", None, bench.refusal(make(most)))
        count.equal(f"{what}: {most + 1} are not", number, beyond.number if beyond else None)
        return
    within, answer = LINE_LIMITS[what]
    count.equal(f"{what}: {most}", within, answer(bench, most))
    count.equal(f"{what}: {most + 1}", f"refused {number}", answer(bench, most + 1))


def check_last_number(most: int, number: int, count: Count) -> None:
    """No run gets there: the separate reading of the documents is asked, on a state that is one line short of it. tests/c/calls.c tries the calls."""
    sys.path.insert(0, str(ROOT / "tests/oracle"))
    from make_cases import Bench as SeparateBench, with_last_number

    bench = SeparateBench(f"{EVENTS}rules end".encode())
    names = b"by n s.e"
    state = bench.line(bench.fresh(), names, b"a 1 -")[2]
    code, _, last = bench.line(with_last_number(state, b"a", most - 1), names, b"a %d -" % most)
    count.equal(f"the number {most} is taken", 0, code)
    count.equal(f"the number {most + 1} is not", number, bench.line(last, names, b"a %d -" % (most + 1))[0])


def check_longest_names(said: int, bench: Bench, limits: Dict[str, int], count: Count) -> None:
    width, entities, members = limits["bytes of a name"], limits["entities"], limits["members of an interface"]
    events = [f"e{index}".ljust(width, "x") for index in range(members)]
    devices = [f"s{index}".ljust(width, "x") for index in range(entities)]
    text = (f"interface I {{ {' '.join(f'event {event} : bool' for event in events)} }} "
            f"{' '.join(f'entity {device} : I {{ }}' for device in devices)} rules end")
    names = " ".join(["by n", *devices, *(f"{device}.{event}" for device in devices for event in events)])
    count.equal("the longest line of names", said, len(names))
    count.equal("it is taken", ["by n"], bench.rows(text, names))


def check_limits(rows: List[List[str]], page: str, bench: Bench, count: Count) -> None:
    limits = {what: amount(most) for what, most, _ in rows}
    count.equal("the limits of the page", {*FILE_LIMITS, *LINE_LIMITS, "number of a line"}, set(limits))
    for what, most, number in rows:
        if what in FILE_LIMITS or what in LINE_LIMITS:
            check_limit(what, amount(most), int(number), bench, count)
        elif what == "number of a line":
            check_last_number(amount(most), int(number), count)
    said = re.search(r"the longest that a bench can have has ([\d,]+) bytes", page)
    check_longest_names(amount(said.group(1)) if said else 0, bench, limits, count)


# Refusals: the tables have every number, in the order in which they are given, and examples show them.


def check_refusals(tables: Dict[str, List[List[str]]], shown: Set[int], count: Count) -> None:
    count.equal("numbers of bench files", FILE_REFUSALS, [int(row[0]) for row in tables["number place why"]])
    count.equal("numbers of lines", LINE_REFUSALS, [int(row[0]) for row in tables["number why"]])
    count.equal("refusals without an example", set(), SHOWN_REFUSALS - shown)


def lines_of(blocks: List[Block], form: str) -> List[str]:
    return [line for block in blocks if block.form == form for line in block.lines]


def check_block(block: Block, texts: Dict[str, str], readings: Dict[str, str], bench: Bench, count: Count) -> Set[int]:
    """Runs the examples of one block, which may use benches and readings of those before it. Gives the refusals that it shows."""
    text = texts.get(block.name, "")
    if block.form == "bench":
        texts[block.name] = "\n".join(block.lines)
        count.equal(f"line {block.place}: the bench", None, bench.refusal(texts[block.name]))
    elif block.form == "lines":
        readings[block.name] = "\n".join(fields_of(line)[0] for line in block.lines)
        check_lines(block, text, bench, count)
    elif block.form == "names":
        check_names(block, text, bench, count)
    elif block.form == "cells":
        check_cells(block, text, bench, count)
    elif block.form == "sheet":
        check_sheet(block, text, readings[block.name], bench, count)
    elif block.form == "shell":
        check_shell(block, count)
    elif block.form == "check":
        return check_texts(block, bench, count)
    elif block.form not in ("grammar", "reserved"):
        count.equal(f"line {block.place}: a form of block", "one that is checked", block.form)
    return {int(number) for line in block.lines for number in re.findall(r"\| refused (\d+)", line)}


def check_page(path: Path, bench: Bench, count: Count) -> None:
    lines = path.read_text(encoding="latin-1").split("\n")
    page = " ".join(lines)  # for sentences, which may be broken over lines
    blocks, tables = read_blocks(lines), read_tables(lines)
    texts: Dict[str, str] = {}
    readings: Dict[str, str] = {}
    shown: Set[int] = set()
    for block in blocks:
        shown |= check_block(block, texts, readings, bench, count)
    check_refusals(tables, shown, count)
    for expression, value in tables["sum value"]:
        check_sum(bare(expression), bare(value), bench, count)
    check_reals(page, count)
    reserved = " ".join(lines_of(blocks, "reserved")).split()
    rules = read_grammar(lines_of(blocks, "grammar"))
    marks = set(next(form for word, form in tables["word form"] if word == "mark").split("`")[1].split())
    check_words(reserved, marks, rules, bench, count)
    check_classes(page, marks, count)
    check_grammar(rules, reserved, bench, count)
    check_stored_texts(rules, reserved, count)
    check_limits(tables["what at most beyond it"], page, bench, count)


def main() -> int:
    path = Path(sys.argv[1]) if len(sys.argv) > 1 else ROOT / "docs/LANGUAGE.md"
    count = Count()
    with tempfile.TemporaryDirectory() as folder:
        try:
            check_page(path, Bench(Path(folder)), count)
        except (LookupError, ValueError, OSError, RuntimeError, ImportError, StopIteration, subprocess.SubprocessError) as fault:
            count.equal("the page can be read and the program run", "yes", repr(fault))
    print(f"{count.passed} passed, {count.failed} failed")
    return 0 if count.failed == 0 and count.passed > 0 else 1


if __name__ == "__main__":
    sys.exit(main())

"""The stored cases as statements about the definitions: crates/stored_texts/proofs/theorems/StoredTexts.antt and StoredClasses.antt,
crates/replay_cases/proofs/theorems/StoredLines.antt, crates/sheet_cases/proofs/theorems/StoredSheets.antt and
crates/tried_cases/proofs/theorems/StoredTried.antt.

cases.json, sheets.json and tried.json hold texts and readings with what bench_oracle.py makes of them, classes.txt its table of byte classes. Each
statement says that the definitions compute the same, by `refl`. With no argument or `--check` it fails if the files differ, in more than layout, from what they
should be; `--write` writes them.
"""

import json
import sys
from pathlib import Path

HERE = Path(__file__).resolve().parent
CRATES = HERE.parent.parent / "crates"

TEXTS = """-- Bench texts, accepted and refused by each code. Made by tests/oracle/to_antt.py from tests/oracle/cases.json.
use Prim.Native.Nat.{◌+◌, ◌*◌}
use mathlib.Core.Path.{◌≡◌, refl}
use Rattle.text.specs.definitions.Bytes.{ascii}
use Rattle.checking.specs.definitions.Verdict.{verdict, verdict_answer}
"""

CLASSES = """-- The class of each byte. Made by tests/oracle/to_antt.py from tests/oracle/classes.txt.
use mathlib.Core.Path.{◌≡◌, refl}
use mathlib.Core.List.{[], ◌∷◌}
use Rattle.text.specs.definitions.ByteClass.{byte_class}
use Rattle.text.specs.inner_contracts.ByteTables.{tabulate, at_bytes}
"""

LINES = """-- Readings, and all that is printed for them. Made by tests/oracle/to_antt.py from tests/oracle/cases.json.
use mathlib.Core.Path.{◌≡◌, refl}
use lib.Ieee as Ieee
use Rattle.text.specs.definitions.Bytes.{ascii}
use Rattle.replay.specs.definitions.Replay.{replay}
"""

SHEETS = """-- Day sheets. Made by tests/oracle/to_antt.py from tests/oracle/sheets.json.
use mathlib.Core.Path.{◌≡◌, refl}
use lib.Ieee as Ieee
use Rattle.text.specs.definitions.Bytes.{ascii}
use Rattle.senders.specs.definitions.Answer.{refused, accepted}
use Rattle.sheet_cases.specs.definitions.SheetOf.{sheet_of}
"""

TRIED = """-- Readings, and for each line that starts a cycle the rules that it tries. Made by tests/oracle/to_antt.py from tests/oracle/tried.json.
use mathlib.Core.Path.{◌≡◌, refl}
use mathlib.Core.List.{[], ◌∷◌}
use lib.Ieee as Ieee
use Rattle.text.specs.definitions.Bytes.{ascii}
use Rattle.tried_cases.specs.definitions.TriedOf.{tried_of}
"""

REALS = "Ieee.add Ieee.sub Ieee.mul Ieee.div Ieee.neg Ieee.eq Ieee.of_int Ieee.of_bits Ieee.to_bits Ieee.is_nan"

# what else is not printed is written by its number
ESCAPES = {"\\": "\\\\", '"': '\\"', "\n": "\\n", "\t": "\\t", "\r": "\\r", "\0": "\\0"}


def escaped(char: str) -> str:
    return ESCAPES.get(char, char if " " <= char <= "~" else f"\\u{{{ord(char):x}}}")


def quoted(text: str) -> str:
    """A text as antt writes it, with Rust's escapes."""
    return '"' + "".join(map(escaped, text)) + '"'


def of_text(case: dict) -> str:
    code, place = case["check"]
    return f"verdict_answer (verdict (ascii {quoted(case['bench'])})) ≡ {code} + 256 * {place}"


def of_readings(case: dict) -> str:
    return f"replay (ascii {quoted(case['bench'])}) (ascii {quoted(case['readings'])}) ≡ ascii {quoted(case['printed'])}"


def of_sheet(case: dict) -> str:
    texts = " ".join(f"(ascii {quoted(case[name])})" for name in ("bench", "before", "readings", "cells"))
    answer = f"refused {case['number']}" if case["number"] else f"accepted (ascii {quoted(case['sheet'])})"
    return f"sheet_of {texts} ≡ {answer}"


def listed(items: list) -> str:
    """A list as antt writes it."""
    return "(" + "".join(f"{item} ∷ " for item in items) + "[])"


def of_tried(case: dict) -> str:
    tried = listed([listed(rules) for rules in case["tried"]])
    return f"tried_of (ascii {quoted(case['bench'])}) (ascii {quoted(case['readings'])}) ≡ {tried}"


def file_of_classes(lines: list) -> str:
    """The table of classes.txt, whose line k has the byte k and its class."""
    if [line.split(" ")[0] for line in lines] != [str(byte) for byte in range(256)]:
        raise SystemExit("classes.txt has not one line for each byte")
    table = " ∷ ".join(line.split(" ")[1] for line in lines)
    return f"{CLASSES}\npub byte_classes : at_bytes byte_class ≡ {table} ∷ []\nunfolding tabulate byte_class\nbyte_classes = refl\n"


def named(case: dict) -> str:
    """The case's name as antt's lemmas are named."""
    return case["name"].replace("-", "_")


def file_of(imports: str, cases: list, statement, opened: str) -> str:
    parts = [f"pub {named(case)} : {statement(case)}\nunfolding {opened}\n{named(case)} = refl\n" for case in cases]
    return "\n".join([imports, *parts])


# a text that is longer takes antt more steps than one statement may
LONGEST = 1500


def main() -> int:
    if sys.argv[1:] not in ([], ["--check"], ["--write"]):
        print("usage: to_antt.py [--check | --write]")
        return 2
    cases = [case for case in json.loads((HERE / "cases.json").read_text()) if len(case["bench"]) <= LONGEST]
    texts = [case for case in cases if case["readings"] is None]
    runs = [case for case in cases if case["readings"] is not None]
    sheets = json.loads((HERE / "sheets.json").read_text())
    tried = json.loads((HERE / "tried.json").read_text())
    classes = (HERE / "classes.txt").read_text().splitlines()
    files = {
        "stored_texts/proofs/theorems/StoredClasses.antt": file_of_classes(classes),
        "stored_texts/proofs/theorems/StoredTexts.antt": file_of(TEXTS, texts, of_text, "verdict verdict_answer ascii"),
        "replay_cases/proofs/theorems/StoredLines.antt": file_of(LINES, runs, of_readings, "replay ascii\n    " + REALS),
        "sheet_cases/proofs/theorems/StoredSheets.antt": file_of(SHEETS, sheets, of_sheet, "sheet_of ascii Ieee.lt\n    " + REALS),
        "tried_cases/proofs/theorems/StoredTried.antt": file_of(TRIED, tried, of_tried, "tried_of ascii\n    " + REALS),
    }
    for name, text in files.items():
        path = CRATES / name
        if "--write" in sys.argv:
            path.write_text(text)
        elif path.read_text().split() != text.split():
            print(f"{name} is not what the stored cases give")
            return 1
    print(f"{len(texts)} texts, {len(runs)} runs, {len(sheets)} sheets, {len(tried)} runs with the rules tried, {len(classes)} byte classes")
    return 0


if __name__ == "__main__":
    sys.exit(main())

"""What the sources say: calls and contracts, promises and theorems, assumptions, wrong programs. All is found in the files, with its line."""
import glob
import os
import re
from typing import List, NamedTuple, Optional, Tuple

from certlib.files import clean, read_bytes, read_text

ENTRY_POINTS = "crates/engine_c/src/lib.rt"
THEOREMS = "crates/engine/proofs/theorems/Demands.antt"
CONTRACTS = "crates/engine/specs/definitions"
PROMISES = "docs/PROMISES.md"
HEADER = "include/bench_engine.h"
REFUSALS = "target/must-fail.txt"


class Call(NamedTuple):
    """A public call. What was not found is empty."""

    name: str
    place: str
    contract: str
    contract_place: str
    declared: bool  # in the header


class Promise(NamedTuple):
    """A promise in plain words, the record that states it, and the proof of the record."""

    title: str
    words: str
    record: str
    place: str
    proof: str  # empty: none was found
    proof_place: str
    claims: List[str]


class WrongProgram(NamedTuple):
    """A must-fail edit: its crate and name, what is wrong with the program, and whether rt ci said that it was refused."""

    name: str
    words: str
    refused: bool


def line_at(text: str, offset: int) -> int:
    return text.count("\n", 0, offset) + 1


def find_calls(root: str) -> List[Call]:
    """The functions that the engine exports, in the order of the source."""
    text = read_text(os.path.join(root, ENTRY_POINTS)) or ""
    header = read_text(os.path.join(root, HEADER)) or ""
    marks = list(re.finditer(r'^#\[unsafe\(no_mangle\)\]\s*\npub extern "C" fn ([A-Za-z_][A-Za-z0-9_]*)\b', text, re.M))
    ends = [mark.start() for mark in marks[1:]] + [len(text)]
    return [call_of(root, text, header, mark, end) for mark, end in zip(marks, ends)]


def call_of(root: str, text: str, header: str, mark: "re.Match[str]", end: int) -> Call:
    name = mark.group(1)
    contract = re.search(r"ensures\s*\{[^{}]*?\b([A-Z][A-Za-z]*Contract)\b", text[mark.end():end])
    called = contract.group(1) if contract else ""
    declared = re.search(r"\buint64_t\s+" + re.escape(name) + r"\s*\(", header) is not None
    place = "{}:{}".format(ENTRY_POINTS, line_at(text, mark.start(1)))
    return Call(name, place, called, contract_place(root, called), declared)


def contract_place(root: str, name: str) -> str:
    """Where the contract of this name is defined."""
    if not name:
        return ""
    for path in sorted(glob.glob(os.path.join(glob.escape(root), CONTRACTS, "*.antt"))):
        text = read_text(path) or ""
        found = re.search(r"^(?:abbrev |unfoldable )*pub " + re.escape(name) + " :", text, re.M)
        if found:
            return "{}:{}".format(os.path.relpath(path, root), line_at(text, found.start()))
    return ""


def plain(text: str) -> str:
    """A piece of Markdown on one line, without its marks."""
    return clean(text).replace("**", "").replace("`", "").strip()


def section(text: str, title: str, level: str = "##") -> str:
    """The part of a page under a heading, up to the next heading of this or a higher level."""
    found = re.search("^" + level + " " + re.escape(title) + r"[ \t]*$(.*?)(?=^#{2," + str(len(level)) + r"} |\Z)", text, re.M | re.S)
    return found.group(1) if found else ""


def bold_heads(text: str, mark: str) -> List[str]:
    """The bold words with which the items of a list begin. `mark` is what an item begins with."""
    return [plain(found) for found in re.findall("^" + mark + r"\*\*(.+?)\*\*", text, re.M | re.S)]


def find_assumptions(root: str) -> List[str]:
    page = section(read_text(os.path.join(root, PROMISES)) or "", "Assumptions")
    return bold_heads(page, r"- \[[ x]\] ")


def find_untold(root: str, title: str) -> List[str]:
    """The items of a list below the assumptions: what is tested only, what nobody promises."""
    page = section(read_text(os.path.join(root, PROMISES)) or "", "Assumptions")
    return bold_heads(section(page, title, "###"), "- ")


def promised_words(root: str) -> List[Tuple[str, str]]:
    """The promises in plain words, title and text, as the page has them for the certificate."""
    page = section(read_text(os.path.join(root, PROMISES)) or "", "Certificate")
    found = re.findall(r"^\d+\. \*\*(.+?)\*\*(.+?)(?=^\d+\. |^\S|\Z)", page, re.M | re.S)
    return [(plain(title), plain(words)) for title, words in found]


def find_promises(root: str) -> List[Promise]:
    """Each promise with the record of the same place in the order of the theorem page."""
    text = read_text(os.path.join(root, THEOREMS)) or ""
    records = list(re.finditer(r"^pub record (Demand[A-Z][a-z]+) :.*\n((?:[ ].*\n|\n)*)", text, re.M))
    words = promised_words(root)
    if len(words) != len(records):
        return []
    return [promise_of(text, title, said, record) for (title, said), record in zip(words, records)]


def promise_of(text: str, title: str, words: str, record: "re.Match[str]") -> Promise:
    name = record.group(1)
    claims = re.findall(r"^  pub ([A-Za-z_]+) :", record.group(2), re.M)
    proof = re.search(r"^pub ([a-z_]+) : " + re.escape(name) + r"$", text, re.M)
    if not proof or not re.search("^" + re.escape(proof.group(1)) + " = ", text, re.M):
        return Promise(title, words, name, place_of(text, record), "", "", claims)
    return Promise(title, words, name, place_of(text, record), proof.group(1), place_of(text, proof), claims)


def place_of(text: str, found: "re.Match[str]") -> str:
    return "{}:{}".format(THEOREMS, line_at(text, found.start()))


def find_wrong_programs(root: str) -> List[WrongProgram]:
    said = (read_text(os.path.join(root, REFUSALS)) or "").splitlines()
    found = []
    for path in sorted(glob.glob(os.path.join(glob.escape(root), "crates", "*", "must-fail", "*.edit"))):
        crate = os.path.basename(os.path.dirname(os.path.dirname(path)))
        name = crate + "/" + os.path.basename(path)[: -len(".edit")]
        found.append(WrongProgram(name, wrong_words(read_text(path) or ""), is_refused(said, name)))
    return found


def wrong_words(edit: str) -> str:
    """The sentence on top of an edit; of one without a sentence, its first replacement."""
    top = edit.split("\n", 1)[0].strip()
    if top and not re.match(r"(file|old|new):", top):
        return clean(top)
    old, new = (re.search("^" + word + ": *(.*)$", edit, re.M) for word in ("old", "new"))
    return "`{}` becomes `{}`".format(clean(old.group(1)), clean(new.group(1))) if old and new else "(no words)"


def is_refused(said: List[str], name: str) -> bool:
    """Whether rt ci said of this edit that it was refused, and for what."""
    return any(re.match(re.escape(name) + r"\.edit: refused, as it must be: .", line) for line in said)


def exported_names(archive: str) -> Optional[List[str]]:
    """The names in the index of an archive (`ar`); None if it has none that can be read."""
    data = read_bytes(archive) or b""
    magic, head, index_name = b"!<arch>\n", 60, b"/               "
    member = data[len(magic):]
    if not data.startswith(magic) or member[:16] != index_name or not member[48:58].strip().isdigit():
        return None
    index = member[head:head + int(member[48:58])]
    count = int.from_bytes(index[:4], "big")
    return [name.decode("ascii", "replace") for name in index[4 + 4 * count:].split(b"\0")[:count]]


def archive_logic(archive: str) -> str:
    """The sum of the logic that the archive carries, empty if it carries none."""
    found = re.search(rb"rattle logic=([0-9a-f]{64})", read_bytes(archive) or b"")
    return found.group(1).decode() if found else ""

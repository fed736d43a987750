"""What was seen here: digests, the toolchain, the gate's record. Nothing is taken from anywhere else."""
import glob
import os
import re
from typing import List, NamedTuple, Optional, Tuple

from certlib.commit import Commit
from certlib.files import asked, clean, digest, files_below, first_line, list_digest, read_text
from certlib.sources import ENTRY_POINTS, HEADER, REFUSALS, THEOREMS, archive_logic, exported_names

ARCHIVE = "target/staticlib/libengine.a"
GATE_RECORD = "target/gate.txt"
NO_RECORD = "target/gate.txt is no whole record of a run: .ci/run"

# As .ci/run writes it. A run that failed may have no archive, and then has no digest of one.
RECORD = re.compile(
    r"commit: (?P<commit>.+)\ndate: .+\nkit: (?P<kit>.*)\narchive: (?P<archive>[0-9a-f]{64})?\n"
    r"refused: [0-9]{1,9} edits, logs (?P<logs>[0-9a-f]{64})?\n(?P<parts>(?:part: .+\n)+)seconds: (?P<seconds>[0-9]{1,9})\n"
    r"(?P<last>(?P<passed>[0-9]{1,9}) passed, (?P<failed>[0-9]{1,9}) failed)\n")
PART = re.compile(r"part: .+: ([0-9]{1,9}) passed, ([0-9]{1,9}) failed, status ([0-9]{1,9}), [0-9]{1,9} s")


class Digests(NamedTuple):
    """sha256 of each; None where a file is missing."""

    archive: Optional[str]
    header: Optional[str]
    definitions: Optional[str]
    definition_files: int
    theorems: Optional[str]
    entry_points: Optional[str]
    refusals: Optional[str]  # of what rt ci said of wrong programs


class Archive(NamedTuple):
    """What the archive itself tells: the names that it exports (None: not an archive) and the logic that it was proved in."""

    exports: Optional[List[str]]
    logic: str


class Toolchain(NamedTuple):
    """Who proves and compiles; empty where it was not found."""

    kit: str
    rattle: str
    prover_digest: Optional[str]
    clang: str
    linker: str
    c_compiler: str


class Gate(NamedTuple):
    """The gate's record. `fault` is empty if it is of this commit, whole, and passed."""

    fault: str
    last_line: str
    seconds: str
    archive: str
    kit: str
    refusals: str
    of_this_commit: bool


def see_digests(root: str) -> Digests:
    def found(*pattern: str) -> List[str]:
        return [os.path.relpath(path, root) for path in glob.glob(os.path.join(glob.escape(root), *pattern))]

    def of(path: str) -> Optional[str]:
        return digest(os.path.join(root, path))

    folders = found("crates", "*", "specs", "definitions")
    files = [os.path.relpath(path, root) for folder in folders for path in files_below(os.path.join(root, folder))]
    return Digests(of(ARCHIVE), of(HEADER), list_digest(root, files), len(files), of(THEOREMS), of(ENTRY_POINTS), of(REFUSALS))


def see_archive(root: str) -> Archive:
    path = os.path.join(root, ARCHIVE)
    return Archive(exported_names(path), archive_logic(path))


def see_toolchain(root: str) -> Toolchain:
    """`rt doc` leads to the kit's folder, where prover and back end stand; no path of the machine is kept."""
    own = os.path.dirname(first_line(asked(["rt", "doc"], root)))

    def version(*program: str) -> str:
        told = first_line(asked([os.path.join(own, *program), "--version"], root)) if own else ""
        return told.split(" (", 1)[0]

    return Toolchain(
        kit=first_line(asked(["rt", "version"], root)),
        rattle=version("bin", "rattle"),
        prover_digest=digest(os.path.join(own, "bin", "rattle")) if own else None,
        clang=version("toolchain", "bin", "clang"),
        linker=version("toolchain", "bin", "ld.lld"),
        c_compiler=first_line(asked(["cc", "--version"], root)),
    )


def see_gate(root: str, commit: Commit) -> Gate:
    text = read_text(os.path.join(root, GATE_RECORD))
    if text is None:
        return no_gate("not run on this commit: .ci/run")
    record = RECORD.fullmatch(text)
    if not record or added_up(record["parts"]) != (int(record["passed"]), int(record["failed"])):
        return no_gate(NO_RECORD)
    fault = gate_fault(clean(record["commit"]), commit)
    if fault:
        return no_gate(fault)
    kit, archive, refusals = clean(record["kit"]), record["archive"] or "", record["logs"] or ""
    if int(record["failed"]) or not int(record["passed"]):
        fault = "FAILED on this commit: " + record["last"]
    elif not (kit and archive and refusals):
        return no_gate(NO_RECORD)
    return Gate(fault, record["last"], record["seconds"], archive, kit, refusals, True)


def added_up(parts: str) -> Optional[Tuple[int, int]]:
    """What passed and failed in all parts, as the gate counts: a part that ended badly and names no failure is one. None if a line is none."""
    passed = failed = 0
    for line in parts.splitlines():
        part = PART.fullmatch(line)
        if not part:
            return None
        good, bad, status = (int(number) for number in part.groups())
        passed, failed = passed + good, failed + (bad or int(status != 0))
    return passed, failed


def no_gate(fault: str) -> Gate:
    return Gate(fault, "", "", "", "", "", False)


def gate_fault(tested: str, commit: Commit) -> str:
    """Why a record is not of this commit; empty if it is."""
    if tested == commit.name and commit.name:
        return ""
    if commit.name and tested.startswith(commit.name + " with changes"):
        return "run on this commit with changes that were not committed, which does not count: .ci/run"
    return "not run on this commit: .ci/run"

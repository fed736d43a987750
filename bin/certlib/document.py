"""The certificate as sections of plain parts, from which text and printed page are made. Each sentence says what was seen, or what is missing."""
import re
from typing import List, NamedTuple, Tuple, Union

from certlib.commit import Commit
from certlib.seen import ARCHIVE, Archive, Digests, Gate, Toolchain
from certlib.sources import ENTRY_POINTS, HEADER, REFUSALS, THEOREMS, Call, Promise, WrongProgram

DEFINITIONS = "crates/*/specs/definitions"
CRATES = "crates/"
DEFINITIONS_COMMAND = "find crates/*/specs/definitions -type f | LC_ALL=C sort | xargs sha256sum | sha256sum"


class Note(NamedTuple):
    """A paragraph."""

    text: str


class Fields(NamedTuple):
    """Rows of a label and what stands there; a digest, if there is one, before it."""

    rows: List[Tuple[str, str, str]]


class Points(NamedTuple):
    """Items, each with a head in bold and words after it, of which one may be empty. A line feed in the words begins a line."""

    rows: List[Tuple[str, str]]


class Grid(NamedTuple):
    """Rows of cells, one below the other."""

    rows: List[Tuple[str, ...]]


class Commands(NamedTuple):
    """Lines to type, each as it stands."""

    lines: List[str]


Part = Union[Note, Fields, Points, Grid, Commands]


class Section(NamedTuple):
    title: str
    parts: List[Part]
    wide: bool  # over the whole width of the page, not in one of its two columns


class Document(NamedTuple):
    title: str
    subtitle: str
    alerts: List[str]  # in large letters
    sections: List[Section]


class Facts(NamedTuple):
    """All that was seen and found."""

    commit: Commit
    digests: Digests
    archive: Archive
    toolchain: Toolchain
    gate: Gate
    built_now: bool  # this very run made the archive, which proves the engine
    calls: List[Call]
    promises: List[Promise]
    assumptions: List[str]
    tested: List[str]
    unpromised: List[str]
    wrong_programs: List[WrongProgram]


def files(count: int) -> str:
    return "1 FILE DIFFERS" if count == 1 else "{} FILES DIFFER".format(count)


def alerts(facts: Facts) -> List[str]:
    found = []
    if not facts.commit.name:
        found.append("NO COMMIT: GIT DOES NOT TELL WHAT STANDS HERE")
    if facts.commit.changes:
        found.append("THE WORK TREE IS NOT CLEAN: {} FROM THE COMMIT".format(files(facts.commit.changes)))
    if facts.gate.of_this_commit and facts.gate.fault:
        found.append("THE GATE FAILED ON THIS COMMIT")
    return found


def is_gates_archive(facts: Facts) -> bool:
    """The archive is, byte by byte, the one that the gate built and tested on this commit, and passed."""
    return facts.digests.archive is not None and not facts.gate.fault and facts.gate.archive == facts.digests.archive


def is_gates_refusals(facts: Facts) -> bool:
    """What rt ci said of wrong programs is, byte by byte, what the gate left on this commit, and not of a later try."""
    return facts.digests.refusals is not None and not facts.gate.fault and facts.gate.refusals == facts.digests.refusals


def without_changes(facts: Facts) -> str:
    """What the gate saw is not what stands here if there are changes."""
    return ", on the commit without these changes" if facts.commit.changes else ""


def archive_origin(facts: Facts) -> str:
    if facts.digests.archive is None:
        return "missing: bin/build engine"
    if is_gates_archive(facts):
        return "as the gate built and tested it" + without_changes(facts)
    if facts.built_now and not facts.commit.changes and facts.commit.name:
        return "proved and built from this commit when this was made, not by the gate"
    return "not seen to be built from this commit"


def unexported(facts: Facts) -> List[str]:
    """Calls of the source that the archive has not: it is of another commit."""
    if facts.digests.archive is None:
        return []
    return [call.name for call in facts.calls if call.name not in (facts.archive.exports or [])]


def is_other_logic(facts: Facts) -> bool:
    """The archive was proved in another logic than the kit here has."""
    kit = re.search(r"\blogic ([0-9a-f]+)", facts.toolchain.kit)
    return bool(facts.archive.logic and kit and not facts.archive.logic.startswith(kit.group(1)))


def missing(facts: Facts) -> List[str]:
    """What was not seen, each with what makes it."""
    told = [fault for fault in (
        "" if facts.commit.name else "a commit: clone the repository",
        "a clean work tree: commit or put away the changes" if facts.commit.changes else "",
        "the gate: " + facts.gate.fault if facts.gate.fault else "",
        *missing_archive(facts),
        "" if facts.toolchain.kit else "the kit: no rt on the PATH",
        *missing_sources(facts),
    ) if fault]
    return told + missing_refusals(facts)


def missing_refusals(facts: Facts) -> List[str]:
    unrefused = [wrong.name for wrong in facts.wrong_programs if not wrong.refused]
    if unrefused:
        return ["what rt ci said of {} wrong programs ({}): .ci/run".format(len(unrefused), REFUSALS)]
    if facts.wrong_programs and not facts.gate.fault and not is_gates_refusals(facts):
        return ["what the gate's rt ci said of wrong programs: {} has something else: .ci/run".format(REFUSALS)]
    return []


def missing_archive(facts: Facts) -> List[str]:
    if facts.digests.archive is None:
        return ["the archive {}: bin/build engine, or bin/certificate --build".format(ARCHIVE)]
    told = []
    if not is_gates_archive(facts) and not facts.gate.fault:
        told.append("the gate's archive: what stands at {} is another one".format(ARCHIVE))
    if facts.gate.kit and facts.toolchain.kit and facts.gate.kit != facts.toolchain.kit:
        told.append("the gate's kit: it ran with " + facts.gate.kit)
    if unexported(facts):
        told.append("calls that the archive does not export: " + ", ".join(unexported(facts)))
    if is_other_logic(facts):
        told.append("the archive's logic: it is not that of the kit here")
    return told


def missing_sources(facts: Facts) -> List[str]:
    """What the script should have found in the sources: a file that moved or was laid out anew must not shorten the certificate unseen."""
    digests = facts.digests
    named = ((HEADER, digests.header), (DEFINITIONS, digests.definitions), (THEOREMS, digests.theorems), (ENTRY_POINTS, digests.entry_points))
    told = [path for path, value in named if value is None]
    found = (("promises", facts.promises), ("calls", facts.calls), ("assumptions", facts.assumptions), ("what is tested", facts.tested),
             ("what nobody promises", facts.unpromised), ("wrong programs", facts.wrong_programs))
    told += ["{}: none was found in the sources".format(what) for what, items in found if not items]
    told += ["a proof of " + promise.record for promise in facts.promises if not promise.proof]
    told += ["the contract of " + call.name for call in facts.calls if not call.contract_place]
    told += ["{} in {}".format(call.name, HEADER) for call in facts.calls if digests.header and not call.declared]
    return told


def identity(facts: Facts) -> Section:
    commit, gate = facts.commit, facts.gate
    tree = "not told" if not commit.name else "clean" if not commit.changes else files(commit.changes).lower() + " from the commit"
    where = "on this commit" + (" without these changes" if commit.changes else "")
    passed = "{} in {:,} s, {} (.ci/run)".format(gate.last_line, int(gate.seconds), where) if not gate.fault else gate.fault
    rows = [
        ("Commit", commit.name or "none", commit.date),
        ("Work tree", "", tree),
        ("Gate", "", passed),
    ]
    return Section("", [Fields(rows)], True)


def digest_rows(facts: Facts) -> Section:
    digests = facts.digests
    rows = [
        ("Archive", digests.archive or "", "libengine.a, " + archive_origin(facts)),
        ("Header", digests.header or "", HEADER),
        ("Definitions", digests.definitions or "", "{} files of {}".format(digests.definition_files, DEFINITIONS)),
        ("Theorem page", digests.theorems or "", THEOREMS),
        ("Entry points", digests.entry_points or "", ENTRY_POINTS),
    ]
    return Section("Digests (sha256)", [Fields(rows)], True)


def toolchain_rows(facts: Facts) -> Section:
    tools = facts.toolchain
    back_end = ", ".join(part for part in (tools.clang, tools.linker) if part)
    same_kit = ", as in the gate" if tools.kit and not facts.gate.fault and facts.gate.kit == tools.kit else ""
    rows = [
        ("Kit", "", (tools.kit or "not found: no rt on the PATH") + same_kit),
        ("Logic", facts.archive.logic, "as the archive carries it" if facts.archive.logic else "the archive carries none"),
        ("Prover", tools.prover_digest or "", (tools.rattle or "not found") + (", the program's sha256" if tools.prover_digest else "")),
        ("Back end", "", (back_end or "not found") + " (of the kit)"),
        ("C compiler", "", (tools.c_compiler or "not found") + " (for tests and examples)"),
    ]
    return Section("Toolchain, as found here", [Fields(rows)], True)


def checked(facts: Facts) -> str:
    """Who checked the proofs that are listed, which are those that stand here."""
    if not facts.gate.fault and not facts.commit.changes:
        return "The check accepted these proofs in the gate."
    if facts.built_now:
        gate = "the gate was not seen to pass" if facts.gate.fault else "the gate checked the commit, from which what stands here differs"
        return "The check accepted these proofs when this was made (bin/build engine); {}.".format(gate)
    if facts.gate.fault:
        return "Whether the check accepts these proofs was not seen here."
    return "The gate checked the commit; what stands here differs from it, and was not checked."


def promise_parts(facts: Facts) -> Section:
    rows = []
    for number, promise in enumerate(facts.promises, 1):
        proof = "{} (:{})".format(promise.proof, promise.proof_place.rsplit(":", 1)[-1]) if promise.proof else "NONE WAS FOUND"
        where = "Claimed by {} ({}): {}. Proof: {}.".format(promise.record, promise.place, ", ".join(promise.claims), proof)
        rows.append(("{}. {}".format(number, promise.title), promise.words + "\n" + where))
    return Section("Promises", [Points(rows), Note(checked(facts))], True)


def call_parts(facts: Facts) -> Section:
    rows = [(call.name, below_crates(call.place), call.contract or "NO CONTRACT FOUND", below_crates(call.contract_place)) for call in facts.calls]
    return Section("Calls, and the places of their contracts, below crates", [Grid(rows)] if rows else [], True)


def below_crates(place: str) -> str:
    return place[len(CRATES):] if place.startswith(CRATES) else place


def refused_where(facts: Facts) -> str:
    if facts.gate.fault:
        return "on a commit that was not seen"
    if not is_gates_refusals(facts):
        return "which are not the gate's"
    return "in the gate" + (without_changes(facts) or " on this commit")


def wrong_parts(facts: Facts) -> Section:
    refused = sum(wrong.refused for wrong in facts.wrong_programs)
    some = 0 < refused < len(facts.wrong_programs)
    where = refused_where(facts)
    logs = "{} of them were refused, as rt ci says in {}, {}.".format(refused, REFUSALS, where) if refused else "No word of a refusal is here."
    told = "{} edits, in crates/*/must-fail, each make a wrong program. {}".format(len(facts.wrong_programs), logs)
    rows = [(wrong.name, wrong.words + (" (not seen)" if some and not wrong.refused else "")) for wrong in facts.wrong_programs]
    return Section("Wrong programs that the check must refuse", [Note(told), Points(rows)], False)


def listed(title: str, items: List[str], told: str) -> Section:
    parts: List[Part] = [Points([("", item) for item in items])]
    return Section(title, parts + [Note(told)] if told else parts, False)


def verify_parts(facts: Facts) -> Section:
    commands = [
        "git checkout " + (facts.commit.name or "COMMIT"),
        ".ci/run && bin/certificate",
        "sha256sum " + ARCHIVE,
        "sha256sum " + HEADER,
        *DEFINITIONS_COMMAND.replace(" | LC_ALL", " |\n  LC_ALL").split("\n"),
    ]
    told = "In a clean clone with the same kit; archive, header and definitions must have the digests above."
    doubt = "The gate's result is what target/gate.txt says: who doubts it runs these."
    return Section("To verify", [Note(told), Commands(commands), Note(doubt)], False)


def make_document(facts: Facts) -> Document:
    lacks = missing(facts)
    sections = [
        identity(facts),
        *([Section("Missing", [Points([("", lack) for lack in lacks])], True)] if lacks else []),
        digest_rows(facts),
        toolchain_rows(facts),
        promise_parts(facts),
        call_parts(facts),
        listed("Assumptions", facts.assumptions, "docs/PROMISES.md says of each what it is for, what breaks without it and what was done about it."),
        listed("Tested, not proved", facts.tested, ""),
        listed("What nobody promises", facts.unpromised, ""),
        verify_parts(facts),
        wrong_parts(facts),
    ]
    subtitle = "What was seen on one commit of Suntxeko. bin/certificate wrote this, and anybody can make it again."
    return Document("Certificate of the bench engine", subtitle, alerts(facts), sections)


def without_words(document: Document) -> Document:
    """The same, with the wrong programs by their names alone: for a page on which their words have no room."""
    def shorter(section: Section) -> Section:
        if not section.title.startswith("Wrong programs"):
            return section
        names = [head for part in section.parts if isinstance(part, Points) for head, _ in part.rows]
        notes = [part for part in section.parts if isinstance(part, Note)]
        return Section(section.title, [*notes, Note(", ".join(names) + ". What is wrong with each: target/certificate.txt.")], False)

    return document._replace(sections=[shorter(section) for section in document.sections])

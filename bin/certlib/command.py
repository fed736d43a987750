"""The command line of bin/certificate."""
import os
import subprocess
import sys
from typing import List

from certlib.commit import see_commit
from certlib.document import Facts, is_gates_archive, make_document, missing
from certlib.page import render_page
from certlib.seen import see_archive, see_digests, see_gate, see_toolchain
from certlib.sources import find_assumptions, find_calls, find_promises, find_untold, find_wrong_programs
from certlib.text import render_text

USAGE = """Usage: bin/certificate [--build] [--gate]
Writes what can be seen on this commit to target/certificate.txt and, as one printed page, to target/certificate.pdf.
  --gate    runs .ci/run first: all proofs and tests, which takes long
  --build   proves the engine and builds the archive (bin/build engine), unless it is the gate's on this commit
Status: 0 nothing is missing, 1 something is (it is told, and stands in the certificate), 2 bad usage, 3 it could not be written.
"""
COMPLETE, INCOMPLETE, BAD_USAGE, NOT_WRITTEN = 0, 1, 2, 3
TEXT, PAGE = "target/certificate.txt", "target/certificate.pdf"


def say(words: str, stream=None) -> None:
    """Prints; if nobody reads it, or it cannot be written, the certificate goes on."""
    stream = stream or sys.stdout
    try:
        print(words, file=stream, flush=True)
    except (OSError, ValueError):
        os.dup2(os.open(os.devnull, os.O_WRONLY), stream.fileno())


def collect(root: str, built_now: bool) -> Facts:
    commit = see_commit(root)
    return Facts(
        commit=commit,
        digests=see_digests(root),
        archive=see_archive(root),
        toolchain=see_toolchain(root),
        gate=see_gate(root, commit),
        built_now=built_now,
        calls=find_calls(root),
        promises=find_promises(root),
        assumptions=find_assumptions(root),
        tested=find_untold(root, "Tested, not proved"),
        unpromised=find_untold(root, "What nobody promises"),
        wrong_programs=find_wrong_programs(root),
    )


def ran(command: List[str], root: str) -> bool:
    """Runs a program, its words to standard error; whether it ended well."""
    say("running " + " ".join(command), sys.stderr)
    try:
        return subprocess.run(command, cwd=root, stdin=subprocess.DEVNULL, stdout=sys.stderr).returncode == 0
    except OSError as fault:
        say("{}: {}".format(command[0], fault.strerror), sys.stderr)
        return False


def write(path: str, content: bytes) -> None:
    """Puts the file there whole or not at all."""
    os.makedirs(os.path.dirname(path), exist_ok=True)
    with open(path + ".new", "wb") as file:
        file.write(content)
    os.replace(path + ".new", path)


def remove(root: str) -> None:
    """An earlier certificate must not be taken for this one."""
    for path in (TEXT, PAGE):
        if os.path.lexists(os.path.join(root, path)):
            os.remove(os.path.join(root, path))


def certify(root: str, build: bool, gate: bool) -> int:
    remove(root)
    if gate:
        ran([os.path.join(root, ".ci", "run")], root)
    facts = collect(root, False)
    if build and not is_gates_archive(facts):
        facts = collect(root, ran([os.path.join(root, "bin", "build"), "engine"], root))
    document = make_document(facts)
    write(os.path.join(root, TEXT), render_text(document).encode("utf-8", "replace"))
    page = render_page(document)
    if page is None:
        say("{} was written, but does not fit on a printed page".format(TEXT), sys.stderr)
        return NOT_WRITTEN
    write(os.path.join(root, PAGE), page)
    say("{}, {}".format(TEXT, PAGE))
    lacks = missing(facts)
    for lack in lacks:
        say("missing: " + lack)
    return INCOMPLETE if lacks else COMPLETE


def main(arguments: List[str]) -> int:
    if arguments in (["-h"], ["--help"]):
        say(USAGE.rstrip("\n"))
        return COMPLETE
    if not set(arguments) <= {"--build", "--gate"}:
        say(USAGE.rstrip("\n"), sys.stderr)
        return BAD_USAGE
    root = os.path.dirname(os.path.dirname(os.path.dirname(os.path.realpath(__file__))))
    try:
        return certify(root, "--build" in arguments, "--gate" in arguments)
    except OSError as fault:
        say("the certificate could not be written: {}".format(fault), sys.stderr)
        return NOT_WRITTEN
    except KeyboardInterrupt:
        say("interrupted", sys.stderr)
        return NOT_WRITTEN

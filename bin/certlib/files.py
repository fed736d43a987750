"""Reading files of the repository and asking programs, so that whatever stands there, or does not, is an answer and no exception."""
import hashlib
import os
import subprocess
from typing import Dict, List, Optional

MOST_TEXT_BYTES = 4 << 20  # more than any page or source of the repository has
BLOCK_BYTES = 1 << 20
MOST_SECONDS = 60  # for a program that only tells its version or a commit


def read_text(path: str) -> Optional[str]:
    """The file's text; None if there is no such file, or none that can be read."""
    data = read_bytes(path)
    return None if data is None else data.decode("utf-8", "replace").replace("\r\n", "\n")


def read_bytes(path: str) -> Optional[bytes]:
    """The file's bytes, up to a bound; None if there is no plain file, or none that can be read. A pipe could keep us waiting."""
    if not os.path.isfile(path):
        return None
    try:
        with open(path, "rb") as file:
            return file.read(MOST_TEXT_BYTES)
    except OSError:
        return None


def digest(path: str) -> Optional[str]:
    """The sha256 of a file's bytes; None if it cannot be read."""
    total = hashlib.sha256()
    if not os.path.isfile(path):
        return None
    try:
        with open(path, "rb") as file:
            for block in iter(lambda: file.read(BLOCK_BYTES), b""):
                total.update(block)
    except OSError:
        return None
    return total.hexdigest()


def files_below(folder: str) -> List[str]:
    """The plain files below a folder."""
    return [os.path.join(here, name) for here, _, names in os.walk(folder) for name in names]


def list_digest(root: str, paths: List[str]) -> Optional[str]:
    """The sha256 of what `sha256sum` prints for these files in the order of their bytes; None if there are none or one cannot be read."""
    lines = []
    for path in sorted(paths, key=os.fsencode):
        one = digest(os.path.join(root, path))
        if one is None:
            return None
        lines.append(one.encode() + b"  " + os.fsencode(path) + b"\n")
    return hashlib.sha256(b"".join(lines)).hexdigest() if lines else None


def asked(command: List[str], folder: str, settings: Optional[Dict[str, str]] = None) -> Optional[str]:
    """What a program prints; None if it is not there or fails. Variables that lead git elsewhere are left out but for those given, and words are
    English."""
    around = {name: value for name, value in os.environ.items() if not name.startswith("GIT_")}
    around.update(settings or {}, LC_ALL="C", TZ="UTC")
    try:
        done = subprocess.run(command, cwd=folder, env=around, timeout=MOST_SECONDS,
                              stdin=subprocess.DEVNULL, stdout=subprocess.PIPE, stderr=subprocess.DEVNULL)
    except (OSError, ValueError, subprocess.SubprocessError):
        return None
    return done.stdout.decode("utf-8", "replace").rstrip("\n") if done.returncode == 0 else None


def clean(text: str) -> str:
    """The text on one line, with `?` for what cannot be printed."""
    return "".join(letter if letter.isprintable() else "?" for letter in " ".join(text.split()))


def first_line(text: Optional[str]) -> str:
    """The first line of an answer, empty if there is none."""
    return clean(text.split("\n", 1)[0]) if text else ""

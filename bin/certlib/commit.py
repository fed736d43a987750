"""The commit that stands here, and how many files differ from it. `python3 -m certlib.commit` says it in a line, for the gate."""
import os
import re
import sys
import tempfile
from typing import Dict, NamedTuple

from certlib.files import asked

IGNORED = re.compile(r"!! (target|crates/[a-z0-9_]+/out)/")  # all that the project's .gitignore leaves out


class Commit(NamedTuple):
    """The commit of the work tree; an empty name if git does not tell."""

    name: str
    date: str
    changes: int  # files that differ from it


NO_COMMIT = Commit("", "", 0)


def see_commit(root: str) -> Commit:
    """The commit that stands here. A folder inside another repository has none."""
    top = asked(["git", "rev-parse", "--show-toplevel"], root)
    name = asked(["git", "rev-parse", "--verify", "HEAD"], root)
    objects = asked(["git", "rev-parse", "--git-path", "objects"], root)
    if not top or not name or not objects or os.path.realpath(top) != os.path.realpath(root):
        return NO_COMMIT
    with tempfile.TemporaryDirectory() as own:
        return compare(root, name, bare_settings(own, root, name, os.path.join(root, objects)))


def bare_settings(own: str, root: str, name: str, objects: str) -> Dict[str, str]:
    """Variables for a git that has the commit and the files alone, in a folder of its own. The repository's index, settings, attributes, filters,
    replaced objects and lists of files to leave out can each hide a change."""
    os.mkdir(os.path.join(own, "refs"))
    with open(os.path.join(own, "HEAD"), "w", encoding="ascii") as head:
        head.write(name + "\n")
    return {"GIT_DIR": own, "GIT_WORK_TREE": root, "GIT_OBJECT_DIRECTORY": objects, "GIT_CONFIG_GLOBAL": os.devnull, "GIT_CONFIG_NOSYSTEM": "1",
            "GIT_ATTR_NOSYSTEM": "1", "HOME": own, "XDG_CONFIG_HOME": own}


def compare(root: str, name: str, settings: Dict[str, str]) -> Commit:
    """The commit, with the count of files that are not its files, byte by byte; ignored ones count, but for what is built."""
    new_index = asked(["git", "read-tree", name], root, settings)
    listed = asked(["git", "status", "--porcelain", "--untracked-files=all", "--ignored=matching"], root, settings)
    date = asked(["git", "show", "-s", "--date=format-local:%Y-%m-%d %H:%M UTC", "--format=%cd", name], root, settings)
    if new_index is None or listed is None or date is None:
        return NO_COMMIT
    return Commit(name, date, len([line for line in listed.splitlines() if not IGNORED.fullmatch(line)]))


def main() -> int:
    try:
        commit = see_commit(os.path.dirname(os.path.dirname(os.path.dirname(os.path.realpath(__file__)))))
    except OSError:
        commit = NO_COMMIT
    if not commit.name:
        print("none: git does not tell")
        return 0
    print(commit.name + (" with changes that are not committed" if commit.changes else ""))
    return 0


if __name__ == "__main__":
    sys.exit(main())

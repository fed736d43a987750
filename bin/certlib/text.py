"""The certificate as text of 100 columns."""
import textwrap
from typing import List

from certlib.document import Commands, Document, Fields, Grid, Note, Part, Points

COLUMNS = 100
LABEL = 14
CELL_GAP = 2


def wrapped(text: str, first: str, rest: str) -> List[str]:
    lines = textwrap.wrap(text, COLUMNS, initial_indent=first, subsequent_indent=rest, break_long_words=False, break_on_hyphens=False)
    return lines or [first.rstrip()]


def field_lines(part: Fields) -> List[str]:
    lines = []
    for label, digest, words in part.rows:
        first = label.ljust(LABEL)
        if digest and len(first + digest) + 1 + len(words) <= COLUMNS:
            lines.append((first + digest + " " + words).rstrip())
            continue
        if digest:
            lines.append(first + digest)
            first = " " * LABEL
        lines += wrapped(words, first, " " * LABEL)
    return lines


def point_lines(part: Points) -> List[str]:
    lines = []
    for head, words in part.rows:
        first, *rest = words.split("\n")
        told = head + ("" if head.endswith(".") or not head or not first else ":") + " " + first
        lines += wrapped(told.strip(), "" if told.strip()[:1].isdigit() else "- ", "  ")
        for line in rest:
            lines += wrapped(line, "  ", "  ")
    return lines


def grid_lines(part: Grid) -> List[str]:
    widths = [max(len(cell) for cell in column) for column in zip(*part.rows)]
    return ["".join(cell.ljust(width + CELL_GAP) for cell, width in zip(row, widths)).rstrip() for row in part.rows]


def part_lines(part: Part) -> List[str]:
    if isinstance(part, Note):
        return wrapped(part.text, "", "")
    if isinstance(part, Fields):
        return field_lines(part)
    if isinstance(part, Points):
        return point_lines(part)
    if isinstance(part, Grid):
        return grid_lines(part)
    assert isinstance(part, Commands)
    return ["    " + line for line in part.lines]


def render_text(document: Document) -> str:
    lines = [document.title, "=" * len(document.title), "", *wrapped(document.subtitle, "", "")]
    for alert in document.alerts:
        lines += ["", "*" * COLUMNS, *textwrap.wrap("***  " + alert, COLUMNS, subsequent_indent="***  "), "*" * COLUMNS]
    for section in document.sections:
        lines.append("")
        if section.title:
            lines += [section.title, "-" * len(section.title)]
        for part in section.parts:
            lines += part_lines(part)
    return "\n".join(lines) + "\n"

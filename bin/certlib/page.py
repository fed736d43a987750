"""The certificate on one printed page: the largest letters with which all of it has room, wide sections first, the others in two columns below."""
from typing import List, NamedTuple, Optional, Tuple

from certlib.document import Commands, Document, Fields, Grid, Note, Part, Points, Section, without_words
from certlib.pdf import A4_HEIGHT, A4_WIDTH, BOLD, MONO, REGULAR, Canvas, page_bytes, width

MARGIN = 34.0
GUTTER = 14.0  # between the two columns
LARGEST, SMALLEST, STEP = 8.6, 6.5, 0.1  # points of the letters tried
TITLE_SIZE, ALERT_SIZE = 17.0, 15.0
LEADING = 1.21  # from line to line, in sizes of the letters
LABEL = 8.6  # of fields, in sizes
INDENT = 1.0
GAP = 0.45  # above a section, in lines


class Span(NamedTuple):
    x: float
    font: str
    text: str


class Group(NamedTuple):
    """Lines that stay together, and whether a rule stands above them."""

    lines: List[List[Span]]
    gap: float  # in lines
    ruled: bool


Words = List[Tuple[str, str]]  # words, each with its font


def words_of(text: str, font: str) -> Words:
    return [(word, font) for word in text.split()]


def wrap(words: Words, size: float, room: float, left: float = 0.0, hanging: Optional[float] = None) -> List[List[Span]]:
    """Breaks words into lines of this room. The first begins at `left`, the others at `hanging`."""
    hanging = left if hanging is None else hanging
    lines: List[List[Span]] = [[]]
    x = left
    for word, font in words:
        wide = width(word, font, size)
        space = width(" ", font, size) if lines[-1] else 0.0
        if lines[-1] and x + space + wide > room:
            lines.append([])
            x, space = hanging, 0.0
        joined = lines[-1] and lines[-1][-1].font == font
        if joined:
            last = lines[-1][-1]
            lines[-1][-1] = last._replace(text=last.text + " " + word)
        else:
            lines[-1].append(Span(x + space, font, word))
        x += space + wide
    return lines


def field_groups(part: Fields, size: float, room: float) -> List[Group]:
    groups = []
    for label, digest, words in part.rows:
        told = words_of(digest, MONO) + words_of(words, REGULAR)
        lines = wrap(told, size, room, LABEL * size)
        groups.append(Group([[Span(0.0, BOLD, label)] + lines[0]] + lines[1:], 0.0, False))
    return groups


def point_groups(part: Points, size: float, room: float) -> List[Group]:
    """Items hang on a dash; one that has a number needs none."""
    groups = []
    for head, words in part.rows:
        told, *rest = words.split("\n")
        mark = ":" if head and told and not head.endswith(".") else ""
        numbered = (head or words)[:1].isdigit()
        lines = wrap(words_of(head + mark, BOLD) + words_of(told, REGULAR), size, room, 0.0 if numbered else INDENT * size, INDENT * size)
        first = lines[0] if numbered else [Span(0.0, REGULAR, "-")] + lines[0]
        more = [line for words in rest for line in wrap(words_of(words, REGULAR), size, room, INDENT * size)]
        groups.append(Group([first] + lines[1:] + more, 0.0, False))
    return groups


def grid_groups(part: Grid, size: float) -> List[Group]:
    fonts = [BOLD] + [REGULAR] * 8
    columns = list(zip(*part.rows))
    wide = [max(width(cell, font, size) for cell in column) for column, font in zip(columns, fonts)]
    starts = [sum(wide[:index]) + 1.5 * size * index for index in range(len(wide))]
    return [Group([[Span(x, font, cell) for x, font, cell in zip(starts, fonts, row)]], 0.0, False) for row in part.rows]


def part_groups(part: Part, size: float, room: float) -> List[Group]:
    if isinstance(part, Note):
        return [Group(wrap(words_of(part.text, REGULAR), size, room), 0.0, False)]
    if isinstance(part, Fields):
        return field_groups(part, size, room)
    if isinstance(part, Points):
        return point_groups(part, size, room)
    if isinstance(part, Grid):
        return grid_groups(part, size)
    assert isinstance(part, Commands)
    return [Group([[Span(0.0, MONO, line)] for line in part.lines], 0.0, False)]


def section_groups(section: Section, size: float, room: float) -> List[Group]:
    """The groups of a section; its title stays with the first."""
    groups = [group for part in section.parts for group in part_groups(part, size, room)]
    first = groups[0] if groups else Group([], 0.0, False)
    title = [[Span(0.0, BOLD, section.title)]] if section.title else []
    return [Group(title + first.lines, GAP, bool(title))] + groups[1:]


def height(groups: List[Group], size: float) -> float:
    return sum(len(group.lines) + group.gap for group in groups) * size * LEADING


def split(groups: List[Group], size: float) -> int:
    """How many groups the first column takes, so that the longer column is as short as can be."""
    return min(range(len(groups) + 1), key=lambda count: max(height(groups[:count], size), height(groups[count:], size)))


def topped(groups: List[Group]) -> List[Group]:
    """A column's top line stands level with that of the other column."""
    return [groups[0]._replace(gap=GAP, ruled=True)] + groups[1:] if groups else []


def is_within(groups: List[Group], size: float, room: float) -> bool:
    """No line runs out of its room: what cannot be broken, a digest or a command, may be too long for large letters."""
    return all(span.x + width(span.text, span.font, size) <= room + 0.01 for group in groups for line in group.lines for span in line)


class Layout(NamedTuple):
    size: float
    wide: List[Group]
    left: List[Group]
    right: List[Group]


def lay_out(document: Document, room: float, high: float) -> Optional[Layout]:
    """The layout with the largest letters that fits, or None."""
    column = (room - GUTTER) / 2
    for step in range(int(round((LARGEST - SMALLEST) / STEP)) + 1):
        size = round(LARGEST - step * STEP, 2)
        wide = [group for section in document.sections if section.wide for group in section_groups(section, size, room)]
        narrow = [group for section in document.sections if not section.wide for group in section_groups(section, size, column)]
        count = split(narrow, size)
        layout = Layout(size, wide, narrow[:count], topped(narrow[count:]))
        needed = height(wide, size) + max(height(layout.left, size), height(layout.right, size))
        if needed <= high and is_within(wide, size, room) and is_within(narrow, size, column):
            return layout
    return None


def draw_groups(canvas: Canvas, groups: List[Group], size: float, left: float, room: float, top: float) -> float:
    """Draws groups from the top down and gives the place below them."""
    for group in groups:
        top -= group.gap * size * LEADING
        if group.ruled:
            canvas.rule(left, left + room, top + 0.1 * size)
        for line in group.lines:
            top -= size * LEADING
            for span in line:
                canvas.text(left + span.x, top + 0.25 * size, span.font, size, span.text)
    return top


def draw_top(canvas: Canvas, document: Document, room: float) -> float:
    """The title, and in large letters on black what must not be overlooked."""
    top = A4_HEIGHT - MARGIN - TITLE_SIZE * 0.8
    canvas.text(MARGIN, top, BOLD, TITLE_SIZE, document.title)
    top -= 12.0
    canvas.text(MARGIN, top, REGULAR, 8.0, document.subtitle)
    for alert in document.alerts:
        size = min(ALERT_SIZE, ALERT_SIZE * (room - 12.0) / width(alert, BOLD, ALERT_SIZE))
        top -= ALERT_SIZE * 1.7 + 4.0
        canvas.box(MARGIN, top, room, ALERT_SIZE * 1.7)
        canvas.text(MARGIN + 6.0, top + ALERT_SIZE * 0.5, BOLD, size, alert, gray=1.0)
    return top - 2.0


def render_page(document: Document) -> Optional[bytes]:
    """The file with the one page; None if even the short form has no room on it."""
    room = A4_WIDTH - 2 * MARGIN
    canvas = Canvas()
    top = draw_top(canvas, document, room)
    layout = lay_out(document, room, top - MARGIN) or lay_out(without_words(document), room, top - MARGIN)
    if layout is None:
        return None
    column = (room - GUTTER) / 2
    top = draw_groups(canvas, layout.wide, layout.size, MARGIN, room, top)
    draw_groups(canvas, layout.left, layout.size, MARGIN, column, top)
    draw_groups(canvas, layout.right, layout.size, MARGIN + column + GUTTER, column, top)
    return page_bytes(canvas, document.title)

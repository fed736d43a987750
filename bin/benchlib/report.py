"""Pairs each row with the line that it answers: what is printed, what is said about refusals, and the status that follows."""
import re
from collections import deque
from typing import Callable, Deque, List, Optional, Tuple

from .decimals import LEADING_FIELDS, Shown
from .limits import LONGEST_KEPT
from .line_faults import LineExplainer
from .model import read_model
from .output import LINES_REFUSED, REFUSED, TAKEN
from .state_image import read_snapshot

BENCH_REFUSAL = re.compile(rb'refused (\d+) (\d+)')
REFUSAL = re.compile(rb'refused (\d+)')
NAMES_REFUSED = b'refused 22'
STATE_REFUSED = b'refused 33'


class Lines:
    """The lines of readings whose rows are still to come, in their order."""

    def __init__(self) -> None:
        self.whole = 0  # lines that have come to their end, so far
        self._waiting: Deque[bytes] = deque()
        self._part = b''

    def add(self, chunk: bytes) -> None:
        pieces = chunk.split(b'\n')
        pieces[0] = self._part + pieces[0][:LONGEST_KEPT]
        self._part = pieces.pop()[:LONGEST_KEPT]
        self.whole += len(pieces)
        self._waiting.extend([piece[:LONGEST_KEPT] for piece in pieces])

    def finish(self) -> None:
        """A last line feed is optional; an empty text has an empty line of names."""
        if self._part or not self.whole:
            self.add(b'\n')

    def has_part(self) -> bool:
        """Whether a line has begun and not come to its end."""
        return bool(self._part)

    def next(self) -> Optional[bytes]:
        return self._waiting.popleft() if self._waiting else None


class Report:
    """What a run says. `bench_note` and `readings_note` are told if the file is missing, and `state_note` if the state is new."""

    def __init__(self, bench_path: str, text: bytes, source_name: str, shown: Shown) -> None:
        self.bench_path = bench_path
        self.text = text
        self.source_name = source_name
        self.shown = shown
        self.live = False
        self.bench_note = ''
        self.readings_note = ''
        self.state_path = ''
        self.state_note = ''
        self.image: Optional[bytes] = None
        self.lines = Lines()
        self.most_rows: Optional[int] = None  # of readings that ended before their end; a refused bench file has its row all the same
        self.has_half_line = False  # they were interrupted inside a line
        self.rows = 0
        self.names_taken = False
        self.status = TAKEN
        self._has_actions = True
        self._model = None
        self._explainer: Optional[LineExplainer] = None
        self._follows_lines = False

    def take(self, rows: List[bytes], end: bytes = b'\n') -> Tuple[bytes, List[str]]:
        """Rows as they came: what is printed, and what is said. `end` follows the last row."""
        notes: List[str] = []
        printed: List[bytes] = []
        if rows and self.rows == 0:
            notes += self._first(rows[0])
            if self.most_rows != 0 or self.status == REFUSED:
                printed.append(rows[0])
            self.rows = 1
            rows = rows[1:]
        if self.most_rows is not None:
            rows = rows[:max(0, self.most_rows - self.rows)]
        self.rows += len(rows)
        printed += self._further(rows, notes)
        return (b'\n'.join(printed) + end if printed else b''), notes

    def end(self) -> List[str]:
        notes = ['%s:%d: this line has no line feed yet, and was not taken' % (self.source_name, self.lines.whole + 1)] if self.has_half_line else []
        return notes + (self.explained('', lambda: self._explainer.end()) if self._explainer else [])

    def _first(self, row: bytes) -> List[str]:
        """The row of names, or what stands in place of all rows."""
        names = self.lines.next()
        refusal = BENCH_REFUSAL.fullmatch(row)
        if refusal:
            self.status = REFUSED
            return [self.bench_note] if self.bench_note else self._bench_refused(int(refusal.group(1)), int(refusal.group(2)))
        if row == STATE_REFUSED and self.state_path:
            self.status = REFUSED
            return ['the state in %s does not belong to this bench file: it was left by another one, or the file was edited since. Put the old '
                    'bench file back, or begin with a new state file: then every sender begins again at 1' % self.state_path]
        notes = [self.bench_note] if self.bench_note else []
        if self.most_rows == 0:
            return notes
        self._start_explaining()
        return notes + (self._names_refused(names) if row == NAMES_REFUSED else self._names_accepted(row, names))

    def _names_accepted(self, row: bytes, names: Optional[bytes]) -> List[str]:
        notes = [note for note in (self.state_note, self.readings_note) if note]
        self.names_taken = True
        self._has_actions = len(row.split(b' ')) > LEADING_FIELDS
        self._show_header(row, notes)
        if self._explainer is not None and names is not None:
            notes += self.explained('%s:1: ' % self.source_name, lambda: self._explainer.header(names))
        return notes

    def _further(self, rows: List[bytes], notes: List[str]) -> List[bytes]:
        printed = rows if self.shown.as_they_are else []
        number = self.rows - len(rows)
        for row in rows:
            line = self.lines.next()
            number += 1
            code = self._refusal(row, line) if row.startswith(b'refused ') else 0
            if code:
                self.status = LINES_REFUSED
                notes += self._line_refused(number, line, code)
            elif self._follows_lines and line is not None:
                notes += self._line_taken(number, line)
            if not self.shown.as_they_are:
                shown = self.shown.row(row, code != 0)
                if shown is not None:
                    printed.append(shown)
        return printed

    def _refusal(self, row: bytes, line: Optional[bytes]) -> int:
        """The number of a refusal. A sender may be named `refused`: its rows have a field for each action, and in a bench without any
        its row begins as its line does."""
        refusal = REFUSAL.fullmatch(row)
        if not refusal:
            return 0
        if not self._has_actions and line is not None and line.split(b' ')[:LEADING_FIELDS] == row.split(b' '):
            return 0
        return int(refusal.group(1))

    def _start_explaining(self) -> None:
        try:
            self._model = read_model(self.text)
            snapshot = None if self.image is None else read_snapshot(self._model, self.image)
            self._explainer = LineExplainer(self._model, self.source_name, snapshot, self.live)
            self._follows_lines = True
        except Exception:  # what is said about rows must not cost rows
            self._explainer = None

    def _show_header(self, row: bytes, notes: List[str]) -> None:
        try:
            self.shown.header(self._model, row)
        except Exception:
            notes.append('%s: the kinds of its actions could not be read: reals are shown as they are' % self.bench_path)

    def explained(self, place: str, explain: Callable[[], List[str]]) -> List[str]:
        try:
            return explain() or []
        except Exception:
            return [place + 'this could not be explained']

    def _bench_refused(self, code: int, offset: int) -> List[str]:
        from .bench_faults import explain_bench  # most runs need none of it, and would start later
        return self.explained('%s: refused %d at byte %d: ' % (self.bench_path, code, offset),
                              lambda: explain_bench(self.bench_path, self.text, code, offset))

    def _names_refused(self, names: Optional[bytes]) -> List[str]:
        self.status = LINES_REFUSED
        if self.readings_note:
            return [self.readings_note]
        place = '%s:1: refused 22: ' % self.source_name
        if self._explainer is None or names is None:
            return [place + 'the line of names is ill formed']
        return self.explained(place, lambda: self._explainer.names(names))

    def _line_refused(self, number: int, line: Optional[bytes], code: int) -> List[str]:
        place = '%s:%d: refused %d: ' % (self.source_name, number, code)
        if self._explainer is None or line is None:
            return [place + 'this line could not be explained']
        try:
            return self._explainer.refused(number, line, code)
        except Exception:
            return [place + 'this line could not be explained']

    def _line_taken(self, number: int, line: bytes) -> List[str]:
        try:
            return self._explainer.taken(number, line)
        except Exception:
            self._follows_lines = False  # said once
            return ['%s:%d: this line could not be explained' % (self.source_name, number)]

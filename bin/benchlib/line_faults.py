"""Explains refused lines of readings, in words for who wrote or sent them. It prints nothing and runs nothing: it is told which lines the
engine took and which it refused, by which number, and gives the lines to print."""
from collections import deque
from typing import Deque, List, Tuple

from .line_names import Names, joined
from .line_runs import EqualFaults, Gap, SenderRuns, TakenBefore
from .line_state import AHEAD, CARRIAGE_RETURN, TAKEN_BEFORE, Fault, Front, LineState, front_of
from .suggest import did_you_mean

MOST_FOLLOWED = 256  # senders of whom no line was taken and whose refusals are told apart
MOST_STRAYS = 32  # refused lines without a known sender that are kept as possible causes

# What the table of refusals says, where nothing more is known.
SENTENCES = {
    21: 'the line is too long, or its fields or its number are ill formed',
    22: 'the line of names is ill formed',
    23: 'a value is ill formed, of another kind, or of an absent entity',
    24: "its number is neither its sender's last one nor the next",
    25: "its number is its sender's last one, but with other readings",
    31: 'the memory is too short',
    32: 'the memory is no checked bench',
    33: 'the memory is no state of this bench',
    42: 'its sender is a ninth one: eight are known',
    43: 'its sender is no name: a letter, then letters, digits or `_`, 24 bytes at most',
}


def sentence(code: int) -> str:
    return 'refused %d: %s' % (code, SENTENCES.get(code, 'there is no such number for a line'))


class LineExplainer:
    """source: how the readings are called; snapshot: what the state held before the first line (none: it was fresh); live: the lines come
    one by one while somebody looks on."""

    def __init__(self, model, source: str, snapshot=None, live: bool = False) -> None:
        self.source = source
        self.live = live
        self.lines = 0
        self.refusals = 0
        self._names = Names(model)
        self._snapshot = snapshot
        self._state = LineState([], snapshot)
        self._file = SenderRuns('')  # faults that are told once for all senders, and those of lines without a sender
        self._followed = 0
        self._strays: Deque[Tuple[str, int, int]] = deque(maxlen=MOST_STRAYS)

    def names(self, line: bytes) -> List[str]:
        """Why the line of names is refused."""
        return ['%s:1: %s' % (self.source, text) for text in self._names.explain(line)]

    def header(self, line: bytes) -> None:
        """The line of names is accepted."""
        self._state = LineState(self._names.columns(line), self._snapshot)

    def judge(self, line: bytes) -> int:
        """The number that the engine should answer by what was told so far; 0 if it takes the line. For tests."""
        return self._state.judge(line)

    def taken(self, line_number: int, line: bytes) -> List[str]:
        """The line was taken, or given again."""
        self.lines += 1
        sender = self._state.take(line_number, line)
        if sender is None or sender.runs is None or not sender.runs.open:
            return []
        return self._from_source(sender.runs.close(sender.last, self.live, line_number))

    def refused(self, line_number: int, line: bytes, code: int) -> List[str]:
        """The line was refused by that number."""
        self.lines += 1
        self.refusals += 1
        front = front_of(line)
        if code == 24 and self._follows_from_gap(line_number, front):
            return []
        fault = self._state.fault(line, code) or Fault(sentence(code), sentence(code))
        runs = self._runs_of(front.sender, code)
        if fault.sort == AHEAD and runs is not self._file:
            return self._ahead(runs, line_number, front, fault)
        if fault.sort == TAKEN_BEFORE and runs is not self._file:
            return self._before(runs, line_number, front, fault, line)
        self._note(runs, line_number, front)
        if fault.sort == CARRIAGE_RETURN or code == 42:
            return self._tell(self._file.equal_to(fault, 1), line_number, fault)
        return self._tell(runs.equal_to(fault), line_number, fault)

    def end(self) -> List[str]:
        """There are no more lines."""
        told = []
        for sender in self._state.senders.values():
            if sender.runs is not None:
                told += sender.runs.close(sender.last, self.live)
        told += self._file.close(0, self.live)
        if self.refusals:
            told.append(': %d of %d line%s refused' % (self.refusals, self.lines, '' if self.lines == 1 else 's'))
        return self._from_source(told)

    # ---- parts

    def _from_source(self, texts: List[str]) -> List[str]:
        return [self.source + text for text in texts]

    def _runs_of(self, name: bytes, code: int) -> SenderRuns:
        """The sender's runs; those of the file for a line without a sender, a ninth sender, or too many unknown ones."""
        sender = self._state.senders.get(name)
        if not name or code in (42, 43):
            return self._file
        if sender is None:
            if self._followed >= MOST_FOLLOWED:
                return self._file
            self._followed += 1
            sender = self._state.sender(name)
        if sender.runs is None:
            sender.runs = SenderRuns(sender.shown())
        sender.runs.open = True
        return sender.runs

    def _last(self, name: bytes) -> int:
        sender = self._state.senders.get(name)
        return sender.last if sender else 0

    def _note(self, runs: SenderRuns, line_number: int, front: Front) -> None:
        if runs is not self._file:
            runs.note(line_number, front.number, self._last(front.sender) + 1)
        elif front.number is not None:
            self._strays.append((front.word.decode('latin-1'), front.number, line_number))

    def _tell(self, equal: EqualFaults, line_number: int, fault: Fault) -> List[str]:
        return ['%s:%d: %s' % (self.source, line_number, fault.text)] if equal.tells(line_number) else []

    def _before(self, runs: SenderRuns, line_number: int, front: Front, fault: Fault, line: bytes) -> List[str]:
        first = runs.before is None
        if first:
            runs.before = TakenBefore(':%d: %s' % (line_number, fault.text))
        number = front.number or 0
        runs.before.add_number(line_number, number, self._state.sender(front.sender).had(number, line))
        return ['%s:%d: %s' % (self.source, line_number, fault.text)] if first and self.live else []

    def _follows_from_gap(self, line_number: int, front: Front) -> bool:
        """Counts a line that comes while a number of its sender is missing, which was told: there may be very many."""
        sender = self._state.senders.get(front.sender)
        if sender is None or sender.runs is None or sender.runs.gap is None or (front.number or 0) <= sender.last:
            return False
        sender.runs.gap.add_number(line_number, front.number)
        return True

    def _ahead(self, runs: SenderRuns, line_number: int, front: Front, fault: Fault) -> List[str]:
        number = front.number or 0
        wanted = self._last(front.sender) + 1
        if runs.gap:
            runs.gap.add_number(line_number, number)
            return []
        cause = runs.cause(wanted) or self._stray_of(runs, wanted)
        runs.gap = Gap(wanted, cause or None, runs.missing(wanted, number))
        runs.gap.add_number(line_number, number)
        if not cause:
            return ['%s:%d: %s; %s' % (self.source, line_number, fault.text, runs.gap.missing)]
        if not self.live:
            return []
        return ['%s:%d: %s: its lines are refused until line %d is corrected and sent again' % (self.source, line_number, runs.sender, cause)]

    def _stray_of(self, runs: SenderRuns, number: int) -> int:
        """The line with this number under an ill-formed name that is near the sender's; 0 if there is none."""
        return next((line for word, found, line in self._strays
                     if found == number and (joined(word) == joined(runs.sender) or did_you_mean(word, [runs.sender]))), 0)

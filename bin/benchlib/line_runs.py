"""Refused lines that are told together: those that follow from one missing number, those that were taken before, equal faults.

What is told here is put behind the source's name, so it begins `: ` or, for one line, `:6: `."""
from typing import Dict, List, Optional

from .line_state import Fault
from .values import GREATEST_LINE_NUMBER

TOLD_IN_FULL = 3  # of equal faults, so many
MOST_SORTS = 500  # of faults of one sender that are told apart
OTHER_FAULTS = 'a fault as those that were told'
MOST_FAULTY = 1000  # numbers of faulty lines that are kept
TOLD_AT_MOST = 30  # of equal faults with lines taken in between, so many
MOST_FILLED = 30  # gaps of a sender that were filled and are told at the end


def counted(count: int, sender: str, first: int, last: int, further: bool = False) -> str:
    """`298 lines of stage_box (lines 6 to 303) were`, or its singular; `between` where there are others among them."""
    of = ' of ' + sender if sender else ''
    kind = ' further' if further else ''
    if count == 1:
        return '1%s line%s (line %d) was' % (kind, of, last)
    where = 'lines %d to %d' if last - first + 1 == count else 'between lines %d and %d'
    return '%d%s lines%s (%s) were' % (count, kind, of, where % (first, last))


def numbered(first: int, last: int) -> str:
    return 'number %d' % first if first == last else 'numbers %d to %d' % (first, last)


class Run:
    """Lines of one run: how many, from where to where."""

    def __init__(self) -> None:
        self.count = 0
        self.first = 0
        self.last = 0

    def add(self, line_number: int) -> None:
        self.count += 1
        self.first = self.first or line_number
        self.last = line_number


class EqualFaults(Run):
    """Equal faults beyond those that were told in full."""

    def __init__(self, fault: Fault, in_full: int) -> None:
        super().__init__()
        self.sort = fault.sort
        self.in_full = in_full
        self.told = 0  # in this run
        self.told_ever = 0

    def tells(self, line_number: int) -> bool:
        """Is this one to be told in full? Else it is counted."""
        if self.told < self.in_full and self.told_ever < TOLD_AT_MOST:
            self.told += 1
            self.told_ever += 1
            return True
        self.add(line_number)
        return False

    def close(self, sender: str) -> List[str]:
        says = [': %s refused for the same reason: %s' % (counted(self.count, sender, self.first, self.last, True), self.sort)] if self.count else []
        self.count = self.first = self.told = 0
        return says

    def is_worn(self) -> bool:
        """So often told that the rest is counted once, at the end."""
        return self.told_ever >= TOLD_AT_MOST


class TakenBefore(Run):
    """Lines with numbers below the sender's last: the same lines again, or those of a sender that was restarted."""

    def __init__(self, text: str) -> None:
        super().__init__()
        self.text = text  # what is said of the first if it stays alone
        self.least = self.greatest = 0
        self.same = self.other = 0  # those whose numbers are known to have been taken with the same readings, or with others

    def add_number(self, line_number: int, number: int, had: Optional[bool]) -> None:
        self.add(line_number)
        self.least = min(self.least or number, number)
        self.greatest = max(self.greatest, number)
        self.same += had is True
        self.other += had is False

    def close(self, sender: str, last: int) -> List[str]:
        lines, numbers = counted(self.count, sender, self.first, self.last), numbered(self.least, self.greatest)
        used = numbers + (' was' if self.least == self.greatest else ' were')
        if self.same == self.count:
            return [': %s taken before, with the same readings (%s): none of them is missing' % (lines, numbers)]
        remedy = 'number them on from %d' % (last + 1) if last < GREATEST_LINE_NUMBER else 'send them under another name'
        if self.other:
            some = '' if self.other == self.count else '%d of them ' % self.other
            return [': %s not taken: their %s used already, %swith other readings. '
                    'If %s was restarted, the readings of these lines are missing: %s' % (lines, used, some, sender, remedy)]
        return [': %s not taken: their %s used already, by earlier lines. If these are the same lines, all is well; '
                'if %s was restarted, their readings are missing: %s' % (lines, used, sender, remedy)]


class Gap(Run):
    """Lines that came while a number of their sender was missing. The cause is the line that should have brought it, if there is one."""

    def __init__(self, wanted: int, cause: Optional[int], missing: str) -> None:
        super().__init__()
        self.wanted = wanted
        self.cause = cause
        self.missing = missing  # 'numbers 6 to 8 of box did not come before'
        self.numbers = Run()
        self.greatest = 0
        self.in_order = True  # did its numbers come one after the other?
        self.taken_in = 0  # the line that brought the number

    def add_number(self, line_number: int, number: int) -> None:
        self.add(line_number)
        self.in_order = self.in_order and number == (self.numbers.last or number - 1) + 1
        self.numbers.add(number)
        self.greatest = max(self.greatest, number)

    def line_of(self, number: int) -> int:
        """The line in which a number was refused, as far as the lines came one by one; 0 if it is not known."""
        return self.first if number == self.numbers.first else self.last if number == self.numbers.last else 0

    def came(self, number: int) -> bool:
        return number in (self.numbers.first, self.numbers.last) or self.in_order and self.numbers.first <= number <= self.numbers.last

    def never_filled(self, sender: str) -> List[str]:
        """What is told at the end of all if the number was not taken."""
        if self.cause is None and self.count == 1:
            return []
        reason = 'line %d was never taken' % self.cause if self.cause else self.missing
        remedy = 'send number %d first, then all after it in their order; if lost, give the next line number %d' % (self.wanted, self.wanted)
        if self.cause:
            remedy = 'correct it and send it again, then those after it'
        return [': %s refused because %s: %s' % (counted(self.count, sender, self.first, self.last), reason, remedy)]

    def filled(self, sender: str, since: str) -> List[str]:
        """What is told once the number was taken; since: what became of those after it."""
        reason = 'number %d was missing: it' % self.wanted
        if self.cause:
            reason = 'line %d was not taken: number %d' % (self.cause, self.wanted)
        return [': %s refused because %s was taken in line %d%s' % (counted(self.count, sender, self.first, self.last), reason, self.taken_in, since)]

    def filled_now(self, sender: str, certain: bool) -> List[str]:
        """Told when the number was taken: those after it were not, if the lines come one by one (certain)."""
        if self.cause is None and self.count == 1:
            return []
        if not certain:
            return self.filled(sender, '')
        again = numbered(self.numbers.first, self.numbers.last) if self.in_order else 'those after it'
        return self.filled(sender, '; %s %s to be sent again' % (again, 'is' if self.in_order and self.count == 1 else 'are'))

    def filled_by_end(self, sender: str, last: int) -> List[str]:
        """Told at the end of all, when it is known which of those after the number were taken."""
        if last >= self.greatest:
            return [] if self.cause is None and self.count == 1 else self.filled(sender, ', and all after it since')
        if not self.in_order:
            return self.filled(sender, '; number %d is wanted next' % (last + 1))
        first = max(last + 1, self.numbers.first)
        return self.filled(sender, ', but %s %s not taken since' % (numbered(first, self.greatest), 'was' if first == self.greatest else 'were'))


class SenderRuns:
    """The open runs of one sender."""

    def __init__(self, sender: str) -> None:
        self.sender = sender
        self.gap: Optional[Gap] = None
        self.past: Optional[Gap] = None
        self.filled: List[Gap] = []  # to be told at the end
        self.before: Optional[TakenBefore] = None
        self.equal: Dict[str, EqualFaults] = {}
        self.faulty: Dict[int, int] = {}  # by number the line that had it, not taken yet, and was refused for its own fault
        self.suspect = 0  # a refused line whose number could not be read
        self.open = False  # is there anything to close?

    def equal_to(self, fault: Fault, in_full: int = TOLD_IN_FULL) -> EqualFaults:
        if fault.sort not in self.equal and len(self.equal) >= MOST_SORTS:
            fault = Fault(OTHER_FAULTS, '')
        if fault.sort not in self.equal:
            self.equal[fault.sort] = EqualFaults(fault, in_full)
        return self.equal[fault.sort]

    def note(self, line_number: int, number: Optional[int], wanted: int) -> None:
        """A line that is refused for its own fault may be the one whose number will be missing."""
        if number is None:
            self.suspect = self.suspect or line_number
        elif number >= wanted and len(self.faulty) < MOST_FAULTY:
            self.faulty.setdefault(number, line_number)

    def cause(self, wanted: int) -> int:
        """The refused line of this sender that should have brought the number; 0 if there is none."""
        self.faulty = {number: line for number, line in self.faulty.items() if number >= wanted}
        return self.faulty.get(wanted, self.suspect)

    def missing(self, wanted: int, number: int) -> str:
        """What is said where no line brought the number that is wanted before this one."""
        if self.past and self.past.came(wanted):
            line = self.past.line_of(wanted)
            return 'number %d of %s was refused%s and not sent again before' % (wanted, self.sender, ' in line %d' % line if line else '')
        last = min([number] + list(self.faulty)) - 1
        if last == wanted:
            return 'number %d of %s did not come before' % (wanted, self.sender)
        return 'numbers %d to %d of %s did not come before' % (wanted, last, self.sender)

    def close(self, last: int, live: bool, taken_in: int = 0) -> List[str]:
        """Ends the runs, because a new line of the sender was taken or, with 0, at the end of all. What the lines to come may change is told at
        the end, unless somebody looks on."""
        told = [text for run in self.equal.values() if not (taken_in and run.is_worn()) for text in run.close(self.sender)]
        if self.before and (live or not taken_in):
            told += self.close_before(last, live)
            self.before = None
        if not taken_in:
            told += [text for gap in self.filled for text in gap.filled_by_end(self.sender, last)]
        if self.gap:
            told += self.close_gap(live, taken_in)
        self.past, self.gap = self.gap or self.past, None
        self.suspect = 0
        self.open = False
        return told

    def close_gap(self, live: bool, taken_in: int) -> List[str]:
        if not taken_in:
            return self.gap.never_filled(self.sender)
        self.gap.taken_in = taken_in
        if live or len(self.filled) >= MOST_FILLED:
            return self.gap.filled_now(self.sender, live)
        self.filled.append(self.gap)
        return []

    def close_before(self, last: int, live: bool) -> List[str]:
        if self.before.count > 1:
            return self.before.close(self.sender, last)
        return [] if live else [self.before.text]

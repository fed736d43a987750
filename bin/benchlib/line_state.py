"""What is known of a run of readings, line by line, and the fault of a line for each number of refusal.

The engine's answers are right by proof. Here the reason for an answer is looked for: each refusal has a function that finds its fault
in a line, or none. `judge` asks them in the engine's order, so that tests can hold them against its answers.
"""
import re
from array import array
from typing import Dict, List, NamedTuple, Optional, Tuple

from .limits import LONGEST_LINE, LONGEST_NAME, MOST_SENDERS, SENDER_NAME
from .line_names import LINE_ENDS, Column, joined, listed
from .suggest import did_you_mean, distance
from .values import (GREATEST_LINE_NUMBER, NO_READING, NUMBER, SPACES, bytes_of, invisible, is_well_formed, number_wanted, odd_byte, quoted, shown,
                     wanted)

SEPARATORS = re.compile(rb'[ \t,;\r]+')
FRONT_BYTES = 80  # room for a sender, a number and what is between them
TOLD_DIFFERENCES = 3
THOUSANDS = re.compile(rb'-?[1-9][0-9]{0,2}\Z')
THREE_DIGITS = re.compile(rb'[0-9]{3}\Z')
NO_NUMBER = 'field 2 (n) %s is no number: has the sender a space in it, or is the number missing?'

TAKEN_BEFORE = 'taken before'
AHEAD = 'ahead'
OTHER_READINGS = 'the last number with other readings'
CARRIAGE_RETURN = 'a carriage return at the end'


class Fault(NamedTuple):
    """Why a line is refused: what is said of it, and a sort by which equal faults are told together."""
    sort: str
    text: str


class Sender:
    """What is known of a sender: its last number (0 if no line of it was taken) and readings, and where its numbers were taken."""
    __slots__ = ('name', 'last', 'last_text', 'line', 'kept', 'first', 'lines', 'marks', 'runs')

    def __init__(self, name: bytes) -> None:
        self.name = name
        self.last = 0
        self.last_text = b''
        self.line = b''  # the last that was taken
        self.kept: Optional[Dict[str, str]] = None  # in its place the readings of a state that was kept
        self.first = 1  # the number of its first line that was taken in this run
        self.lines = array('Q')  # the numbers of the lines in the file, from that one on
        self.marks = array('q')  # and a hash of each, to know whether an old number comes again with its readings
        self.runs = None  # refusals that are told together; the explainer's

    def shown(self) -> str:
        return shown(self.name)

    def place_of(self, number: int) -> Optional[int]:
        """The line of the file in which the number was taken; none if that was before this run."""
        k = number - self.first
        return self.lines[k] if 0 <= k < len(self.lines) else None

    def had(self, number: int, line: bytes) -> Optional[bool]:
        """Was the number taken with this very line? None if that is not known."""
        k = number - self.first
        return self.marks[k] == hash(line) if 0 <= k < len(self.marks) else None

    def used_by(self, number: int, line: bytes) -> str:
        had, where = self.had(number, line), self.taken_where(number)
        if had is None:
            return 'number %d was used %s' % (number, where)
        return 'this line was taken before, %s' % where if had else 'number %d was used %s, with other readings' % (number, where)

    def taken_where(self, number: int) -> str:
        place = self.place_of(number)
        return 'in line %d' % place if place else 'earlier (by the kept state)'


class Front(NamedTuple):
    """What a line says of its sender and number, as far as it can be made out in a line of any form."""
    word: bytes  # the first one
    sender: bytes  # the same if it is a sender's name, else nothing
    number: Optional[int]


def without_digits(name: str) -> str:
    return re.sub('[0-9]', '', name)


def front_of(line: bytes) -> Front:
    words = SEPARATORS.split(line[:FRONT_BYTES].lstrip(b' \t'), 2)
    sender = words[0] if SENDER_NAME.match(words[0]) else b''
    number = int(words[1]) if len(words) > 1 and NUMBER.match(words[1]) else None
    return Front(words[0], sender, number)


class LineState:
    """The columns, the senders and the absent entities before a line."""

    def __init__(self, columns: List[Column], snapshot=None) -> None:
        self.columns = columns
        self.by_text = {column.text: column for column in columns}
        self.count = len(columns) + 2
        self.presence = [(column.field - 1, column.entity) for column in columns if column.kind == 'presence']
        self.senders: Dict[bytes, Sender] = {}
        self.known: List[Sender] = []
        self.absent: Dict[str, Optional[int]] = {}  # by entity the line in which it left, none if it was away before
        if snapshot is not None:
            self.begin_from(snapshot)

    def begin_from(self, snapshot) -> None:
        self.absent = {name: None for name, present in snapshot.present.items() if not present}
        for kept in snapshot.senders:
            sender = self.sender(kept.name.encode('latin-1'))
            sender.last, sender.kept, sender.first = kept.last, kept.readings, kept.last + 1
            sender.last_text = b'%d' % kept.last
            self.known.append(sender)

    def sender(self, name: bytes) -> Sender:
        sender = self.senders.get(name)
        if sender is None:
            sender = self.senders[name] = Sender(name)
        return sender

    def take(self, line_number: int, line: bytes) -> Optional[Sender]:
        """Goes on by a line that was taken. Answers its sender; none if the line was given again. Nearly all lines come here."""
        parts = line.split(b' ', 2)
        if len(parts) < 2:
            return None
        sender = self.senders.get(parts[0])
        if sender is None:
            sender = self.senders[parts[0]] = Sender(parts[0])
        if sender.last_text == parts[1]:
            return None
        if sender.last == 0 and not self.begin_sender(sender, parts[1]):
            return None
        sender.last += 1
        sender.last_text = parts[1]
        sender.line = line
        sender.lines.append(line_number)
        sender.marks.append(hash(line))
        if self.presence:
            self.take_presence(line_number, line)
        return sender

    def begin_sender(self, sender: Sender, number: bytes) -> bool:
        if not NUMBER.match(number):
            return False
        sender.first = int(number)
        sender.last = sender.first - 1
        self.known.append(sender)
        return True

    def take_presence(self, line_number: int, line: bytes) -> None:
        fields = line.split(b' ')
        for place, entity in self.presence:
            if place >= len(fields) or fields[place] == NO_READING:
                continue
            if fields[place] == b'true':
                self.absent.pop(entity, None)
            else:
                self.absent.setdefault(entity, line_number)

    # ---- in the engine's order

    def judge(self, line: bytes) -> int:
        """The number by which the line is refused, by what is known here; 0 if it is taken."""
        if self.form_fault(line):
            return 21
        if self.sender_fault(line):
            return 43
        if self.ninth_fault(line):
            return 42
        if self.value_fault(line):
            return 23
        if self.is_resent(line):
            return 0
        if self.absent_fault(line):
            return 23
        if self.number_fault(line):
            return 24
        return 25 if self.readings_fault(line) else 0

    def fault(self, line: bytes, code: int) -> Optional[Fault]:
        """The fault by which the line got its number; none if it cannot be made out here."""
        if code == 21:
            return self.form_fault(line)
        if len(line) > LONGEST_LINE:
            return None
        if code == 43:
            return self.sender_fault(line)
        if code == 42:
            return self.ninth_fault(line)
        if code == 23:
            return self.value_fault(line) or self.absent_fault(line)
        if code == 24:
            return self.number_fault(line)
        return self.readings_fault(line) if code == 25 else None

    # ---- 21

    def form_fault(self, line: bytes) -> Optional[Fault]:
        if len(line) > LONGEST_LINE:
            return Fault('a line that is too long', 'the line has %s: %d at most are taken' % (bytes_of(line), LONGEST_LINE))
        fields = line.split(b' ')
        if b'' not in fields and len(fields) == self.count and NUMBER.match(fields[1]):
            return None
        if not line.endswith(b'\r'):
            return self.form_fault_of(line, fields)
        fields = line[:-1].split(b' ')
        if b'' not in fields and len(fields) == self.count and NUMBER.match(fields[1]):
            return self.carriage_return(len(fields), fields[-1])
        return self.form_fault_of(line[:-1], fields)

    def form_fault_of(self, line: bytes, fields: List[bytes]) -> Fault:
        if not line.strip():
            return Fault('an empty line', 'the line is empty: %s wanted; if nothing is meant, take the line out' % self.are_fields())
        if line.startswith(b'#'):
            return Fault('a comment', 'a comment cannot stand in readings: take the line out')
        if fields[:2] == [b'by', b'n']:
            return self.names_again(fields)
        if all(byte < 32 or byte == 127 for byte in line.replace(b' ', b'')):
            return Fault('invisible characters', 'the line has nothing but invisible characters (%s): take it out' % invisible(line.strip()[0]))
        return (self.separator_fault(line, fields) or self.empty_field_fault(fields) or self.no_sender_fault(fields)
                or self.count_fault(fields) or self.number_form_fault(fields[1]))

    def names_again(self, fields: List[bytes]) -> Fault:
        same = [field.decode('latin-1') for field in fields[2:]] == [column.text for column in self.columns]
        return Fault('a line of names', 'this is a line of names: are two files joined? %s' % (
            'Take it out' if same else 'Its columns are not those of the first line: keep the two files apart'))

    def are_fields(self) -> str:
        values = len(self.columns)
        return 'a sender%s' % (' and a number are' if values == 0 else ', a number and %d value%s are' % (values, '' if values == 1 else 's'))

    def carriage_return(self, field: int, before: bytes) -> Fault:
        return Fault(CARRIAGE_RETURN, '%s: the line ends in a carriage return: %s' % (self.place(field, before + b'\r'), LINE_ENDS))

    def separator_fault(self, line: bytes, fields: List[bytes]) -> Optional[Fault]:
        """Fields parted by something else than spaces: the parts make a line of the right length, or there is no space at all."""
        if len(fields) >= self.count:
            return None
        for mark, name in ((b'\t', 'tab'), (b';', 'semicolon'), (b',', 'comma')):
            parts = line.replace(mark, b' ').split()
            if mark in line and (len(parts) == self.count or b' ' not in line.strip()):
                return Fault('a %s between fields' % name, 'a %s stands between fields: one space is wanted' % name)
        return self.odd_space_fault(line, fields)

    def odd_space_fault(self, line: bytes, fields: List[bytes]) -> Optional[Fault]:
        """A character that looks like a space between two fields."""
        for mark, name in SPACES.items():
            if mark in line and len(line.replace(mark, b' ').split()) == self.count:
                joined_fields = next(field for field in fields if mark in field)
                return Fault('%s between fields' % name, '%s stands between fields, in %s: type a space in its place' % (name, quoted(joined_fields)))
        return None

    def empty_field_fault(self, fields: List[bytes]) -> Optional[Fault]:
        if b'' not in fields:
            return None
        k = fields.index(b'')
        if k == 0:
            return Fault('a space in front', 'a space stands at the start of the line: it begins with its sender')
        if not any(fields[k:]):
            return Fault('a space at the end', 'a space stands at the end of the line, after field %d: take it out' % k)
        spaces = 2
        while fields[k + spaces - 1] == b'':
            spaces += 1
        lacking = self.count > len([field for field in fields if field])
        hint = ', or `-` between them, if a value is missing' if lacking else ''
        many = 'two' if spaces == 2 else '%d' % spaces
        return Fault('two spaces', '%s spaces stand between field %d and field %d: one is wanted%s' % (many, k, k + 1, hint))

    def no_sender_fault(self, fields: List[bytes]) -> Optional[Fault]:
        if len(fields) != self.count - 1 or not NUMBER.match(fields[0]):
            return None
        if len(fields) > 1 and not self.fits(fields[1:], self.columns):
            return None
        return Fault('no sender', 'field 1 (by) %s: the sender seems to be missing: a line begins with its name, then its number' % quoted(fields[0]))

    def count_fault(self, fields: List[bytes]) -> Optional[Fault]:
        found = len(fields)
        if found == self.count:
            return None
        says = '%d field%s where %d are wanted (`by`, `n` and %d value%s): ' % (
            found, '' if found == 1 else 's', self.count, len(self.columns), '' if len(self.columns) == 1 else 's')
        return Fault('%d fields in place of %d' % (found, self.count), says + (self.beyond(fields) if found > self.count else self.left_out(fields)))

    def beyond(self, fields: List[bytes]) -> str:
        """Which fields seem to be too many. That the others fit their columns is a sign, no proof."""
        surplus = len(fields) - self.count
        if not NUMBER.match(fields[1]):
            return self.words_in_front(fields, surplus)
        if surplus > 1 and self.fits(fields[2:self.count], self.columns):
            return 'fields %d to %d, from %s on, seem to be too many' % (self.count + 1, len(fields), quoted(fields[self.count]))
        if surplus > 1:
            return '%d fields are too many; is there a space inside a value?' % surplus
        split = self.one_number(fields)
        if split:
            return 'fields %d and %d, %s and %s, seem to be one number: no space inside' % (
                split + 1, split + 2, quoted(fields[split]), quoted(fields[split + 1]))
        fitting = [k for k in range(2, len(fields)) if self.fits(fields[2:k] + fields[k + 1:], self.columns)]
        if not fitting:
            return 'one is too many; is there a space inside a value?'
        if len(fitting) == 1:
            return 'field %d %s seems to be one too many' % (fitting[0] + 1, quoted(fields[fitting[0]]))
        return 'one seems to be too many, somewhere in fields %d to %d' % (fitting[0] + 1, fitting[-1] + 1)

    @staticmethod
    def words_in_front(fields: List[bytes], surplus: int) -> str:
        """Too many fields, and the second is no number: words before the sender, as a date, or a sender of two words."""
        if SENDER_NAME.match(fields[surplus]) and NUMBER.match(fields[surplus + 1]) and not any(SENDER_NAME.match(field) for field in fields[:surplus]):
            which = 'field 1 %s seems' % quoted(fields[0]) if surplus == 1 else 'fields 1 to %d, from %s on, seem' % (surplus, quoted(fields[0]))
            return which + ' to be too many: a line begins with its sender, here %s' % quoted(fields[surplus])
        return NO_NUMBER % quoted(fields[1])

    def one_number(self, fields: List[bytes]) -> int:
        """The place of the only two neighbours that, joined, make a number by thousands and the line right; 0 if there is none."""
        found = [k for k in range(2, len(fields) - 1) if THOUSANDS.match(fields[k]) and THREE_DIGITS.match(fields[k + 1])
                 and self.fits(fields[2:k] + [fields[k] + fields[k + 1]] + fields[k + 2:], self.columns)]
        return found[0] if len(found) == 1 else 0

    def left_out(self, fields: List[bytes]) -> str:
        """Which fields seem to have been left out, by the kinds of the others."""
        if len(fields) < 2:
            return 'the number (n) is missing%s' % (', and all values' if self.columns else '')
        lacking = self.count - len(fields)
        if lacking == 1:
            return self.one_left_out(fields)
        if not NUMBER.match(fields[1]):
            return NO_NUMBER % quoted(fields[1])
        last = self.columns[len(fields) - 2:]
        if not self.fits(fields[2:], self.columns):
            return '%d values are missing; for no reading write `-`' % lacking
        return 'the last, fields %d to %d (%s), seem to have no value; for no reading write `-`' % (
            last[0].field, last[-1].field, listed([column.text for column in last]))

    def one_left_out(self, fields: List[bytes]) -> str:
        """The places of the field that is missing: without a column there, the values fit the others' kinds. They are neighbours."""
        in_turn = fields[1] == b'%d' % (self.senders[fields[0]].last + 1 if fields[0] in self.senders else 1)
        fitting = [2] if not in_turn and self.fits(fields[1:], self.columns) else []
        if NUMBER.match(fields[1]):
            fitting += [c.field for k, c in enumerate(self.columns) if self.fits(fields[2:], self.columns[:k] + self.columns[k + 1:])]
        elif not fitting:
            return NO_NUMBER % quoted(fields[1])
        if fitting == [2]:
            return 'field 2 (n), the number, seems to have been left out'
        if len(fitting) == 1:
            return 'field %d (%s) seems to have been left out; for no reading write `-`' % (fitting[0], self.columns[fitting[0] - 3].text)
        what = 'the number or a value' if fitting[:1] == [2] else 'a value'
        where = ' seems to be missing, somewhere in fields %d to %d' % (fitting[0], fitting[-1]) if fitting else ' is missing, or two are joined'
        return what + where + '; for no reading write `-`'

    @staticmethod
    def fits(values: List[bytes], columns: List[Column]) -> bool:
        return all(is_well_formed(column.kind, value) for column, value in zip(columns, values))

    def number_form_fault(self, field: bytes) -> Optional[Fault]:
        return None if NUMBER.match(field) else Fault('no number as field 2 (n)', '%s: %s' % (self.place(2, field), number_wanted(field)))

    # ---- 43 and 42

    def sender_fault(self, line: bytes) -> Optional[Fault]:
        name = line.split(b' ', 1)[0]
        if SENDER_NAME.match(name):
            return None
        return Fault('no name as sender', "%s: a sender's name is wanted: a letter, then letters, digits or `_`, %d bytes at most%s" % (
            self.place(1, name), LONGEST_NAME, self.sender_hint(name)))

    def sender_hint(self, name: bytes) -> str:
        bad = sorted(set(re.findall(rb'[^A-Za-z0-9_]', name)))
        hint = odd_byte(name)
        if not hint and bad:
            hint = 'it has %s' % ' and '.join('`%s`' % shown(mark) for mark in bad[:3])
        elif not hint:
            hint = 'it has %d' % len(name) if len(name) > LONGEST_NAME else 'it begins with `%s`' % shown(name[:1])
        near = self.near_sender(name)
        return ' (%s)%s' % (hint, ': ' + near if near else '')

    def near_sender(self, name: bytes) -> str:
        """Names of boxes are much alike: only one slip, not in a digit, or another way of joining the words is taken for the same name."""
        word = name[:2 * LONGEST_NAME].decode('latin-1')
        known = [sender.shown() for sender in self.known]
        near = next((name for name in known if name != word and joined(name) == joined(word)), '') or did_you_mean(word, known)
        if near and (joined(word) == joined(near) or distance(word, near) == 1 and without_digits(word) != without_digits(near)):
            return 'did you mean `%s`?' % near
        return ''

    def ninth_fault(self, line: bytes) -> Optional[Fault]:
        name = line.split(b' ', 1)[0]
        sender = self.senders.get(name)
        if len(self.known) < MOST_SENDERS or (sender and sender.last > 0):
            return None
        near = self.near_sender(name)
        return Fault('%s is a ninth sender' % shown(name), '%s: eight senders are known, and no ninth is taken (%s): %s' % (
            self.place(1, name), ', '.join(sender.shown() for sender in self.known),
            near or 'let one of the eight send it; a misspelt name counts as one'))

    # ---- 23

    def value_fault(self, line: bytes) -> Optional[Fault]:
        """The first ill-formed value; the others are named. A carriage return counts only where nothing else is wrong."""
        fields = line.split(b' ')
        faulty = [c for c in self.columns if c.field <= len(fields) and not is_well_formed(c.kind, fields[c.field - 1])]
        if not faulty:
            return None
        first, field = faulty[0], fields[faulty[0].field - 1]
        if field.endswith(b'\r') and first.field == len(fields) and is_well_formed(first.kind, field[:-1]):
            return self.carriage_return(first.field, field[:-1])
        others = ['field %d (%s) %s' % (c.field, c.text, quoted(fields[c.field - 1])) for c in faulty[1:]]
        also = '; wrong too: %s' % listed(others) if others else ''
        return Fault(self.column_sort(first), '%s: %s%s' % (self.place(first.field, field), wanted(first.kind, field), also))

    @staticmethod
    def column_sort(column: Column) -> str:
        return 'field %d (%s)' % (column.field, column.text)

    def absent_fault(self, line: bytes) -> Optional[Fault]:
        if not self.absent and not self.presence:
            return None
        fields = line.split(b' ')
        here = {entity: fields[place] for place, entity in self.presence if place < len(fields)}
        for column in self.columns:
            if column.kind == 'presence' or column.field > len(fields) or fields[column.field - 1] == NO_READING:
                continue
            says = here.get(column.entity, NO_READING)
            if says == b'false' or (column.entity in self.absent and says != b'true'):
                return self.in_its_turn(line, self.absent_value(column, fields[column.field - 1], says == b'false'))
        return None

    def in_its_turn(self, line: bytes, fault: Fault) -> Fault:
        """What is absent now need not have been so when an old line was taken, nor be so when the missing ones are: the number tells first."""
        number = self.number_fault(line)
        if number is None or number.sort not in (TAKEN_BEFORE, AHEAD):
            return fault
        return Fault(number.sort, '%s; and %s' % (fault.text, number.text))

    def absent_value(self, column: Column, field: bytes, leaves: bool) -> Fault:
        presence = self.by_text.get(column.entity)
        line = self.absent.get(column.entity)
        if leaves and presence:
            since = 'field %d (%s) of this line says `false`' % (presence.field, presence.text)
        else:
            since = 'since line %d' % line if line else 'by the kept state'
        back = ''
        if not leaves:
            back = '; `true` in field %d (%s) brings it back' % (presence.field, presence.text) if presence else (
                '; a column %s with `true` brings it back' % column.entity)
        return Fault(self.column_sort(column), '%s: only `-` is taken, because %s is absent (%s)%s' % (
            self.place(column.field, field), column.entity, since, back))

    # ---- 24 and 25

    def sender_and_number(self, line: bytes) -> Tuple[Optional[Sender], bytes, int]:
        """Of a well-formed line; the number is -1 if it is none."""
        fields = line.split(b' ', 2)
        number = int(fields[1]) if len(fields) > 1 and NUMBER.match(fields[1]) else -1
        return self.senders.get(fields[0]), fields[0], number

    def number_fault(self, line: bytes) -> Optional[Fault]:
        sender, name, number = self.sender_and_number(line)
        last = sender.last if sender else 0
        if number < 0 or (number and number in (last, last + 1) and number <= GREATEST_LINE_NUMBER):
            return None
        place = self.place(2, b'%d' % number)
        if number > GREATEST_LINE_NUMBER:
            return Fault('a number that is too great', '%s: %s; numbers go up to %d' % (place, self.next_number(name, last), GREATEST_LINE_NUMBER))
        if number == 0:
            return Fault('number 0', '%s: %s; numbers begin with 1' % (place, self.next_number(name, last)))
        if number < last:
            return Fault(TAKEN_BEFORE, '%s: %s; %s' % (place, self.next_number(name, last), sender.used_by(number, line)))
        return Fault(AHEAD, '%s: %s' % (place, self.next_number(name, last)))

    def next_number(self, name: bytes, last: int) -> str:
        if last == 0:
            near = self.near_sender(name)
            return '1 is wanted, since no line of %s was taken yet%s' % (shown(name), ' (%s)' % near if near else '')
        if last == GREATEST_LINE_NUMBER:
            return '%s has used up its numbers; it can go on under another name' % shown(name)
        return '%d is wanted, the next after %d (or %d again, with the same readings)' % (last + 1, last, last)

    def last_readings(self, sender: Sender) -> Dict[str, str]:
        if sender.kept is not None and not sender.line:
            return sender.kept
        return self.readings(sender.line)

    def readings(self, line: bytes) -> Dict[str, str]:
        """What a line reads, by column; no reading stands for none."""
        fields = line.split(b' ')[2:]
        return {column.text: field.decode('latin-1') for column, field in zip(self.columns, fields) if field != NO_READING}

    def is_resent(self, line: bytes) -> bool:
        sender, _, number = self.sender_and_number(line)
        return sender is not None and number == sender.last > 0 and self.readings(line) == self.last_readings(sender)

    def readings_fault(self, line: bytes) -> Optional[Fault]:
        sender, name, number = self.sender_and_number(line)
        if sender is None or number != sender.last or number == 0:
            return None
        here, there = self.readings(line), self.last_readings(sender)
        names = [c.text for c in self.columns] + [text for text in there if text not in self.by_text]
        differing = [text for text in names if here.get(text) != there.get(text)]
        if not differing:
            return None
        says = '; '.join(self.difference(text, here, there) for text in differing[:TOLD_DIFFERENCES])
        more = '; and %d more' % (len(differing) - TOLD_DIFFERENCES) if len(differing) > TOLD_DIFFERENCES else ''
        after = ', a new one has the next number, %d at this place' % (number + 1) if number < GREATEST_LINE_NUMBER else ''
        return Fault(OTHER_READINGS, '%s: number %d of %s was taken %s with other readings: %s%s; a line that is sent again says the same%s' % (
            self.place(2, b'%d' % number), number, shown(name), sender.taken_where(number), says, more, after))

    def difference(self, text: str, here: Dict[str, str], there: Dict[str, str]) -> str:
        column = self.by_text.get(text)
        if column is None:
            return '%s was `%s` and has no column here' % (text, there[text])
        return 'field %d (%s) was `%s` and is `%s` here' % (column.field, text, there.get(text, '-'), here.get(text, '-'))

    def place(self, field: int, what: bytes) -> str:
        name = 'by' if field == 1 else 'n' if field == 2 else self.columns[field - 3].text
        return 'field %d (%s) %s' % (field, name, quoted(what))

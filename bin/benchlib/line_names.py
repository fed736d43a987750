"""The line of names of readings: its columns, and why it is refused (22)."""
import re
from typing import Dict, List, NamedTuple, Optional, Tuple

from .limits import LONGEST_NAMES
from .suggest import did_you_mean
from .values import bytes_of, quoted, shown

LISTED_NAMES = 12  # of what there is, so many are listed
TOLD_COLUMNS = 3  # of several faulty columns, so many are told
BYTE_ORDER_MARK = b'\xef\xbb\xbf'
WIDE_MARKS = (b'\xff\xfe', b'\xfe\xff')
DOCUMENTS = ((b'PK\x03\x04', 'a document of an office program or a zip archive'), (b'\xd0\xcf\x11\xe0', 'a document of an office program'),
             (b'%PDF', 'a PDF document'), (b'{\\rtf', 'a document of an office program'))
BENCH_WORDS = ('interface', 'entity', 'rules')
BY_AND_N = "`by n` is wanted: `by` and `n` stand first, the sender's name and its number"
LINE_ENDS = 'save the file with line feeds alone at the ends of its lines (LF, not CR LF)'


class Column(NamedTuple):
    field: int  # its number in a line, from 1; by and n are the first two
    text: str
    entity: str
    kind: str  # whole, bool, real, or presence


def did_you(word: str, known: List[str], front: str = '') -> str:
    """`: did you mean x?`, or nothing."""
    name = did_you_mean(word, known)
    return ': did you mean `%s%s`?' % (front, name) if name else ''


def did_you_all(names: List[str]) -> str:
    """The same of some that are as near as each other."""
    return ': did you mean %s?' % ' or '.join('`%s`' % name for name in names[:TOLD_COLUMNS]) if names else '.'


def joined(name: str) -> str:
    return re.sub('[^a-z0-9]', '', name.lower())


def listed(names: List[str]) -> str:
    if not names:
        return 'none'
    return ', '.join(names[:LISTED_NAMES]) + (', ...' if len(names) > LISTED_NAMES else '')


class Names:
    """What a bench has for a line of names."""

    def __init__(self, model) -> None:
        self.members: Dict[str, Dict[str, Tuple[str, str]]] = {
            entity.name: {member.name: (member.sort, member.kind) for member in entity.members} for entity in model.entities
        }
        self.interfaces: Dict[str, List[str]] = {name: [] for name in model.interfaces}
        for entity in model.entities:
            self.interfaces.setdefault(entity.interface, []).append(entity.name)

    def all_columns(self) -> List[str]:
        return ['%s.%s' % (entity, event) for entity in self.members for event in self.events(entity)]

    def events(self, entity: str) -> List[str]:
        return [name for name, (sort, _) in self.members[entity].items() if sort == 'event']

    def example(self) -> str:
        """A line of names that this bench takes."""
        return ' '.join(['by', 'n'] + (self.all_columns() or list(self.members))[:3])

    def column(self, field: int, text: str) -> Optional[Column]:
        """The column that a field names; none if there is no such."""
        entity, point, member = text.partition('.')
        if entity not in self.members:
            return None
        if not point:
            return Column(field, text, entity, 'presence')
        sort, kind = self.members[entity].get(member, ('', ''))
        return Column(field, text, entity, kind) if sort == 'event' else None

    def columns(self, line: bytes) -> List[Column]:
        """Those of an accepted line."""
        fields = line.decode('latin-1').split(' ')[2:]
        return [column for column in (self.column(k + 3, text) for k, text in enumerate(fields)) if column]

    # ---- why a line is refused

    def explain(self, line: bytes) -> List[str]:
        """What is wrong with a refused line, one sentence a fault, without the place."""
        return self.whole_line_fault(line) or self.field_faults(line) or ['the line of names is ill formed; it is as `%s`' % self.example()]

    def whole_line_fault(self, line: bytes) -> List[str]:
        if not line.strip():
            empty = 'the first line has nothing but spaces' if line else 'the file, or its first line, is empty'
            return ['there is no line of names: %s; readings begin as `%s`' % (empty, self.example())]
        for mark, name in DOCUMENTS:
            if line.startswith(mark):
                return ['this is %s: save the readings as plain text' % name]
        if line.startswith(BYTE_ORDER_MARK):
            return ['the file begins with a byte order mark: save it as plain text, or as UTF-8 without that mark']
        if line.startswith(WIDE_MARKS) or line[1:4:2] == b'\0\0' or line[0:3:2] == b'\0\0':
            return ['the file seems to be saved as UTF-16: save it as plain text (ASCII or UTF-8)']
        if b'\0' in line:
            return ['the first line has zero bytes, so it is no plain text: save the readings as plain text (ASCII or UTF-8)']
        if len(line) > LONGEST_NAMES:
            return ['the line of names has %s: %d at most are taken' % (bytes_of(line), LONGEST_NAMES)]
        return self.separator_fault(line)

    def separator_fault(self, line: bytes) -> List[str]:
        for mark, name in ((b'\t', 'tabs'), (b';', 'semicolons'), (b',', 'commas')):
            if mark in line and len(line.split(mark)) > len(line.split(b' ')):
                return ['%s stand between the names: one space is wanted, as in `%s`' % (name, self.example())]
        return []

    def field_faults(self, line: bytes) -> List[str]:
        told = []
        if line.endswith(b'\r'):
            told.append('the line of names ends in a carriage return: ' + LINE_ENDS)
            line = line[:-1]
        fields = line.decode('latin-1').split(' ')
        start = self.start_fault(fields) or self.rows_fault(fields)
        if start:
            return told + [start]
        faulty = self.faulty_places(fields)
        more = len(faulty) - TOLD_COLUMNS
        told += [self.column_fault(fields, k) for k in faulty[:TOLD_COLUMNS]]
        return told + (['%d further column%s refused' % (more, ' is' if more == 1 else 's are')] if more > 0 else [])

    def rows_fault(self, fields: List[str]) -> str:
        """Rows as the bench prints them: their columns are all actions."""
        actions = ['%s.%s' % (entity, name) for entity, members in self.members.items() for name, (sort, _) in members.items() if sort == 'action']
        if not actions or fields[2:] != actions:
            return ''
        return 'the columns are actions: these seem to be rows, as the bench prints them; readings begin as `%s`' % self.example()

    def faulty_places(self, fields: List[str]) -> List[int]:
        seen, faulty = set(), []
        for k in range(2, len(fields)):
            if fields[k] in seen or self.column(k + 1, fields[k]) is None:
                faulty.append(k)
            seen.add(fields[k])
        return faulty

    def start_fault(self, fields: List[str]) -> str:
        """What is wrong with `by n` in front."""
        if fields[:2] == ['by', 'n']:
            return ''
        first = quoted(fields[0].encode('latin-1'))
        second = quoted(fields[1].encode('latin-1')) if len(fields) > 1 and fields[1] else ''
        if fields[0] in BENCH_WORDS:
            return 'field 1 %s: this seems to be a bench file; readings begin as `%s`' % (first, self.example())
        if fields[0].startswith('#'):
            return 'a comment cannot stand in readings (is this a bench file?); they begin as `%s`' % self.example()
        if fields[0] == '' and len(fields) > 1:
            return 'a space stands at the start of the line: it begins with `by n`'
        if fields[:2] == ['n', 'by']:
            return 'fields 1 and 2 "n by": `by n` stand first, in this order'
        if fields[0] == 'n':
            return 'field 1 "n": ' + BY_AND_N
        if fields[0] != 'by':
            return 'field 1 %s: the line of names begins with `by n`%s' % (first, ', in lower case' if fields[0].lower() == 'by' else '')
        if len(fields) == 1:
            return 'field 2 is missing: the line of names begins with `by n`'
        if second == '':
            return 'two spaces, or a space at the end, after field 1: the line of names begins with `by n`, one space between'
        return 'field 2 %s: the line of names begins with `by n`%s' % (second, ', in lower case' if fields[1] == 'N' else '')

    def column_fault(self, fields: List[str], k: int) -> str:
        """What is wrong with the faulty field at place k."""
        text = fields[k]
        if text == '':
            if k + 1 == len(fields):
                return 'a space stands at the end of the line: take it out'
            return 'two spaces stand between field %d and field %d: one is wanted' % (k, k + 1)
        place = 'field %d %s: ' % (k + 1, quoted(text.encode('latin-1')))
        if '\t' in text or '\r' in text:
            return place + 'it has a %s; one space stands between names' % ('tab' if '\t' in text else 'carriage return')
        if self.column(k + 1, text) is None:
            return place + self.name_fault(text)
        return place + 'this column stands there already, in field %d' % (fields.index(text, 2) + 1)

    def name_fault(self, text: str) -> str:
        entity, point, member = text.partition('.')
        if entity not in self.members:
            return self.entity_fault(entity, point + member)
        if '.' in member or not member:
            return '`entity.event` or `entity` is wanted. ' + self.there_are(entity)
        sort, _ = self.members[entity].get(member, ('', ''))
        if sort:
            return '%s is an %s of %s: only events and entities can be read. %s' % (member, sort, entity, self.there_are(entity))
        guess = did_you(member, self.events(entity), entity + '.')
        return '%s has no event %s%s %s' % (entity, shown(member.encode('latin-1')), guess or '.', self.there_are(entity))

    def there_are(self, entity: str) -> str:
        return 'Events of %s: %s' % (entity, listed(self.events(entity)))

    def entity_fault(self, entity: str, rest: str) -> str:
        """An unknown entity; if the rest is right with a near one, that is what is meant."""
        text, known = entity + rest, listed(list(self.members))
        meant = self.meant_columns(text)
        if entity in self.interfaces:
            entities = self.interfaces[entity]
            right = [name + rest for name in entities if self.column(3, name + rest)]
            return '%s is an interface, no entity%s Its entities: %s' % (entity, did_you_all(right), listed(entities))
        if meant:
            return 'there is no entity %s%s Entities of the bench: %s' % (shown(entity.encode('latin-1')), did_you_all(meant), known)
        near = did_you_mean(entity, list(self.members))
        guess = ': did you mean `%s`?' % (near + rest if self.column(3, near + rest) else near) if near else '.'
        return 'there is no entity %s%s Entities of the bench: %s' % (shown(entity.encode('latin-1')) or 'without a name', guess, known)

    def meant_columns(self, text: str) -> List[str]:
        """The columns with the same letters, parted by another sign than a point; else those whose event alone is named."""
        same = [column for column in self.all_columns() if joined(column) == joined(text)]
        return same or [column for column in self.all_columns() if column.endswith('.' + text)]

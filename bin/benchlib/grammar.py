"""The grammar of bench files: a predictive reader that knows, at each word, which words could stand there."""

from dataclasses import dataclass, field
from typing import Iterator, List, NoReturn, Optional, Sequence, Tuple, Union

from .tokens import END, KINDS, NAME, NUMBER, Word

MOST_OPENERS = 16

# What can be wanted besides the words of the language themselves.
A_NAME = 'a name'
A_NUMBER = 'a number'
A_RANK = 'a number from 0 to 9'
THE_END = 'the end of the file'

MEMBER_SORTS = ('attribute', 'event', 'action')


@dataclass
class Member:
    sort: str
    word: Word  # `attribute`, `event` or `action`
    name: Word
    kind: str


@dataclass
class Interface:
    word: Word
    name: Word
    members: List[Member] = field(default_factory=list)


@dataclass
class Literal:
    start: int
    end: int
    kind: str
    text: str


@dataclass
class Assignment:
    attribute: Word
    equals: int
    value: Literal


@dataclass
class Entity:
    word: Word
    name: Word
    interface: Word
    assignments: List[Assignment] = field(default_factory=list)
    close: int = 0  # where `}` stands


@dataclass
class Reference:
    """owner `.` member"""

    start: int
    end: int
    owner: Word
    member: Word


@dataclass
class Conversion:
    """`real` `(` sum `)`"""

    start: int
    end: int
    offset: int
    inner: 'Sum'


@dataclass
class Negation:
    """`-` factor"""

    start: int
    end: int
    offset: int
    inner: 'Sum'


@dataclass
class Operation:
    start: int
    end: int
    offset: int
    mark: str
    left: 'Sum'
    right: 'Sum'


Sum = Union[Literal, Reference, Conversion, Negation, Operation]


@dataclass
class Place:
    name: Word
    interface: Optional[Word]  # of a place that declares a variable


@dataclass
class Filter:
    attribute: Word
    equals: int
    value: Sum


@dataclass
class Clause:
    word: Word
    name: Word
    place: Place
    filter: Optional[Filter] = None
    equals: int = 0
    value: Optional[Sum] = None  # None for `changed`


@dataclass
class Call:
    word: Word
    name: Word
    open: int  # where `(` stands
    parameter: Sum
    place: Place
    filter: Optional[Filter] = None


@dataclass
class Rule:
    word: Word
    rank: Optional[Word] = None
    clauses: List[Clause] = field(default_factory=list)
    calls: List[Call] = field(default_factory=list)

    def items(self) -> Iterator[Union[Clause, Call]]:
        """Clauses and calls, in the order of the text."""
        yield from self.clauses
        yield from self.calls


@dataclass
class File:
    interfaces: List[Interface] = field(default_factory=list)
    entities: List[Entity] = field(default_factory=list)
    rules: List[Rule] = field(default_factory=list)


@dataclass
class Open:
    """A construct that has begun: its sort, its first word, and its name if it has one."""

    sort: str
    word: Word
    name: str = ''


class Misplaced(Exception):
    """The word at this index cannot follow those before it."""

    def __init__(self, reader: '_Reader') -> None:
        super().__init__(reader.at)
        self.index = reader.at
        self.words = reader.words  # with END behind the last one
        self.wanted = list(reader.wanted)
        self.opened = list(reader.opened)
        self.too_deep = reader.too_deep
        self.file = reader.read  # what was read whole before


class _Reader:
    def __init__(self, words: Sequence[Word], length: int) -> None:
        self.words = list(words) + [Word(length, END, '')]
        self.at = 0
        self.wanted: List[str] = []  # all that was asked for at this word
        self.opened: List[Open] = []
        self.depth = 0
        self.too_deep = False
        self.read = File()

    @property
    def word(self) -> Word:
        return self.words[self.at]

    def fail(self) -> NoReturn:
        raise Misplaced(self)

    def next_is(self, wanted: str) -> bool:
        """Whether the next word is of this form; it is kept that it could be."""
        self.wanted.append(wanted)
        word = self.word
        if wanted == A_NAME:
            return word.sort == NAME
        if wanted == A_NUMBER:
            return word.sort == NUMBER
        if wanted == A_RANK:
            return word.sort == NUMBER and not word.text.endswith('r')
        if wanted == THE_END:
            return word.sort == END
        return word.text == wanted

    def advance(self) -> Word:
        word = self.word
        self.at += 1
        self.wanted.clear()
        return word

    def take(self, *wanted: str) -> Word:
        for one in wanted:
            if self.next_is(one):
                return self.advance()
        self.fail()

    def begin(self, sort: str) -> Open:
        self.opened.append(Open(sort, self.word))
        return self.opened[-1]

    def close(self) -> None:
        self.opened.pop()

    def previous_end(self) -> int:
        return self.words[self.at - 1].end

    # Interfaces and entities

    def file(self) -> File:
        file = self.read
        while self.next_is('interface'):
            file.interfaces.append(self.interface())
        while self.next_is('entity'):
            file.entities.append(self.entity())
        self.next_is('rules') or self.fail()
        self.begin('rules')
        self.advance()
        while self.next_is('when'):
            file.rules.append(self.rule())
        self.take('end')
        self.close()
        self.take_end()
        return file

    def take_end(self) -> None:
        self.next_is(THE_END) or self.fail()

    def interface(self) -> Interface:
        opened = self.begin('interface')
        interface = Interface(self.take('interface'), self.take(A_NAME))
        opened.name = interface.name.text
        self.take('{')
        for sort in MEMBER_SORTS:
            while self.next_is(sort):
                interface.members.append(self.member(sort))
        self.take('}')
        self.close()
        return interface

    def member(self, sort: str) -> Member:
        self.begin('member')
        word = self.take(sort)
        name = self.take(A_NAME)
        if sort == 'action':
            self.take('(')
            kind = self.take(*KINDS).text
            self.take(')')
        else:
            self.take(':')
            kind = self.take(*KINDS).text
        self.close()
        return Member(sort, word, name, kind)

    def entity(self) -> Entity:
        opened = self.begin('entity')
        word = self.take('entity')
        name = self.take(A_NAME)
        opened.name = name.text
        self.take(':')
        entity = Entity(word, name, self.take(A_NAME))
        self.take('{')
        while self.next_is(A_NAME):
            entity.assignments.append(self.assignment())
        entity.close = self.take('}').offset
        self.close()
        return entity

    def assignment(self) -> Assignment:
        self.begin('assignment')
        attribute = self.take(A_NAME)
        equals = self.take('=').offset
        start = self.word.offset
        if self.next_is('-'):
            self.advance()
            number = self.take(A_NUMBER)
            value = Literal(start, number.end, kind_of_number(number), '-' + number.text)
        else:
            value = self.literal(self.take(A_NUMBER, 'true', 'false'))
        self.close()
        return Assignment(attribute, equals, value)

    @staticmethod
    def literal(word: Word) -> Literal:
        kind = kind_of_number(word) if word.sort == NUMBER else 'bool'
        return Literal(word.offset, word.end, kind, word.text)

    # Rules

    def rule(self) -> Rule:
        self.begin('rule')
        rule = Rule(self.take('when'))
        if self.next_is('rank'):
            self.advance()
            rule.rank = self.take(A_RANK)
        self.condition(rule)
        self.take('trigger')
        rule.calls.append(self.call())
        while self.next_is(','):
            self.advance()
            rule.calls.append(self.call())
        self.take('end')
        self.close()
        return rule

    def condition(self, rule: Rule) -> None:
        self.conjunction(rule)
        while self.next_is('or'):
            self.advance()
            self.conjunction(rule)

    def conjunction(self, rule: Rule) -> None:
        self.atom(rule)
        while self.next_is('and'):
            self.advance()
            self.atom(rule)

    def atom(self, rule: Rule) -> None:
        if self.next_is('event'):
            rule.clauses.append(self.clause())
            return
        if not self.next_opens('('):
            self.fail()
        self.open_parenthesis()
        self.condition(rule)
        self.close_parenthesis()

    def clause(self) -> Clause:
        self.begin('clause')
        word = self.take('event')
        name = self.take(A_NAME)
        self.take('from')
        clause = Clause(word, name, self.place())
        clause.filter = self.filter()
        self.take('value')
        if self.next_is('changed'):
            self.advance()
        else:
            clause.equals = self.take('=').offset
            clause.value = self.sum()
        self.close()
        return clause

    def call(self) -> Call:
        self.next_is('action') or self.fail()
        self.begin('call')
        word = self.advance()
        name = self.take(A_NAME)
        self.next_is('(') or self.fail()
        self.begin('(')
        opening = self.advance().offset
        parameter = self.sum()
        self.take(')')
        self.close()
        self.take('on')
        call = Call(word, name, opening, parameter, self.place())
        call.filter = self.filter()
        self.close()
        return call

    def place(self) -> Place:
        name = self.take(A_NAME)
        if not self.next_is(':'):
            return Place(name, None)
        self.advance()
        return Place(name, self.take(A_NAME))

    def filter(self) -> Optional[Filter]:
        if not self.next_is('with'):
            return None
        self.advance()
        attribute = self.take(A_NAME)
        equals = self.take('=').offset
        return Filter(attribute, equals, self.sum())

    # Sums

    def next_opens(self, opener: str) -> bool:
        """Whether the next word is this opener and may stand here: 16 may enclose one another, no more."""
        if self.depth < MOST_OPENERS:
            return self.next_is(opener)
        if self.word.text == opener:
            self.too_deep = True
        return False

    def open_parenthesis(self) -> None:
        self.begin('(')
        self.advance()
        self.depth += 1

    def close_parenthesis(self) -> None:
        self.take(')')
        self.close()
        self.depth -= 1

    def sum(self) -> Sum:
        return self.operations(('+', '-'), lambda: self.operations(('*', '/'), self.factor))

    def operations(self, marks: Tuple[str, str], operand) -> Sum:
        left = operand()
        while self.next_is(marks[0]) or self.next_is(marks[1]):
            mark = self.advance()
            right = operand()
            left = Operation(left.start, right.end, mark.offset, mark.text, left, right)
        return left

    def factor(self) -> Sum:
        start = self.word.offset
        if self.next_is(A_NAME):
            owner = self.advance()
            self.take('.')
            member = self.take(A_NAME)
            return Reference(start, member.end, owner, member)
        for literal in (A_NUMBER, 'true', 'false'):
            if self.next_is(literal):
                return self.literal(self.advance())
        if self.next_opens('real'):
            return self.conversion()
        if self.next_opens('('):
            return self.enclosed()
        if self.next_opens('-'):
            return self.negation()
        self.fail()

    def conversion(self) -> Sum:
        real = self.advance()
        self.next_is('(') or self.fail()
        self.open_parenthesis()  # `real` is one opener together with its parenthesis
        inner = self.sum()
        self.close_parenthesis()
        return Conversion(real.offset, self.previous_end(), real.offset, inner)

    def enclosed(self) -> Sum:
        start = self.word.offset
        self.open_parenthesis()
        inner = self.sum()
        self.close_parenthesis()
        inner.start, inner.end = start, self.previous_end()
        return inner

    def negation(self) -> Sum:
        minus = self.advance()
        self.depth += 1
        inner = self.factor()
        self.depth -= 1
        return Negation(minus.offset, inner.end, minus.offset, inner)


def kind_of_number(number: Word) -> str:
    return 'real' if number.text.endswith('r') else 'whole'


def read_file(words: Sequence[Word], length: int) -> File:
    """The file that these words of a text of this length make up. Raises Misplaced at the first word that cannot be."""
    return _Reader(words, length).file()

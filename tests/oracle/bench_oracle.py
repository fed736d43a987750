"""An executable reading of document 01 ("The Pantagruel bench engine") with orders 1
to 7 of document 02 ("Requests that came later"); no later order is in force here.

The module follows the order of document 01: values and sums, words, grammar,
counts, names, kinds, the bare machine, lines of readings, the runner; of document 02
the byte classes stand before the words, the ranks of rules before the counts and with the
machine, the rules at rest before the machine, with it and at the end, the senders of lines
with the machine and its lines, and the day sheet at the end.
It aims at being easy to compare with the text, not at speed.  "Readings" below are the
pages that decide the documents' open points.  A quotation is document 01's unless
document 02 or Readings is named beside it.

Public: check, entity_part, Bench, run, state_after, sheet, stated_size, printed_sheet,
cells_read, tried, printed_tried, byte_class, printed_classes, main.
"""

import math
import os
import struct
import sys
from dataclasses import dataclass
from itertools import product
from pathlib import Path
from typing import Dict, FrozenSet, Iterator, List, Optional, Set, Tuple, Union

# --------------------------------------------------------------------------
# Values
# --------------------------------------------------------------------------

WHOLE = "whole"
BOOL = "bool"
REAL = "real"

LEAST_WHOLE = -2147483648
GREATEST_WHOLE = 2147483647


@dataclass(frozen=True)
class Whole:
    """A value of kind `whole` ("32 bits, signed")."""

    number: int


@dataclass(frozen=True)
class Bool:
    """A value of kind `bool`."""

    truth: bool


@dataclass(frozen=True)
class Real:
    """A finite binary64, kept as its bits: `==` on this class is identity bit by bit."""

    bits: int


Value = Union[Whole, Bool, Real]
Cell = Optional[Value]  # None is unset


def kind_of(value: Value) -> str:
    """The kind of a set value."""
    if isinstance(value, Whole):
        return WHOLE
    if isinstance(value, Bool):
        return BOOL
    return REAL


def float_from_bits(bits: int) -> float:
    return struct.unpack(">d", struct.pack(">Q", bits))[0]


def bits_from_float(number: float) -> int:
    return struct.unpack(">Q", struct.pack(">d", number))[0]


def real_or_unset(number: float) -> Cell:
    """ "a result not finite gives unset" """
    if not math.isfinite(number):
        return None
    return Real(bits_from_float(number))


def whole_or_unset(number: int) -> Cell:
    """ "Wholes outside 32 bits [...] give unset" """
    if LEAST_WHOLE <= number <= GREATEST_WHOLE:
        return Whole(number)
    return None


def equal(left: Cell, right: Cell) -> bool:
    """ "Equal" needs two set values; reals compare by value, so the two zeros are equal."""
    if left is None or right is None:
        return False
    if isinstance(left, Real) and isinstance(right, Real):
        return float_from_bits(left.bits) == float_from_bits(right.bits)
    return left == right


def differ(left: Cell, right: Cell) -> bool:
    """ "`changed` holds if the two values differ; unset differs from any value, not from unset." """
    if left is None and right is None:
        return False
    return not equal(left, right)


# --------------------------------------------------------------------------
# Arithmetic
# --------------------------------------------------------------------------


def rounded_toward_minus_infinity(left: int, right: int) -> int:
    """The greatest whole number that is not above the exact quotient of left by right.  right is not 0.

    Document 02, order 2: "Whole `/` rounds toward minus infinity: -7 / 2 is -4, 7 / -2 is -4,
    -7 / -2 is 3."  It stands in the place of document 01's "`/` drops the fraction".

    Python's `//` of two ints is this number, whatever their signs are; the division of many
    other languages goes toward zero instead, and differs wherever the exact quotient is
    negative and no whole.  make_cases.py (check_quotients) holds it to a statement without division.
    """
    return left // right


def whole_operation(mark: bytes, left: int, right: int) -> Cell:
    if mark == b"+":
        return whole_or_unset(left + right)
    if mark == b"-":
        return whole_or_unset(left - right)
    if mark == b"*":
        return whole_or_unset(left * right)
    # Document 02, order 2: "A zero divisor and -2147483648 / -1 still give unset"; the latter is 2147483648
    if right == 0:
        return None
    return whole_or_unset(rounded_toward_minus_infinity(left, right))


def real_operation(mark: bytes, left: float, right: float) -> Cell:
    """ "Reals round once per operation": one float operation, then the test.

    Readings of document 02, order 2: "Reals stay."
    """
    if mark == b"+":
        return real_or_unset(left + right)
    if mark == b"-":
        return real_or_unset(left - right)
    if mark == b"*":
        return real_or_unset(left * right)
    if right == 0.0:
        return None  # infinity or no number in binary64, and a zero divisor in any case
    return real_or_unset(left / right)


def operation(mark: bytes, left: Cell, right: Cell) -> Cell:
    """One of `+ - * /`.  "Sums: unset gives unset." """
    if left is None or right is None:
        return None
    if isinstance(left, Whole) and isinstance(right, Whole):
        return whole_operation(mark, left.number, right.number)
    if isinstance(left, Real) and isinstance(right, Real):
        return real_operation(mark, float_from_bits(left.bits), float_from_bits(right.bits))
    raise AssertionError("an operator meets unfitting kinds in an accepted bench")


def negation(value: Cell) -> Cell:
    """Unary `-`.  Readings: "IEEE negation", the sign bit is turned over."""
    if value is None:
        return None
    if isinstance(value, Whole):
        return whole_or_unset(-value.number)
    if isinstance(value, Real):
        return Real(value.bits ^ (1 << 63))
    raise AssertionError("unary minus meets a bool in an accepted bench")


def to_real(value: Cell) -> Cell:
    """`real ( .. )`.  Every whole of 32 bits is a binary64 exactly."""
    if value is None:
        return None
    if isinstance(value, Whole):
        return real_or_unset(float(value.number))
    raise AssertionError("real meets another kind than whole in an accepted bench")


# --------------------------------------------------------------------------
# Byte classes (document 02, order 4)
# --------------------------------------------------------------------------

# document 02, order 4: "a letter, a digit, `_`, a mark, a blank, `#`, for comments only, or not allowed",
# "numbered 0 to 7 in this order"
LETTER, DIGIT, UNDERSCORE, MARK, BLANK, COMMENT_SIGN, COMMENTS_ONLY, NOT_ALLOWED = range(8)

LETTERS = frozenset(b"abcdefghijklmnopqrstuvwxyzABCDEFGHIJKLMNOPQRSTUVWXYZ")
DIGITS = frozenset(b"0123456789")
MARKS = frozenset(b"{}():=,.+-*/")
BLANKS = frozenset(b" \t\n")  # Readings: "blank (9, 10, 32)"
ALLOWED = frozenset(range(32, 127)) | frozenset(b"\t\n")  # "32 to 126, tab (9) and line feed (10)"


def byte_class(byte: int) -> int:
    """The class of a byte.  Words are taken by it alone, but for the line feed that closes a comment and
    the `r` behind digits.

    For comments only is an allowed byte that begins no word, goes on in no word and parts no two words.
    """
    if byte in LETTERS:
        return LETTER
    if byte in DIGITS:
        return DIGIT
    if byte == ord("_"):
        return UNDERSCORE
    if byte in MARKS:
        return MARK
    if byte in BLANKS:
        return BLANK
    if byte == ord("#"):
        return COMMENT_SIGN
    if byte in ALLOWED:
        return COMMENTS_ONLY
    return NOT_ALLOWED


def printed_classes() -> bytes:
    """What `--classes` prints: bytes 0 to 255 in order, each with its class, in decimal."""
    return b"".join(b"%d %d\n" % (byte, byte_class(byte)) for byte in range(256))


# --------------------------------------------------------------------------
# Words
# --------------------------------------------------------------------------

LONGEST_TEXT = 32768
LONGEST_NAME = 24
MOST_DIGITS = 10

NAME_CLASSES = frozenset([LETTER, DIGIT, UNDERSCORE])
NUMBER_CLASSES = frozenset([DIGIT])

# document 02, order 6: "`rank` becomes reserved"
RESERVED = frozenset(
    b"interface attribute event action entity rules when from with value changed "
    b"trigger on end and or true false whole bool real rank".split()
)

NAME = "name"
NUMBER = "number"
FIXED = "fixed"  # a reserved word or a mark
NOTHING = "nothing"  # what stands behind the last word


@dataclass(frozen=True)
class Word:
    sort: str
    text: bytes
    place: int
    value: Cell = None  # of a number


class Refusal(Exception):
    """A number of the table with its place."""

    def __init__(self, code: int, place: int):
        super().__init__(code, place)
        self.code = code
        self.place = place


def end_of_run(text: bytes, start: int, classes: frozenset) -> int:
    """The first place from start on whose byte is of none of these classes (or the length)."""
    stop = start
    while stop < len(text) and byte_class(text[stop]) in classes:
        stop += 1
    return stop


def end_of_comment(text: bytes, start: int) -> int:
    """ "`#` starts a comment up to the line feed or the end", of allowed bytes only."""
    stop = start
    while stop < len(text) and text[stop] != 10:
        if byte_class(text[stop]) == NOT_ALLOWED:
            raise Refusal(12, stop)
        stop += 1
    return stop


def name_at(text: bytes, start: int) -> Tuple[Word, int]:
    """ "a letter, then letters, digits or `_`, 24 bytes at most (a longer run is no word)" """
    stop = end_of_run(text, start, NAME_CLASSES)
    run_text = text[start:stop]
    if len(run_text) > LONGEST_NAME:
        raise Refusal(12, start)
    sort = FIXED if run_text in RESERVED else NAME
    return Word(sort, run_text, start), stop


def number_at(text: bytes, start: int) -> Tuple[Word, int]:
    """ "1 to 10 digits, at most 2147483647; with `r` after it, that whole as a real" """
    stop = end_of_run(text, start, NUMBER_CLASSES)
    if stop - start > MOST_DIGITS:
        raise Refusal(12, start)
    number = int(text[start:stop])
    if number > GREATEST_WHOLE:
        raise Refusal(12, start)
    if text[stop : stop + 1] == b"r":
        return Word(NUMBER, text[start : stop + 1], start, to_real(Whole(number))), stop + 1
    return Word(NUMBER, text[start:stop], start, Whole(number)), stop


def words_of(text: bytes) -> List[Word]:
    """ "Words are taken one after another from the text, each as long as can be".

    Raises refusal 12 at the first byte or word that is not allowed.
    """
    words = []
    place = 0
    while place < len(text):
        first = byte_class(text[place])
        if first == BLANK:
            place += 1
        elif first == COMMENT_SIGN:
            place = end_of_comment(text, place)
        elif first == LETTER:
            word, place = name_at(text, place)
            words.append(word)
        elif first == DIGIT:
            word, place = number_at(text, place)
            words.append(word)
        elif first == MARK:
            words.append(Word(FIXED, text[place : place + 1], place))
            place += 1
        else:
            raise Refusal(12, place)
    return words


# --------------------------------------------------------------------------
# What a grammatical file says
# --------------------------------------------------------------------------

ATTRIBUTE = "attribute"
EVENT = "event"
ACTION = "action"


@dataclass(frozen=True)
class Name:
    text: bytes
    place: int


@dataclass(frozen=True)
class Member:
    place: int  # of `attribute`, `event` or `action`
    sort: str
    name: Name
    kind: str


@dataclass(frozen=True)
class Interface:
    place: int
    name: Name
    members: Tuple[Member, ...]


@dataclass(frozen=True)
class Assignment:
    attribute: Name
    equals: int  # place of `=`
    value: Value


@dataclass(frozen=True)
class Entity:
    place: int
    name: Name
    interface: Name
    assignments: Tuple[Assignment, ...]
    close: int  # place of `}`


@dataclass(frozen=True)
class Literal:
    value: Value


@dataclass(frozen=True)
class MemberOf:
    """name `.` member"""

    owner: Name
    member: Name


@dataclass(frozen=True)
class RealOf:
    """`real` `(` sum `)`"""

    place: int
    inner: "Expression"


@dataclass(frozen=True)
class Minus:
    """`-` factor"""

    place: int
    inner: "Expression"


@dataclass(frozen=True)
class Step:
    """An operator and what stands to its right."""

    mark: bytes
    place: int
    right: "Expression"


@dataclass(frozen=True)
class Chain:
    """A sum or a product: the first part, then steps, "grouping to the left"."""

    first: "Expression"
    steps: Tuple[Step, ...]


Expression = Union[Literal, MemberOf, RealOf, Minus, Chain]


@dataclass(frozen=True)
class Target:
    """The grammar's Place: "name `:` interface declares a variable"."""

    name: Name
    interface: Optional[Name]


@dataclass(frozen=True)
class Filter:
    """`with` attribute `=` sum"""

    attribute: Name
    equals: int
    wanted: Expression


@dataclass(frozen=True)
class ValueTest:
    """`value` `=` sum"""

    equals: int
    wanted: Expression


@dataclass(frozen=True)
class Clause:
    place: int  # of `event`
    event: Name
    target: Target
    filter: Optional[Filter]
    test: Optional[ValueTest]  # None is `value` `changed`


@dataclass(frozen=True)
class And:
    parts: Tuple["Condition", ...]


@dataclass(frozen=True)
class Or:
    parts: Tuple["Condition", ...]


Condition = Union[Clause, And, Or]


@dataclass(frozen=True)
class Call:
    place: int  # of `action`
    action: Name
    bracket: int  # place of `(`
    parameter: Expression
    target: Target
    filter: Optional[Filter]


@dataclass(frozen=True)
class Rank:
    """Document 02, order 6: `rank` number.  Readings: the number is "taken by its value"."""

    place: int  # of the number
    number: int


@dataclass(frozen=True)
class Rule:
    place: int  # of `when`
    rank: Optional[Rank]
    condition: Condition
    calls: Tuple[Call, ...]


@dataclass(frozen=True)
class File:
    interfaces: Tuple[Interface, ...]
    entities: Tuple[Entity, ...]
    rules: Tuple[Rule, ...]


# --------------------------------------------------------------------------
# Grammar
# --------------------------------------------------------------------------

MOST_OPENERS = 16


class Reader:
    """A predictive reader: it looks one word ahead and fails at that word (13).

    `openers` is the number of openers that enclose the next word.
    """

    def __init__(self, words: List[Word], length: int):
        self.words = words + [Word(NOTHING, b"", length)]
        self.index = 0
        self.openers = 0

    # -- single words

    def next(self) -> Word:
        return self.words[self.index]

    def take(self) -> Word:
        word = self.words[self.index]
        self.index += 1
        return word

    def fail(self) -> Refusal:
        """ "first word that no grammatical file has after those before it;
        the length if the text ends early" """
        return Refusal(13, self.next().place)

    def sees(self, fixed: bytes) -> bool:
        return self.next().sort == FIXED and self.next().text == fixed

    def expect(self, fixed: bytes) -> int:
        """Takes the literal word and gives its place."""
        if not self.sees(fixed):
            raise self.fail()
        return self.take().place

    def name(self) -> Name:
        if self.next().sort != NAME:
            raise self.fail()
        word = self.take()
        return Name(word.text, word.place)

    def kind(self) -> str:
        for kind in (WHOLE, BOOL, REAL):
            if self.sees(kind.encode()):
                self.take()
                return kind
        raise self.fail()

    def open(self) -> None:
        """Enters an opener that is the next word; "the 17th breaks the grammar"."""
        if self.openers == MOST_OPENERS:
            raise self.fail()
        self.openers += 1

    def close(self) -> None:
        self.openers -= 1

    # -- file, interfaces, entities

    def file(self) -> File:
        interfaces = []
        while self.sees(b"interface"):
            interfaces.append(self.interface())
        entities = []
        while self.sees(b"entity"):
            entities.append(self.entity())
        self.expect(b"rules")
        rules = []
        while self.sees(b"when"):
            rules.append(self.rule())
        self.expect(b"end")
        if self.next().sort != NOTHING:
            raise self.fail()
        return File(tuple(interfaces), tuple(entities), tuple(rules))

    def interface(self) -> Interface:
        place = self.expect(b"interface")
        name = self.name()
        self.expect(b"{")
        members = []
        while self.sees(b"attribute"):
            members.append(self.valued_member(ATTRIBUTE))
        while self.sees(b"event"):
            members.append(self.valued_member(EVENT))
        while self.sees(b"action"):
            members.append(self.action_member())
        self.expect(b"}")
        return Interface(place, name, tuple(members))

    def valued_member(self, sort: str) -> Member:
        place = self.expect(sort.encode())
        name = self.name()
        self.expect(b":")
        return Member(place, sort, name, self.kind())

    def action_member(self) -> Member:
        place = self.expect(b"action")
        name = self.name()
        self.expect(b"(")
        kind = self.kind()
        self.expect(b")")
        return Member(place, ACTION, name, kind)

    def entity(self) -> Entity:
        place = self.expect(b"entity")
        name = self.name()
        self.expect(b":")
        interface = self.name()
        self.expect(b"{")
        assignments = []
        while self.next().sort == NAME:
            assignments.append(self.assignment())
        close = self.expect(b"}")
        return Entity(place, name, interface, tuple(assignments), close)

    def assignment(self) -> Assignment:
        attribute = self.name()
        equals = self.expect(b"=")
        return Assignment(attribute, equals, self.signed_literal())

    def signed_literal(self) -> Value:
        """ "`true`, `false`, or a number with or without `-`" """
        if self.sees(b"-"):
            self.take()
            if self.next().sort != NUMBER:
                raise self.fail()
            return negation(self.take().value)
        return self.literal()

    def literal(self) -> Value:
        if self.sees(b"true") or self.sees(b"false"):
            return Bool(self.take().text == b"true")
        if self.next().sort == NUMBER:
            return self.take().value
        raise self.fail()

    # -- rules

    def rule(self) -> Rule:
        place = self.expect(b"when")
        rank = self.optional_rank()
        condition = self.condition()
        self.expect(b"trigger")
        calls = [self.call()]
        while self.sees(b","):
            self.take()
            calls.append(self.call())
        self.expect(b"end")
        return Rule(place, rank, condition, tuple(calls))

    def optional_rank(self) -> Optional[Rank]:
        """Document 02, order 6: "A rule may begin `when rank` with one number 0 to 9, no `r`".

        Readings: "`rank 3r` is 13 at the number".  A number above 9 is grammatical: 44 comes "after 13".
        """
        if not self.sees(b"rank"):
            return None
        self.take()
        if not isinstance(self.next().value, Whole):
            raise self.fail()
        word = self.take()
        return Rank(word.place, word.value.number)

    def condition(self) -> Condition:
        parts = [self.conjunction()]
        while self.sees(b"or"):
            self.take()
            parts.append(self.conjunction())
        return Or(tuple(parts))

    def conjunction(self) -> Condition:
        parts = [self.atom()]
        while self.sees(b"and"):
            self.take()
            parts.append(self.atom())
        return And(tuple(parts))

    def atom(self) -> Condition:
        if not self.sees(b"("):
            return self.clause()
        self.open()
        self.take()
        condition = self.condition()
        self.expect(b")")
        self.close()
        return condition

    def clause(self) -> Clause:
        place = self.expect(b"event")
        event = self.name()
        self.expect(b"from")
        target = self.target()
        chosen = self.optional_filter()
        self.expect(b"value")
        if self.sees(b"changed"):
            self.take()
            return Clause(place, event, target, chosen, None)
        equals = self.expect(b"=")
        return Clause(place, event, target, chosen, ValueTest(equals, self.sum()))

    def call(self) -> Call:
        place = self.expect(b"action")
        action = self.name()
        bracket = self.expect(b"(")
        parameter = self.sum()
        self.expect(b")")
        self.expect(b"on")
        target = self.target()
        return Call(place, action, bracket, parameter, target, self.optional_filter())

    def target(self) -> Target:
        name = self.name()
        if not self.sees(b":"):
            return Target(name, None)
        self.take()
        return Target(name, self.name())

    def optional_filter(self) -> Optional[Filter]:
        if not self.sees(b"with"):
            return None
        self.take()
        attribute = self.name()
        equals = self.expect(b"=")
        return Filter(attribute, equals, self.sum())

    # -- sums

    def sum(self) -> Expression:
        first = self.product()
        steps = []
        while self.sees(b"+") or self.sees(b"-"):
            word = self.take()
            steps.append(Step(word.text, word.place, self.product()))
        return Chain(first, tuple(steps))

    def product(self) -> Expression:
        first = self.factor()
        steps = []
        while self.sees(b"*") or self.sees(b"/"):
            word = self.take()
            steps.append(Step(word.text, word.place, self.factor()))
        return Chain(first, tuple(steps))

    def factor(self) -> Expression:
        if self.sees(b"real"):
            return self.real_factor()
        if self.sees(b"("):
            return self.bracketed_sum()
        if self.sees(b"-"):
            return self.minus_factor()
        if self.next().sort == NAME:
            owner = self.name()
            self.expect(b".")
            return MemberOf(owner, self.name())
        return Literal(self.literal())

    def real_factor(self) -> Expression:
        """Readings: "`real` is one opener together with its `(`"."""
        self.open()
        place = self.take().place
        self.expect(b"(")
        inner = self.sum()
        self.expect(b")")
        self.close()
        return RealOf(place, inner)

    def bracketed_sum(self) -> Expression:
        self.open()
        self.take()
        inner = self.sum()
        self.expect(b")")
        self.close()
        return inner

    def minus_factor(self) -> Expression:
        self.open()
        place = self.take().place
        inner = self.factor()
        self.close()
        return Minus(place, inner)


# --------------------------------------------------------------------------
# Walks shared by the later checks
# --------------------------------------------------------------------------


def clauses_of(condition: Condition) -> List[Clause]:
    """The clauses in the order of the text."""
    if isinstance(condition, Clause):
        return [condition]
    found = []
    for part in condition.parts:
        found.extend(clauses_of(part))
    return found


def targets_of(rule: Rule) -> List[Target]:
    """The places of a rule in the order of the text: condition, then calls."""
    items = clauses_of(rule.condition) + list(rule.calls)
    return [item.target for item in items]


def declarations_of(rule: Rule) -> List[Target]:
    return [target for target in targets_of(rule) if target.interface is not None]


def expressions_of(rule: Rule) -> List[Expression]:
    """Every sum of a rule, filters included."""
    found = []
    for clause in clauses_of(rule.condition):
        if clause.filter is not None:
            found.append(clause.filter.wanted)
        if clause.test is not None:
            found.append(clause.test.wanted)
    for call in rule.calls:
        found.append(call.parameter)
        if call.filter is not None:
            found.append(call.filter.wanted)
    return found


def members_read(expression: Expression) -> List[MemberOf]:
    """Every name `.` member inside an expression."""
    if isinstance(expression, MemberOf):
        return [expression]
    if isinstance(expression, (RealOf, Minus)):
        return members_read(expression.inner)
    if isinstance(expression, Chain):
        found = members_read(expression.first)
        for step in expression.steps:
            found.extend(members_read(step.right))
        return found
    return []


def first_named(items, text: bytes):
    """ "a name means its first declaration": the first item of that name, or None."""
    for item in items:
        if item.name.text == text:
            return item
    return None


# --------------------------------------------------------------------------
# Ranks (44; document 02, order 6; a quotation of this section is that order's unless another is named)
# --------------------------------------------------------------------------

GREATEST_RANK = 9


def rank_faults(file: File) -> List[int]:
    """ "The first rank above 9 is refused by 44, at its place": the places of all of them, the least is the refused
    one.  Readings: the place is that of the number, "whatever counts, names or kinds do"."""
    ranks = [rule.rank for rule in file.rules if rule.rank is not None]
    return [rank.place for rank in ranks if rank.number > GREATEST_RANK]


def rank_of(rule: Rule) -> int:
    """ "without it the rank is 0" """
    return 0 if rule.rank is None else rule.rank.number


# --------------------------------------------------------------------------
# Counts (14)
# --------------------------------------------------------------------------

MOST_INTERFACES = 16
MOST_MEMBERS = 12
MOST_ENTITIES = 32
MOST_RULES = 64
MOST_VARIABLES = 3
MOST_CLAUSES = 8
MOST_CALLS = 8


def places_beyond(places: List[int], most: int) -> List[int]:
    return places[most:]


def count_faults(file: File) -> List[int]:
    """The first word of every item beyond a count; the least is the refused one."""
    faults = places_beyond([item.place for item in file.interfaces], MOST_INTERFACES)
    for interface in file.interfaces:
        faults += places_beyond([member.place for member in interface.members], MOST_MEMBERS)
    faults += places_beyond([entity.place for entity in file.entities], MOST_ENTITIES)
    faults += places_beyond([rule.place for rule in file.rules], MOST_RULES)
    for rule in file.rules:
        variables = [target.name.place for target in declarations_of(rule)]
        faults += places_beyond(variables, MOST_VARIABLES)
        clauses = [clause.place for clause in clauses_of(rule.condition)]
        faults += places_beyond(clauses, MOST_CLAUSES)
        faults += places_beyond([call.place for call in rule.calls], MOST_CALLS)
    return faults


# --------------------------------------------------------------------------
# Names (15, 16, 17)
# --------------------------------------------------------------------------

Fault = Tuple[int, int]  # place, code: the least is the earliest


def repeated(names: List[Name]) -> List[Fault]:
    """15 at each name that an earlier one of the same list bears."""
    faults = []
    seen = set()
    for name in names:
        if name.text in seen:
            faults.append((name.place, 15))
        seen.add(name.text)
    return faults


def lacks(interface: Optional[Interface], name: Name, sorts: Tuple[str, ...]) -> List[Fault]:
    """16 at a name that is no member of these sorts.

    "A member is looked up only where its interface is known."
    """
    if interface is None:
        return []
    member = first_named(interface.members, name.text)
    if member is None or member.sort not in sorts:
        return [(name.place, 16)]
    return []


def interface_faults(file: File) -> List[Fault]:
    faults = repeated([interface.name for interface in file.interfaces])
    for interface in file.interfaces:
        faults += repeated([member.name for member in interface.members])
    return faults


def interface_of(file: File, item: Union[Entity, Target]) -> Optional[Interface]:
    """The interface of an entity or of a variable, None if it isn't known."""
    return first_named(file.interfaces, item.interface.text)


def entity_faults(file: File, entity: Entity) -> List[Fault]:
    interface = interface_of(file, entity)
    faults = repeated([assignment.attribute for assignment in entity.assignments])
    if interface is None:
        return faults + [(entity.interface.place, 16)]
    for assignment in entity.assignments:
        faults += lacks(interface, assignment.attribute, (ATTRIBUTE,))
    assigned = {assignment.attribute.text for assignment in entity.assignments}
    for member in interface.members:
        if member.sort == ATTRIBUTE and member.name.text not in assigned:
            faults.append((entity.close, 17))
    return faults


def meant(file: File, rule: Rule, text: bytes) -> Union[Entity, Target, None]:
    """What a name means in a rule: an entity, a variable's declaration, or nothing.

    An entity comes before a variable; of the variables the first declared counts,
    wherever in the rule it stands.
    """
    entity = first_named(file.entities, text)
    if entity is not None:
        return entity
    return first_named(declarations_of(rule), text)


def target_faults(
    file: File, rule: Rule, target: Target, member: Name, sorts: Tuple[str, ...], chosen: Optional[Filter]
) -> List[Fault]:
    """Faults of one clause or call: its place, its event or action, its filter's attribute."""
    faults = []
    if target.interface is not None:
        if interface_of(file, target) is None:
            faults.append((target.interface.place, 16))
        if first_named(file.entities, target.name.text) is not None:
            faults.append((target.name.place, 15))
    item = meant(file, rule, target.name.text)
    if item is None:
        return faults + [(target.name.place, 16)]
    interface = interface_of(file, item)
    faults += lacks(interface, member, sorts)
    if chosen is not None:
        faults += lacks(interface, chosen.attribute, (ATTRIBUTE,))
    return faults


def reading_faults(file: File, rule: Rule, read: MemberOf) -> List[Fault]:
    """Faults of one name `.` member."""
    item = meant(file, rule, read.owner.text)
    if item is None:
        return [(read.owner.place, 16)]
    return lacks(interface_of(file, item), read.member, (ATTRIBUTE, EVENT, ACTION))


def rule_faults(file: File, rule: Rule) -> List[Fault]:
    """ "An action's name is also readable as an event", so a clause takes both sorts."""
    faults = repeated([target.name for target in declarations_of(rule)])
    for clause in clauses_of(rule.condition):
        faults += target_faults(file, rule, clause.target, clause.event, (EVENT, ACTION), clause.filter)
    for call in rule.calls:
        faults += target_faults(file, rule, call.target, call.action, (ACTION,), call.filter)
    for expression in expressions_of(rule):
        for read in members_read(expression):
            faults += reading_faults(file, rule, read)
    return faults


def name_faults(file: File) -> List[Fault]:
    """ "15 to 17 are one pass, the earliest place first" """
    faults = interface_faults(file)
    faults += repeated([entity.name for entity in file.entities])
    for entity in file.entities:
        faults += entity_faults(file, entity)
    for rule in file.rules:
        faults += rule_faults(file, rule)
    return faults


# --------------------------------------------------------------------------
# Kinds (18); every name is known here
# --------------------------------------------------------------------------

Kind = Optional[str]  # None is "no kind": a fault lies inside


def unlike(left: Kind, right: Kind) -> bool:
    """Both have kinds and these differ: "no kind [...] fits anywhere"."""
    return left is not None and right is not None and left != right


def member_kind(file: File, rule: Rule, owner: bytes, member: bytes) -> str:
    interface = interface_of(file, meant(file, rule, owner))
    return first_named(interface.members, member).kind


def expression_kind(file: File, rule: Rule, expression: Expression, faults: List[int]) -> Kind:
    """The kind of a sum; the places of its faults are put into `faults`."""
    if isinstance(expression, Literal):
        return kind_of(expression.value)
    if isinstance(expression, MemberOf):
        return member_kind(file, rule, expression.owner.text, expression.member.text)
    if isinstance(expression, RealOf):
        inner = expression_kind(file, rule, expression.inner, faults)
        if unlike(inner, WHOLE):  # "`real` takes a whole"
            faults.append(expression.place)
            return None
        return None if inner is None else REAL
    if isinstance(expression, Minus):
        inner = expression_kind(file, rule, expression.inner, faults)
        if inner == BOOL:
            faults.append(expression.place)
            return None
        return inner
    return chain_kind(file, rule, expression, faults)


def chain_kind(file: File, rule: Rule, chain: Chain, faults: List[int]) -> Kind:
    """ "`+ - * /` [...] take wholes or reals, both sides alike"; "a bool never fits an operator" """
    kind = expression_kind(file, rule, chain.first, faults)
    for step in chain.steps:
        right = expression_kind(file, rule, step.right, faults)
        if kind == BOOL or right == BOOL or unlike(kind, right):
            faults.append(step.place)
            kind = None
        elif right is None:
            kind = None
    return kind


def side_faults(file: File, rule: Rule, place: int, kind: str, side: Expression) -> List[int]:
    """An `=` or a call's `(` at `place` with a cell of `kind` on one side, a sum on the other."""
    faults: List[int] = []
    if unlike(kind, expression_kind(file, rule, side, faults)):
        faults.append(place)
    return faults


def filter_kind_faults(file: File, rule: Rule, owner: bytes, chosen: Optional[Filter]) -> List[int]:
    if chosen is None:
        return []
    kind = member_kind(file, rule, owner, chosen.attribute.text)
    return side_faults(file, rule, chosen.equals, kind, chosen.wanted)


def rule_kind_faults(file: File, rule: Rule) -> List[int]:
    faults = []
    for clause in clauses_of(rule.condition):
        owner = clause.target.name.text
        faults += filter_kind_faults(file, rule, owner, clause.filter)
        if clause.test is not None:
            kind = member_kind(file, rule, owner, clause.event.text)
            faults += side_faults(file, rule, clause.test.equals, kind, clause.test.wanted)
    for call in rule.calls:
        owner = call.target.name.text
        kind = member_kind(file, rule, owner, call.action.text)
        faults += side_faults(file, rule, call.bracket, kind, call.parameter)
        faults += filter_kind_faults(file, rule, owner, call.filter)
    return faults


def kind_faults(file: File) -> List[int]:
    """The places of every fault of kinds in the file."""
    faults = []
    for entity in file.entities:
        interface = interface_of(file, entity)
        for assignment in entity.assignments:
            kind = first_named(interface.members, assignment.attribute.text).kind
            if kind != kind_of(assignment.value):
                faults.append(assignment.equals)
    for rule in file.rules:
        faults += rule_kind_faults(file, rule)
    return faults


# --------------------------------------------------------------------------
# The check of a bench file
# --------------------------------------------------------------------------


def accepted_file(text: bytes) -> File:
    """The file that the text says; raises the refusal of the table, in the table's order."""
    if len(text) > LONGEST_TEXT:
        raise Refusal(11, LONGEST_TEXT)
    words = words_of(text)
    file = Reader(words, len(text)).file()
    # document 02, order 6: 44 comes "after 13 and before 14"
    ranks = rank_faults(file)
    if ranks:
        raise Refusal(44, min(ranks))
    counts = count_faults(file)
    if counts:
        raise Refusal(14, min(counts))
    names = name_faults(file)
    if names:
        place, code = min(names)
        raise Refusal(code, place)
    kinds = kind_faults(file)
    if kinds:
        raise Refusal(18, min(kinds))
    return file


def check(text: bytes) -> Tuple[int, int]:
    """(0, 0) for an accepted bench file, else the table's number 11..18 or 44 and its place."""
    try:
        accepted_file(text)
    except Refusal as refusal:
        return refusal.code, refusal.place
    return 0, 0


def entity_part(text: bytes, number: int) -> Tuple[int, int]:
    """Offset and length of "an entity's name, found by its number (from 0, file order)".

    It "is a part of the bench text, empty if there is none or the text is refused"; the empty part stands at 0.
    """
    try:
        entities = accepted_file(text).entities
    except Refusal:
        return 0, 0
    if number >= len(entities):
        return 0, 0
    name = entities[number].name
    return name.place, len(name.text)


# --------------------------------------------------------------------------
# What a rule's condition reads (document 02, order 7; a quotation of this section is that of Readings, section 7,
# unless another is named)
# --------------------------------------------------------------------------

CellName = Tuple[int, bytes]  # entity's number and member's name


def members_read_by_clause(clause: Clause) -> List[Tuple[bytes, bytes]]:
    """ "for each clause its event at its target, its filter's attribute at its target, and each member in its
    filter's and test's expressions": each as it stands in the text, name and member."""
    target = clause.target.name.text
    found = [(target, clause.event.text)]
    inside: List[MemberOf] = []
    if clause.filter is not None:
        found.append((target, clause.filter.attribute.text))
        inside += members_read(clause.filter.wanted)
    if clause.test is not None:
        inside += members_read(clause.test.wanted)
    return found + [(read.owner.text, read.member.text) for read in inside]


def entities_meant(file: File, rule: Rule, text: bytes) -> List[int]:
    """The numbers of all entities that a name of a rule can stand for, present or absent.

    An entity's name stands for that entity; "at a variable, that member of every entity of the variable's
    interface (variables declared by calls too, where the condition uses them)".
    """
    item = meant(file, rule, text)
    if isinstance(item, Entity):
        return [file.entities.index(item)]
    interface = item.interface.text
    return [number for number, entity in enumerate(file.entities) if entity.interface.text == interface]


def cells_read(file: File, rule: Rule) -> FrozenSet[CellName]:
    """Order 7: "Keep for each rule the list of cells it reads, by the interface of its variables".

    "A rule's reads, by the text of the rule and not by what a choice happens to read"; "Calls' reads are no part
    of it."
    """
    found: Set[CellName] = set()
    for clause in clauses_of(rule.condition):
        for owner, member in members_read_by_clause(clause):
            found.update((number, member) for number in entities_meant(file, rule, owner))
    return frozenset(found)


# --------------------------------------------------------------------------
# The bare machine
# --------------------------------------------------------------------------

Column = Tuple[int, Optional[bytes]]  # entity's number; an event's name, or None for presence


@dataclass(frozen=True)
class Unset:
    """The reading `?`."""


Reading = Union[Whole, Bool, Real, Unset]
Readings = Dict[Column, Reading]  # a `-` and a missing column are not in it


@dataclass(frozen=True)
class Store:
    """ "for each entity present or absent; for each member a cell holding a value or unset".

    Never changed once made: whoever needs another store copies it.
    """

    present: Tuple[bool, ...]
    cells: Dict[Tuple[int, bytes], Cell]

    def read(self, entity: int, member: bytes) -> Cell:
        """ "While absent, its every member reads unset." """
        if not self.present[entity]:
            return None
        return self.cells[(entity, member)]


@dataclass(frozen=True)
class Kept:
    """Document 02, order 5: "The state keeps for each sender its last number, last readings and the
    actions then fired". """

    number: int
    readings: Readings
    fired: Tuple[Cell, ...]  # "in entity and member order"


@dataclass(frozen=True)
class State:
    """In the place of document 01's one last line it has the last line of each known sender."""

    now: Store
    before: Store  # "the same as the rules saw it one cycle before"
    senders: Dict[bytes, Kept]  # the known ones, by name, in the order of their first taken line


@dataclass(frozen=True)
class Write:
    cell: Tuple[int, bytes]  # entity's number and action's name
    value: Value
    rank: int  # of the rule


def standing_value(writes: List[Write]) -> Cell:
    """What an action cell comes to hold by the writes to it, which stand in their order; unset by none.

    Document 02, order 6: "The write of the highest rank stands; among equal ranks the earliest write
    does, no longer the last."  It stands in the place of document 01's "The last write to a cell
    stands".  Python's max gives the first of those that are equal.
    """
    if not writes:
        return None
    return max(writes, key=lambda write: write.rank).value


class Machine:
    """The bare machine of one accepted file."""

    def __init__(self, file: File):
        self.file = file
        self.interfaces = [interface_of(file, entity) for entity in file.entities]
        self.numbers = {entity.name.text: number for number, entity in enumerate(file.entities)}
        self.reads = [cells_read(file, rule) for rule in file.rules]

    # -- cells

    def cells(self) -> Iterator[Tuple[int, Member]]:
        """Every cell, in entity and member order."""
        for number, interface in enumerate(self.interfaces):
            for member in interface.members:
                yield number, member

    def action_cells(self) -> List[Tuple[int, bytes]]:
        return [(number, member.name.text) for number, member in self.cells() if member.sort == ACTION]

    def fresh(self) -> State:
        """ "Fresh: all present, attributes set, the rest unset." Before: all absent, all unset."""
        unset: Dict[Tuple[int, bytes], Cell] = {(number, member.name.text): None for number, member in self.cells()}
        cells = dict(unset)
        for number, entity in enumerate(self.file.entities):
            for assignment in entity.assignments:
                cells[(number, assignment.attribute.text)] = assignment.value
        count = len(self.file.entities)
        return State(Store((True,) * count, cells), Store((False,) * count, unset), {})

    # -- one cycle

    def cycle(self, state: State, sender: bytes, number: int, readings: Readings) -> State:
        """What is kept of other senders stays; the cells do not ask who has sent a line."""
        seen = self.with_line(state.now, readings)
        writes = self.writes(seen, state.before)
        cells = dict(seen.cells)
        for cell in self.action_cells():
            # "Action cells become unset, then take the writes."
            cells[cell] = standing_value([write for write in writes if write.cell == cell])
        fired = tuple(cells[cell] for cell in self.action_cells())
        senders = {**state.senders, sender: Kept(number, readings, fired)}
        return State(Store(seen.present, cells), seen, senders)

    def with_line(self, store: Store, readings: Readings) -> Store:
        """ "Presence is applied, then readings. An entity that leaves has events and actions unset." """
        present = presence_after(store.present, readings)
        cells = dict(store.cells)
        for number, member in self.cells():
            leaves = store.present[number] and not present[number]
            if leaves and member.sort != ATTRIBUTE:
                cells[(number, member.name.text)] = None
        for (number, event), reading in readings.items():
            if event is not None:
                cells[(number, event)] = None if isinstance(reading, Unset) else reading
        return Store(present, cells)

    def writes(self, now: Store, before: Store) -> List[Write]:
        """ "Writes come by rule, choice, call."  Rules at rest are tried here as well: document 02, order 7 claims
        that it makes no difference, and the assertion holds it to that."""
        found = []
        at_rest = self.at_rest(now, before)
        for number, rule in enumerate(self.file.rules):
            writes = self.rule_writes(rule, now, before)
            # Document 02, order 7: "no clause can hold, so the rule is passed over without a choice being tried"
            assert number not in at_rest or not writes, "a rule at rest writes"
            found.extend(writes)
        return found

    def rule_writes(self, rule: Rule, now: Store, before: Store) -> List[Write]:
        """The writes of one rule, by choice, then call."""
        found = []
        for choice in self.choices(rule, now):
            if self.holds(rule.condition, choice, now, before):
                for call in rule.calls:
                    found.extend(self.call_writes(call, rank_of(rule), choice, now))
        return found

    def choices(self, rule: Rule, now: Store) -> Iterator[Dict[bytes, int]]:
        """What each name of the rule stands for, choice by choice.

        "Each rule is tried for every choice of present entities of the right interfaces
        for its variables, including those that only calls declare. The first declared
        variable turns slowest, entities in file order."
        """
        declarations = declarations_of(rule)
        ranges = [self.present_of(target.interface.text, now) for target in declarations]
        for chosen in product(*ranges):
            meaning = dict(self.numbers)
            for target, entity in zip(declarations, chosen):
                meaning[target.name.text] = entity
            yield meaning

    def present_of(self, interface: bytes, now: Store) -> List[int]:
        return [
            number
            for number, entity in enumerate(self.file.entities)
            if entity.interface.text == interface and now.present[number]
        ]

    # -- rules at rest (document 02, order 7)

    def moved(self, now: Store, before: Store) -> Set[CellName]:
        """ "the set of cells that moved since the cycle before, actions included".

        The two stores are those that the rules see as now and as one cycle before, so a fired action has moved in the
        cycle after the one that fired it.  Readings: "A cell moved if what it reads (absent: unset) differs now from
        the cycle before, by `changed`'s comparison. Before the first cycle all read unset."
        """
        names = [(number, member.name.text) for number, member in self.cells()]
        return {cell for cell in names if differ(now.read(*cell), before.read(*cell))}

    def at_rest(self, now: Store, before: Store) -> List[int]:
        """The numbers of the rules that are passed over.  Readings: "A rule rests if none of its reads moved." """
        moved = self.moved(now, before)
        return [number for number, reads in enumerate(self.reads) if not reads & moved]

    def tried(self, now: Store, before: Store) -> List[int]:
        """The numbers of the rules that are tried, in the order of the file: "exactly these rules are passed over",
        so all others are tried."""
        at_rest = self.at_rest(now, before)
        return [number for number in range(len(self.file.rules)) if number not in at_rest]

    # -- conditions and calls

    def holds(self, condition: Condition, meaning: Dict[bytes, int], now: Store, before: Store) -> bool:
        if isinstance(condition, Or):
            return any([self.holds(part, meaning, now, before) for part in condition.parts])
        if isinstance(condition, And):
            return all([self.holds(part, meaning, now, before) for part in condition.parts])
        return self.clause_holds(condition, meaning, now, before)

    def clause_holds(self, clause: Clause, meaning: Dict[bytes, int], now: Store, before: Store) -> bool:
        entity = meaning[clause.target.name.text]
        if not now.present[entity]:
            return False  # "A clause at an absent entity is false"
        # Document 02, order 1: "From now on a clause's `with` reads the present cycle, as a call's does"
        if not self.passes(clause.filter, entity, meaning, now):
            return False
        # Document 02, order 1: "`value = X` and `changed` still compare two cycles"
        value_now = now.read(entity, clause.event.text)
        value_before = before.read(entity, clause.event.text)
        if clause.test is None:
            return differ(value_now, value_before)
        # "holds if equal now and not equal one cycle before, X worked out in each"
        wanted_now = self.evaluate(clause.test.wanted, meaning, now)
        wanted_before = self.evaluate(clause.test.wanted, meaning, before)
        return equal(value_now, wanted_now) and not equal(value_before, wanted_before)

    def passes(self, chosen: Optional[Filter], entity: int, meaning: Dict[bytes, int], now: Store) -> bool:
        """The `with` of a clause or of a call: attribute and sum are both read now."""
        if chosen is None:
            return True
        return equal(now.read(entity, chosen.attribute.text), self.evaluate(chosen.wanted, meaning, now))

    def call_writes(self, call: Call, rank: int, meaning: Dict[bytes, int], now: Store) -> List[Write]:
        """ "a call's `with` and parameter read now"; "a call there [absent] writes nothing";
        "An unset parameter writes nothing." """
        entity = meaning[call.target.name.text]
        value = self.evaluate(call.parameter, meaning, now)
        if not now.present[entity] or value is None:
            return []
        if not self.passes(call.filter, entity, meaning, now):
            return []
        return [Write((entity, call.action.text), value, rank)]

    # -- sums

    def evaluate(self, expression: Expression, meaning: Dict[bytes, int], store: Store) -> Cell:
        if isinstance(expression, Literal):
            return expression.value
        if isinstance(expression, MemberOf):
            return store.read(meaning[expression.owner.text], expression.member.text)
        if isinstance(expression, RealOf):
            return to_real(self.evaluate(expression.inner, meaning, store))
        if isinstance(expression, Minus):
            return negation(self.evaluate(expression.inner, meaning, store))
        value = self.evaluate(expression.first, meaning, store)
        for step in expression.steps:
            value = operation(step.mark, value, self.evaluate(step.right, meaning, store))
        return value


def presence_after(present: Tuple[bool, ...], readings: Readings) -> Tuple[bool, ...]:
    """The presence once the line's presence readings are applied."""
    after = list(present)
    for (number, event), reading in readings.items():
        if event is None and isinstance(reading, Bool):
            after[number] = reading.truth
    return tuple(after)


# --------------------------------------------------------------------------
# Lines of readings
# --------------------------------------------------------------------------

LONGEST_NAMES = 32768
LONGEST_VALUES = 8192
GREATEST_NUMBER = 4294967295
MOST_SENDERS = 8

HEXADECIMAL = frozenset(b"0123456789abcdef")


def plain_digits(field: bytes) -> bool:
    """Digits, at least one, "no leading zero" unless it is 0."""
    if not field or any(byte not in DIGITS for byte in field):
        return False
    return field == b"0" or field[0:1] != b"0"


def number_of_line(field: bytes) -> Optional[int]:
    """ "`n` has 1 to 10 digits, no leading zero unless it is 0." """
    if len(field) > MOST_DIGITS or not plain_digits(field):
        return None
    return int(field)


def is_sender(field: bytes) -> bool:
    """Document 02, order 5: "form as in bench files, reserved words allowed".  The field is not empty.

    That is "a letter, then letters, digits or `_`, 24 bytes at most".
    """
    begins = byte_class(field[0]) == LETTER
    return begins and end_of_run(field, 0, NAME_CLASSES) == len(field) and len(field) <= LONGEST_NAME


def read_whole(field: bytes) -> Optional[Whole]:
    """ "optional `-`, digits, within 32 bits, no leading zero, no `-0`" """
    digits = field[1:] if field[0:1] == b"-" else field
    if field == b"-0" or len(digits) > MOST_DIGITS or not plain_digits(digits):
        return None
    return whole_or_unset(int(field))


def read_bool(field: bytes) -> Optional[Bool]:
    if field == b"true":
        return Bool(True)
    if field == b"false":
        return Bool(False)
    return None


def read_real(field: bytes) -> Optional[Real]:
    """ "16 lower-case hexadecimal digits, the bits of a finite real" """
    if len(field) != 16 or any(byte not in HEXADECIMAL for byte in field):
        return None
    bits = int(field, 16)
    return Real(bits) if math.isfinite(float_from_bits(bits)) else None


def read_value(kind: str, field: bytes) -> Optional[Value]:
    """The value of this kind that a field says, None if it is ill formed or of another kind."""
    if kind == WHOLE:
        return read_whole(field)
    if kind == BOOL:
        return read_bool(field)
    return read_real(field)


def value_text(value: Cell) -> bytes:
    """A fired value "in the form of readings, or `-`"."""
    if value is None:
        return b"-"
    if isinstance(value, Whole):
        return b"%d" % value.number
    if isinstance(value, Bool):
        return b"true" if value.truth else b"false"
    return b"%016x" % value.bits


class LineRefusal(Exception):
    """One of 21 to 25, 42 and 43."""

    def __init__(self, code: int):
        super().__init__(code)
        self.code = code


class Bench:
    """An accepted bench file with its machine and its lines."""

    def __init__(self, text: bytes):
        try:
            self.file = accepted_file(text)
        except Refusal as refusal:
            raise ValueError("refused %d %d" % (refusal.code, refusal.place)) from None
        self.machine = Machine(self.file)
        self.event_kinds: Dict[Column, str] = {}
        self.known_columns: Dict[bytes, Column] = {}
        for number, entity in enumerate(self.file.entities):
            self.known_columns[entity.name.text] = (number, None)
        for number, member in self.machine.cells():
            if member.sort == EVENT:  # "(no actions)", nor attributes
                column = (number, member.name.text)
                self.known_columns[self.entity_name(number) + b"." + member.name.text] = column
                self.event_kinds[column] = member.kind

    def entity_name(self, number: int) -> bytes:
        return self.file.entities[number].name.text

    def names(self) -> bytes:
        """The row of names: `by n` and every action cell as `entity.action`."""
        cells = [self.entity_name(number) + b"." + action for number, action in self.machine.action_cells()]
        return b" ".join([b"by", b"n"] + cells)

    def fresh(self) -> State:
        return self.machine.fresh()

    def kept(self, state: State, sender: bytes) -> Kept:
        """What the state keeps for a sender.  Readings: "A sender that is not known has last number 0." """
        nothing_fired = (None,) * len(self.machine.action_cells())
        return state.senders.get(sender, Kept(0, {}, nothing_fired))

    def row(self, state: State, sender: bytes) -> bytes:
        """Document 02, order 5: "Rows begin with sender and number too"; then the actions fired in that line."""
        kept = self.kept(state, sender)
        return b" ".join([sender, b"%d" % kept.number] + [value_text(value) for value in kept.fired])

    def line(self, state: State, names: bytes, values: bytes) -> Tuple[int, Optional[bytes], State]:
        """One cycle call: 0 with the row and the new state, or a refusal's number with the state unchanged.

        The order is 22, 21, 43, 42, 23 (ill formed, another kind), the test for resent, 23 (absent
        entity), 24, 25.
        """
        try:
            columns = self.columns(names)
            sender, number, fields = self.fields(columns, values)
            self.check_sender(state, sender)
            readings = self.readings(columns, fields)
            if self.is_resent(state, sender, number, readings):
                # "the state stays"; document 02, order 5: "a resent line gives that sender's row, even after
                # lines of others"
                return 0, self.row(state, sender), state
            self.check_absent(state, readings)
            self.check_number(state, sender, number)
        except LineRefusal as refusal:
            return refusal.code, None, state
        following = self.machine.cycle(state, sender, number, readings)
        return 0, self.row(following, sender), following

    def columns(self, names: bytes) -> List[Column]:
        """The line of names, or 22.  Document 02, order 5: "The line of names begins `by n`"."""
        if len(names) > LONGEST_NAMES or b"\n" in names:
            raise LineRefusal(22)
        fields = names.split(b" ")
        if fields[:2] != [b"by", b"n"]:
            raise LineRefusal(22)
        columns: List[Column] = []
        for field in fields[2:]:
            if field not in self.known_columns or self.known_columns[field] in columns:
                raise LineRefusal(22)
            columns.append(self.known_columns[field])
        return columns

    def takes_names(self, names: bytes) -> bool:
        try:
            self.columns(names)
        except LineRefusal:
            return False
        return True

    def fields(self, columns: List[Column], values: bytes) -> Tuple[bytes, int, List[bytes]]:
        """The sender's field, the number and the value fields, or 21.

        Document 02, order 5: "each line of values [begins] with the sender's name [...] and that
        sender's number".
        """
        if len(values) > LONGEST_VALUES or b"\n" in values:
            raise LineRefusal(21)
        fields = values.split(b" ")
        if b"" in fields or len(fields) != 2 + len(columns):
            raise LineRefusal(21)
        number = number_of_line(fields[1])
        if number is None:
            raise LineRefusal(21)
        return fields[0], number, fields[2:]

    def check_sender(self, state: State, sender: bytes) -> None:
        """Document 02, order 5: "Up to eight senders are known from their first taken line. A ninth is
        refused by 42, and an ill-formed sender by 43, [...] with 43 first." """
        if not is_sender(sender):
            raise LineRefusal(43)
        if sender not in state.senders and len(state.senders) == MOST_SENDERS:
            raise LineRefusal(42)

    def readings(self, columns: List[Column], fields: List[bytes]) -> Readings:
        """The readings of a line, or 23 for a value that is ill formed or of another kind."""
        readings: Readings = {}
        for column, field in zip(columns, fields):
            if field != b"-":
                readings[column] = self.reading(column, field)
        return readings

    def reading(self, column: Column, field: bytes) -> Reading:
        """One field other than `-`; `?` is "not for presence"; "Presence is bool."."""
        _, event = column
        if event is not None and field == b"?":
            return Unset()
        kind = BOOL if event is None else self.event_kinds[column]
        value = read_value(kind, field)
        if value is None:
            raise LineRefusal(23)
        return value

    def is_resent(self, state: State, sender: bytes, number: int, readings: Readings) -> bool:
        """ "the last with the same readings (compared per cell and per presence, bit by bit [...]): then it
        is resent", both the last of that sender.  A sender that is not known has sent nothing yet."""
        if sender not in state.senders:
            return False
        kept = state.senders[sender]
        return number == kept.number and readings == kept.readings

    def check_absent(self, state: State, readings: Readings) -> None:
        """ "An entity absent after the line takes only `-` for events", or 23.

        Document 02, order 5: "Being resent is tested before the check on absent entities, so the
        absent-entity part of refusal 23 then covers every other line."
        """
        present = presence_after(state.now.present, readings)
        for number, event in readings:
            if event is not None and not present[number]:
                raise LineRefusal(23)

    def check_number(self, state: State, sender: bytes, number: int) -> None:
        """24: "number neither last nor last plus 1, or 0, or too great"; 25: "last number, other readings".

        The last number is the sender's.  The line is not resent, so its last number comes with other readings.
        """
        last = self.kept(state, sender).number
        if number == 0 or number > GREATEST_NUMBER or number not in (last, last + 1):
            raise LineRefusal(24)
        if number == last:
            raise LineRefusal(25)


# --------------------------------------------------------------------------
# The bench runner
# --------------------------------------------------------------------------


def lines_of(text: bytes) -> List[bytes]:
    """The lines of an input file: "A last line feed is optional"; an empty file has one empty line."""
    if text.endswith(b"\n"):
        text = text[:-1]
    return text.split(b"\n")


def printed_lines(bench_txt: bytes, readings_txt: bytes) -> Iterator[bytes]:
    code, place = check(bench_txt)
    if code != 0:
        yield b"refused %d %d" % (code, place)
        return
    bench = Bench(bench_txt)
    names, *lines = lines_of(readings_txt)
    if not bench.takes_names(names):
        yield b"refused 22"
        return
    yield bench.names()
    state = bench.fresh()
    for values in lines:
        code, row, state = bench.line(state, names, values)
        yield b"refused %d" % code if code != 0 else row


def run(bench_txt: bytes, readings_txt: bytes) -> bytes:
    """What the bench runner prints; every printed line ends in a line feed."""
    return b"".join(line + b"\n" for line in printed_lines(bench_txt, readings_txt))


def cycles_of_lines(
    bench: Bench, state: State, names: bytes, lines: List[bytes]
) -> Iterator[Tuple[bytes, State, State]]:
    """For each line that makes a cycle its sender, the state before it and the state after it.

    "A refused line isn't given to it [the machine]; a resent one starts no cycle": this leaves all that is kept of
    senders, and every other taken line moves the number of its own.
    """
    for values in lines:
        code, _, following = bench.line(state, names, values)
        if code == 0 and following.senders != state.senders:
            yield values.split(b" ")[0], state, following
        state = following


# --------------------------------------------------------------------------
# The day sheet (document 02, order 3; a quotation of this section is that order's unless another is named)
# --------------------------------------------------------------------------

SHEET_COLUMNS = 80
NUMBER_COLUMNS = 10
CELL_COLUMNS = 14
MOST_CELLS = 5

Chosen = Tuple[int, Member]  # a cell: entity's number and member


def stated_size(readings: bytes) -> int:
    """The stated size of a sheet's memory.  Readings: "2,430 + 162 for each line feed in `readings`".

    That is 81 bytes for each of 30 closing rows, and twice 81 for each line of values.
    """
    return 2430 + 162 * readings.count(b"\n")


def chosen_cells(bench: Bench, cells: bytes) -> Optional[List[Chosen]]:
    """ "up to five chosen cells (`entity.member`, one space between)", None if 41 refuses them.

    "No cell, more than five, or an unknown one, is refused by 41".  Members are of any sort and a
    cell may be chosen twice.  An empty text has one empty field, and that is no known cell.
    """
    known: Dict[bytes, Chosen] = {}
    for number, member in bench.machine.cells():
        known[bench.entity_name(number) + b"." + member.name.text] = (number, member)
    fields = cells.split(b" ")
    if len(fields) > MOST_CELLS or any(field not in known for field in fields):
        return None
    return [known[field] for field in fields]


# -- the lines of a day


def printed_lines_of_day(
    bench: Bench, state: State, names: bytes, lines: List[bytes]
) -> Iterator[Tuple[int, State]]:
    """The number of each printed line and the state after it: "the taken lines of a day, [...] run on from
    the lent state".

    "A resent line isn't printed", so a printed line is one that makes a cycle.  Readings: "a refused record is
    passed over, as the runner does".
    """
    for sender, _, following in cycles_of_lines(bench, state, names, lines):
        yield following.senders[sender].number, following


def state_after(bench_text: bytes, readings: bytes) -> State:
    """The state that an accepted bench comes to by a text of readings, from the fresh one.

    Where the line of names is refused no line is run, so the empty text gives the fresh state.
    """
    bench = Bench(bench_text)
    state = bench.fresh()
    names, *lines = lines_of(readings)
    for values in lines:
        _, _, state = bench.line(state, names, values)
    return state


# -- rows


def sheet_row(number: bytes, texts: List[bytes]) -> bytes:
    """ "Column 1 to 10 holds the line number, right aligned; then [...] cells [...] of 14 columns each,
    right aligned"; "each line filled with spaces to exactly 80 and closed by a line feed" """
    row = number.rjust(NUMBER_COLUMNS)
    for text in texts:
        row += text.rjust(CELL_COLUMNS)
    return row.ljust(SHEET_COLUMNS) + b"\n"


def upper_text(value: Cell) -> bytes:
    """ "unset as `-`, reals as their 16 digits over two rows of 8, the first 8 above" """
    text = value_text(value)
    return text[:8] if isinstance(value, Real) else text


def lower_text(value: Cell) -> bytes:
    """ "The second row, otherwise spaces": the last 8 digits of a set real, or nothing."""
    return value_text(value)[8:] if isinstance(value, Real) else b""


def rows_of_line(number: int, values: List[Cell]) -> List[bytes]:
    """ "The second row [...] is there only for a line with a set real." """
    rows = [sheet_row(b"%d" % number, [upper_text(value) for value in values])]
    if any(isinstance(value, Real) for value in values):
        rows.append(sheet_row(b"", [lower_text(value) for value in values]))
    return rows


# -- closing rows


def number_of_real(value: Real) -> float:
    return float_from_bits(value.bits)


def closing_values(values: List[Real]) -> List[Real]:
    """ "the lowest, highest and last set value" of one or more, in the order of their lines.

    "For lowest and highest, equal zeros count as one value, the earlier bits shown."  Python's
    min and max give the first of those that are equal, and the two zeros are equal as floats.
    """
    return [min(values, key=number_of_real), max(values, key=number_of_real), values[-1]]


def closing_rows(column: int, values: List[Cell]) -> List[bytes]:
    """ "each in that column over two rows, or three rows of `-` if none was set" """
    spaces = [b""] * column
    set_values = [value for value in values if value is not None]
    if not set_values:
        return [sheet_row(b"", spaces + [b"-"])] * 3
    rows = []
    for value in closing_values(set_values):
        rows.append(sheet_row(b"", spaces + [upper_text(value)]))
        rows.append(sheet_row(b"", spaces + [lower_text(value)]))
    return rows


# -- the sheet


def sheet_rows(chosen: List[Chosen], lines: List[Tuple[int, State]]) -> List[bytes]:
    """The rows of the printed lines, then, "column by column, for each real column", its closing rows.

    The cells are taken "as they read after the line".  Readings: " "Real cell" is by the member's kind."
    Order 5: "the day sheet shows the number alone".
    """
    table = [[state.now.read(entity, member.name.text) for entity, member in chosen] for _, state in lines]
    rows = []
    for (number, _), values in zip(lines, table):
        rows += rows_of_line(number, values)
    for column, (_, member) in enumerate(chosen):
        if member.kind == REAL:
            rows += closing_rows(column, [values[column] for values in table])
    return rows


def sheet(bench_text: bytes, state: Optional[State], readings: bytes, cells: bytes) -> Tuple[int, bytes]:
    """The sheet of an accepted bench and a state of it, None standing for the fresh one.

    (0, the sheet), or (41 or 22, nothing): 41 comes "before any line is read", so before 22.
    Nothing is written into the state, "which stays as lent".
    """
    bench = Bench(bench_text)
    chosen = chosen_cells(bench, cells)
    if chosen is None:
        return 41, b""
    names, *lines = lines_of(readings)
    if not bench.takes_names(names):
        return 22, b""
    lent = bench.fresh() if state is None else state
    printed = list(printed_lines_of_day(bench, lent, names, lines))
    return 0, b"".join(sheet_rows(chosen, printed))


def printed_sheet(bench_txt: bytes, readings_txt: bytes, cells: bytes) -> bytes:
    """What `--sheet` prints: the sheet from the fresh state, or the refusal's line and nothing else."""
    code, place = check(bench_txt)
    if code != 0:
        return b"refused %d %d\n" % (code, place)
    code, text = sheet(bench_txt, None, readings_txt, cells)
    return text if code == 0 else b"refused %d\n" % code


# --------------------------------------------------------------------------
# The rules tried in each cycle (document 02, order 7)
# --------------------------------------------------------------------------


def tried_of_cycles(bench: Bench, names: bytes, lines: List[bytes]) -> Iterator[Tuple[bytes, int, List[int]]]:
    """For each line that makes a cycle, from the fresh state on, its sender, its number and the rules tried.

    What the rules saw in a cycle is what its state after it has as "one cycle before"; what they then compared it
    with is what the state before it has there.
    """
    for sender, state, following in cycles_of_lines(bench, bench.fresh(), names, lines):
        yield sender, following.senders[sender].number, bench.machine.tried(following.before, state.before)


def tried(bench_text: bytes, readings: bytes) -> List[List[int]]:
    """The rules tried in each cycle of an accepted bench; where the line of names is refused there is no cycle."""
    names, *lines = lines_of(readings)
    return [numbers for _, _, numbers in tried_of_cycles(Bench(bench_text), names, lines)]


def printed_tried(bench_txt: bytes, readings_txt: bytes) -> bytes:
    """What `--tried` prints: sender and number of each line that makes a cycle, a colon, and the rules tried.

    A refused bench or line of names is printed as the runner prints it, and then nothing.
    """
    code, place = check(bench_txt)
    if code != 0:
        return b"refused %d %d\n" % (code, place)
    bench = Bench(bench_txt)
    names, *lines = lines_of(readings_txt)
    if not bench.takes_names(names):
        return b"refused 22\n"
    printed = b""
    for sender, number, rules in tried_of_cycles(bench, names, lines):
        printed += b" ".join([sender, b"%d:" % number] + [b"%d" % rule for rule in rules]) + b"\n"
    return printed


# --------------------------------------------------------------------------
# The command line
# --------------------------------------------------------------------------


def content(path: Path) -> bytes:
    """ "a missing file is empty" """
    return path.read_bytes() if path.is_file() else b""


def main(arguments: List[str]) -> int:
    with_sheet = len(arguments) == 3 and arguments[0] == "--sheet"
    with_tried = len(arguments) == 2 and arguments[0] == "--tried"
    if len(arguments) != 1 and not with_sheet and not with_tried:
        sys.stderr.write("usage: python3 bench_oracle.py --classes | [--sheet CELLS | --tried] FOLDER\n")
        return 2
    if arguments == ["--classes"]:
        sys.stdout.buffer.write(printed_classes())
        return 0
    folder = Path(arguments[-1])
    texts = content(folder / "bench.txt"), content(folder / "readings.txt")
    if with_sheet:
        printed = printed_sheet(*texts, os.fsencode(arguments[1]))
    else:
        printed = printed_tried(*texts) if with_tried else run(*texts)
    sys.stdout.buffer.write(printed)
    return 0


if __name__ == "__main__":
    sys.exit(main(sys.argv[1:]))

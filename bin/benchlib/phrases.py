"""Words for explanations: quotations, lists, places."""

import re
from textwrap import wrap
from typing import Iterable, List, NamedTuple, Optional, Sequence

from .tokens import Places, Word

WIDTH = 110  # of a list that goes on over lines
LONGEST_QUOTE = 50
EXAMPLES = {'whole': '1', 'real': '1r', 'bool': 'true'}  # of each kind a value


class Fault(NamedTuple):
    """What an own reading of the text finds: number and place, as the engine gives them, and how to say it."""

    code: int
    offset: int
    says: List[str]


class Earliest:
    """Keeps the fault that stands first. A text can have thousands: what is said is worked out only where it is wanted."""

    def __init__(self, source: 'Source') -> None:
        self.source = source
        self.fault: Optional[Fault] = None

    def wants(self, offset: int) -> bool:
        return self.fault is None or offset < self.fault.offset

    def add(self, code: int, offset: int, *says: str) -> None:
        if self.wants(offset):
            self.fault = Fault(code, offset, [line for line in says if line])


class Source:
    """A bench text with its words."""

    def __init__(self, text: bytes, words: Sequence[Word]) -> None:
        self.words = words
        self.places = Places(text)

    def at(self, offset: int) -> str:
        return self.places.tell(offset)

    def line(self, offset: int) -> str:
        return f'line {self.places.line(offset)}'

    def quote(self, start: int, end: int) -> str:
        """The words of a part of the text, without line ends and comments."""
        joined = ' '.join(word.text for word in self.words if start <= word.offset < end).replace(' . ', '.')
        return tick(cut(joined))


def cut(text: str) -> str:
    return text if len(text) <= LONGEST_QUOTE else text[:LONGEST_QUOTE] + '...'


def tick(word: str) -> str:
    return f'`{word}`'


def ticks(words: Iterable[str]) -> List[str]:
    return [tick(word) for word in words]


def listed(items: Sequence[str], last: str) -> str:
    """a, b and c, with this word before the last one."""
    if len(items) <= 1:
        return ''.join(items)
    return ', '.join(items[:-1]) + f' {last} ' + items[-1]


def a(noun: str) -> str:
    return ('an ' if noun[:1] in 'aeiou' else 'a ') + noun


def count_of(number: int, noun: str) -> str:
    """With a plural for all but 1; the nouns here take a plain s."""
    return f'{number} {noun}' + ('' if number == 1 else 's')


def folded(text: str) -> List[str]:
    """A list in one line, or in several if it is long, the others set in."""
    return wrap(text, WIDTH, subsequent_indent='  ', break_long_words=False, break_on_hyphens=False) or [text]


def printable(data: bytes, keep: bytes = b'') -> str:
    """Bytes that cannot be shown become `?`."""
    return re.sub(rb'[^ -~' + re.escape(keep) + rb']', b'?', data).decode('latin-1')

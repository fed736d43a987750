"""Words of a bench text as the engine takes them, and where its bytes stand. Text is bytes; words are str (latin-1)."""

import re
from bisect import bisect_right
from typing import List, NamedTuple, Optional, Tuple

from .limits import LONGEST_NAME

MOST_DIGITS = 10
GREATEST_NUMBER = 2147483647

KINDS = ('whole', 'bool', 'real')
MARKS = '{}():=,.+-*/'
RESERVED = frozenset(
    'interface attribute event action entity rules when rank from with value changed trigger on end and or true false'.split()
) | frozenset(KINDS)

# Classes of words. END stands behind the last word of a text.
NAME = 'name'
NUMBER = 'number'
RESERVED_WORD = 'reserved word'
MARK = 'mark'
END = 'end of the text'

_BLANKS = re.compile(rb'[ \t\n]+')
_COMMENT = re.compile(rb'#[\t -~]*')
_RUN = re.compile(rb'[A-Za-z][A-Za-z0-9_]*')
_DIGITS = re.compile(rb'[0-9]+')
_LINE_FEED = ord('\n')


class Word(NamedTuple):
    offset: int
    sort: str
    text: str

    @property
    def end(self) -> int:
        return self.offset + len(self.text)


def _word_at(text: bytes, offset: int) -> Optional[Word]:
    """The word that begins here, or None if none does."""
    run = _RUN.match(text, offset)
    if run:
        if run.end() - offset > LONGEST_NAME:
            return None
        name = run.group().decode('latin-1')
        return Word(offset, RESERVED_WORD if name in RESERVED else NAME, name)
    digits = _DIGITS.match(text, offset)
    if digits:
        if digits.end() - offset > MOST_DIGITS or int(digits.group()) > GREATEST_NUMBER:
            return None
        # An `r` right behind the digits belongs to the number, whatever follows it.
        letter = 'r' if text[digits.end():digits.end() + 1] == b'r' else ''
        return Word(offset, NUMBER, digits.group().decode('latin-1') + letter)
    mark = text[offset:offset + 1].decode('latin-1')
    return Word(offset, MARK, mark) if mark in MARKS else None


def split_words(text: bytes) -> Tuple[List[Word], Optional[int]]:
    """The words up to the first byte or word that is not allowed, and its offset (None if there is none)."""
    words: List[Word] = []
    offset = 0
    while offset < len(text):
        blanks = _BLANKS.match(text, offset)
        if blanks:
            offset = blanks.end()
            continue
        comment = _COMMENT.match(text, offset)
        if comment:
            offset = comment.end()
            if offset < len(text) and text[offset] != _LINE_FEED:
                return words, offset
            continue
        word = _word_at(text, offset)
        if word is None:
            return words, offset
        words.append(word)
        offset = word.end
    return words, None


class Places:
    """Lines and columns, both from 1, of the bytes of a text."""

    def __init__(self, text: bytes) -> None:
        self._text = text
        self._starts = [0] + [feed.end() for feed in re.finditer(b'\n', text)]

    def line(self, offset: int) -> int:
        return bisect_right(self._starts, offset)

    def column(self, offset: int) -> int:
        return offset - self._starts[self.line(offset) - 1] + 1

    def line_text(self, line: int) -> bytes:
        start = self._starts[line - 1]
        stop = self._starts[line] - 1 if line < len(self._starts) else len(self._text)
        return self._text[start:stop]

    def tell(self, offset: int) -> str:
        return f'line {self.line(offset)}, column {self.column(offset)}'

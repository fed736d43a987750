"""Why the engine refused a bench file: where, and what to do. The engine's answer is right; what is added to it is worked out from the text,
and where an own reading does not come to the same number and place, only the plain sentence for the number is said."""

import re
from typing import List, Optional

from .counts import count_fault, rank_fault
from .grammar import Misplaced, read_file
from .kinds import kind_fault
from .limits import LONGEST_TEXT
from .misplaced import misplaced
from .names import name_fault
from .odd_bytes import looks_like, not_allowed
from .phrases import Fault, Source, printable
from .tokens import Places, split_words

READ_AT_MOST = 65536  # well beyond any offset that a refusal can name
LONGEST_LINE_SHOWN = 400
SHOWN_BESIDE = 200  # bytes on both sides of the fault, of a longer line

PLAIN = {
    11: 'The bench file is too long: it may have 32768 bytes, and here is the first one beyond.',
    12: 'This is the first byte or word that is not allowed.',
    13: 'This is the first word that cannot follow the words before it.',
    44: 'This rank is above 9: a rule has a rank of 0 to 9.',
    14: 'There are too many of these: this is the first item beyond the count.',
    15: 'This name is declared again, this attribute is set again, or this variable is named as an entity.',
    16: 'This name or member is unknown, or of the wrong sort here.',
    17: 'The entity that closes here has an attribute that is not set.',
    18: 'The kinds (whole, bool, real) do not fit at this =, operator, real or ( of a call.',
}
EARLY = 'The text ends too early: some words are still to come.'
NO_SUCH_NUMBER = 'The documents have no such number for a bench file.'


def _too_long(length: int, cut_off: bool) -> Fault:
    size = f'{length} bytes or more' if cut_off else f'{length} bytes'
    says = [
        f'The bench file is too long: it has {size}, and {LONGEST_TEXT} are the most. Here is the first byte beyond.',
        'Shorten comments and blanks first: they count too.',
    ]
    return Fault(11, LONGEST_TEXT, says)


def find_fault(text: bytes, length: Optional[int] = None) -> Optional[Fault]:
    """The fault of a bench text by an own reading, as the engine has to find it; None for a text without one.

    length is that of the whole file, if text is only the first part of it."""
    size = len(text) if length is None else length
    if size > LONGEST_TEXT:
        return _too_long(size, cut_off=length is None and size == READ_AT_MOST)
    words, odd = split_words(text)
    if odd is not None:
        return Fault(12, odd, not_allowed(text, odd))
    source = Source(text, words)
    try:
        file = read_file(words, len(text))
    except Misplaced as fault:
        says = misplaced(source, fault)
        if fault.index == 0 and looks_like(text) and looks_like(text) not in says:
            says.append(looks_like(text))
        return Fault(13, fault.words[fault.index].offset, says)
    return rank_fault(file) or count_fault(source, file) or name_fault(source, file) or kind_fault(source, file)


def _plain(code: int, at_line_end: bool) -> List[str]:
    # No word begins at a line feed: a 13 behind the last byte of a line is at the end of the text.
    if code == 13 and at_line_end:
        return [EARLY]
    return [PLAIN.get(code, NO_SUCH_NUMBER)]


def _shown(path: str, line_text: bytes, line: int, column: int, code: int) -> List[str]:
    """Where: file, line and column; the line itself, of a very long one the part around the fault; a caret under it."""
    first, last = 1, len(line_text)
    if last > LONGEST_LINE_SHOWN:
        first = max(1, column - SHOWN_BESIDE)
        last = min(last, column + SHOWN_BESIDE)
    text = printable(line_text, keep=b'\t')
    start = ('...' if first > 1 else '') + text[first - 1:column - 1]
    rest = text[column - 1:last] + ('...' if last < len(text) else '')
    return [f'{path}, line {line}, column {column}: refused {code}', start + rest, re.sub(r'[^\t]', ' ', start) + '^']


def _says(text: bytes, code: int, offset: int, length: Optional[int]) -> List[str]:
    """The sentences of the own reading if it comes to the same number and place, else none."""
    try:
        fault = find_fault(text, length)
    except Exception:  # whatever the input is, an explanation must never be worse than the plain sentence
        return []
    if fault is None or (fault.code, fault.offset) != (code, offset):
        return []
    return fault.says


def explain_bench(path: str, text: bytes, code: int, offset: int, length: Optional[int] = None) -> List[str]:
    """The lines to print for a bench file that the engine refused by this number at this offset.

    text may be the first READ_AT_MOST bytes of the file alone; length then is that of the whole file, if it is known."""
    text = text[:READ_AT_MOST]
    places = Places(text)
    here = max(0, min(offset, len(text)))
    line, column = places.line(here), places.column(here)
    line_text = places.line_text(line)
    says = _says(text, code, offset, length) or _plain(code, at_line_end=column > len(line_text))
    return _shown(path, line_text, line, column, code) + says

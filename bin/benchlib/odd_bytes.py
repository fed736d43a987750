"""Bytes and words that are not allowed (12): what they are, and what a bench file has instead. Files that are no bench files at all."""

import re
import unicodedata
from typing import List

from .limits import LONGEST_NAME
from .phrases import count_of, tick
from .tokens import GREATEST_NUMBER, MOST_DIGITS

LONGEST_CHARACTER = 4  # bytes in UTF-8
LONGEST_RUN_SHOWN = 40

NO_ORDER = ('There is no comparison by size: a clause has `value = ..` or `value changed`. '
            'Let the box that sends the readings compare, and send a bool.')
NO_QUOTES = 'There are no texts in quotes here: write names without quotes; values are numbers, `true` and `false`.'
PLAIN = 'A bench file has plain letters, digits and marks (ASCII) alone.'
COMMENTS_TOO = 'It stands in a comment, and comments too have plain letters, digits and marks (ASCII) alone.'

# Printable ASCII that only comments have, and what is used instead.
INSTEAD = {
    ';': 'No statement ends with `;` here: leave it out. Between the calls of a rule stands `,`.',
    '"': NO_QUOTES,
    "'": NO_QUOTES,
    '`': 'There are no quotes here: names stand as they are.',
    '[': 'There are no brackets here: sums and conditions take `(` and `)`, interfaces and entities `{` and `}`.',
    ']': 'There are no brackets here: sums and conditions take `(` and `)`, interfaces and entities `{` and `}`.',
    '<': NO_ORDER,
    '>': NO_ORDER,
    '!': 'There is no `!`: a clause has `value = ..` or `value changed`; of a bool ask for `value = false`.',
    '&': 'Write `and` between two clauses.',
    '|': 'Write `or` between two clauses.',
    '%': 'There is no remainder: the operators are `+`, `-`, `*` and `/`.',
    '^': 'There is no power: the operators are `+`, `-`, `*` and `/`.',
    '~': 'There is no `~`: the operators are `+`, `-`, `*` and `/`; of a bool ask for `value = false`.',
    '@': 'Names have letters, digits and `_`. A place stands behind `from` or `on`.',
    '$': 'Names have letters, digits and `_`.',
    '?': '`?` is for readings alone.',
    '\\': 'A line may end anywhere between two words: nothing has to mark it.',
}

# Characters that text programs put in the place of plain ones.
LOOKALIKES = {
    0x00A0: 'a non-breaking space: type a plain space in its place.',
    0x202F: 'a narrow non-breaking space: type a plain space in its place.',
    0x2007: 'a figure space: type a plain space in its place.',
    0x2009: 'a thin space: type a plain space in its place.',
    0x3000: 'a wide space: type a plain space in its place.',
    0x200B: 'a space of no width, which cannot be seen: delete it.',
    0x200C: 'a mark of no width, which cannot be seen: delete it.',
    0x200D: 'a mark of no width, which cannot be seen: delete it.',
    0x200E: 'a mark of direction, which cannot be seen: delete it.',
    0x00AD: 'a soft hyphen, which often cannot be seen: delete it.',
    0x2060: 'a mark of no width, which cannot be seen: delete it.',
    0xFEFF: 'a byte order mark, which cannot be seen: delete it.',
    0x2018: 'a curly quote: there are no quotes here.',
    0x2019: 'a curly quote: there are no quotes here.',
    0x201C: 'a curly quote: there are no quotes here.',
    0x201D: 'a curly quote: there are no quotes here.',
    0x201E: 'a low quote: there are no quotes here.',
    0x2010: 'a hyphen that is not the plain one: type `-`.',
    0x2011: 'a non-breaking hyphen: type `-`.',
    0x2012: 'a long dash: type `-`.',
    0x2013: 'a long dash: type `-`.',
    0x2014: 'a long dash: type `-`.',
    0x2212: 'a minus sign that is not the plain one: type `-`.',
    0x00D7: 'a multiplication sign: type `*`.',
    0x00B7: 'a multiplication point: type `*`.',
    0x22C5: 'a multiplication point: type `*`.',
    0x00F7: 'a division sign: type `/`.',
    0x2215: 'a division slash: type `/`.',
    0x2044: 'a fraction slash: type `/`.',
    0x2260: 'a comparison that there is not: a clause has `value = ..` or `value changed`; of a bool ask for `value = false`.',
    0x2264: 'a comparison. ' + NO_ORDER,
    0x2265: 'a comparison. ' + NO_ORDER,
    0x2028: 'a line separator that is not the plain one: type a new line.',
    0x2029: 'a paragraph separator: type a new line.',
    0x0085: 'a next-line character: type a new line.',
}

# How files begin that are no text, or no plain one.
FORMATS = (
    (b'PK\x03\x04', 'This looks like a document of an office program or a zip archive, not like plain text: save it as plain text.'),
    (b'\xd0\xcf\x11\xe0', 'This looks like a document of an office program, not like plain text: save it as plain text.'),
    (b'%PDF', 'This looks like a PDF, not like plain text.'),
    (b'{\\rtf', 'This looks like a rich text document (RTF): save it as plain text.'),
    (b'{', 'This looks like JSON, not like a bench file.'),
    (b'\x1f\x8b', 'This looks like a compressed file (gzip): unpack it first.'),
    (b'\x7fELF', 'This looks like a program, not like text.'),
    (b'\x89PNG', 'This looks like a picture, not like text.'),
    (b'\xff\xd8\xff', 'This looks like a picture, not like text.'),
    (b'by n', 'This looks like a file of readings: readings stand in readings.txt, and this is the bench file.'),
    (b'<', 'This looks like a page of a web program (HTML, XML), not like a bench file.'),
)

UTF_16 = 'This looks like UTF-16 text (two bytes for each letter): save the file as plain text, ASCII or UTF-8 without a byte order mark.'
BYTE_ORDER_MARK = ('It is a byte order mark, three bytes that some editors put at the start and that cannot be seen: '
                   'save the file as UTF-8 without it.')


def looks_like(text: bytes) -> str:
    """Another format that the first bytes tell, or nothing."""
    if text.startswith((b'\xff\xfe', b'\xfe\xff')):
        return UTF_16
    head = text[:16]
    if len(head) >= 4 and (not any(head[::2]) and all(head[1::2]) or not any(head[1::2]) and all(head[::2])):
        return UTF_16
    return next((says for start, says in FORMATS if text.startswith(start)), '')


def _character_at(text: bytes, offset: int) -> str:
    """The character of UTF-8 that begins here, or nothing."""
    for length in range(2, LONGEST_CHARACTER + 1):
        try:
            return text[offset:offset + length].decode('utf-8')
        except UnicodeDecodeError:
            continue
    return ''


def _named(character: str) -> str:
    code = f'U+{ord(character):04X}'
    name = unicodedata.name(character, '').lower()
    return f'the character {code} ({name})' if name else f'the character {code}'


def _latin(byte: int) -> str:
    """A byte that is no UTF-8: what it is in the encodings of one byte a letter."""
    character = bytes([byte]).decode('cp1252', 'ignore')
    if not character.isprintable() or not character:
        return f'It is byte {byte}, which is no UTF-8.'
    return f'It is byte {byte}, which is no UTF-8: perhaps {tick(character)}, saved as Latin-1.'


def _beyond_ascii(text: bytes, offset: int) -> List[str]:
    byte = text[offset]
    character = _character_at(text, offset)[:1]
    if in_comment(text, offset):
        return [f'It is {_named(character)}.' if character else _latin(byte), COMMENTS_TOO]
    if character:
        known = LOOKALIKES.get(ord(character))
        return [f'It is {known}'] if known else [f'It is {_named(character)}.', PLAIN]
    if byte == 0xA0:
        return ['It is byte 160, in many encodings ' + LOOKALIKES[0xA0]]
    if byte in (0x91, 0x92, 0x93, 0x94):
        return [f'It is byte {byte}, in many encodings a curly quote: there are no quotes here.']
    if byte in (0x96, 0x97):
        return [f'It is byte {byte}, in many encodings a long dash: type `-`.']
    return [_latin(byte), PLAIN]


def _control(byte: int) -> str:
    if byte == 0:
        return 'It is a zero byte: the file is no plain text, or it is damaged.'
    if byte == 12:
        return 'It is a form feed (page break): delete it.'
    if byte == 11:
        return 'It is a vertical tab: delete it, or type a new line.'
    if byte == 26:
        return 'It is the end mark of old systems (Ctrl-Z): delete it.'
    if byte == 27:
        return 'It is an escape character, as terminals use for colours: delete it and what belongs to it.'
    if byte == 127:
        return 'It is a delete character (127): delete it.'
    return f'It is control character {byte}: delete it.'


def _comments_only(text: bytes, offset: int) -> str:
    mark = chr(text[offset])
    if mark == '_':
        run = re.compile(rb'[A-Za-z0-9_]*').match(text, offset)
        shown = run.group()[:LONGEST_RUN_SHOWN].decode('latin-1') if run else mark
        return f'{tick(shown)} is no name: a name begins with a letter, `_` may stand further on.'
    pair = text[offset - 1:offset + 2].decode('latin-1') if offset else ''
    if mark == '>' and pair[:1] in '-=' and pair:
        return f'There is no {tick(pair[:2])} here: `trigger` stands between the condition and the calls, `on` before the place of an action.'
    return f'{tick(mark)} may stand in comments only. ' + INSTEAD.get(mark, '')


def _long_word(text: bytes, offset: int) -> List[str]:
    run = re.compile(rb'[A-Za-z0-9_]*').match(text, offset)
    word = run.group().decode('latin-1') if run else ''
    if word[:1].isalpha():
        return [f'This name has {count_of(len(word), "byte")}, and {LONGEST_NAME} are the most: shorten it everywhere in the same way.']
    digits = re.match(r'[0-9]*', word)
    count = len(digits.group()) if digits else 0
    if count > MOST_DIGITS:
        return [f'This number has {count} digits, and {MOST_DIGITS} are the most; the greatest number is {GREATEST_NUMBER}.']
    return [f'This number is above {GREATEST_NUMBER}, the greatest that there is.']


def in_comment(text: bytes, offset: int) -> bool:
    start = text.rfind(b'\n', 0, offset) + 1
    return b'#' in text[start:offset]


def not_allowed(text: bytes, offset: int) -> List[str]:
    """The sentences for the byte or word at this offset, which is there."""
    byte = text[offset]
    if chr(byte).isalnum() and byte < 128:
        return ['This is the first word that is not allowed.'] + _long_word(text, offset)
    lead = ['This is the first byte that is not allowed.']
    other = looks_like(text)
    if other:
        return lead + [other]
    if byte == ord('\r'):
        ends = 'CR LF' if text[offset + 1:offset + 2] == b'\n' else 'CR'
        return lead + [f'It is a carriage return: save the file with line feeds alone at the ends of the lines (LF, not {ends}).']
    if offset == 0 and text.startswith(b'\xef\xbb\xbf'):
        return lead + [BYTE_ORDER_MARK]
    if byte < 32 or byte == 127:
        return lead + [_control(byte)]
    if byte < 127:
        return lead + [_comments_only(text, offset).strip()]
    return lead + _beyond_ascii(text, offset)

"""The forms of values in readings, and what is said of one that is ill formed."""
import math
import re
import struct
from typing import Optional

from .limits import LONGEST_KEPT

LEAST_WHOLE = -2147483648
GREATEST_WHOLE = 2147483647
GREATEST_LINE_NUMBER = 4294967295
MOST_DIGITS = 10
SHOWN_BYTES = 40

NO_READING = b'-'
UNSET = b'?'

NUMBER = re.compile(rb'(?:0|[1-9][0-9]{0,9})\Z')
WHOLE = re.compile(rb'(?:0|-?[1-9][0-9]{0,9})\Z')
REAL = re.compile(rb'[0-9a-f]{16}\Z')
DECIMAL = re.compile(rb'[+-]?(?:[0-9]+(?:[.,][0-9]*)?|[.,][0-9]+)(?:[eE][+-]?[0-9]+)?\Z')
HEXADECIMAL = re.compile(rb'[0-9a-f]+\Z')
SIGNED_DIGITS = re.compile(rb'[+-]?[0-9]+\Z')
WITH_UNIT = re.compile(rb'[+-]?[0-9]+(?:[.,][0-9]+)?[A-Za-z%]+\Z')
IN_GROUPS = re.compile(rb"[+-]?[0-9]{1,3}(?:[.,'][0-9]{3})+\Z")  # digits by thousands
BENCH_REAL = re.compile(rb'-?[0-9]+(?:\.[0-9]+)?r\Z')  # as a bench file has it
SEPARATORS_BEHIND = re.compile(rb'[;,]+\Z')

# Characters of UTF-8 that look like a space or like `-`, by their bytes.
SPACES = {b'\xc2\xa0': 'a non-breaking space', b'\xe2\x80\xaf': 'a narrow non-breaking space', b'\xe2\x80\x89': 'a thin space',
          b'\xe2\x80\x8b': 'an invisible space', b'\xef\xbb\xbf': 'a byte order mark, which is invisible'}
DASHES = {b'\xe2\x80\x93': 'a long dash', b'\xe2\x80\x94': 'a long dash', b'\xe2\x80\x90': 'a hyphen that is not that of the keyboard',
          b'\xe2\x80\x91': 'a hyphen that is not that of the keyboard', b'\xe2\x88\x92': 'a minus sign that is not that of the keyboard'}
INVISIBLE = {0: 'a zero byte', 26: 'ctrl-Z, with which old programs end a file'}

# What people and spreadsheets write for no reading, for true and for false.
MISSING_WORDS = frozenset((b'na', b'n/a', b'nan', b'null', b'none', b'nil', b'--', b'.', b'_', b'*', b'x', b'missing', b'#n/a'))
TRUE_WORDS = frozenset((b'true', b'1', b'yes', b'on', b't', b'y', b'wahr', b'vrai', b'present'))
FALSE_WORDS = frozenset((b'false', b'0', b'no', b'off', b'f', b'n', b'falsch', b'faux', b'absent'))


def shown(field: bytes, most: int = SHOWN_BYTES) -> str:
    """The field as it can be printed: cut, and `?` for each byte that is not visible ASCII."""
    text = ''.join(chr(b) if 32 <= b <= 126 else '?' for b in field[:most])
    return text + '...' if len(field) > most else text


def bytes_of(line: bytes) -> str:
    """How long a line is: of a very long one only a part was kept."""
    return '%d bytes%s' % (len(line), ' or more' if len(line) >= LONGEST_KEPT else '')


def quoted(field: bytes) -> str:
    """The field in quotes, or in `` if it has quotes itself."""
    text = shown(field)
    return '`%s`' % text if '"' in text else '"%s"' % text


def real_digits(decimal: bytes) -> Optional[str]:
    """The 16 digits of a decimal number; none if it is no number or not finite."""
    if not DECIMAL.match(decimal):
        return None
    value = float(decimal.replace(b',', b'.'))
    return struct.pack('>d', value).hex() if math.isfinite(value) else None


def is_whole(field: bytes) -> bool:
    return WHOLE.match(field) is not None and LEAST_WHOLE <= int(field) <= GREATEST_WHOLE


def is_real(field: bytes) -> bool:
    return REAL.match(field) is not None and int(field, 16) & 0x7FF0000000000000 != 0x7FF0000000000000


def is_bool(field: bytes) -> bool:
    return field in (b'true', b'false')


def is_well_formed(kind: str, field: bytes) -> bool:
    """Can the field stand in a column of that kind: whole, bool, real or presence?"""
    if field == NO_READING:
        return True
    if kind == 'presence':
        return is_bool(field)
    if field == UNSET:
        return True
    return {'whole': is_whole, 'bool': is_bool, 'real': is_real}[kind](field)


def odd_byte(field: bytes) -> str:
    """What is said of a tab, a carriage return or another byte that is not visible; nothing if there is none."""
    if b'\t' in field:
        return 'it has a tab; one space stands between fields'
    if b'\r' in field:
        return 'it has a carriage return'
    for mark, name in SPACES.items():
        if mark in field:
            return 'it has %s: take it out' % name
    for mark, name in DASHES.items():
        if mark in field:
            return 'it has %s: type `-`' % name
    if field and (field[-1] < 32 or field[-1] == 127):
        return 'it ends in an invisible character (%s): take it out' % invisible(field[-1])
    if any(not 32 < b < 127 for b in field):
        return 'it has a byte that is no letter, digit or sign of ASCII'
    return ''


def invisible(byte: int) -> str:
    return INVISIBLE.get(byte, 'byte %d' % byte)


def surplus_hint(kind: str, field: bytes) -> str:
    """What is said of a value that is well formed without its quotes, or without separators behind it."""
    if len(field) > 2 and field[:1] == field[-1:] == b'"' and is_well_formed(kind, field[1:-1]):
        return 'without quotes, `%s`' % shown(field[1:-1])
    behind = SEPARATORS_BEHIND.search(field)
    if behind and is_well_formed(kind, field[:behind.start()]):
        return 'take `%s` out, since one space alone stands between fields' % shown(behind.group())
    return 'fields are parted by one space, not by semicolons' if b';' in field else ''


def whole_hint(field: bytes) -> str:
    if SIGNED_DIGITS.match(field):
        return signed_digits_hint(field)
    if REAL.match(field):
        return 'these are the digits of a real'
    if is_bool(field.lower()):
        return 'digits, not `true` or `false`'
    if IN_GROUPS.match(field):
        return 'digits alone: no point, no comma'
    if not DECIMAL.match(field):
        return 'digits alone, without a unit' if WITH_UNIT.match(field) else 'digits alone, after a `-` if it is negative'
    if b'e' in field.lower():
        return 'no exponent'
    return 'no fraction'


def signed_digits_hint(field: bytes) -> str:
    """Of digits that are no whole: too many, a sign that is not written, or zeros in front."""
    negative = field.startswith(b'-')
    digits = field.lstrip(b'+-').lstrip(b'0')
    if len(digits) > MOST_DIGITS or not LEAST_WHOLE <= int(b'-' * negative + (digits or b'0')) <= GREATEST_WHOLE:
        return 'it goes from %d to %d' % (LEAST_WHOLE, GREATEST_WHOLE)
    write = 'write `%s`' % ((b'-' * (negative and digits != b'') + (digits or b'0')).decode())
    if field.startswith(b'+'):
        return 'no `+` in front, ' + write
    return ('no leading zero, ' if digits else 'no `-0`, ' if field == b'-0' else 'no zeros in front, ') + write


def bool_hint(field: bytes) -> str:
    lower = field.lower()
    if is_bool(lower):
        return 'in lower case, `%s`' % lower.decode()
    if lower in TRUE_WORDS:
        return 'write `true`'
    return 'write `false`' if lower in FALSE_WORDS else ''


def real_hint(field: bytes) -> str:
    lower = field.lower()
    if REAL.match(lower):
        return 'these are not the digits of a finite number' if not is_real(lower) else 'in lower case, `%s`' % lower.decode()
    if lower.startswith(b'0x') and is_real(lower[2:]):
        return 'without `0x`, `%s`' % lower[2:].decode()
    if lower.lstrip(b'+-') in (b'inf', b'infinity', b'nan'):
        return 'only a finite number has digits here; `?` is for unset'
    if BENCH_REAL.match(field) and real_digits(field[:-1]):
        return 'no `r` in readings; %s is %s' % (shown(field[:-1]), real_digits(field[:-1]))
    if HEXADECIMAL.match(lower) and not (DECIMAL.match(field) and len(field) <= MOST_DIGITS):
        return 'here are %d' % len(field)
    digits = real_digits(field)
    if digits:
        return '%s is %s' % (shown(field).replace(',', '.'), digits)
    return 'this number is too great' if DECIMAL.match(field) else ''


def presence_hint(field: bytes) -> str:
    return '`?` is for events' if field == UNSET else bool_hint(field)


WANTED = {
    'whole': 'a whole is wanted',
    'bool': '`true` or `false` is wanted',
    'real': 'a real is wanted, as 16 lower-case hexadecimal digits',
    'presence': '`true` (it is there), `false` (it is away) or `-` is wanted',
}
HINTS = {'whole': whole_hint, 'bool': bool_hint, 'real': real_hint, 'presence': presence_hint}


def wanted(kind: str, field: bytes) -> str:
    """What is wanted in place of an ill-formed field, with its particular fault where there is one."""
    if field.lower() == b'nan' and kind != 'presence':
        hint = 'for unset write `?`, for no reading `-`'
    elif field.lower() in MISSING_WORDS:
        hint = 'for no reading write `-`'
    else:
        hint = odd_byte(field) or surplus_hint(kind, field) or HINTS[kind](field)
    return WANTED[kind] + (': ' + hint if hint else '')


def number_hint(field: bytes) -> str:
    """The particular fault of a number that is no run of 1 to 10 digits without a leading zero."""
    odd = odd_byte(field)
    if odd:
        return odd
    digits = field.lstrip(b'0')
    if field.isdigit() and len(digits) <= MOST_DIGITS:
        return 'no leading zero, write `%s`' % (digits.decode() or '0')
    if field.isdigit():
        return 'here are %d digits' % len(field)
    if SIGNED_DIGITS.match(field):
        return 'no sign in front'
    if IN_GROUPS.match(field):
        return 'digits alone: no point, no comma'
    return 'no fraction' if DECIMAL.match(field) else ''


def number_wanted(field: bytes) -> str:
    hint = number_hint(field)
    return 'a number of 1 to 10 digits is wanted' + (': ' + hint if hint else '')

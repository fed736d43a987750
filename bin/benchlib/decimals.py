"""Rows as the user asks for them: reals as the shortest decimals that read back, and only rows in which something was fired."""
import struct
from typing import Optional, Set

REAL_DIGITS = 16
NOT_FIRED = b'-'
LEADING_FIELDS = 2  # sender and number stand before the actions


def real_columns(model, names: bytes) -> Set[int]:
    """Which fields of a row are real actions, by the row of names."""
    kinds = {action.name: action.kind for action in model.actions()}
    fields = names.decode('latin-1').split(' ')
    return {at for at, name in enumerate(fields) if at >= LEADING_FIELDS and kinds.get(name) == 'real'}


def decimal(field: bytes) -> bytes:
    """16 digits of a real as a decimal; anything else stays as it is."""
    if len(field) != REAL_DIGITS:
        return field
    try:
        return repr(struct.unpack('>d', bytes.fromhex(field.decode('ascii')))[0]).encode('ascii')
    except (ValueError, UnicodeError):
        return field


def in_decimals(row: bytes, reals: Set[int]) -> bytes:
    fields = row.split(b' ')
    for at in reals:
        if at < len(fields):
            fields[at] = decimal(fields[at])
    return b' '.join(fields)


def has_fired(row: bytes) -> bool:
    return any(field != NOT_FIRED for field in row.split(b' ')[LEADING_FIELDS:])


class Shown:
    """Which rows after the row of names are shown, and how."""

    def __init__(self, decimals: bool = False, fired: bool = False) -> None:
        self.decimals = decimals
        self.fired = fired
        self.as_they_are = not decimals and not fired
        self.reals: Set[int] = set()

    def header(self, model, names: bytes) -> None:
        if self.decimals:
            self.reals = real_columns(model, names)

    def row(self, row: bytes, is_refusal: bool) -> Optional[bytes]:
        """The row as it is shown; None if it is not."""
        if self.fired and (is_refusal or not has_fired(row)):
            return None
        return in_decimals(row, self.reals) if self.reals and not is_refusal else row

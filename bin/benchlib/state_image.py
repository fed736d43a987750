"""Reads the memory of a state for explanations: who has sent, which readings last, and which entities are there.

The form is that of crates/senders/specs/definitions/StateImage.antt: a fingerprint of the bench text, the number of known senders, two planes
(the stores now and before), and of each sender its name, its last number and a plane. A plane has a flag for each entity and then 12 cells for
each. Whether memory is a state of a bench is the engine's to say (33); here whatever does not fit gives none.
"""
from typing import Dict, List, NamedTuple, Optional

from .limits import LONGEST_NAME, MOST_SENDERS, SENDER_NAME

NUMBER_BYTES = 4
CELL_BYTES = 9
ENTITY_CELLS = 12
ENTITY_BYTES = 1 + ENTITY_CELLS * CELL_BYTES
HEAD_BYTES = NUMBER_BYTES + 1
NAME_PLACE = 1 + LONGEST_NAME
SENDER_HEAD_BYTES = NAME_PLACE + NUMBER_BYTES

# A cell's first byte; the other eight are its number, the lowest first.
UNSET, WHOLE, BOOL, REAL, NO_READING = range(5)
WHOLE_ZERO = 1 << 31  # a whole is stored as its distance from the least one
WHOLES = 1 << 32
EXPONENT = 0x7FF << 52

# A flag of what a line reads of presence; that of a store is 0 or 1.
PRESENCES = {1: 'false', 2: 'true'}


class KeptSender(NamedTuple):
    name: str
    last: int
    readings: Dict[str, str]  # by column (entity.event, or entity for presence), in the form of readings; no reading is left out


class Snapshot(NamedTuple):
    senders: List[KeptSender]  # in the order of their first lines
    present: Dict[str, bool]  # by entity, after the last line


class Unfit(Exception):
    """The memory has not the form of a state of the bench."""


def read_snapshot(model, image: bytes) -> Optional[Snapshot]:
    """What the memory of a state says; none if it is no state of this bench by its form. The fingerprint is not looked at."""
    try:
        return _snapshot(model, bytes(image))
    except Unfit:
        return None


def _snapshot(model, image: bytes) -> Snapshot:
    plane = ENTITY_BYTES * len(model.entities)
    if len(image) < HEAD_BYTES or image[NUMBER_BYTES] > MOST_SENDERS:
        raise Unfit
    count, size = image[NUMBER_BYTES], SENDER_HEAD_BYTES + plane
    first = HEAD_BYTES + 2 * plane
    if len(image) < first + count * size:
        raise Unfit
    senders = [_sender(model, image[at:at + size]) for at in range(first, first + count * size, size)]
    if len({sender.name for sender in senders}) < count:
        raise Unfit
    return Snapshot(senders, _present(model, image[HEAD_BYTES:]))


def _present(model, plane: bytes) -> Dict[str, bool]:
    if any(flag > 1 for flag in plane[:len(model.entities)]):
        raise Unfit
    return {entity.name: flag == 1 for entity, flag in zip(model.entities, plane)}


def _sender(model, part: bytes) -> KeptSender:
    name = part[1:1 + part[0]]
    last = int.from_bytes(part[NAME_PLACE:SENDER_HEAD_BYTES], 'little')
    if part[0] > LONGEST_NAME or not SENDER_NAME.match(name) or any(part[1 + part[0]:NAME_PLACE]) or last == 0:
        raise Unfit
    return KeptSender(name.decode('ascii'), last, _readings(model, part[SENDER_HEAD_BYTES:]))


def _readings(model, plane: bytes) -> Dict[str, str]:
    count, found = len(model.entities), {}
    for e, entity in enumerate(model.entities):
        if plane[e] > max(PRESENCES):
            raise Unfit
        if plane[e]:
            found[entity.name] = PRESENCES[plane[e]]
        for m, member in enumerate(entity.members[:ENTITY_CELLS]):
            at = count + (e * ENTITY_CELLS + m) * CELL_BYTES
            reading = _value(member.kind, plane[at], int.from_bytes(plane[at + 1:at + CELL_BYTES], 'little'))
            if member.sort == 'event' and reading is not None:
                found['%s.%s' % (entity.name, member.name)] = reading
    return found


def _value(kind: str, tag: int, number: int) -> Optional[str]:
    """A cell in the form of readings; none for no reading."""
    if tag in (NO_READING, UNSET) and number == 0:
        return None if tag == NO_READING else '?'
    if kind == 'whole' and tag == WHOLE and number < WHOLES:
        return str(number - WHOLE_ZERO)
    if kind == 'bool' and tag == BOOL and number < 2:
        return 'true' if number else 'false'
    if kind == 'real' and tag == REAL and number & EXPONENT != EXPONENT:
        return '%016x' % number
    raise Unfit

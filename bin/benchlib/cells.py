"""Why the cells that are chosen for a day sheet are refused (41), and what the bench has."""

from typing import List, Tuple

from .model import Model, read_model
from .phrases import printable
from .suggest import did_you_mean

MOST_CELLS = 5
LONGEST_FIELD_SHOWN = 60
LONGEST_SHOWN = 400


def _cut(text: str, most: int) -> str:
    return text[:most] + '...' if len(text) > most else text


def _holdings(model: Model, name: str) -> List[str]:
    """What the bench has: the entity's members, or the entities if there is none of this name."""
    entity = model.entity(name)
    if entity is None:
        return ['Entities of the bench: ' + (' '.join(entity.name for entity in model.entities) or 'none')]
    head = f'Members of {entity.name}, by its interface {entity.interface}:'
    if not entity.members:
        return [head + ' none']
    return [head] + ['  ' + member.declaration() for member in entity.members]


def _meant(model: Model, entity: str, member: str) -> List[str]:
    """The cell that was perhaps meant."""
    near = entity if model.entity(entity) else did_you_mean(entity, [one.name for one in model.entities])
    owner = model.entity(near)
    if owner is None or not member:
        return []
    if not owner.member(member):
        member = did_you_mean(member, [one.name for one in owner.members])
    return [f'Did you mean {owner.name}.{member}?'] if member else []


def _fault(model: Model, cell: str, number: int) -> List[str]:
    """What is wrong with the cell that is this field, from 1; nothing if it is a cell of the bench."""
    if number > MOST_CELLS:
        return ['A sheet has five cells at most: this is the first one beyond.']
    if not cell:
        return ['This field is empty: one space stands between two cells, none before the first or after the last.']
    entity, _, member = cell.partition('.')
    if not entity or not member or '.' in member:
        return ['This is not entity.member.'] + _holdings(model, entity)
    if model.entity(entity) is None:
        return ['This entity is unknown.'] + _meant(model, entity, member) + _holdings(model, entity)
    if model.member(entity, member) is None:
        return ['This entity has no such member.'] + _meant(model, entity, member) + _holdings(model, entity)
    return []


def _first_fault(model: Model, fields: List[str]) -> Tuple[int, List[str]]:
    for number, cell in enumerate(fields, 1):
        why = _fault(model, cell, number)
        if why:
            return number, why
    # The engine's answer is right: where nothing is found, only the plain sentence can be said.
    return 1, ['Some cell is not one of the bench: a sheet has one to five, each entity.member, one space between.']


def explain_cells(text: bytes, cells: bytes) -> List[str]:
    """The lines to print for refused cells: text is the accepted bench file, cells what was chosen."""
    model = read_model(text)
    shown = printable(cells)
    if not cells:
        return ['cells, field 1: refused 41', '', '^', 'No cell is chosen: a sheet has one to five.'] + _holdings(model, '')
    fields = shown.split(' ')
    number, why = _first_fault(model, fields)
    field = fields[number - 1]
    before = sum(len(one) + 1 for one in fields[:number - 1])
    head = f'cells, field {number}' + (', ' + _cut(field, LONGEST_FIELD_SHOWN) if field else '') + ': refused 41'
    return [head, _cut(shown, LONGEST_SHOWN), ' ' * before + '^'] + why

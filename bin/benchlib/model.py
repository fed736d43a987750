"""What an accepted bench file declares: its entities with their members, in the order of the file."""

from dataclasses import dataclass, field
from typing import Dict, List, NamedTuple, Optional

from .grammar import File, Interface as _Declared, Misplaced, read_file
from .limits import LONGEST_TEXT
from .tokens import split_words


@dataclass(frozen=True)
class Member:
    name: str
    sort: str  # 'attribute', 'event' or 'action'
    kind: str  # 'whole', 'bool' or 'real'
    offset: int  # where its name stands in the text

    def declaration(self) -> str:
        """As a bench file has it, with single spaces."""
        if self.sort == 'action':
            return f'action {self.name} ( {self.kind} )'
        return f'{self.sort} {self.name} : {self.kind}'


@dataclass(frozen=True)
class Entity:
    name: str
    interface: str
    members: List[Member]
    offset: int  # where its name stands in the text

    def member(self, name: str) -> Optional[Member]:
        return next((member for member in self.members if member.name == name), None)


class Cell(NamedTuple):
    """As it is named in rows and readings: entity.member"""

    entity: Entity
    member: Member

    @property
    def name(self) -> str:
        return f'{self.entity.name}.{self.member.name}'

    @property
    def kind(self) -> str:
        return self.member.kind


@dataclass
class Model:
    entities: List[Entity] = field(default_factory=list)
    interfaces: Dict[str, List[Member]] = field(default_factory=dict)

    def __post_init__(self) -> None:
        self._by_name: Dict[str, Entity] = {}
        for entity in self.entities:
            self._by_name.setdefault(entity.name, entity)

    def entity(self, name: str) -> Optional[Entity]:
        return self._by_name.get(name)

    def member(self, entity: str, name: str) -> Optional[Member]:
        owner = self.entity(entity)
        return owner.member(name) if owner else None

    def actions(self) -> List[Cell]:
        """Those of a row behind sender and number, in the row's order."""
        return [Cell(entity, member) for entity in self.entities for member in entity.members if member.sort == 'action']


def _members(interface: _Declared) -> List[Member]:
    return [Member(member.name.text, member.sort, member.kind, member.name.offset) for member in interface.members]


def _model(file: File) -> Model:
    interfaces: Dict[str, List[Member]] = {}
    for interface in file.interfaces:
        interfaces.setdefault(interface.name.text, _members(interface))
    entities = [
        Entity(entity.name.text, entity.interface.text, interfaces.get(entity.interface.text, []), entity.name.offset)
        for entity in file.entities
    ]
    return Model(entities, interfaces)


def read_model(text: bytes) -> Model:
    """The model of an accepted text; of a text that is not one, a model without entities."""
    text = text[:LONGEST_TEXT + 1]
    words, fault = split_words(text)
    if fault is not None:
        return Model()
    try:
        return _model(read_file(words, len(text)))
    except Misplaced:
        return Model()

"""Names of a grammatical bench file: declared again (15), unknown or of the wrong sort (16), attributes not set (17)."""

from typing import Dict, Iterator, List, Optional, Sequence, Tuple, Union

from .grammar import MEMBER_SORTS, Call, Clause, Conversion, Entity, File, Interface, Literal, Member, Negation, Operation, Reference, Rule, Sum
from .phrases import EXAMPLES, Earliest, Fault, Source, a, folded, listed, tick, ticks
from .suggest import did_you_mean
from .tokens import Word

# Names for an example, more than a file can have of entities and variables.
FREE_VARIABLES = ['x', 'y', 'z'] + [f'x{number}' for number in range(40)]


class Scope:
    """What the names of a file mean, and in one rule of it also its variables; a name means its first declaration."""

    def __init__(self, file: File, rule: Optional[Rule] = None) -> None:
        self.file = file
        self.interfaces: Dict[str, Interface] = {}
        self.entities: Dict[str, Entity] = {}
        self.variables: Dict[str, Tuple[Word, Word]] = {}  # where it is declared, and its interface
        for interface in file.interfaces:
            self.interfaces.setdefault(interface.name.text, interface)
        for entity in file.entities:
            self.entities.setdefault(entity.name.text, entity)
        for item in rule.items() if rule else ():
            if item.place.interface:
                self.variables.setdefault(item.place.name.text, (item.place.name, item.place.interface))

    def knows(self, name: str) -> bool:
        return name in self.entities or name in self.variables

    def interface_of(self, name: str) -> Optional[Interface]:
        """Of an entity or variable, an entity first; None if it is unknown."""
        if name in self.entities:
            return self.interfaces.get(self.entities[name].interface.text)
        if name in self.variables:
            return self.interfaces.get(self.variables[name][1].text)
        return None


def find_member(interface: Interface, name: str) -> Optional[Member]:
    return next((member for member in interface.members if member.name.text == name), None)


def references(value: Optional[Sum]) -> Iterator[Reference]:
    """All `owner.member` in a sum, from left to right."""
    if value is None or isinstance(value, Literal):
        return
    if isinstance(value, Reference):
        yield value
    elif isinstance(value, Operation):
        # A long sum groups to the left: it is walked without recursion on that side.
        rights = []
        while isinstance(value, Operation):
            rights.append(value.right)
            value = value.left
        for part in [value] + rights[::-1]:
            yield from references(part)
    elif isinstance(value, (Conversion, Negation)):
        yield from references(value.inner)


def declaration(member: Member) -> str:
    if member.sort == 'action':
        return f'action {member.name.text} ( {member.kind} )'
    return f'{member.sort} {member.name.text} : {member.kind}'


class NameCheck(Earliest):
    def __init__(self, source: Source, file: File) -> None:
        super().__init__(source)
        self.file = file
        self.scope = Scope(file)

    def first(self) -> Optional[Fault]:
        self.repeated('interface', [interface.name for interface in self.file.interfaces])
        for interface in self.file.interfaces:
            self.members(interface)
        self.repeated('entity', [entity.name for entity in self.file.entities])
        for entity in self.file.entities:
            self.entity(entity)
        for rule in self.file.rules:
            self.rule(rule)
        return self.fault

    # Declared again

    def repeated(self, sort: str, names: Sequence[Word]) -> None:
        first: Dict[str, Word] = {}
        for name in names:
            if first.setdefault(name.text, name) is name:
                continue
            place = self.source.at(first[name.text].offset)
            self.add(15, name.offset, f'The {sort} {tick(name.text)} is declared again: the first one stands in {place}.',
                     'Give one of them another name.')

    def members(self, interface: Interface) -> None:
        first: Dict[str, Member] = {}
        for member in interface.members:
            earlier = first.setdefault(member.name.text, member)
            if earlier is member:
                continue
            place = self.source.at(earlier.name.offset)
            self.add(15, member.name.offset,
                     f'{tick(member.name.text)} is declared again in the interface {tick(interface.name.text)}: '
                     f'{tick(declaration(earlier))} stands in {place}.',
                     'Attributes, events and actions of one interface all have different names.')

    # Entities

    def entity(self, entity: Entity) -> None:
        interface = self.scope.interfaces.get(entity.interface.text)
        if interface is None:
            self.unknown_interface(entity.interface)
        first: Dict[str, Word] = {}
        for assignment in entity.assignments:
            name = assignment.attribute
            if first.setdefault(name.text, name) is not name:
                self.add(15, name.offset, f'{tick(name.text)} is set again in the entity {tick(entity.name.text)}: '
                         f'it is already set in {self.source.at(first[name.text].offset)}.', 'Each attribute is set once: leave one of them out.')
            if interface is not None:
                self.member_wanted(name, interface, ('attribute',), 'only attributes are set in an entity')
        if interface is not None:
            self.unset(entity, interface, first)

    def unset(self, entity: Entity, interface: Interface, assigned: Dict[str, Word]) -> None:
        missing = [member for member in interface.members if member.sort == 'attribute' and member.name.text not in assigned]
        if not missing:
            return
        names = listed([f'{tick(member.name.text)} ({member.kind})' for member in missing], 'and')
        noun, verb = ('attribute', 'is') if len(missing) == 1 else ('attributes', 'are')
        places = listed([self.source.at(member.name.offset) for member in missing], 'and')
        example = ' '.join(f'{member.name.text} = {EXAMPLES[member.kind]}' for member in missing)
        self.add(17, entity.close, f'The entity {tick(entity.name.text)} closes here, but its {noun} {names} {verb} not set.',
                 *folded(f'The interface {tick(interface.name.text)} declares {"it" if len(missing) == 1 else "them"} in {places}.'),
                 *folded(f'Set {"it" if len(missing) == 1 else "them"} before this `}}`, for example {tick(example)}.'))

    # Rules

    def rule(self, rule: Rule) -> None:
        scope = Scope(self.file, rule)
        declared: Dict[str, Word] = {}
        for item in rule.items():
            self.place(item, scope, declared)
            self.item(item, scope)

    def place(self, item: Union[Clause, Call], scope: Scope, declared: Dict[str, Word]) -> None:
        name, interface = item.place.name, item.place.interface
        if interface is None:
            if not scope.knows(name.text):
                self.unknown_place(name, scope, item.name.text, 'from' if isinstance(item, Clause) else 'on')
            return
        if interface.text not in scope.interfaces:
            self.unknown_interface(interface)
        if name.text in scope.entities:
            place = self.source.at(scope.entities[name.text].name.offset)
            self.add(15, name.offset, f'{tick(name.text)} is declared again, here as a variable: it is an entity, declared in {place}.',
                     f'If the entity is meant, write {tick(name.text)} alone, without {tick(": " + interface.text)}; '
                     'for a variable choose another name.')
        elif name.text in declared:
            place = self.source.at(declared[name.text].offset)
            self.add(15, name.offset, f'The variable {tick(name.text)} is declared again in this rule: the first time in {place}.',
                     f'If the same one is meant, write {tick(name.text)} alone here; if not, choose another name.')
        declared.setdefault(name.text, name)

    def item(self, item: Union[Clause, Call], scope: Scope) -> None:
        interface = scope.interface_of(item.place.name.text)
        owner = item.place.name.text
        if isinstance(item, Clause):
            if interface is not None:
                self.member_wanted(item.name, interface, ('event', 'action'), 'a clause asks for an event or an action', owner)
            self.sum(item.value, scope)
        else:
            if interface is not None:
                self.member_wanted(item.name, interface, ('action',), 'a call fires an action', owner)
            self.sum(item.parameter, scope)
        if item.filter is None:
            return
        if interface is not None:
            self.member_wanted(item.filter.attribute, interface, ('attribute',), '`with` looks at an attribute', owner)
        self.sum(item.filter.value, scope)

    def sum(self, value: Optional[Sum], scope: Scope) -> None:
        for reference in references(value):
            if not scope.knows(reference.owner.text):
                self.unknown_place(reference.owner, scope, reference.member.text)
                continue
            interface = scope.interface_of(reference.owner.text)
            if interface is not None:
                self.member_wanted(reference.member, interface, ('attribute', 'event', 'action'), '', reference.owner.text)

    # Unknown, or of the wrong sort

    def unknown_interface(self, name: Word) -> None:
        if not self.wants(name.offset):
            return
        says = [f'The interface {tick(name.text)} is unknown.']
        entity = self.scope.entities.get(name.text)
        near = did_you_mean(name.text, self.scope.interfaces)
        if entity and entity.interface.text in self.scope.interfaces:
            says.append(f'{tick(name.text)} is an entity, declared in {self.source.at(entity.name.offset)}; '
                        f'its interface is {tick(entity.interface.text)}.')
        elif near:
            says.append(f'Did you mean {tick(near)}?')
        says += self.there_are('Interfaces of this file', self.scope.interfaces)
        self.add(16, name.offset, *says)

    @staticmethod
    def there_are(what: str, names: Sequence[str]) -> List[str]:
        return folded(f'{what}: ' + (listed(ticks(names), 'and') or 'none') + '.')

    def unknown_place(self, name: Word, scope: Scope, member: str, before: str = '') -> None:
        """A name of no entity or variable, whose member is asked for; before is `from` or `on`, or nothing in a sum."""
        if not self.wants(name.offset):
            return
        if name.text in scope.interfaces:
            self.add(16, name.offset, *self.interface_as_place(name.text, scope, member, before), *self.known_places(scope))
            return
        says = [f'{tick(name.text)} is unknown: it is neither an entity nor a variable of this rule.']
        elsewhere = next((item.place for rule in self.file.rules for item in rule.items()
                          if item.place.interface and item.place.name.text == name.text), None)
        near = did_you_mean(name.text, list(scope.entities) + list(scope.variables))
        if elsewhere and elsewhere.interface:
            says.append(f'Another rule has a variable of this name ({self.source.line(elsewhere.name.offset)}). Each rule declares its own: '
                        f'{tick(name.text + " : " + elsewhere.interface.text)} behind `from` or `on`.')
        elif near:
            says.append(f'Did you mean {tick(near)}?')
        else:
            says.append(self.how_to_declare(name.text, scope, member, before))
        self.add(16, name.offset, *says, *self.known_places(scope))

    def known_places(self, scope: Scope) -> List[str]:
        variables = self.there_are('Variables of this rule', scope.variables) if scope.variables else []
        return self.there_are('Entities of this file', scope.entities) + variables

    @staticmethod
    def how_to_declare(name: str, scope: Scope, member: str, before: str) -> str:
        """For a name that is like no other."""
        sorts = {'from': ('event', 'action'), 'on': ('action',)}.get(before, MEMBER_SORTS)
        having = next((one.name.text for one in scope.interfaces.values() for found in one.members
                       if found.name.text == member and found.sort in sorts), '..')
        variable = f'{name} : {having}'
        how = f'for any device of an interface write {tick(f"{before} {variable}")}' if before else \
            f'a variable is declared behind `from` or `on`, as in {tick(variable)}'
        return f'An entity is declared before `rules`, and named here as it is declared; {how}.'

    @staticmethod
    def interface_as_place(name: str, scope: Scope, member: str, before: str) -> List[str]:
        own = [entity.name.text for entity in scope.entities.values() if entity.interface.text == name]
        one = f'Name one of its entities ({listed(ticks(own), "or")})' if own else 'Name an entity'
        variable = next(letter for letter in FREE_VARIABLES if not scope.knows(letter))
        declared = f'{variable} : {name}'
        if before:
            how = f'or declare a variable for all of them, as in {tick(f"{before} {declared}")}.'
        else:
            how = (f'or take a variable: it is declared behind `from` or `on`, as in {tick(declared)}, and used in the sum by its name, '
                   f'as in {tick(f"{variable}.{member}")}.')
        return [f'{tick(name)} is an interface, and an entity is wanted here.', f'{one}, {how}']

    def member_wanted(self, name: Word, interface: Interface, sorts: Sequence[str], why: str, owner: str = '') -> None:
        """The name has to be a member of this interface, of one of these sorts; if not, that is a fault."""
        found = find_member(interface, name.text)
        if found and found.sort in sorts or not self.wants(name.offset):
            return
        own = tick(interface.name.text)
        noun = 'member' if len(sorts) == 3 else listed(sorts, 'or')
        whose = f'{tick(owner)} is of the interface {own}, which' if owner else f'The interface {own}'
        fitting = [member.name.text for member in interface.members if member.sort in sorts]
        near = did_you_mean(name.text, fitting)
        if found:
            says = [f'{tick(name.text)} is unknown as {a(noun)}: it is {a(found.sort)} of the interface {own}, '
                    f'declared in {self.source.at(found.name.offset)}.', why[:1].upper() + why[1:] + '.']
        else:
            says = [f'{tick(name.text)} is unknown here. {whose} has no such {noun}.']
        if near:
            says.append(f'Did you mean {tick(near)}?')
        elif not found:
            says += self.elsewhere(name.text, interface, sorts)
        self.add(16, name.offset, *says, *self.members_of(interface))

    def elsewhere(self, name: str, interface: Interface, sorts: Sequence[str]) -> List[str]:
        """Another interface that has such a member: most often the wrong entity is named."""
        for other in self.scope.interfaces.values():
            member = find_member(other, name) if other is not interface else None
            if member and member.sort in sorts:
                return [f'{tick(name)} is {a(member.sort)} of the interface {tick(other.name.text)}.']
        return []

    @staticmethod
    def members_of(interface: Interface) -> List[str]:
        head = f'Members of {tick(interface.name.text)}:'
        if not interface.members:
            return [head + ' none.']
        return [head] + ['  ' + declaration(member) for member in interface.members]


def name_fault(source: Source, file: File) -> Optional[Fault]:
    return NameCheck(source, file).first()

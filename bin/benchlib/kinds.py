"""Kinds of a bench file whose names are all right: where two kinds do not fit (18)."""

from typing import Optional, Tuple

from .grammar import Conversion, Entity, File, Filter, Literal, Negation, Operation, Reference, Rule, Sum
from .names import Scope, find_member
from .phrases import EXAMPLES, Earliest, Fault, Source, a, tick

Kind = Optional[str]  # None where a fault lies inside


def inner_span(value: Sum) -> Tuple[int, int]:
    """Where a sum stands without the parentheses around it."""
    if isinstance(value, Operation):
        return value.left.start, value.right.end
    if isinstance(value, Reference):
        return value.owner.offset, value.member.end
    if isinstance(value, Negation):
        return value.offset, value.inner.end
    return value.start, value.end


class KindCheck(Earliest):
    def __init__(self, source: Source, file: File) -> None:
        super().__init__(source)
        self.file = file

    def first(self) -> Optional[Fault]:
        scope = Scope(self.file)
        for entity in self.file.entities:
            self.entity(entity, scope)
        for rule in self.file.rules:
            self.rule(rule, Scope(self.file, rule))
        return self.fault

    def unfit(self, offset: int, where: str, *says: str) -> None:
        self.add(18, offset, f'The kinds do not fit at this {where}.', *says)

    # Where kinds meet

    def entity(self, entity: Entity, scope: Scope) -> None:
        for assignment in entity.assignments:
            self.equal(assignment.equals, entity.name.text, assignment.attribute.text, assignment.value, scope)

    def rule(self, rule: Rule, scope: Scope) -> None:
        for clause in rule.clauses:
            owner = clause.place.name.text
            self.filter(clause.filter, owner, scope)
            if clause.value is not None:
                self.equal(clause.equals, owner, clause.name.text, clause.value, scope)
        for call in rule.calls:
            owner = call.place.name.text
            self.parameter(call.open, owner, call.name.text, call.parameter, scope)
            self.filter(call.filter, owner, scope)

    def filter(self, filtered: Optional[Filter], owner: str, scope: Scope) -> None:
        if filtered is not None:
            self.equal(filtered.equals, owner, filtered.attribute.text, filtered.value, scope)

    def member_kind(self, owner: str, member: str, scope: Scope) -> Kind:
        interface = scope.interface_of(owner)
        found = find_member(interface, member) if interface else None
        return found.kind if found else None

    def declared(self, owner: str, member: str, scope: Scope) -> str:
        interface = scope.interface_of(owner)
        found = find_member(interface, member) if interface else None
        return f'declared in {self.source.at(found.name.offset)}' if found else 'declared above'

    def equal(self, offset: int, owner: str, member: str, value: Sum, scope: Scope) -> None:
        right = self.kind(value, scope)
        left = self.member_kind(owner, member, scope)
        if left is None or right is None or left == right or not self.wants(offset):
            return
        self.unfit(offset, '`=`', f'The left side {tick(f"{owner}.{member}")} is {a(left)} ({self.declared(owner, member, scope)}), '
                 f'the right side {self.quoted(value)} is {a(right)}.', self.advice(left, right, value))

    def parameter(self, offset: int, owner: str, action: str, value: Sum, scope: Scope) -> None:
        given = self.kind(value, scope)
        taken = self.member_kind(owner, action, scope)
        if taken is None or given is None or taken == given or not self.wants(offset):
            return
        self.unfit(offset, '`(` of a call', f'The action {tick(action)} takes {a(taken)} ({self.declared(owner, action, scope)}), '
                 f'but {self.quoted(value)} is {a(given)}.', self.advice(taken, given, value))

    # Kinds of sums

    def kind(self, value: Sum, scope: Scope) -> Kind:
        if isinstance(value, Literal):
            return value.kind
        if isinstance(value, Reference):
            return self.member_kind(value.owner.text, value.member.text, scope)
        if isinstance(value, Conversion):
            return self.conversion(value, scope)
        if isinstance(value, Negation):
            return self.negation(value, scope)
        return self.operations(value, scope)

    def conversion(self, value: Conversion, scope: Scope) -> Kind:
        inner = self.kind(value.inner, scope)
        if inner is None or inner == 'whole':
            return inner and 'real'
        if not self.wants(value.offset):
            return None
        advice = 'It is a real already: leave `real` and its parentheses out.' if inner == 'real' else 'A bool cannot be turned into a number.'
        self.unfit(value.offset, '`real`', f'`real` takes a whole, but {self.quoted(value.inner)} is {a(inner)}.', advice)
        return None

    def negation(self, value: Negation, scope: Scope) -> Kind:
        inner = self.kind(value.inner, scope)
        if inner != 'bool':
            return inner
        if not self.wants(value.offset):
            return None
        self.unfit(value.offset, '`-`', f'`-` takes a whole or a real, but {self.quoted(value.inner)} is a bool.')
        return None

    def operations(self, value: Operation, scope: Scope) -> Kind:
        """A long sum groups to the left: it is walked without recursion on that side."""
        chain = []
        left: Sum = value
        while isinstance(left, Operation):
            chain.append(left)
            left = left.left
        kind = self.kind(left, scope)
        for step in reversed(chain):
            kind = self.operation(step, kind, self.kind(step.right, scope))
        return kind

    def operation(self, step: Operation, left: Kind, right: Kind) -> Kind:
        if 'bool' not in (left, right) and (left is None or right is None or left == right):
            return left and right
        if not self.wants(step.offset):
            return None
        sides = [(side, part, kind) for side, part, kind in (('left', step.left, left), ('right', step.right, right)) if kind]
        says = ', '.join(f'the {side} side {self.quoted(part)} is {a(kind)}' for side, part, kind in sides)
        if 'bool' in (left, right):
            advice = f'{tick(step.mark)} takes two wholes or two reals, never a bool.'
        else:
            side, whole = ('left', step.left) if left == 'whole' else ('right', step.right)
            advice = f'{tick(step.mark)} takes two wholes or two reals. ' + self.as_real(whole, f'the {side} side')
        self.unfit(step.offset, tick(step.mark), says[:1].upper() + says[1:] + '.', advice)
        return None

    # What to do

    def quoted(self, value: Sum) -> str:
        return tick(value.text) if isinstance(value, Literal) else self.source.quote(value.start, value.end)

    def as_real(self, value: Sum, what: str) -> str:
        """How a whole is made a real."""
        if isinstance(value, Literal):
            return f'Write {tick(value.text + "r")}: with `r` behind it a number is a real.'
        inner = self.source.quote(*inner_span(value)).strip('`')
        return f'{tick(f"real ( {inner} )")} makes a real of {what}.'

    def advice(self, wanted: str, given: str, value: Sum) -> str:
        """How this value can be had in the kind that is wanted."""
        if wanted == 'real' and given == 'whole':
            return self.as_real(value, 'it')
        if wanted == 'whole' and given == 'real':
            if isinstance(value, Literal):
                return f'Write {tick(value.text[:-1])}: without `r` a number is a whole.'
            return 'A real cannot be turned into a whole: take wholes here, or declare the left side or the action as a real.'
        if wanted == 'bool':
            return 'A bool is `true` or `false`, or a member of that kind.'
        return f'A bool is no number, and none can be made of it: give {a(wanted)}, such as {tick(EXAMPLES[wanted])}.'


def kind_fault(source: Source, file: File) -> Optional[Fault]:
    return KindCheck(source, file).first()

"""Ranks (44) and counts (14) of a grammatical bench file."""

from typing import Iterator, List, NamedTuple, Optional

from .grammar import File, Rule
from .phrases import Fault, Source, tick
from .tokens import Word

HIGHEST_RANK = 9
MOST_INTERFACES = 16
MOST_MEMBERS = 12
MOST_ENTITIES = 32
MOST_RULES = 64
MOST_VARIABLES = 3
MOST_CLAUSES = 8
MOST_CALLS = 8


def rank_fault(file: File) -> Optional[Fault]:
    for rule in file.rules:
        if rule.rank and int(rule.rank.text) > HIGHEST_RANK:
            rank = int(rule.rank.text)
            return Fault(44, rule.rank.offset, [f'This rank is above 9: it is {rank}, and a rule has a rank of 0 to 9.'])
    return None


class Count(NamedTuple):
    items: List[Word]  # the word at which each is counted
    most: int
    noun: str
    subject: str  # whose items these are
    holder: str  # what such a thing is called
    advice: str = ''


def _rule_counts(source: Source, rule: Rule) -> Iterator[Count]:
    subject = f'The rule that begins in {source.line(rule.word.offset)}'
    variables = [item.place.name for item in rule.items() if item.place.interface]
    yield Count([clause.word for clause in rule.clauses], MOST_CLAUSES, 'clauses', subject, 'a rule',
                'Clauses that are joined by `or` can stand in two rules with the same calls.')
    yield Count([call.word for call in rule.calls], MOST_CALLS, 'calls', subject, 'a rule',
                'Write a second rule with the same condition for the other calls.')
    yield Count(variables, MOST_VARIABLES, 'variables', subject, 'a rule',
                'Where one device alone is meant, name the entity; where the same device is meant again, write the variable without its interface.')


def _counts(source: Source, file: File) -> Iterator[Count]:
    yield Count([one.word for one in file.interfaces], MOST_INTERFACES, 'interfaces', 'This file', 'a bench file')
    for interface in file.interfaces:
        subject = f'The interface {tick(interface.name.text)}'
        yield Count([one.word for one in interface.members], MOST_MEMBERS, 'members', subject, 'an interface',
                    'Move some of them to another interface with an entity of its own.')
    yield Count([one.word for one in file.entities], MOST_ENTITIES, 'entities', 'This file', 'a bench file',
                'Leave out those that no rule needs, or make one entity of several devices, with a member for each.')
    yield Count([one.word for one in file.rules], MOST_RULES, 'rules', 'This file', 'a bench file')
    for rule in file.rules:
        yield from _rule_counts(source, rule)


def count_fault(source: Source, file: File) -> Optional[Fault]:
    beyond = [count for count in _counts(source, file) if len(count.items) > count.most]
    if not beyond:
        return None
    first = min(beyond, key=lambda count: count.items[count.most].offset)
    says = [
        f'This is the first item beyond the count: {first.holder} has {first.most} {first.noun} at most.',
        f'{first.subject} has {len(first.items)}. {first.advice}'.strip(),
    ]
    return Fault(14, first.items[first.most].offset, says)

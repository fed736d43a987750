"""A word that cannot follow the words before it (13): what could stand there, what is still open, and which slip it may be."""

from typing import Callable, List, Optional, Tuple

from .grammar import A_NAME, A_NUMBER, A_RANK, MEMBER_SORTS, MOST_OPENERS, THE_END, Misplaced, Open, kind_of_number, read_file
from .phrases import EXAMPLES, Source, a, cut, listed, tick
from .suggest import did_you_mean
from .tokens import END, GREATEST_NUMBER, KINDS, MARK, MARKS, NAME, NUMBER, RESERVED, RESERVED_WORD, Word

OPERATORS = ('+', '-', '*', '/')
AN_OPERATOR = 'an operator (`+`, `-`, `*`, `/`)'
VALUES = (A_NAME, A_NUMBER, 'true', 'false')
LITERALS = ('-', A_NUMBER, 'true', 'false')
CLOSERS = (')', '}')
MISSING = '..'  # in a quotation, what the text does not have
ON_AND_OFF = 'A bool is `true` or `false`: write `true` for on and `false` for off.'
LOOK_AHEAD = 8  # words that have to go on well before a repair is told
MOST_REPAIRS = 2  # more would not help

KIND_WORDS = {
    'whole': 'int integer long short byte number int32 int64 i32 i64 uint unsigned count'.split(),
    'real': 'float double decimal float64 float32 f64 f32'.split(),
    'bool': 'boolean logical flag bit'.split(),
}

# Words of other languages, and the word that stands for them here.
OTHER_WORDS = {
    'if': 'when', 'whenever': 'when', 'then': 'trigger', 'do': 'trigger', 'does': 'trigger', 'fire': 'trigger',
    'triggers': 'trigger', 'change': 'changed', 'changes': 'changed', 'where': 'with', 'having': 'with', 'is': '=', 'equals': '=',
    'eq': '=', 'set': 'action', 'call': 'action', 'device': 'entity', 'object': 'entity', 'instance': 'entity', 'class': 'interface',
    'type': 'interface', 'struct': 'interface', 'begin': 'rules', 'rule': 'when', 'priority': 'rank', 'property': 'attribute',
    'const': 'attribute', 'field': 'attribute', 'input': 'event', 'signal': 'event', 'reading': 'event', 'output': 'action',
    'endrule': 'end', 'done': 'end', 'fi': 'end', 'plus': '+', 'minus': '-', 'times': '*', 'yes': 'true', 'no': 'false',
}
FOREIGN = {
    'not': 'There is no `not`: of a bool ask for the other value, as in `value = false`.',
    'else': 'There is no `else`: write a rule of its own for the other case.',
    'elif': 'There is no `elif`: write a rule of its own for the other case.',
    'xor': 'There is no `xor`: join clauses by `and` and `or`.',
    'all': 'There is no `all`: a clause asks one entity, or each one by a variable, as in `l : Lamp`.',
    'groupby': 'There is no `groupby`.',
    'of': 'There is no `of`: an interface has its own members alone.',
    'extends': 'There is no `extends`: an interface has its own members alone.',
    'import': 'There is no `import`: a bench file stands for itself.',
    'include': 'There is no `include`: a bench file stands for itself.',
    'var': 'There are no variables but those of places, as in `event warm from l : Lamp`.',
    'let': 'There are no variables but those of places, as in `event warm from l : Lamp`.',
}


class Slip:
    """The misplaced word with what stands around it."""

    def __init__(self, source: Source, fault: Misplaced) -> None:
        self.source = source
        self.file = fault.file
        self.words = fault.words
        self.index = fault.index
        self.wanted = fault.wanted
        self.opened = fault.opened
        self.too_deep = fault.too_deep

    @property
    def word(self) -> Word:
        return self.words[self.index]

    @property
    def text(self) -> str:
        return self.word.text

    def near(self, distance: int) -> Word:
        """The word so many places on, or back if negative; END where there is none."""
        at = self.index + distance
        return self.words[at] if 0 <= at < len(self.words) else self.words[-1]

    @property
    def before(self) -> Word:
        return self.near(-1) if self.index else Word(0, END, '')

    def adjoins(self) -> bool:
        """Whether no blank stands before it."""
        return self.index > 0 and self.before.end == self.word.offset

    @property
    def within(self) -> str:
        return self.opened[-1].sort if self.opened else ''

    def innermost(self, *sorts: str) -> Optional[Open]:
        return next((one for one in reversed(self.opened) if one.sort in sorts), None)

    def wants(self, *words: str) -> bool:
        return all(word in self.wanted for word in words)

    def wants_only(self, *words: str) -> bool:
        return set(self.wanted) == set(words)

    def reach(self, replacement: List[Word], dropped: int) -> int:
        """How many words further on it reads well if these words stand here in the place of so many."""
        rest = self.words[self.index + dropped:-1][:LOOK_AHEAD]
        whole = self.index + dropped + LOOK_AHEAD >= len(self.words) - 1
        try:
            read_file(self.words[:self.index] + replacement + rest, self.words[-1].offset)
        except Misplaced as fault:
            if fault.words[fault.index].sort == END and not whole:
                return LOOK_AHEAD
            return max(0, min(LOOK_AHEAD, fault.index - self.index - len(replacement)))
        return LOOK_AHEAD + 1


# What is wanted

def expected(wanted: List[str]) -> str:
    """What could stand here, short: values and names, words, marks with the closing ones last, operators."""
    rest = list(dict.fromkeys(wanted))
    parts: List[str] = []
    if all(one in rest for one in VALUES):
        parts.append('a value' + (' or a sum' if '(' in rest else '') + ' (such as `5`, `2r`, `true` or `entity.member`)')
        rest = [one for one in rest if one not in VALUES + ('real', '(', '-')]
    elif all(one in rest for one in LITERALS):
        parts.append('a number, with or without `-`, `true` or `false`')
        rest = [one for one in rest if one not in LITERALS]
    operators = all(one in rest for one in OPERATORS)
    if operators:
        rest = [one for one in rest if one not in OPERATORS]
    parts += [one for one in rest if one in (A_NAME, A_NUMBER, A_RANK, THE_END)]
    parts += [tick(one) for one in rest if one in RESERVED]
    parts += [tick(one) for one in rest if one in MARKS and one not in CLOSERS] + [tick(one) for one in rest if one in CLOSERS]
    if operators:
        parts.append(AN_OPERATOR)
    return 'Expected here: ' + listed(parts, 'or') + '.'


def still_open(slip: Slip) -> List[str]:
    """What has begun and is not closed at the end of the text, innermost first."""
    says = []
    for one in reversed(slip.opened):
        place = slip.source.line(one.word.offset)
        braced = any(word.text == '{' and word.offset > one.word.offset for word in slip.words)
        if one.sort == '(':
            says.append(f'The `(` in {slip.source.at(one.word.offset)} is not closed: `)` is missing.')
        elif one.sort in ('interface', 'entity'):
            says.append(f'The {one.sort} {tick(one.name)} that begins in {place} is not closed: `}}` is missing.' if braced
                        else f'The {one.sort} that begins in {place} is not complete.')
        elif one.sort == 'rule':
            says.append(f'The rule that begins in {place} is not closed: its `end` is missing.')
        elif one.sort == 'rules':
            says.append(f'The rules that begin in {place} are not closed: behind the last rule one more `end` closes the file.')
        elif one.sort in ('clause', 'call'):
            says.append(f'The {one.sort} that begins in {place} is not complete.')
    return says


# Slips: each gives its sentence, or nothing if it is not this one.

def too_deep(slip: Slip) -> str:
    if not slip.too_deep:
        return ''
    return (f'It stands inside {MOST_OPENERS} others, and that is the most: `(`, `real` and `-` may enclose one another '
            f'{MOST_OPENERS} deep. Take some of them away.')


def no_words(slip: Slip) -> str:
    if len(slip.words) > 1:
        return ''
    return 'There is no word in the file. The shortest bench file is `rules end`.'


def other_file(slip: Slip) -> str:
    if slip.index > 0:
        return ''
    if slip.text == 'by' or slip.text == 'n' and slip.near(1).sort == NAME:
        return 'This looks like a file of readings: readings stand in readings.txt, and this is the bench file.'
    return ''


def equals_signs(slip: Slip) -> str:
    if slip.text == '=' and slip.before.text == '=':
        return 'One `=` is enough: there is no `==`.'
    if slip.text == '=' and slip.before.text == ':' or slip.text == ':' and slip.near(1).text == '=':
        return 'Write `=` alone: there is no `:=`.'
    if slip.text == '=' and slip.before.text in OPERATORS:
        return f'There is no {tick(slip.before.text + "=")}.'
    return ''


def foreign_comment(slip: Slip) -> str:
    around = (slip.before.text + slip.text) if slip.adjoins() else ''
    follows = slip.text + slip.near(1).text if slip.near(1).offset == slip.word.end else ''
    if around in ('//', '/*') or follows in ('//', '/*', '--'):
        return 'A comment begins with `#` and goes to the end of the line.'
    return ''


def behind_the_end(slip: Slip) -> str:
    if not slip.wants_only(THE_END):
        return ''
    closed = f'The `end` in {slip.source.at(slip.before.offset)} closed the rules, and with them the file'
    count = min(LOOK_AHEAD, slip.index)
    if [word.text for word in slip.words[:count]] == [word.text for word in slip.words[slip.index:slip.index + count]]:
        return f'{closed}. The same words as at its beginning follow: perhaps it stands here twice. Leave one of the two out.'
    if slip.text in ('interface', 'entity'):
        return f'{closed}. Interfaces and entities stand before `rules`.'
    if slip.text == 'when':
        return f'{closed}: before this rule there is one `end` too many.'
    if slip.text == 'end':
        return f'{closed}: this is one `end` too many. Each rule has one, and the rules together have one more.'
    return f'{closed}: nothing may follow but comments.'


def order_of_parts(slip: Slip) -> str:
    if slip.text == 'interface' and slip.wants('entity', 'rules'):
        return 'Interfaces stand before all entities: move it up.'
    if slip.text in ('interface', 'entity') and slip.wants('when', 'end'):
        return 'Interfaces and entities stand before `rules`: move it up.'
    if slip.text in MEMBER_SORTS and slip.within == 'interface' and slip.wants('}'):
        return f'In an interface attributes come first, then events, then actions: move this {slip.text} up.'
    if slip.text == 'when' and slip.wants('rules'):
        return '`rules` is missing before the first rule.'
    if slip.text == 'trigger' and slip.wants('when', 'end'):
        return 'A rule begins with `when` and its condition: `trigger` and the calls stand behind them.'
    if slip.text == 'rules' and slip.wants('when', 'end'):
        return '`rules` stands once, before the first rule.'
    return ''


def kind_word(slip: Slip) -> str:
    if not slip.wants(*KINDS):
        return ''
    if slip.text.lower() in ('string', 'text', 'str', 'char', 'varchar'):
        return 'There are no texts: the kinds are `whole`, `bool` and `real`.'
    found = next((kind for kind, words in KIND_WORDS.items() if slip.text.lower() in words), '')
    found = found or did_you_mean(slip.text, KINDS)
    return f'Did you mean {tick(found)}?' if found else ''


def reserved_as_name(slip: Slip) -> str:
    if slip.word.sort != RESERVED_WORD or not slip.wants(A_NAME):
        return ''
    as_name = slip.reach([Word(slip.word.offset, NAME, 'x')], 1)
    name_missing = slip.reach([Word(slip.word.offset, NAME, 'x')], 0)
    if as_name < 1 or as_name < name_missing:
        return ''
    readings = ', also in the readings' if slip.before.text in ('event', 'entity') else ''
    return f'{tick(slip.text)} is a reserved word, never a name: choose another name, such as {tick(slip.text + "1")}, everywhere{readings}.'


def number_for_name(slip: Slip) -> str:
    if slip.word.sort != NUMBER or not slip.wants_only(A_NAME):
        return ''
    following = slip.near(1)
    run = slip.text + (following.text if following.offset == slip.word.end and following.sort != MARK else '')
    return f'{tick(cut(run))} is no name: a name begins with a letter.'


def decimal_number(slip: Slip) -> str:
    point = slip.text in '.,' and slip.before.sort == NUMBER and slip.adjoins()
    following = slip.near(1)
    if not point or following.sort != NUMBER or following.offset != slip.word.end:
        return ''
    written = slip.before.text + slip.text + following.text
    units, places = slip.before.text.rstrip('r'), following.text.rstrip('r')
    digits, parts = (units + places).lstrip('0') or '0', '1' + '0' * len(places)
    thousands = ''
    if len(places) == len('000') and not units.startswith('0') and int(digits) <= GREATEST_NUMBER:
        thousands = f' If {tick(slip.text)} parts thousands, leave it out: {tick(written.replace(slip.text, ""))}.'
    if not places.strip('0'):
        return f'A number has no decimal places: write {tick(units + "r")}.' + thousands
    if slip.innermost('entity'):
        return f'{tick(written)} cannot be written: a value has no decimal places. Choose a smaller unit, and divide in the rules.' + thousands
    if max(int(digits), int(parts)) > GREATEST_NUMBER:
        return 'A number has no decimal places. Write a quotient of reals with fewer digits, as `( 5r / 10r )` for 0.5.'
    # With parentheses, so that it can stand behind any operator.
    return f'A number has no decimal places. Write a quotient of reals: {tick(f"( {digits}r / {parts}r )")} is {units}.{places}.' + thousands


def parted_r(slip: Slip) -> str:
    """`1000 r`; in an entity the `r` is taken for the next attribute."""
    says = '`r` stands right behind the digits: '
    if slip.text == 'r' and slip.before.sort == NUMBER and not slip.before.text.endswith('r'):
        return says + tick(slip.before.text + 'r') + '.'
    number = slip.near(-2)
    if slip.within != 'assignment' or not slip.wants_only('=') or slip.before.text != 'r' or number.sort != NUMBER or number.text.endswith('r'):
        return ''
    if any(member.name.text == 'r' for interface in slip.file.interfaces for member in interface.members):
        return ''
    return says + tick(number.text + 'r') + '.'


def turned_kind(slip: Slip) -> str:
    """`whole ( .. )`"""
    if slip.text not in ('whole', 'bool') or not slip.wants(A_NUMBER) or slip.near(1).text != '(':
        return ''
    why = 'a real cannot be turned into a whole' if slip.text == 'whole' else 'a number cannot be turned into a bool'
    return f'There is no {tick(slip.text + " ( .. )")}: {why}, and what is {a(slip.text)} already stands as it is. Leave the word {tick(slip.text)} out.'


def word_behind_number(slip: Slip) -> str:
    if slip.before.sort != NUMBER or slip.word.sort not in (NAME, RESERVED_WORD) or not slip.adjoins():
        return ''
    together = slip.before.text + slip.text
    return (f'{tick(cut(together))} is read as {tick(slip.before.text)} and {tick(cut(slip.text))}: '
            'a number has digits, and `r` if it is a real, but no unit and no exponent.')


def rank(slip: Slip) -> str:
    if slip.wants(A_RANK):
        if slip.word.sort == NUMBER:
            return 'A rank is a plain number from 0 to 9, without `r`.'
        if slip.text in ('=', ':', '('):
            return 'The number follows at once, as in `when rank 3 event ..`.'
        return 'A rank is a plain number from 0 to 9, as in `when rank 3 event ..`.'
    if slip.near(-2).text == 'rank' and slip.before.sort == NUMBER and slip.text in ('.', ',', 'r'):
        return 'A rank is a plain number from 0 to 9, without decimal places and without `r`.'
    if slip.text == 'rank':
        return '`rank` stands right behind `when`, as in `when rank 3 event ..`.'
    return ''


def whole_rule(slip: Slip) -> str:
    rule = slip.innermost('rule')
    if rule is None:
        return ''
    place = slip.source.line(rule.word.offset)
    if slip.before.text == 'trigger' and slip.text in ('end', 'when'):
        return 'A rule has one call at least: `trigger action .. ( .. ) on ..`.'
    if slip.text == 'trigger' and slip.wants('event'):
        return 'A clause is missing before `trigger`, as in `event .. from .. value changed`.'
    if slip.text == 'end' and slip.before.text == ',':
        return 'Behind `,` comes another call: add it, or leave the `,` out.'
    if slip.text == 'when' and slip.wants('end'):
        return f'The rule that begins in {place} is not closed: `end` is missing before this `when`.'
    if slip.text == 'end' and slip.wants('trigger'):
        return f'The rule that begins in {place} has no `trigger` with a call.'
    if slip.text == 'when' and slip.reach([], 1) < LOOK_AHEAD and not reserved_as_name(slip):
        return f'The rule that begins in {place} is not complete. Each rule has one `when`.'
    return ''


def dotted_event(slip: Slip) -> str:
    """`event stage.pos` and `action log.keep`"""
    if slip.text != '.' or slip.before.sort != NAME or slip.near(1).sort != NAME:
        return ''
    owner, member = slip.before.text, slip.near(1).text
    if slip.wants_only('from'):
        return f'Write {tick(f"event {member} from {owner}")}.'
    if slip.wants_only('(') and slip.within == 'call':
        return f'Write {tick(f"action {member} ( .. ) on {owner}")}.'
    if slip.near(-2).text == '.':
        return f'{tick(owner)} is a member already: a member has no members of its own.'
    # `from pedal.down`, or `from l : Lamp.down`
    place = slip.near(-4 if slip.near(-2).text == ':' else -2).text
    if place == 'from':
        return f'Leave {tick("." + member)} out: the event\'s name stands before `from`.'
    if place == 'on':
        return f'Leave {tick("." + member)} out: the action\'s name stands before its `(`.'
    return ''


def hyphened_name(slip: Slip) -> str:
    """`entity west-lamp`; in a sum `-` may well be meant."""
    if slip.text != '-' or slip.before.sort != NAME or not slip.adjoins() or slip.wants('.'):
        return ''
    name, at = slip.before.text, 0
    while slip.near(at).text == '-' and slip.near(at + 1).offset == slip.near(at).end and slip.near(at + 1).sort not in (MARK, END):
        name += '_' + slip.near(at + 1).text
        at += 2
        if slip.near(at).offset != slip.near(at - 1).end:
            break
    return f'A name has letters, digits and `_`, but no `-`: write {tick(cut(name))} everywhere.' if at else ''


def bool_words(slip: Slip) -> str:
    """`value = on`, `value = off`, `value = True`"""
    if slip.text == 'on' and slip.wants(A_NUMBER):
        return ON_AND_OFF if slip.before.text == '=' or slip.before.text == '(' and slip.near(1).text == ')' else ''
    if not slip.wants_only('.') or slip.before.sort != NAME:
        return ''
    small = slip.before.text.lower()
    if small in ('true', 'false'):
        return f'{tick(slip.before.text)} is taken for a name: the words of the language have small letters, as {tick(small)}.'
    known = [entity.name.text for entity in slip.file.entities]
    return ON_AND_OFF if small in ('on', 'off') and slip.before.text not in known else ''


def bare_member(slip: Slip) -> str:
    if not slip.wants_only('.') or slip.before.sort != NAME:
        return ''
    name = slip.before.text
    members = {interface.name.text: [one.name.text for one in interface.members] for interface in slip.file.interfaces}
    cells: List[str] = []
    for entity in slip.file.entities:
        own = members.get(entity.interface.text, [])
        cells += [f'{entity.name.text}.{member}' for member in own]
        if entity.name.text == name and own:
            return f'{tick(name)} is an entity. A value is one of its members, as in {tick(f"{name}.{own[0]}")}.'
        if name in own:
            return f'{tick(name)} alone is no value. Name its entity too, as in {tick(f"{entity.name.text}.{name}")}.'
    near = did_you_mean(name, cells)
    if near:
        return f'{tick(name)} alone is no value. Did you mean {tick(near)}?'
    return f'{tick(name)} alone is no value: a value is a number, `true`, `false` or `entity.member`.'


def _event_asked(slip: Slip) -> str:
    """The start of the last clause before it, as in `event pos from stage`, what `with` asks for left open; nothing if there is none."""
    at = max((at for at in range(slip.index) if slip.words[at].text == 'event'), default=slip.index)
    words = [word.text for word in slip.words[at:slip.index]]
    if len(words) < 4 or words[2] != 'from':
        return ''
    return ' '.join(words[:4]) + (' with ..' if 'with' in words else '')


def second_value(slip: Slip) -> str:
    """`value = 1 or 2`"""
    joined = slip.before.text
    if joined not in ('and', 'or') or not slip.wants('event') or not _literal(slip.word, slip.near(1)):
        return ''
    asked = _event_asked(slip)
    return f'Behind {tick(joined)} stands a clause of its own: {tick(f"{asked} value = {_literal(slip.word, slip.near(1))}")}.' if asked else ''


def _literal(word: Word, following: Word) -> str:
    """The literal that begins with this word, or nothing."""
    if word.text == '-':
        return '-' + following.text if following.sort == NUMBER else ''
    return word.text if word.sort == NUMBER or word.text in ('true', 'false') else ''


def clause_words(slip: Slip) -> str:
    literal = _literal(slip.near(1), slip.near(2))
    if slip.text == 'changed' and slip.before.text == '=' and slip.near(-2).text == 'value':
        return 'Write `value changed`, without `=`.'
    if slip.text.lower() in ('is', 'equals', 'eq') and slip.wants('value'):
        return 'Write `value changed`.' if slip.near(1).text == 'changed' else f'Write {tick(f"value = {literal or MISSING}")}.'
    if slip.before.text == 'changed' and slip.text in ('to', '=') and slip.wants('and', 'or'):
        return (f'Behind `changed` stands no value. Write {tick(f"value = {literal or MISSING}")} alone; if it has to be a change too, '
                'join two clauses by `and`, one with `value changed`.')
    if slip.before.text == 'value' and slip.wants('changed'):
        if slip.text.lower() in ('is', 'equals', 'eq'):
            return 'Write `value = ..`.'
        if slip.text.lower() in ('change', 'changes', 'changing'):
            return 'Write `value changed`.'
        value = '5' if slip.word.sort == MARK else cut(slip.text)
        return f'`value` is followed by `changed`, or by `=` and a value, as in {tick(f"value = {value}")}.'
    if slip.text in ('changed', '=') and slip.wants('value'):
        return f'`value` is missing before it: write {tick("value changed" if slip.text == "changed" else "value = ..")}.'
    if slip.text == 'with' and slip.wants('and', 'or'):
        return 'In a clause `with` stands before `value`, as in `event .. from .. with bay = 2 value changed`.'
    if slip.text == 'value' and slip.within == 'call':
        return 'A call has no `value`: what the action gets stands in its parentheses.'
    return ''


def places(slip: Slip) -> str:
    if slip.wants('from') and slip.text in ('on', 'of', 'in', 'at', 'by', 'off'):
        return 'An event comes `from` its place: write `from`.'
    if slip.wants('on') and slip.text in ('from', 'of', 'in', 'at', 'to', 'by'):
        return 'An action is fired `on` its place: write `on`.'
    if slip.text in ('and', 'or', ',') and slip.wants(':', 'with') and slip.near(1).sort == NAME and slip.near(2).text not in ('=', '(', '.'):
        item = 'clause' if slip.wants('value') else 'call'
        return f'A {item} has one place: write a {item} of its own for {tick(cut(slip.near(1).text))}.'
    return ''


def clause_start(slip: Slip) -> str:
    if not slip.wants('event') or slip.innermost('rule') is None:
        return ''
    if slip.text == 'action':
        return 'A clause begins with `event`; what an action was fired with is asked for in the same way, as in `event keep from log value changed`.'
    if slip.word.sort != NAME or slip.text.lower() in FOREIGN:
        return ''
    if slip.near(1).text == '.' and slip.near(2).sort == NAME:
        return f'A clause is written {tick(f"event {slip.near(2).text} from {slip.text} value ..")}.'
    return 'A clause is written `event .. from .. value ..`.' if not _near_word(slip) else ''


def _example_for(slip: Slip, action: str) -> str:
    """A value for the action of this name, open if there is none or if their kinds differ."""
    kinds = {member.kind for interface in slip.file.interfaces for member in interface.members
             if member.sort == 'action' and member.name.text == action}
    return EXAMPLES[kinds.pop()] if len(kinds) == 1 else MISSING


def call_start(slip: Slip) -> str:
    if slip.within == 'call' and slip.wants_only('(') and slip.text == 'on':
        action = slip.before.text
        return f'What the action gets stands in parentheses, as in {tick(f"action {action} ( {_example_for(slip, action)} ) on ..")}.'
    if not slip.wants_only('action') or slip.innermost('rule') is None:
        return ''
    if slip.text == 'event':
        return 'A call fires an action, as in `action keep ( stage.pos ) on log`; events are asked for in the condition.'
    if slip.word.sort != NAME or _near_word(slip):
        return ''
    if _second_filter(slip):
        return _second_filter(slip)
    if slip.before.text == ',' and slip.near(1).text not in ('.', '(') and slip.text in [entity.name.text for entity in slip.file.entities]:
        return f'A call has one place: write a call of its own for {tick(slip.text)}.'
    if slip.near(1).text == '.' and slip.near(2).sort == NAME:
        return f'A call is written {tick(f"action {slip.near(2).text} ( .. ) on {slip.text}")}.'
    return f'A call is written {tick(f"action {slip.text} ( .. ) on ..")}.'


def _kind_meant(word: Word, following: Word) -> str:
    """The kind that this word says, or the literal that begins with it."""
    if word.text == '-':
        word = following
    if word.text in KINDS:
        return word.text
    if word.text in ('true', 'false'):
        return 'bool'
    if word.sort == NUMBER:
        return kind_of_number(word)
    return next((kind for kind, words in KIND_WORDS.items() if word.text.lower() in words), MISSING)


def member_form(slip: Slip) -> str:
    kind = _kind_meant(slip.near(1), slip.near(2))
    if slip.within == 'member' and slip.wants_only('('):
        if slip.text in (':', '='):
            return f'The kind of an action stands in parentheses, as in {tick(f"action {slip.before.text} ( {kind} )")}.'
        if slip.text in KINDS:
            return f'The kind of an action stands in parentheses: {tick(f"action {slip.before.text} ( {slip.text} )")}.'
        if slip.text in MEMBER_SORTS + ('}',):
            return f'An action has a kind in parentheses, `whole`, `bool` or `real`, as in {tick(f"action {slip.before.text} ( whole )")}.'
    if slip.within == 'member' and slip.wants_only(':'):
        declared = f'{slip.near(-2).text} {slip.before.text}'
        if slip.text in ('(', '='):
            value = '; an entity sets its value' if slip.text == '=' and slip.near(-2).text == 'attribute' else ''
            return f'The kind stands behind `:`, as in {tick(f"{declared} : {kind}")}{value}.'
        if slip.text in MEMBER_SORTS + ('}',):
            return f'{a(slip.near(-2).text).capitalize()} has a kind, `whole`, `bool` or `real`, as in {tick(f"{declared} : whole")}.'
    if slip.within == 'interface' and slip.wants('}') and slip.word.sort == NAME and not _near_word(slip):
        return 'Each member begins with `attribute`, `event` or `action`.'
    return ''


def entity_form(slip: Slip) -> str:
    if slip.within in ('entity', 'interface') and slip.wants_only('{'):
        if slip.text == '(':
            return f'The braces of {a(slip.within)} are `{{` and `}}`, not `(` and `)`.'
        if slip.text in ('entity', 'interface', 'rules'):
            return f'Write `{{ }}` before it: {a(slip.within)} has braces, even if nothing stands in them.'
    if slip.within in ('entity', 'interface') and slip.wants('}') and slip.text == ')':
        return f'{a(slip.within).capitalize()} is closed by `}}`, not by `)`.'
    if slip.within == 'entity' and slip.wants_only(':') and slip.text in '{=(':
        return f'An entity names its interface: {tick(f"entity {slip.before.text} : .. {{ .. }}")}.'
    if slip.within == 'interface' and slip.wants_only('{') and slip.text in (':', 'of', 'extends'):
        return 'An interface has its own members alone: behind its name stands `{`.'
    if slip.within == 'assignment' and slip.text in (':', '(') and slip.wants_only('='):
        return f'A value is set by `=`, as in {tick(slip.before.text + " = 5")}.'
    if slip.within == 'entity' and slip.text in MEMBER_SORTS and slip.wants(A_NAME, '}'):
        return 'In an entity stand the name of an attribute, `=` and its value, as in `bay = 2`; members are declared in its interface.'
    if slip.within == 'assignment' and slip.wants(A_NUMBER) and (slip.word.sort == NAME or slip.text in ('(', 'real')):
        return '' if _near_word(slip) else 'An attribute is set to a plain number, `true` or `false`: no sums and no members here.'
    if slip.within == 'entity' and slip.text in OPERATORS and slip.wants(A_NAME, '}'):
        return 'An attribute is set to a plain number, `true` or `false`: no sums here.'
    return ''


def _second_filter(slip: Slip) -> str:
    """`with bay = 1 and full = 1r`; a `,` behind a call may stand, so that the name is misplaced there."""
    at = -1 if slip.before.text == ',' else 0
    joined, name = slip.near(at).text, slip.near(at + 1)
    if joined not in ('and', 'or', ',') or name.sort != NAME or slip.near(at + 2).text != '=':
        return ''
    words = [word.text for word in slip.words[:slip.index]]
    starts = [word for word in words if word in ('with', 'event', 'action', 'value')]
    if starts[-1:] != ['with']:
        return ''
    return f'A `with` asks for one attribute: leave {tick(f"{joined} {cut(name.text)} = ..")} out.'


def commas(slip: Slip) -> str:
    if _second_filter(slip):
        return _second_filter(slip)
    if slip.text == ',':
        if slip.within in ('interface', 'entity'):
            return 'No `,` stands here: leave it out.'
        if slip.within == '(':
            return 'An action takes one value: no `,` stands in its parentheses.' if slip.innermost('call') else ''
        if slip.wants('and', 'or'):
            return 'Clauses are joined by `and` or `or`, not by `,`.'
        if slip.wants('when'):
            return 'Rules follow one another without `,`: leave it out.'
    if slip.text == 'and' and slip.wants(',') and slip.near(1).text != 'action' and slip.near(2).text not in ('(', '.'):
        return ''
    if slip.text in ('action', 'and') and slip.wants(','):
        return 'Between two calls of a rule stands `,`' + (', not `and`.' if slip.text == 'and' else '.')
    if slip.text == 'event' and slip.wants('and', 'or'):
        return 'Between two clauses stands `and` or `or`.'
    return ''


def parentheses(slip: Slip) -> str:
    opened = slip.innermost('(')
    if slip.text == ')' and slip.within not in ('(', 'member', 'interface', 'entity') and not slip.wants(A_NAME):
        return 'There is no `(` for this `)`.' if opened is None else ''
    if opened is None or slip.within != '(' or not slip.wants(')'):
        return ''
    if slip.text in ('on', 'trigger', 'end', 'when', 'with', 'value', 'action'):
        return f'The `(` in {slip.source.at(opened.word.offset)} is not closed: `)` is missing before this word.'
    return ''


def braces(slip: Slip) -> str:
    holder = slip.innermost('interface', 'entity')
    if holder and holder.name and slip.wants('}') and slip.text in ('interface', 'entity', 'rules', 'when'):
        place = slip.source.line(holder.word.offset)
        return f'The {holder.sort} {tick(holder.name)} that begins in {place} is not closed: `}}` is missing before this word.'
    if holder and slip.wants('}') and slip.text == 'end':
        return f'An {holder.sort} is closed by `}}`, not by `end`.'
    if not slip.innermost('rules'):
        return 'There is no `{` for this `}`.' if slip.text == '}' and not holder else ''
    if slip.text == '}':
        return 'Rules are closed by `end`: no braces stand behind `rules`.'
    if slip.text == '{':
        return 'No braces stand behind `rules`: a rule goes from `when` to `end`, and one more `end` closes the file.'
    return ''


def _near_word(slip: Slip) -> str:
    """The word of the language that is perhaps meant, of those that could stand here."""
    small = slip.text.lower()
    if small in RESERVED:
        return small if small in slip.wanted else ''
    other = OTHER_WORDS.get(small, '')
    return other if other in slip.wanted else did_you_mean(slip.text, [word for word in slip.wanted if word in RESERVED])


def other_word(slip: Slip) -> str:
    if slip.word.sort != NAME:
        return ''
    small = slip.text.lower()
    if small in RESERVED:
        return f'{tick(slip.text)} is taken for a name: the words of the language have small letters, as {tick(small)}.'
    near = _near_word(slip)
    return f'Did you mean {tick(near)}?' if near else FOREIGN.get(small, '')


def candidates(slip: Slip) -> List[Tuple[str, Word]]:
    """Words that could stand here, one for all values, and how they are called."""
    rest = list(dict.fromkeys(slip.wanted))
    given: List[Tuple[str, Word]] = []
    for values in (VALUES, LITERALS):
        if all(one in rest for one in values):
            given.append(('a value', Word(slip.word.offset, NUMBER, '5')))
            rest = [one for one in rest if one == A_NAME or one not in values + ('real', '(')]
    for word in rest:
        if word == A_NAME:
            given.append(('a name', Word(slip.word.offset, NAME, 'x')))
        elif word in (A_NUMBER, A_RANK):
            given.append(('a number', Word(slip.word.offset, NUMBER, '5')))
        elif word in RESERVED:
            given.append(('a kind' if word in KINDS else tick(word), Word(slip.word.offset, RESERVED_WORD, word)))
        elif word in MARKS:
            given.append((AN_OPERATOR if word in OPERATORS else tick(word), Word(slip.word.offset, MARK, word)))
    return given


def trials(slip: Slip) -> List[Tuple[int, str]]:
    """One word more, one less, another one, or two that change places: how far the text then reads well, and how to say it."""
    tried: List[Tuple[int, str]] = []
    for said, word in candidates(slip):
        tried.append((slip.reach([word], 0), f'{said} is missing before it'))
        if word.sort in (RESERVED_WORD, MARK):
            tried.append((slip.reach([word], 1), f'{said} is meant'))
    tried.append((slip.reach([], 1), 'it is too much'))
    following = slip.near(1)
    if following.sort != END:
        tried.append((slip.reach([following, slip.word], 2), f'it has changed places with {tick(cut(following.text))}'))
    return tried


def repair(slip: Slip) -> str:
    """The repair with which the text reads well for a while, or the two; nothing if there are more, or none."""
    tried = trials(slip)
    furthest = max(reach for reach, _ in tried)
    said = list(dict.fromkeys(words for reach, words in tried if reach == furthest))
    return f'Perhaps {", or ".join(said)}.' if furthest >= LOOK_AHEAD and len(said) <= MOST_REPAIRS else ''


SLIPS: Tuple[Callable[[Slip], str], ...] = (
    too_deep, no_words, other_file, equals_signs, foreign_comment, behind_the_end, order_of_parts, kind_word, rank, whole_rule,
    places, decimal_number, parted_r, turned_kind, commas, parentheses, braces, entity_form, reserved_as_name, number_for_name, word_behind_number,
    dotted_event, hyphened_name, bool_words, bare_member, clause_words, second_value, clause_start, call_start, member_form, other_word, repair,
)


def slip_said(slip: Slip) -> List[str]:
    for known in SLIPS:
        says = known(slip)
        if says:
            return [says]
    return []


def misplaced(source: Source, fault: Misplaced) -> List[str]:
    """The sentences for a misplaced word, or for a text that ends too early."""
    slip = Slip(source, fault)
    if slip.word.sort == END:
        lead = 'The text ends too early: some words are still to come.'
        return [lead, expected(slip.wanted)] + ([no_words(slip)] if no_words(slip) else still_open(slip))
    word = tick(cut(slip.text))
    lead = f'{word} cannot follow the words before it.' if slip.index else f'A bench file cannot begin with {word}.'
    return [lead, expected(slip.wanted)] + slip_said(slip)

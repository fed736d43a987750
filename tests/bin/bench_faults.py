"""Holds the explanations of refused bench files (bin/benchlib) to the engine: python3 tests/bin/bench_faults.py

Each text is given to the proved runner, target/bin/bench or BENCH_PROGRAM. The own reading of the explanations has to come to the same
number and place, for bench files with known faults and for damaged copies of the examples; the words that it calls possible at a place
have to be those that the engine takes there, all of them and no others. The last line is 'N passed, M failed'.
"""

import os
import random
import subprocess
import sys
import tempfile
from pathlib import Path
from typing import Callable, List, Optional, Sequence, Tuple

sys.dont_write_bytecode = True
ROOT = Path(__file__).resolve().parents[2]
sys.path.insert(0, str(ROOT / 'bin'))

from benchlib.bench_faults import PLAIN, explain_bench, find_fault  # noqa: E402
from benchlib.cells import explain_cells  # noqa: E402
from benchlib.grammar import A_NAME, A_NUMBER, A_RANK, THE_END, Misplaced, read_file  # noqa: E402
from benchlib.model import read_model  # noqa: E402
from benchlib.suggest import did_you_mean  # noqa: E402
from benchlib.tokens import MARKS, RESERVED, split_words  # noqa: E402

SEED = 20
DAMAGED = 450
PREFIXES = 6
ODD_TEXTS = 2000

# Every construct of the language.
RICH = b"""# Every construct of the language.
interface Stage {
  attribute step : whole
  attribute scale : real
  attribute fixed : bool
  event pos : whole
  event edge : whole
  event warm : bool
  event temp : real
  action drive ( whole )
  action heat ( real )
  action stop ( bool )
}
interface Lamp { attribute bay : whole attribute full : real event switch : bool action glow ( real ) action fan ( bool ) }
interface Log { action keep ( whole ) action mm ( real ) action note ( bool ) }
interface Bare { }
entity stage : Stage { step = 1000 scale = -2r fixed = true }
entity west : Lamp { bay = 1 full = 1r }
entity east : Lamp { full = 3r bay = -2 }
entity log : Log { }
entity bare : Bare { }
rules
  when event pos from stage value changed
  trigger action keep ( ( stage.pos - stage.edge ) * 2 / -3 + 1 ) on log ,
    action mm ( real ( stage.pos ) / real ( stage.step ) * stage.scale - 1r ) on log ,
    action note ( stage.warm ) on log
  end
  when rank 9 ( event warm from stage with step = 1000 value = true or event temp from stage value = 3r * 2r )
    and event switch from l : Lamp with bay = 3 - west.bay value = stage.warm
  trigger action glow ( l.full / - ( 2r ) ) on l with full = 3r ,
    action glow ( 0r ) on o : Lamp with bay = l.bay + o.bay
  end
  when rank 0 event keep from log value = stage.pos and ( ( event glow from a : Lamp value changed ) or event fan from a value = false )
  trigger action stop ( false ) on s : Stage with fixed = true , action drive ( - stage.pos ) on s , action fan ( a.switch ) on a
  end
end
"""

# Shorter declarations for the cases, with the places that some sentences tell.
INTERFACES = (
    'interface Stage { event pos : whole event temp : real event warm : bool }\n'
    'interface Lamp { attribute bay : whole attribute full : real event switch : bool action glow ( real ) }\n'
    'interface Log { action keep ( whole ) }\n'
)
ENTITIES = 'entity stage : Stage { } entity west : Lamp { bay = 1 full = 1r } entity log : Log { }\n'


def with_entity(entity: str) -> str:
    return f'{INTERFACES}{entity}\nrules end\n'


def with_rules(rules: str) -> str:
    return f'{INTERFACES}{ENTITIES}rules\n{rules}\nend\n'


def with_condition(condition: str) -> str:
    return with_rules(f'when {condition}\ntrigger action keep ( 1 ) on log end')


def with_calls(calls: str) -> str:
    return with_rules(f'when event pos from stage value changed\ntrigger {calls} end')


# A bench file, the number by which the engine refuses it, and words that its explanation has.
Case = Tuple[str, int, Sequence[str]]

MISPLACED: List[Case] = [
    (with_rules('when event pos from stage value changed trigger end'), 13, ['Expected here: `action`.', 'one call at least']),
    (with_rules('when trigger action keep ( 1 ) on log end'), 13, ['Expected here: `rank`, `event` or `(`.', 'A clause is missing before `trigger`']),
    (with_rules('when event pos from stage value changed end'), 13, ['line 6 has no `trigger`']),
    (with_rules('when event pos from stage value changed\ntrigger action keep ( 1 ) on log\nwhen event'), 13,
     ['Expected here: `with`, `end`, `:` or `,`.', 'The rule that begins in line 6 is not closed', '`end` is missing before this `when`']),
    (with_condition('event pos from stage value == 3'), 13, ['a value or a sum', 'One `=` is enough']),
    (with_condition('event pos from stage value = 3 with bay = 1'), 13, ['`with` stands before `value`']),
    (with_condition('event pos from stage value 3'), 13, ['Expected here: `changed` or `=`.', '`value = 3`']),
    (with_condition('event pos from stage changed'), 13, ['Expected here: `with`, `value` or `:`.', '`value changed`']),
    (with_condition('event pos on stage value changed'), 13, ['Expected here: `from`.', 'write `from`']),
    (with_condition('event pos stage value changed'), 13, ['Perhaps `from` is missing before it']),
    (with_condition('event from stage value changed'), 13, ['Expected here: a name.', 'Perhaps a name is missing before it']),
    (with_condition('event stage.pos value changed'), 13, ['`event pos from stage`']),
    (with_condition('stage.pos = 3'), 13, ['`event pos from stage value ..`']),
    (with_condition('action keep from log value changed'), 13, ['A clause begins with `event`']),
    (with_condition('not event warm from stage value = true'), 13, ['There is no `not`']),
    (with_condition('event pos from stage value changed , event temp from stage value changed'), 13, ['joined by `and` or `or`']),
    (with_condition('event pos from stage value changed event temp from stage value changed'), 13, ['Between two clauses stands `and` or `or`']),
    (with_condition('( event pos from stage value changed'), 13, ['The `(` in line 6, column 6 is not closed']),
    (with_condition('event pos from stage value changed )'), 13, ['There is no `(` for this `)`']),
    (with_condition('event pos from stage value changed Trigger'), 13, ['small letters, as `trigger`']),
    (with_condition('rank 3r event pos from stage value changed'), 13, ['Expected here: a number from 0 to 9.', 'without `r`']),
    (with_condition('rank 3.5 event pos from stage value changed'), 13, ['A rank is a plain number from 0 to 9, without decimal places']),
    (with_condition('rank 3 r event pos from stage value changed'), 13, ['A rank is a plain number from 0 to 9, without decimal places']),
    (with_condition('event pos from stage value changed and rank 3'), 13, ['`rank` stands right behind `when`']),
    (with_condition('(' * 17 + ' event pos from stage value changed'), 13, ['It stands inside 16 others', 'Expected here: `event`.']),
    (with_calls('action keep ( ' + '- ' * 17 + '1 ) on log'), 13, ['It stands inside 16 others', 'a value (such as']),
    (with_rules('if event pos from stage value changed trigger action keep ( 1 ) on log end'), 13, ['Did you mean `when`?']),
    (with_rules('when event pos from stage value changed then action keep ( 1 ) on log end'), 13, ['Did you mean `trigger`?']),
    (with_rules('when event pos from stage value changed tigger action keep ( 1 ) on log end'), 13, ['Did you mean `trigger`?']),
    (with_calls('keep ( 1 ) on log'), 13, ['`action keep ( .. ) on ..`']),
    (with_calls('log.keep ( 1 )'), 13, ['`action keep ( .. ) on log`']),
    (with_calls('action log.keep ( 1 )'), 13, ['Write `action keep ( .. ) on log`']),
    (with_calls('action keep ( 1 ) from log'), 13, ['write `on`']),
    (with_calls('action keep ( 1 ) on log action keep ( 2 ) on log'), 13, ['Between two calls of a rule stands `,`']),
    (with_calls('action keep ( 1 ) on log and action keep ( 2 ) on log'), 13, ['`,`, not `and`']),
    (with_calls('action keep ( 1 ) on log ,'), 13, ['leave the `,` out']),
    (with_calls('action keep ( 1 , 2 ) on log'), 13, ['An action takes one value']),
    (with_calls('action keep ( ( 1 ) on log'), 13, ['The `(` in line 7, column 21 is not closed']),
    (with_calls('action keep ( pos ) on log'), 13, ['Expected here: `.`.', '`pos` alone is no value', '`stage.pos`']),
    (with_calls('action keep ( stage ) on log'), 13, ['`stage` is an entity', '`stage.pos`']),
    (with_calls('action keep ( stagetemp ) on log'), 13, ['Did you mean `stage.temp`?']),
    (with_calls('action keep ( stage.pos + ) on log'), 13, ['Perhaps a value is missing before it']),
    (with_calls('action keep ( stage.pos 2 ) on log'), 13, ['Perhaps an operator (`+`, `-`, `*`, `/`) is missing before it']),
    (with_calls('action keep ( stage.pos ) ) on log'), 13, ['There is no `(` for this `)`']),
    (with_calls('action ( keep 1 ) on log'), 13, ['Perhaps it has changed places with `keep`']),
    (with_calls('trigger action keep ( 1 ) on log'), 13, ['Perhaps it is too much']),
    (with_calls('action keep ( stage.pos.x ) on log'), 13, ['has no members of its own']),
    (with_calls('action keep ( 3.5 ) on log'), 13, ['an operator (`+`, `-`, `*`, `/`)', '`( 35r / 10r )` is 3.5']),
    (with_calls('action keep ( 12,5 ) on log'), 13, ['`( 125r / 10r )` is 12.5']),
    (with_calls('action keep ( 5mm ) on log'), 13, ['`5mm` is read as `5` and `mm`']),
    (with_rules('') + 'end', 13, ['Expected here: the end of the file.', 'one `end` too many']),
    (with_rules('') + 'when event', 13, ['The `end` in line 7, column 1 closed the rules', 'one `end` too many']),
    (with_rules('') + 'x', 13, ['nothing may follow but comments']),
    (with_rules('') + 'entity a : Lamp { }', 13, ['Interfaces and entities stand before `rules`']),
    (with_rules('entity a : Lamp { }'), 13, ['Expected here: `when` or `end`.', 'stand before `rules`: move it up']),
    (with_entity('entity a : Stage { } interface B { }'), 13, ['Interfaces stand before all entities']),
    (with_entity('when event pos from stage value changed'), 13, ['`rules` is missing before the first rule']),
    (with_rules('{ }'), 13, ['No braces stand behind `rules`']),
    (with_rules('}'), 13, ['Rules are closed by `end`']),
    (with_rules('// a comment'), 13, ['A comment begins with `#`']),
    ('interface A { action a ( bool ) event e : bool } rules end', 13, ['attributes come first, then events, then actions']),
    ('interface A { e : bool } rules end', 13, ['Expected here: `attribute`, `event`, `action` or `}`.', 'Each member begins with']),
    ('interface A { event e : bool , event f : bool } rules end', 13, ['No `,` stands here']),
    ('interface A { event e : int } rules end', 13, ['Expected here: `whole`, `bool` or `real`.', 'Did you mean `whole`?']),
    ('interface A { event e : float } rules end', 13, ['Did you mean `real`?']),
    ('interface A { event e : double } rules end', 13, ['Did you mean `real`?']),
    ('interface A { event e : boolean } rules end', 13, ['Did you mean `bool`?']),
    ('interface A { event e : Whole } rules end', 13, ['Did you mean `whole`?']),
    ('interface A { event e : string } rules end', 13, ['There are no texts']),
    ('interface A { action a : whole } rules end', 13, ['`action a ( whole )`']),
    ('interface A { event e ( whole ) } rules end', 13, ['`event e : whole`']),
    ('interface A { event e : } rules end', 13, ['Perhaps a kind is missing before it']),
    ('interface A { event on : bool } rules end', 13, ['`on` is a reserved word, never a name']),
    ('interface A {\nevent e : bool\ninterface B { } rules end', 13, ['The interface `A` that begins in line 1 is not closed']),
    ('interface A { event e : bool end', 13, ['An interface is closed by `}`']),
    ('interface A of B { } rules end', 13, ['Expected here: `{`.', 'its own members alone']),
    (with_entity('entity a { }'), 13, ['Expected here: `:`.', 'An entity names its interface']),
    (with_entity('entity real : Stage { }'), 13, ['`real` is a reserved word, never a name']),
    (with_entity('entity 2lamps : Lamp { }'), 13, ['`2lamps` is no name']),
    (with_entity('entity a : Lamp { bay : 3 }'), 13, ['A value is set by `=`']),
    (with_entity('entity a : Lamp { bay = 1, full = 1r }'), 13, ['No `,` stands here']),
    (with_entity('entity a : Lamp { full = 1.5 }'), 13, ['`1.5` cannot be written']),
    (with_entity('entity a : Lamp { bay = 1 + 1 }'), 13, ['Expected here: a name or `}`.', 'no sums here']),
    (with_entity('entity a : Lamp { bay = x }'), 13, ['a number, with or without `-`, `true` or `false`']),
    (with_entity('entity a : Lamp { on = 1 }'), 13, ['`on` is a reserved word']),
    ('by n stage.pos\n', 13, ['A bench file cannot begin with `by`.', 'a file of readings']),
    (with_calls('action glow ( 0.123456789 ) on west'), 13, ['`( 123456789r / 1000000000r )` is 0.123456789.']),
    (with_calls('action glow ( 5.1234567890 ) on west'), 13, ['a quotient of reals with fewer digits']),
    (with_calls('action glow ( 12,500 ) on west'), 13, ['`( 12500r / 1000r )` is 12.500.', 'If `,` parts thousands, leave it out: `12500`.']),
    (with_entity('entity a : Lamp { full = 5.1234567890 }'), 13, ['`5.1234567890` cannot be written']),
    (with_condition('event warm from l : Stage.warm value = true'), 13, ['Leave `.warm` out']),
    (with_condition('event glow from west with bay = 1 and full = 1r value changed'), 13,
     ['A `with` asks for one attribute: leave `and full = ..` out']),
    (with_calls('action glow ( 0r ) on west with bay = 1 , full = 1r'), 13, ['A `with` asks for one attribute: leave `, full = ..` out']),
    (with_calls('action keep ( 1 ) on log and west'), 13, ['A call has one place: write a call of its own for `west`.']),
    (with_calls('action keep ( 1 ) on log , west'), 13, ['A call has one place: write a call of its own for `west`.']),
    (with_condition('event pos from stage and log value changed'), 13, ['A clause has one place: write a clause of its own for `log`.']),
    (with_calls('action keep ( bool ( stage.pos ) ) on log'), 13, ['a number cannot be turned into a bool']),
    (with_condition('event warm from when : Stage value = true'), 13, ['`when` is a reserved word, never a name', '`when1`, everywhere.']),
    ('interface A { event on : bool } rules end', 13, ['such as `on1`, everywhere, also in the readings.']),
    ('interface A { attribute r : whole attribute s : whole } entity a : A { s = 3 r } rules end', 13, ['Expected here: `=`.']),
    ('interface A { event e = x } rules end', 13, ['as in `event e : ..`.']),
    ('interface A { event e event f : bool } rules end', 13, ['An event has a kind', '`event e : whole`']),
    ('interface A { action a action b ( whole ) } rules end', 13, ['An action has a kind in parentheses', '`action a ( whole )`']),
    (with_entity('entity west-lamp-2 : Lamp { bay = 1 full = 1r }'), 13, ['but no `-`: write `west_lamp_2` everywhere']),
    (with_calls('action keep ( pos-edge ) on log'), 13, ['`pos` alone is no value', '`stage.pos`']),
    (with_entity('entity a : Stage ( )'), 13, ['The braces of an entity are `{` and `}`']),
    ('interface A { event e : bool ) rules end', 13, ['An interface is closed by `}`, not by `)`']),
    (with_condition('event pos from stage value = 1 or 2'), 13, ['`event pos from stage value = 2`']),
    (with_condition('event switch from l : Lamp with bay = 1 value = true and false'), 13, ['`event switch from l with .. value = false`']),
    (with_condition('event warm from stage value = on'), 13, ['write `true` for on and `false` for off']),
    (with_condition('event warm from stage value = off'), 13, ['write `true` for on and `false` for off']),
    (with_condition('event warm from stage value = TRUE'), 13, ['small letters, as `true`']),
    (with_calls('action keep ( stage.pos + on log'), 13, ['a value or a sum']),
    (with_condition('event warm from stage value changed to true'), 13, ['Behind `changed` stands no value', '`value = true`']),
    (with_rules('trigger action keep ( 1 ) on log when event pos from stage value changed end'), 13, ['A rule begins with `when`']),
    (2 * with_rules(''), 13, ['The same words as at its beginning follow', 'Leave one of the two out']),
]

# A bench file, a part of it, and what the explanation says to write in its place: the file is then accepted.
Followed = Tuple[str, str, str]

FOLLOWED: List[Followed] = [
    (with_calls('action glow ( stage.temp / 0.5 ) on west'), '0.5', '( 5r / 10r )'),
    (with_calls('action glow ( stage.temp / 2.5r ) on west'), '2.5r', '( 25r / 10r )'),
    (with_calls('action glow ( stage.temp / 1000.0 ) on west'), '1000.0', '1000r'),
    (with_entity('entity a : Lamp { bay = 1 full = 1.0 }'), '1.0', '1r'),
    (with_entity('entity a : Lamp { bay = 1,000 full = 1r }'), '1,000', '1000'),
    (with_calls('action glow ( stage.temp / 1000 r ) on west'), '1000 r', '1000r'),
    (with_entity('entity a : Lamp { bay = 1 full = 3 r }'), '3 r', '3r'),
    (with_entity('entity a : Lamp { full = 3 r bay = 1 }'), '3 r', '3r'),
    ('interface A { attribute bay = 1 } rules end', 'attribute bay = 1', 'attribute bay : whole'),
    ('interface A { attribute full = -1r } rules end', 'attribute full = -1r', 'attribute full : real'),
    ('interface A { event e = true } rules end', 'event e = true', 'event e : bool'),
    ('interface A { action a = int } rules end', 'action a = int', 'action a ( whole )'),
    ('interface A { action a real } rules end', 'action a real', 'action a ( real )'),
    ('interface A { action a } rules end', 'action a', 'action a ( whole )'),
    (with_entity('entity west-lamp : Lamp { bay = 1 full = 1r }'), 'west-lamp', 'west_lamp'),
    ('interface A { event ring-width : whole } rules end', 'ring-width', 'ring_width'),
    (with_condition('event warm from stage value = changed'), 'value = changed', 'value changed'),
    (with_condition('event warm from stage is true'), 'is true', 'value = true'),
    (with_condition('event pos from stage is -3'), 'is -3', 'value = -3'),
    (with_condition('event pos from stage is changed'), 'is changed', 'value changed'),
    (with_condition('event pos from stage value = 1 or -2'), '-2', 'event pos from stage value = -2'),
    (with_condition('event warm from l value = true'), 'from l', 'from l : Stage'),
    (with_condition('event pos from Stage value changed'), 'from Stage', 'from x : Stage'),
]

# A bench file, what its explanation has, and the file as it then is: accepted too.
Mended = Tuple[str, str, str]

MENDED: List[Mended] = [
    ('interface Pedal { } entity pedal : pedal { } rules end', 'Did you mean `Pedal`?', 'interface Pedal { } entity pedal : Pedal { } rules end'),
    (with_condition('event warm from stage.warm value = true'), 'Leave `.warm` out: the event\'s name stands before `from`.',
     with_condition('event warm from stage value = true')),
    (with_calls('action keep ( 1 ) on log.keep'), 'Leave `.keep` out: the action\'s name stands before its `(`.',
     with_calls('action keep ( 1 ) on log')),
    (with_calls('action glow ( 0r ) on west with bay = 1 and full = 1r'), 'A `with` asks for one attribute: leave `and full = ..` out.',
     with_calls('action glow ( 0r ) on west with bay = 1')),
    (with_calls('action keep ( whole ( stage.pos ) ) on log'), 'a real cannot be turned into a whole, and what is a whole already stands as it is',
     with_calls('action keep ( ( stage.pos ) ) on log')),
    (with_entity('entity a : Stage entity b : Log { }'), 'Write `{ }` before it: an entity has braces',
     with_entity('entity a : Stage { } entity b : Log { }')),
    ('interface A interface B { } rules end', 'Write `{ }` before it: an interface has braces', 'interface A { } interface B { } rules end'),
    (with_calls('action glow on west'), '`action glow ( 1r ) on ..`', with_calls('action glow ( 1r ) on west')),
    (with_entity('entity a : Lamp ( bay = 1 full = 1r )'), 'The braces of an entity are `{` and `}`, not `(` and `)`.',
     with_entity('entity a : Lamp { bay = 1 full = 1r }')),
    (with_calls('action keep ( Stage.pos ) on log'), 'behind `from` or `on`, as in `x : Stage`, and used in the sum by its name, as in `x.pos`',
     with_rules('when event pos from x : Stage value changed trigger action keep ( x.pos ) on log end')),
    (with_entity('entity a : Lamp { bay = true full = 1r }'), 'give a whole, such as `1`', with_entity('entity a : Lamp { bay = 1 full = 1r }')),
    (with_condition('event pos from "stage" value changed'), 'write names without quotes', with_condition('event pos from stage value changed')),
]

EARLY: List[Case] = [
    ('', 13, ['ends too early', 'Expected here: `interface`, `entity` or `rules`.', 'The shortest bench file is `rules end`']),
    ('# only a comment\n', 13, ['ends too early', 'There is no word in the file']),
    (INTERFACES + ENTITIES, 13, ['Expected here: `entity` or `rules`.']),
    (INTERFACES + ENTITIES + '\nrules', 13, ['Expected here: `when` or `end`.', 'The rules that begin in line 6 are not closed']),
    (INTERFACES + 'entity a : Lamp { bay = 1', 13, ['Expected here: a name or `}`.', 'The entity `a` that begins in line 4 is not closed']),
    (INTERFACES + ENTITIES + 'rules\nwhen event pos from stage value changed\ntrigger action keep ( ( 1', 13,
     ['The `(` in line 7, column 23 is not closed', 'The `(` in line 7, column 21 is not closed', 'The call that begins in line 7 is not complete',
      'The rule that begins in line 6 is not closed', 'The rules that begin in line 5 are not closed']),
]

NOT_ALLOWED: List[Case] = [
    ('rules end;', 12, ['No statement ends with `;`']),
    (with_condition('event pos from stage value > 3'), 12, ['no comparison by size']),
    (with_condition('event pos from stage value changed && event'), 12, ['Write `and` between two clauses']),
    (with_condition('event pos from stage value changed || event'), 12, ['Write `or` between two clauses']),
    (with_condition('event pos from stage value != 3'), 12, ['There is no `!`']),
    (with_calls('action keep ( "ring" ) on log'), 12, ['no texts in quotes']),
    (with_calls('action keep ( stage.pos % 2 ) on log'), 12, ['There is no remainder']),
    (with_entity('entity a[1] : Lamp { }'), 12, ['There are no brackets']),
    (with_entity('entity _a : Lamp { }'), 12, ['`_a` is no name: a name begins with a letter']),
    (with_entity('entity a -> Lamp { }'), 12, ['There is no `->`']),
    (with_entity('entity abcdefghijklmnopqrstuvwxyz : Lamp { }'), 12, ['This name has 26 bytes, and 24 are the most']),
    (with_entity('entity a : Lamp { bay = 12345678901 }'), 12, ['This number has 11 digits, and 10 are the most']),
    (with_entity('entity a : Lamp { bay = 3000000000 }'), 12, ['This number is above 2147483647']),
    ('rules\r\nend\r\n', 12, ['It is a carriage return', '(LF, not CR LF)']),
    ('rules\rend\r', 12, ['(LF, not CR)']),
    ('rules l\udcfcx', 12, ['It is byte 252, which is no UTF-8: perhaps `\u00fc`, saved as Latin-1.']),
    ('# gr\udcfcn\nrules end', 12, ['perhaps `\u00fc`, saved as Latin-1', 'It stands in a comment']),
    ('rules \udc81', 12, ['It is byte 129, which is no UTF-8.']),
    ('\ufeffrules end', 12, ['It is a byte order mark']),
    ('rules\u00a0end', 12, ['It is a non-breaking space']),
    ('rules \u201cx\u201d', 12, ['It is a curly quote']),
    ('rules \u2212', 12, ['a minus sign that is not the plain one: type `-`']),
    ('rules l\u00e4mp', 12, ['U+00E4 (latin small letter a with diaeresis)']),
    ('# gr\u00fcn\nrules end', 12, ['U+00FC', 'It stands in a comment']),
    ('r\0u\0l\0e\0s\0', 12, ['UTF-16']),
    ('PK\x03\x04', 12, ['zip archive']),
    ('<html>', 12, ['HTML']),
    ('{ "a": 1 }', 12, ['JSON']),
    ('by n a.b\nx 1 ?\n', 12, ['a file of readings']),
    ('rules \0 end', 12, ['It is a zero byte']),
]

COUNTED: List[Case] = [
    ('rules end #' + 'x' * 40000, 11, ['it has 40011 bytes, and 32768 are the most']),
    ('rules when rank 010 event a from b value changed trigger action c ( 1 ) on d end end', 44, ['This rank is above 9: it is 10']),
    (''.join(f'interface I{i} {{ }} ' for i in range(17)) + 'rules end', 14, ['16 interfaces at most', 'This file has 17']),
    ('interface I { ' + ''.join(f'event e{i} : bool ' for i in range(13)) + '} rules end', 14, ['12 members at most', 'The interface `I` has 13']),
    (INTERFACES + ''.join(f'entity s{i} : Stage {{ }} ' for i in range(34)) + 'rules end', 14,
     ['32 entities at most', 'This file has 34', 'one entity of several devices']),
    (with_rules('when event pos from stage value changed trigger action keep ( 1 ) on log end\n' * 65), 14, ['64 rules at most']),
    (with_calls(' , '.join(['action keep ( 1 ) on log'] * 9)), 14, ['8 calls at most', 'The rule that begins in line 6 has 9']),
    (with_condition(' or '.join(['event pos from stage value changed'] * 9)), 14, ['8 clauses at most']),
    (with_condition(' or '.join(f'event pos from s{i} : Stage value changed' for i in range(4))), 14, ['3 variables at most', 'name the entity']),
]

NAMED: List[Case] = [
    (INTERFACES + 'interface Log { } rules end', 15, ['The interface `Log` is declared again', 'line 3, column 11']),
    (INTERFACES + ENTITIES + 'entity log : Log { } rules end', 15, ['The entity `log` is declared again', 'line 4, column 74']),
    ('interface A { attribute x : whole event x : bool } rules end', 15, ['`attribute x : whole` stands in line 1, column 25']),
    (with_condition('event pos from stage : Stage value changed'), 15, ['it is an entity, declared in line 4, column 8', 'write `stage` alone']),
    (with_condition('event glow from l : Lamp value changed or event glow from l : Lamp value changed'), 15, ['the first time in line 6, column 22']),
    (with_entity('entity a : Lamp { bay = 1 full = 1r bay = 2 }'), 15, ['`bay` is set again', 'line 4, column 19']),
    (with_entity('entity a : lamp { }'), 16, ['The interface `lamp` is unknown', 'Did you mean `Lamp`?', '`Stage`, `Lamp` and `Log`']),
    (with_entity('entity a : Stage { } entity b : a { }'), 16, ['`a` is an entity, declared in line 4, column 8; its interface is `Stage`']),
    (with_condition('event pos from Stage value changed'), 16,
     ['`Stage` is an interface, and an entity is wanted here.', '`from x : Stage`', '(`stage`)']),
    (with_condition('event pos from stgae value changed'), 16,
     ['neither an entity nor a variable', 'Did you mean `stage`?', '`stage`, `west` and `log`']),
    (with_condition('event glow from lamp : Lamp value = lmap.full'), 16, ['Did you mean `lamp`?', 'Variables of this rule: `lamp`.']),
    (with_condition('event pos from s : Stage value changed')[:-5] + '\nwhen event pos from s value changed trigger action keep ( 1 ) on log end end',
     16, ['Another rule has a variable of this name (line 6)', '`s : Stage`']),
    (with_condition('event bay from west value = 1'), 16,
     ['`bay` is unknown as an event or action: it is an attribute of the interface `Lamp`', 'line 2, column 28']),
    (with_condition('event keep from stage value = 1'), 16, ['`stage` is of the interface `Stage`', '`keep` is an action of the interface `Log`']),
    (with_condition('event glow from west with switch = true value changed'), 16, ['`switch` is unknown as an attribute: it is an event']),
    (with_condition('event glow from west with Bay = 1 value changed'), 16, ['Did you mean `bay`?', '  attribute bay : whole']),
    (with_calls('action pos ( 1 ) on stage'), 16, ['`pos` is unknown as an action: it is an event of the interface `Stage`']),
    (with_calls('action glow ( q.full ) on west'), 16, ['a variable is declared behind `from` or `on`, as in `q : Lamp`']),
    (with_calls('action glow ( 1r ) on q'), 16, ['An entity is declared before `rules`', '`on q : Lamp`']),
    (with_condition('event glow from l : Lamp value changed and event glow from Lamp value changed'), 16, ['Variables of this rule: `l`.']),
    (with_calls('action kepe ( 1 ) on log'), 16, ['Did you mean `keep`?', '  action keep ( whole )']),
    (with_calls('action keep ( stage.position ) on log'), 16, ['Did you mean `pos`?', '  event pos : whole']),
    (with_entity('entity a : Lamp { switch = true bay = 1 full = 1r }'), 16, ['Only attributes are set in an entity']),
    (with_entity('entity a : Lamp { bya = 1 full = 1r }'), 16, ['Did you mean `bay`?']),
    (with_entity('entity a : Lamp { }'), 17,
     ['its attributes `bay` (whole) and `full` (real) are not set', 'line 2, column 28', '`bay = 1 full = 1r`']),
    (with_entity('entity a : Lamp { bay = 1 }'), 17, ['its attribute `full` (real) is not set', 'line 2, column 50', '`full = 1r`']),
]

UNFIT: List[Case] = [
    (with_entity('entity a : Lamp { bay = 1 full = -1 }'), 18,
     ['`a.full` is a real (declared in line 2, column 50)', '`-1` is a whole', 'Write `-1r`']),
    (with_condition('event pos from stage value = 2r'), 18, ['`stage.pos` is a whole', '`2r` is a real', 'Write `2`']),
    (with_condition('event temp from stage value = stage.pos'), 18, ['`stage.temp` is a real', '`stage.pos` is a whole', '`real ( stage.pos )`']),
    (with_condition('event pos from stage value = stage.temp'), 18, ['A real cannot be turned into a whole']),
    (with_condition('event warm from stage value = 1'), 18, ['`stage.warm` is a bool', 'A bool is `true` or `false`']),
    (with_condition('event glow from west with bay = 2r value changed'), 18, ['`west.bay` is a whole', '`2r` is a real']),
    (with_calls('action keep ( stage.pos + 2r ) on log'), 18,
     ['do not fit at this `+`', 'The left side `stage.pos` is a whole, the right side `2r` is a real']),
    (with_calls('action keep ( stage.pos * stage.warm ) on log'), 18, ['`stage.warm` is a bool', 'never a bool']),
    (with_calls('action keep ( true + ( 1 + 2r ) ) on log'), 18, ['do not fit at this `+`', 'The left side `true` is a bool.']),
    (with_calls('action keep ( real ( stage.temp ) ) on log'), 18, ['`real` takes a whole, but `stage.temp` is a real', 'leave `real`']),
    (with_calls('action keep ( - stage.warm ) on log'), 18, ['`-` takes a whole or a real, but `stage.warm` is a bool']),
    (with_calls('action keep ( stage.temp / 2r ) on log'), 18,
     ['The action `keep` takes a whole (declared in line 3, column 24), but `stage.temp / 2r` is a real']),
    (with_calls('action glow ( stage.pos - 1 ) on west'), 18, ['`glow` takes a real', '`real ( stage.pos - 1 )` makes a real of it']),
]

CASES = MISPLACED + EARLY + NOT_ALLOWED + COUNTED + NAMED + UNFIT

# Of these words for a number one stands in the first sentence.
FIRST_WORDS = {
    11: ['too long'], 12: ['not allowed'], 13: ['cannot follow', 'cannot begin', 'ends too early'], 44: ['rank is above 9'], 14: ['beyond the count'],
    15: ['again'], 16: ['unknown', 'is an interface, and an entity is wanted here'], 17: ['not set'], 18: ['do not fit'],
}

Answer = Optional[Tuple[int, int]]


class Engine:
    """The proved runner in a folder of its own."""

    def __init__(self, program: str, folder: str) -> None:
        self.program = program
        self.bench = Path(folder) / 'bench.txt'

    def refusal(self, text: bytes) -> Answer:
        """Number and place of a refused bench text, None for an accepted one."""
        self.bench.write_bytes(text)
        run = subprocess.run([self.program], cwd=self.bench.parent, stdin=subprocess.DEVNULL, stdout=subprocess.PIPE, timeout=60, check=True)
        fields = run.stdout.split(b'\n', 1)[0].split()
        if fields[:1] != [b'refused'] or len(fields) != 3:
            return None
        return int(fields[1]), int(fields[2])


class Tally:
    def __init__(self) -> None:
        self.passed = 0
        self.failed = 0

    def verdict(self, name: str, fault: str) -> None:
        """Counts one case, failed if there is something to say about it."""
        if not fault:
            self.passed += 1
            return
        self.failed += 1
        print(f'failed: {name}: {fault}')


def place_fault(text: bytes, lines: List[str], code: int, offset: int) -> str:
    """Whether the first three lines tell the place, by a count of their own."""
    before = text[:offset]
    line, column = before.count(b'\n') + 1, offset - (before.rfind(b'\n') + 1) + 1
    if lines[0] != f'some/bench.txt, line {line}, column {column}: refused {code}':
        return f'first line {lines[0]!r}'
    if not lines[2].endswith('^') or lines[2].strip() != '^' or len(lines[2]) > len(lines[1]) + 1:
        return f'caret {lines[2]!r}'
    shown = text[offset:offset + 1].decode('latin-1')
    if shown.isalnum() and shown.isascii() and lines[1][len(lines[2]) - 1:][:1] != shown:
        return f'caret under {lines[1][len(lines[2]) - 1:][:1]!r} and not {shown!r}'
    return ''


def explanation_fault(text: bytes, answer: Answer) -> str:
    """Whether the own reading comes to the engine's answer and tells more than the plain sentence."""
    own = find_fault(text)
    found = (own.code, own.offset) if own else None
    if found != answer:
        return f'engine {answer}, own reading {found}'
    if answer is None:
        return ''
    lines = explain_bench('some/bench.txt', text, *answer)
    if len(lines) < 4 or any('\n' in line for line in lines):
        return f'lines {lines!r}'
    if lines[3] in PLAIN.values() or not any(words in lines[3] for words in FIRST_WORDS[answer[0]]):
        return f'first sentence {lines[3]!r}'
    return place_fault(text, lines, *answer)


def encoded(text: str) -> bytes:
    """In UTF-8; a byte that is none stands in the text as Python writes it."""
    return text.encode('utf-8', 'surrogateescape')


def case_fault(engine: Engine, case: Case) -> str:
    text, code, words = case
    data = encoded(text)
    answer = engine.refusal(data)
    if answer is None or answer[0] != code:
        return f'engine {answer}'
    said = '\n'.join(explain_bench('some/bench.txt', data, *answer))
    missing = [word for word in words if word not in said]
    return f'{missing!r} not in:\n{said}' if missing else explanation_fault(data, answer)


def mended_fault(engine: Engine, mended: Mended) -> str:
    text, told, after = mended
    answer = engine.refusal(text.encode())
    if answer is None:
        return 'accepted as it is'
    fault = case_fault(engine, (text, answer[0], [told]))
    if fault:
        return fault
    answer = engine.refusal(after.encode())
    return f'engine {answer} when it is followed' if answer else ''


def check_cases(tally: Tally, engine: Engine) -> None:
    for case in CASES:
        tally.verdict(f'{case[0][-60:]!r}', case_fault(engine, case))
    for mended in MENDED + [(text, new, text.replace(old, new)) for text, old, new in FOLLOWED]:
        tally.verdict(f'{mended[0][-60:]!r}, followed', mended_fault(engine, mended))


# Damage

VOCABULARY = [word.encode() for word in sorted(RESERVED) + list(MARKS)] + [
    b'5', b'10', b'3r', b'2147483648', b'stage', b'pos', b'Lamp', b'l', b'_', b';', b'\r', b'\xc3\xa4', b'#', b'\n', b'==', b'a' * 25, b'\0',
]
VALUES = [b'5', b'3r', b'true', b'stage.pos', b'stage.temp', b'stage.warm', b'l.bay', b'( 2r )', b'( - true )', b'real ( 1r )', b'true + ( 1 + 2r )']
CONSTRUCT_ENDS = {'interface': '}', 'entity': '}', 'when': 'end'}


def replaced(text: bytes, word, other: bytes) -> bytes:
    return text[:word.offset] + other + text[word.end:]


def damaged_bytes(chance: random.Random, text: bytes, words) -> bytes:
    at = chance.randrange(len(text))
    return text[:at] if chance.random() < 0.3 else text[:at] + bytes([chance.randrange(256)]) + text[at + chance.randrange(2):]


def damaged_words(chance: random.Random, text: bytes, words) -> bytes:
    at = chance.randrange(len(words))
    word, following = words[at], words[min(at + 1, len(words) - 1)]
    form = chance.randrange(4)
    if form == 0:
        return replaced(text, word, b'')
    if form == 1:
        return replaced(text, word, chance.choice(VOCABULARY) + b' ' + word.text.encode())
    if form == 2:
        return replaced(text, word, chance.choice(VOCABULARY))
    swapped = following.text + text[word.end:following.offset].decode('latin-1') + word.text
    return text[:word.offset] + swapped.encode('latin-1') + text[following.end:]


def damaged_names(chance: random.Random, text: bytes, words) -> bytes:
    names = [word for word in words if word.sort == 'name'] or words
    return replaced(text, chance.choice(names), chance.choice(names).text.encode())


def damaged_values(chance: random.Random, text: bytes, words) -> bytes:
    values = [word for word in words if word.sort == 'number' or word.text in ('true', 'false')] or words
    kinds = [word for word in words if word.text in ('whole', 'bool', 'real')] or words
    if chance.random() < 0.7:
        return replaced(text, chance.choice(values), chance.choice(VALUES))
    return replaced(text, chance.choice(kinds), chance.choice([b'whole', b'bool', b'real']))


def repeated_construct(chance: random.Random, text: bytes, words) -> bytes:
    starts = [at for at, word in enumerate(words) if word.text in CONSTRUCT_ENDS]
    if not starts:
        return text
    first = chance.choice(starts)
    last = next((at for at in range(first, len(words)) if words[at].text == CONSTRUCT_ENDS[words[first].text]), first)
    construct = text[words[first].offset:words[last].end] + b' '
    return text[:words[first].offset] + construct * chance.choice([0, 2, 17, 33, 65]) + text[words[last].end:]


DAMAGES: List[Callable] = [damaged_bytes, repeated_construct] + 2 * [damaged_words, damaged_names, damaged_values]


def damaged(chance: random.Random, text: bytes) -> bytes:
    for _ in range(chance.choice([1, 1, 2])):
        words, _ = split_words(text)
        if words:
            text = chance.choice(DAMAGES)(chance, text, words)
    return text


def check_damaged(tally: Tally, engine: Engine, texts: List[bytes]) -> None:
    chance = random.Random(SEED)
    codes = set()
    for number in range(DAMAGED):
        text = damaged(chance, chance.choice(texts))
        answer = engine.refusal(text)
        codes.add(answer and answer[0])
        tally.verdict(f'damaged file {number}', explanation_fault(text, answer))
    missing = {None, 12, 13, 14, 15, 16, 18} - codes
    tally.verdict('damage of every sort', f'no file with {missing}' if missing else '')


# Words that are possible at a place

NAMED_WORDS = {A_NAME: {'zz'}, A_NUMBER: {'5', '5r'}, A_RANK: {'5'}, THE_END: {''}}


def possible_words(engine: Engine, before: bytes) -> set:
    """Of all words those that the engine takes behind these; the empty one if the text may end."""
    start = before + b'\n'  # it closes a comment
    possible = set()
    for word in sorted(RESERVED) + list(MARKS) + ['zz', '5', '5r']:
        if engine.refusal(start + word.encode()) != (13, len(start)):
            possible.add(word)
    answer = engine.refusal(before)
    if answer is None or answer[0] != 13:
        possible.add('')
    return possible


def check_possible_words(tally: Tally, engine: Engine) -> None:
    chance = random.Random(SEED)
    words, _ = split_words(RICH)
    counts = sorted(chance.sample(range(1, len(words)), PREFIXES)) + [len(words)]
    for count in counts:
        before = RICH[:words[count - 1].end]
        own: set = set()
        try:
            # A word of no class is refused wherever it stands, after all that could stand there was asked for.
            read_file(list(words[:count]) + [words[count - 1]._replace(offset=len(before), sort='odd', text='?')], len(before) + 1)
        except Misplaced as fault:
            for word in fault.wanted:
                own |= NAMED_WORDS.get(word, {word})
        possible = possible_words(engine, before)
        tally.verdict(f'words behind word {count}', '' if own == possible else f'engine {sorted(possible)}, own {sorted(own)}')


# The rest

def check_fallback(tally: Tally) -> None:
    """An own reading that comes to something else says nothing of its own."""
    text = with_calls('action keep ( stage.position ) on log').encode()
    for code, plain in PLAIN.items():
        lines = explain_bench('b', text, code, 3)
        tally.verdict(f'plain sentence for {code}', '' if lines[3:] == [plain] else repr(lines))
    lines = explain_bench('b', b'rules end', 13, 9)
    tally.verdict('plain sentence at the end', '' if lines[3:] == ['The text ends too early: some words are still to come.'] else repr(lines))
    lines = explain_bench('b', b'rules end', 77, 0)
    tally.verdict('unknown number', '' if lines[0] == 'b, line 1, column 1: refused 77' and len(lines) == 4 else repr(lines))
    long = explain_bench('b', b'#' * 65536, 11, 32768)
    tally.verdict('a file that is cut off', '' if 'it has 65536 bytes or more' in long[3] else repr(long[3:]))
    long = explain_bench('b', b'#' * 65536, 11, 32768, 1000000)
    tally.verdict('a file whose length is known', '' if 'it has 1000000 bytes,' in long[3] else repr(long[3:]))


def check_odd_texts(tally: Tally) -> None:
    """Any bytes, any number, any place: lines, and no exception."""
    chance = random.Random(SEED)
    fault = ''
    for _ in range(ODD_TEXTS):
        alphabet = chance.choice([bytes(range(256)), b' \t\n\r{}():=,.+-*/_;"ar5\xc3\xa4#', b'rules end\n'])
        text = bytes(chance.choice(alphabet) for _ in range(chance.randrange(80)))
        offset = chance.choice([-1, 0, 1, len(text), 32768, 1 << 40])
        lines = explain_bench('b', text, chance.choice(list(PLAIN) + [0, -1, 255]), offset)
        if len(lines) < 4 or any('\n' in line for line in lines):
            fault = f'{text!r}: {lines!r}'
        explain_cells(text, bytes(chance.choice(b'ab. \n\xff') for _ in range(chance.randrange(9))))
        find_fault(text)
    tally.verdict('odd texts', fault)


def check_model(tally: Tally) -> None:
    """The columns of the rows, against the rows that are stored."""
    for stored in sorted(ROOT.glob('examples/*/rows.txt')):
        names = stored.read_text().split('\n', 1)[0]
        model = read_model((stored.parent / 'bench.txt').read_bytes())
        own = ' '.join(['by', 'n'] + [column.name for column in model.actions()])
        if not names.startswith('refused'):
            tally.verdict(f'columns of {stored.parent.name}', '' if own == names else own)
    model = read_model(RICH)
    member = model.member('east', 'glow')
    tally.verdict('a member', '' if member and (member.kind, member.declaration()) == ('real', 'action glow ( real )') else repr(member))
    tally.verdict('no member', '' if model.member('east', 'pos') is None and model.entity('nobody') is None else 'found')
    tally.verdict('no model', '' if not read_model(b'rules').entities and not read_model(b'\xff').entities else 'entities')


def check_cells(tally: Tally) -> None:
    wanted = ['cells, field 2, east.Glow: refused 41', 'west.bay east.Glow', '         ^',
              'This entity has no such member.', 'Did you mean east.glow?',
              'Members of east, by its interface Lamp:', '  attribute bay : whole', '  attribute full : real', '  event switch : bool',
              '  action glow ( real )', '  action fan ( bool )']
    lines = explain_cells(RICH, b'west.bay east.Glow')
    tally.verdict('cells, member in another case', '' if lines == wanted else repr(lines))
    lines = explain_cells(RICH, b'stgae.pos')
    tally.verdict('cells, entity with a slip', '' if lines[3:5] == ['This entity is unknown.', 'Did you mean stage.pos?'] else repr(lines))
    lines = explain_cells(RICH, b'nowhere.x')
    wanted = ['This entity is unknown.', 'Entities of the bench: stage west east log bare']
    tally.verdict('cells, nothing near', '' if lines[3:] == wanted else repr(lines))


def check_suggestions(tally: Tally) -> None:
    known = ['pos', 'edge_x', 'temperature', 'Lamp', 'left', 'l1']
    for word, near in (('Pos', 'pos'), ('psos', 'pos'), ('position', 'pos'), ('edgex', 'edge_x'), ('temprature', 'temperature'), ('lamp', 'Lamp'),
                       ('lfet', 'left'), ('1l', 'l1'), ('temp', 'temperature'), ('width', ''), ('x', ''), ('pos', ''), ('', ''), ('l2', '')):
        found = did_you_mean(word, known)
        tally.verdict(f'near {word!r}', '' if found == near else f'{found!r}, not {near!r}')


def check_shows(tally: Tally, engine: Engine) -> None:
    shows = sorted(ROOT.glob('tests/bin/shows/bench-*/bench.txt'))
    for show in shows:
        text = show.read_bytes()
        answer = engine.refusal(text)
        tally.verdict(f'show {show.parent.name}', explanation_fault(text, answer) if answer else 'accepted')
    tally.verdict('ten shows', '' if len(shows) == 10 else f'{len(shows)} shows')


def main() -> int:
    tally = Tally()
    program = os.path.abspath(os.environ.get('BENCH_PROGRAM') or ROOT / 'target' / 'bin' / 'bench')
    if not os.access(program, os.X_OK):
        tally.verdict(program, 'it is not there, or cannot be run')
        print(f'{tally.passed} passed, {tally.failed} failed')
        return 1
    texts = [path.read_bytes() for path in sorted(ROOT.glob('examples/*/bench.txt'))] + [RICH] * 4
    with tempfile.TemporaryDirectory() as folder:
        engine = Engine(program, folder)
        for number, text in enumerate(texts):
            tally.verdict(f'text {number} as it is', explanation_fault(text, engine.refusal(text)))
        check_cases(tally, engine)
        check_damaged(tally, engine, texts)
        check_possible_words(tally, engine)
        check_shows(tally, engine)
    check_fallback(tally)
    check_odd_texts(tally)
    check_model(tally)
    check_cells(tally)
    check_suggestions(tally)
    print(f'{tally.passed} passed, {tally.failed} failed')
    return 1 if tally.failed else 0


if __name__ == '__main__':
    sys.exit(main())

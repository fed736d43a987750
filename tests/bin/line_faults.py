#!/usr/bin/env python3
"""Tests what bin/benchlib says of refused lines: single cases by their words, damaged readings against the engine's answers, states that the
engine's archive left. The last line is 'N passed, M failed'. It needs target/bin/bench, target/staticlib/libengine.a and a C compiler."""
import os
import random
import re
import subprocess
import sys
import tempfile
from pathlib import Path

sys.dont_write_bytecode = True
ROOT = Path(__file__).resolve().parent.parent.parent
sys.path.insert(0, str(ROOT / 'bin'))

from benchlib.line_faults import LineExplainer, sentence
from benchlib.model import read_model
from benchlib.state_image import ENTITY_BYTES, HEAD_BYTES, SENDER_HEAD_BYTES, read_snapshot

PROGRAM = Path(os.environ.get('BENCH_PROGRAM') or ROOT / 'target/bin/bench').resolve()
ARCHIVE = ROOT / 'target/staticlib/libengine.a'
EXAMPLES = ('boxes', 'building', 'core', 'day', 'lamps', 'pedal', 'safety')
SEED = 20210
DAMAGED_FILES = 250
SNAPSHOTS = 60

passed = failed = 0


def verdict(name, holds, *shown):
    global passed, failed
    if holds:
        passed += 1
        return
    failed += 1
    print('failed:', name)
    for text in shown:
        print('  ', text)


BENCH = b'''interface Stage { attribute step : whole event pos : whole event moving : bool event temp : real action go ( whole ) }
interface Lamp { event warm : bool action glow ( real ) }
entity stage : Stage { step = 10 } entity west : Lamp { } entity east : Lamp { } rules end'''
MODEL = read_model(BENCH)
NAMES = b'by n stage.pos stage.moving stage.temp east east.warm'
REAL = b'4035800000000000'


def explained(lines, names=NAMES, live=False, snapshot=None, end=True):
    """What is said of lines that are given with their number of refusal, 0 for one that was taken."""
    explainer = LineExplainer(MODEL, 'R', snapshot, live)
    explainer.header(names)
    told = []
    for number, (line, code) in enumerate(lines, 2):
        told += explainer.refused(number, line, code) if code else explainer.taken(number, line)
    return told + (explainer.end() if end else [])


def value(line, code=23):
    """What is said of the first line, after its place."""
    return explained([(line, code)], end=False)[0][len('R:2: '):]


# ---- single cases

FIELD = 'field 3 (stage.pos) "%s": a whole is wanted: '
BOOL = 'field 4 (stage.moving) "%s": `true` or `false` is wanted'
HEX = 'field 5 (stage.temp) "%s": a real is wanted, as 16 lower-case hexadecimal digits'
PRESENCE = 'field 6 (east) "%s": `true` (it is there), `false` (it is away) or `-` is wanted'
LINE_ENDS = 'the line ends in a carriage return: save the file with line feeds alone at the ends of its lines (LF, not CR LF)'

VALUES = [
    (b'a 1 10139.5 - - - -', FIELD % '10139.5' + 'no fraction'),
    (b'a 1 1e5 - - - -', FIELD % '1e5' + 'no exponent'),
    (b'a 1 007 - - - -', FIELD % '007' + 'no leading zero, write `7`'),
    (b'a 1 -007 - - - -', FIELD % '-007' + 'no leading zero, write `-7`'),
    (b'a 1 +7 - - - -', FIELD % '+7' + 'no `+` in front, write `7`'),
    (b'a 1 -0 - - - -', FIELD % '-0' + 'no `-0`, write `0`'),
    (b'a 1 00 - - - -', FIELD % '00' + 'no zeros in front, write `0`'),
    (b'a 1 2147483648 - - - -', FIELD % '2147483648' + 'it goes from -2147483648 to 2147483647'),
    (b'a 1 -2147483649 - - - -', FIELD % '-2147483649' + 'it goes from -2147483648 to 2147483647'),
    (b'a 1 ' + b'9' * 60 + b' - - - -', FIELD % ('9' * 40 + '...') + 'it goes from -2147483648 to 2147483647'),
    (b'a 1 true - - - -', FIELD % 'true' + 'digits, not `true` or `false`'),
    (b'a 1 1240um - - - -', FIELD % '1240um' + 'digits alone, without a unit'),
    (b'a 1 NA - - - -', FIELD % 'NA' + 'for no reading write `-`'),
    (b'a 1 ' + REAL[:-1] + b'a - - - -', FIELD % '403580000000000a' + 'these are the digits of a real'),
    (b'a 1 1\t2 - - - -', FIELD % '1?2' + 'it has a tab; one space stands between fields'),
    (b'a 1 \xc3\xa95 - - - -', FIELD % '??5' + 'it has a byte that is no letter, digit or sign of ASCII'),
    (b'a 1 \xe2\x88\x925 - - - -', FIELD % '???5' + 'it has a minus sign that is not that of the keyboard: type `-`'),
    (b'a 1 \xe2\x80\x93 - - - -', FIELD % '???' + 'it has a long dash: type `-`'),
    (b'a 1 1\xc2\xa0240 - - - -', FIELD % '1??240' + 'it has a non-breaking space: take it out'),
    (b'a 1 1,240 - - - -', FIELD % '1,240' + 'digits alone: no point, no comma'),
    (b'a 1 1.240.000 - - - -', FIELD % '1.240.000' + 'digits alone: no point, no comma'),
    (b'a 1 "7" - - - -', 'field 3 (stage.pos) `"7"`: a whole is wanted: without quotes, `7`'),
    (b'a 1 0 - - - -;;;', 'field 7 (east.warm) "-;;;": `true` or `false` is wanted: take `;;;` out, since one space alone stands between fields'),
    (b'a 1 0 - - - true;x', 'field 7 (east.warm) "true;x": `true` or `false` is wanted: fields are parted by one space, not by semicolons'),
    (b'a 1 0 - - - true\x1a', 'field 7 (east.warm) "true?": `true` or `false` is wanted: it ends in an invisible character '
     '(ctrl-Z, with which old programs end a file): take it out'),
    (b'a 1 0 - - - true\0', 'field 7 (east.warm) "true?": `true` or `false` is wanted: it ends in an invisible character (a zero byte): take it out'),
    (b'a 1 0 - 21r - -', HEX % '21r' + ': no `r` in readings; 21 is 4035000000000000'),
    (b'a 1 0 - -1.5r - -', HEX % '-1.5r' + ': no `r` in readings; -1.5 is bff8000000000000'),
    (b'a 1 0 - NaN - -', HEX % 'NaN' + ': for unset write `?`, for no reading `-`'),
    (b'a 1 NaN - - - -', FIELD % 'NaN' + 'for unset write `?`, for no reading `-`'),
    (b'a 1 - - - NaN -', PRESENCE % 'NaN' + ': for no reading write `-`'),
    (b'a 1 - TRUE - - -', BOOL % 'TRUE' + ': in lower case, `true`'),
    (b'a 1 - 1 - - -', BOOL % '1' + ': write `true`'),
    (b'a 1 - no - - -', BOOL % 'no' + ': write `false`'),
    (b'a 1 - maybe - - -', BOOL % 'maybe'),
    (b'a 1 - - 21.5 - -', HEX % '21.5' + ': 21.5 is 4035800000000000'),
    (b'a 1 - - 21,5 - -', HEX % '21,5' + ': 21.5 is 4035800000000000'),
    (b'a 1 - - -2 - -', HEX % '-2' + ': -2 is c000000000000000'),
    (b'a 1 - - 1e400 - -', HEX % '1e400' + ': this number is too great'),
    (b'a 1 - - 4035B33333333333 - -', HEX % '4035B33333333333' + ': in lower case, `4035b33333333333`'),
    (b'a 1 - - 0x4035800000000000 - -', HEX % '0x4035800000000000' + ': without `0x`, `4035800000000000`'),
    (b'a 1 - - 7ff0000000000000 - -', HEX % '7ff0000000000000' + ': these are not the digits of a finite number'),
    (b'a 1 - - 40358000000000 - -', HEX % '40358000000000' + ': here are 14'),
    (b'a 1 - - inf - -', HEX % 'inf' + ': only a finite number has digits here; `?` is for unset'),
    (b'a 1 - - - ? -', PRESENCE % '?' + ': `?` is for events'),
    (b'a 1 - - - FALSE -', PRESENCE % 'FALSE' + ': in lower case, `false`'),
    (b'a 1 - - - - yes', 'field 7 (east.warm) "yes": `true` or `false` is wanted: write `true`'),
    (b'a 1 x 1 - - y', FIELD % 'x' + 'for no reading write `-`; wrong too: field 4 (stage.moving) "1", field 7 (east.warm) "y"'),
    (b'a 1 - - - - true\r', 'field 7 (east.warm) "true?": ' + LINE_ENDS),
    (b'a 1 x - - - true\r', FIELD % 'x' + 'for no reading write `-`; wrong too: field 7 (east.warm) "true?"'),
    (b'a 1 - - - false true', 'field 7 (east.warm) "true": only `-` is taken, because east is absent (field 6 (east) of this line says `false`)'),
]

NO_NUMBER = 'field 2 (n) "%s" is no number: has the sender a space in it, or is the number missing?'
COUNTED = '%s where 7 are wanted (`by`, `n` and 5 values): '
FORMS = [
    (b'', 'the line is empty: a sender, a number and 5 values are wanted; if nothing is meant, take the line out'),
    (b'\r', 'the line is empty: a sender, a number and 5 values are wanted; if nothing is meant, take the line out'),
    (b'# morning', 'a comment cannot stand in readings: take the line out'),
    (b'a 1 ' + b'-' * 8189, 'the line has 8193 bytes: 8192 at most are taken'),
    (b'a,1,-,-,-,-,-', 'a comma stands between fields: one space is wanted'),
    (b'a;1;-;-;-;-;-', 'a semicolon stands between fields: one space is wanted'),
    (b'a 1\t- - - - -', 'a tab stands between fields: one space is wanted'),
    (b' a 1 - - - - -', 'a space stands at the start of the line: it begins with its sender'),
    (b'a 1 - - - - - ', 'a space stands at the end of the line, after field 7: take it out'),
    (b'a 1 - - - - - \r', 'a space stands at the end of the line, after field 7: take it out'),
    (b'a 1 -  - - - -', 'two spaces stand between field 3 and field 4: one is wanted'),
    (b'a 1 -  - - -', 'two spaces stand between field 3 and field 4: one is wanted, or `-` between them, if a value is missing'),
    (b'a 1   true   ', '3 spaces stand between field 2 and field 3: one is wanted, or `-` between them, if a value is missing'),
    (b'a 1 -   - - - -', '3 spaces stand between field 3 and field 4: one is wanted'),
    (b'1 5 true - - -', 'field 1 (by) "1": the sender seems to be missing: a line begins with its name, then its number'),
    (b'\x1a', 'the line has nothing but invisible characters (ctrl-Z, with which old programs end a file): take it out'),
    (b'\0\0\0', 'the line has nothing but invisible characters (a zero byte): take it out'),
    (NAMES, 'this is a line of names: are two files joined? Take it out'),
    (b'by n stage.pos', 'this is a line of names: are two files joined? Its columns are not those of the first line: keep the two files apart'),
    (b'a 3\xc2\xa0- - - - -', 'a non-breaking space stands between fields, in "3??-": type a space in its place'),
    (b'a', COUNTED % '1 field' + 'the number (n) is missing, and all values'),
    (b'a 1 5 true ' + REAL + b' true', COUNTED % '6 fields' + 'a value seems to be missing, somewhere in fields 6 to 7; for no reading write `-`'),
    (b'a 1 true - - -', COUNTED % '6 fields' + 'field 3 (stage.pos) seems to have been left out; for no reading write `-`'),
    (b'a 1 x y - -', COUNTED % '6 fields' + 'a value is missing, or two are joined; for no reading write `-`'),
    (b'a - - - - -', COUNTED % '6 fields' + 'field 2 (n), the number, seems to have been left out'),
    (b'a 5 - - - -', COUNTED % '6 fields' + 'the number or a value seems to be missing, somewhere in fields 2 to 7; for no reading write `-`'),
    (b'a b 1 - - -', COUNTED % '6 fields' + NO_NUMBER % 'b'),
    (b'a b 1 -', COUNTED % '4 fields' + NO_NUMBER % 'b'),
    (b'a 1 true ' + REAL + b' true false', COUNTED % '6 fields' + 'field 3 (stage.pos) seems to have been left out; for no reading write `-`'),
    (b'a 1 5 true', COUNTED % '4 fields' + 'the last, fields 5 to 7 (stage.temp, east, east.warm), seem to have no value; for no reading write `-`'),
    (b'a 1 x true', COUNTED % '4 fields' + '3 values are missing; for no reading write `-`'),
    (b'a 1 5 true ' + REAL + b' true false 8', COUNTED % '8 fields' + 'field 8 "8" seems to be one too many'),
    (b'a 1 - - - - - -', COUNTED % '8 fields' + 'one seems to be too many, somewhere in fields 3 to 8'),
    (b'a 1 - - - - - # no', COUNTED % '9 fields' + 'fields 8 to 9, from "#" on, seem to be too many'),
    (b'a 1 1 240 true - - -', COUNTED % '8 fields' + 'fields 3 and 4, "1" and "240", seem to be one number: no space inside'),
    (b'a 1 1 24 true - - -', COUNTED % '8 fields' + 'one seems to be too many, somewhere in fields 3 to 4'),
    (b'a 1 x y - - - -', COUNTED % '8 fields' + 'one is too many; is there a space inside a value?'),
    (b'a 1 1 240 000 true - - -', COUNTED % '9 fields' + '2 fields are too many; is there a space inside a value?'),
    (b'stage box 1 - - - - -', COUNTED % '8 fields' + NO_NUMBER % 'box'),
    (b'2026-11-18 box 1 - - - - -', COUNTED % '8 fields' + 'field 1 "2026-11-18" seems to be too many: a line begins with its sender, here "box"'),
    (b'2026-11-18 10:05 box 1 - - - - -', COUNTED % '9 fields'
     + 'fields 1 to 2, from "2026-11-18" on, seem to be too many: a line begins with its sender, here "box"'),
    (b'a 1,000 - - - - -', 'field 2 (n) "1,000": a number of 1 to 10 digits is wanted: digits alone: no point, no comma'),
    (b'a 01 - - - - -', 'field 2 (n) "01": a number of 1 to 10 digits is wanted: no leading zero, write `1`'),
    (b'a 1.0 - - - - -', 'field 2 (n) "1.0": a number of 1 to 10 digits is wanted: no fraction'),
    (b'a -1 - - - - -', 'field 2 (n) "-1": a number of 1 to 10 digits is wanted: no sign in front'),
    (b'a 12345678901 - - - - -', 'field 2 (n) "12345678901": a number of 1 to 10 digits is wanted: here are 11 digits'),
    (b'a x - - - - -', 'field 2 (n) "x": a number of 1 to 10 digits is wanted'),
]

NAME = "field 1 (by) \"%s\": a sender's name is wanted: a letter, then letters, digits or `_`, 24 bytes at most (%s)"
SENDERS = [
    (b'camera-box 1 - - - - -', NAME % ('camera-box', 'it has `-`')),
    (b'"a" 1 - - - - -', (NAME % ('a', 'it has `"`')).replace('"a"', '`"a"`', 1)),
    (b'1a 1 - - - - -', NAME % ('1a', 'it begins with `1`')),
    (b'b' * 25 + b' 1 - - - - -', NAME % ('b' * 25, 'it has 25')),
    (b'\xc3\xa9 1 - - - - -', NAME % ('??', 'it has a byte that is no letter, digit or sign of ASCII')),
]

EXAMPLE = 'by n stage.pos stage.moving stage.temp'
HEADERS = [
    (b'', 'there is no line of names: the file, or its first line, is empty; readings begin as `%s`' % EXAMPLE),
    (b'  ', 'there is no line of names: the first line has nothing but spaces; readings begin as `%s`' % EXAMPLE),
    (b'n stage.pos', 'field 1 "n": `by n` is wanted: `by` and `n` stand first, the sender\'s name and its number'),
    (b'n by stage.pos', 'fields 1 and 2 "n by": `by n` stand first, in this order'),
    (b'# Desk', 'a comment cannot stand in readings (is this a bench file?); they begin as `%s`' % EXAMPLE),
    (b'interface Stage {', 'field 1 "interface": this seems to be a bench file; readings begin as `%s`' % EXAMPLE),
    (b'by n stage.go west.glow east.glow',
     'the columns are actions: these seem to be rows, as the bench prints them; readings begin as `%s`' % EXAMPLE),
    (b'"by" n stage.pos', 'field 1 `"by"`: the line of names begins with `by n`'),
    (b'PK\x03\x04\x14\0\0\0', 'this is a document of an office program or a zip archive: save the readings as plain text'),
    (b'\xd0\xcf\x11\xe0\xa1', 'this is a document of an office program: save the readings as plain text'),
    (b'by n stage.pos\0', 'the first line has zero bytes, so it is no plain text: save the readings as plain text (ASCII or UTF-8)'),
    (b'BY n stage.pos', 'field 1 "BY": the line of names begins with `by n`, in lower case'),
    (b'by', 'field 2 is missing: the line of names begins with `by n`'),
    (b'by  n', 'two spaces, or a space at the end, after field 1: the line of names begins with `by n`, one space between'),
    (b'by N', 'field 2 "N": the line of names begins with `by n`, in lower case'),
    (b' by n', 'a space stands at the start of the line: it begins with `by n`'),
    (b'by n stage.pos ', 'a space stands at the end of the line: take it out'),
    (b'by n stage.pos  east', 'two spaces stand between field 3 and field 4: one is wanted'),
    (b'by n stage.pos\teast', 'field 3 "stage.pos?east": it has a tab; one space stands between names'),
    (b'by n stage.pos\r', LINE_ENDS.replace('the line', 'the line of names', 1)),
    (b'\xef\xbb\xbfby n stage.pos', 'the file begins with a byte order mark: save it as plain text, or as UTF-8 without that mark'),
    (b'\0b\0y', 'the file seems to be saved as UTF-16: save it as plain text (ASCII or UTF-8)'),
    (b'b\0y\0', 'the file seems to be saved as UTF-16: save it as plain text (ASCII or UTF-8)'),
    (b'by,n,stage.pos', 'commas stand between the names: one space is wanted, as in `%s`' % EXAMPLE),
    (b'by;n;stage.pos', 'semicolons stand between the names: one space is wanted, as in `%s`' % EXAMPLE),
    (b'by\tn\tstage.pos', 'tabs stand between the names: one space is wanted, as in `%s`' % EXAMPLE),
    (b'by n stage.pso', 'field 3 "stage.pso": stage has no event pso: did you mean `stage.pos`? Events of stage: pos, moving, temp'),
    (b'by n stgae.pos', 'field 3 "stgae.pos": there is no entity stgae: did you mean `stage.pos`? Entities of the bench: stage, west, east'),
    (b'by n stage_pos', 'field 3 "stage_pos": there is no entity stage_pos: did you mean `stage.pos`? Entities of the bench: stage, west, east'),
    (b'by n stage/pos', 'field 3 "stage/pos": there is no entity stage/pos: did you mean `stage.pos`? Entities of the bench: stage, west, east'),
    (b'by n pos', 'field 3 "pos": there is no entity pos: did you mean `stage.pos`? Entities of the bench: stage, west, east'),
    (b'by n warm', 'field 3 "warm": there is no entity warm: did you mean `west.warm` or `east.warm`? Entities of the bench: stage, west, east'),
    (b'by n Lamp.warm', 'field 3 "Lamp.warm": Lamp is an interface, no entity: did you mean `west.warm` or `east.warm`? Its entities: west, east'),
    (b'by n Lamp', 'field 3 "Lamp": Lamp is an interface, no entity: did you mean `west` or `east`? Its entities: west, east'),
    (b'by n Lamp.x', 'field 3 "Lamp.x": Lamp is an interface, no entity. Its entities: west, east'),
    (b'by n pedal', 'field 3 "pedal": there is no entity pedal. Entities of the bench: stage, west, east'),
    (b'by n east.glow', 'field 3 "east.glow": glow is an action of east: only events and entities can be read. Events of east: warm'),
    (b'by n stage.step', 'field 3 "stage.step": step is an attribute of stage: only events and entities can be read. '
     'Events of stage: pos, moving, temp'),
    (b'by n stage.', 'field 3 "stage.": `entity.event` or `entity` is wanted. Events of stage: pos, moving, temp'),
    (b'by n stage.pos east stage.pos', 'field 5 "stage.pos": this column stands there already, in field 3'),
    (b'by n ' + b'a' * 32764, 'the line of names has 32769 bytes: 32768 at most are taken'),
]


def test_single_lines():
    for code, cases in ((23, VALUES), (21, FORMS), (43, SENDERS)):
        for line, says in cases:
            verdict('%d %r' % (code, line[:60]), value(line, code) == says, value(line, code), says)
            judged = LineExplainer(MODEL, 'R')
            judged.header(NAMES)
            verdict('judged %d %r' % (code, line[:60]), judged.judge(line) == code, judged.judge(line))
    for line, says in HEADERS:
        told = LineExplainer(MODEL, 'R').names(line)
        verdict('22 %r' % line[:60], told == ['R:1: ' + says], told, says)


def test_many_columns():
    for faulty, says in ((4, '1 further column is refused'), (5, '2 further columns are refused')):
        told = LineExplainer(MODEL, 'R').names(b'by n' + b' x' * faulty)
        verdict('%d columns' % faulty, len(told) == 4 and told[-1] == 'R:1: ' + says, told)


def quiet(number, sender=b'a'):
    return b'%s %d - - - - -' % (sender, number)


def good(*numbers, sender=b'a'):
    return [(quiet(number, sender), 0) for number in numbers]


def early(*numbers, sender=b'a'):
    return [(quiet(number, sender), 24) for number in numbers]


EIGHT = [line for k in range(8) for line in good(1, sender=b'box%d' % k)]
BAD = (b'a 4 x - - - -', 23)
BAD_SAYS = 'R:5: ' + FIELD % 'x' + 'for no reading write `-`'
NEXT = '%d is wanted, the next after %d (or %d again, with the same readings)'

RUNS = [
    ('one wrong reading', good(1, 2, 3) + [BAD] + early(*range(5, 303)), False, [
        BAD_SAYS,
        'R: 298 lines of a (lines 6 to 303) were refused because line 5 was never taken: correct it and send it again, then those after it',
        'R: 299 of 302 lines refused']),
    ('one wrong reading, live', good(1, 2, 3) + [BAD] + early(5, 6), True, [
        BAD_SAYS, 'R:6: a: its lines are refused until line 5 is corrected and sent again',
        'R: 2 lines of a (lines 6 to 7) were refused because line 5 was never taken: correct it and send it again, then those after it',
        'R: 3 of 6 lines refused']),
    ('a wrong reading, corrected', good(1, 2, 3) + [BAD] + early(5) + good(4, 5), False, [
        BAD_SAYS,
        'R: 1 line of a (line 6) was refused because line 5 was not taken: number 4 was taken in line 7, and all after it since',
        'R: 2 of 7 lines refused']),
    ('a wrong reading, corrected, live', good(1, 2, 3) + [BAD] + early(5, 6) + good(4, 5), True, [
        BAD_SAYS, 'R:6: a: its lines are refused until line 5 is corrected and sent again',
        'R: 2 lines of a (lines 6 to 7) were refused because line 5 was not taken: number 4 was taken in line 8; numbers 5 to 6 are to be sent again',
        'R: 3 of 8 lines refused']),
    ('a wrong reading, corrected, and one still missing', good(1, 2, 3) + [BAD] + early(5, 6) + good(4, 5), False, [
        BAD_SAYS,
        'R: 2 lines of a (lines 6 to 7) were refused because line 5 was not taken: number 4 was taken in line 8, but number 6 was not taken since',
        'R: 3 of 8 lines refused']),
    ('numbers out of order', good(1) + early(3, 7) + good(2), False, [
        'R:3: field 2 (n) "3": %s; number 2 of a did not come before' % (NEXT % (2, 1, 1)),
        'R: 2 lines of a (lines 3 to 4) were refused because number 2 was missing: it was taken in line 5; number 3 is wanted next',
        'R: 2 of 4 lines refused']),
    ('a number that did not come in between', good(1) + early(3, 7) + good(2, 3, 4) + early(6), False, [
        'R:3: field 2 (n) "3": %s; number 2 of a did not come before' % (NEXT % (2, 1, 1)),
        'R:8: field 2 (n) "6": %s; number 5 of a did not come before' % (NEXT % (5, 4, 4)),
        'R: 2 lines of a (lines 3 to 4) were refused because number 2 was missing: it was taken in line 5; number 5 is wanted next',
        'R: 3 of 7 lines refused']),
    ('a number left out', good(1) + early(3) + good(2, 3), False, [
        'R:3: field 2 (n) "3": %s; number 2 of a did not come before' % (NEXT % (2, 1, 1)), 'R: 1 of 4 lines refused']),
    ('a number left out, and one not sent again', good(1) + early(3) + good(2), False, [
        'R:3: field 2 (n) "3": %s; number 2 of a did not come before' % (NEXT % (2, 1, 1)),
        'R: 1 line of a (line 3) was refused because number 2 was missing: it was taken in line 4, but number 3 was not taken since',
        'R: 1 of 3 lines refused']),
    ('numbers left out', good(1) + early(4, 5, 6), False, [
        'R:3: field 2 (n) "4": %s; numbers 2 to 3 of a did not come before' % (NEXT % (2, 1, 1)),
        'R: 3 lines of a (lines 3 to 5) were refused because numbers 2 to 3 of a did not come before: send number 2 first, then all after it in '
        'their order; if lost, give the next line number 2',
        'R: 3 of 4 lines refused']),
    ('what came too early is not sent again', good(1) + early(3, 4) + good(2) + early(5), False, [
        'R:3: field 2 (n) "3": %s; number 2 of a did not come before' % (NEXT % (2, 1, 1)),
        'R:6: field 2 (n) "5": %s; number 3 of a was refused in line 3 and not sent again before' % (NEXT % (3, 2, 2)),
        'R: 2 lines of a (lines 3 to 4) were refused because number 2 was missing: it was taken in line 5, but numbers 3 to 4 were not taken since',
        'R: 3 of 5 lines refused']),
    ('two senders', good(1) + good(1, sender=b'b') + [(b'a 2 x - - - -', 23)] + good(2, sender=b'b') + early(3) + early(4, sender=b'b')
     + early(4), False, [
        'R:4: ' + FIELD % 'x' + 'for no reading write `-`',
        'R:7: field 2 (n) "4": %s; number 3 of b did not come before' % (NEXT % (3, 2, 2)),
        'R: 2 lines of a (between lines 6 and 8) were refused because line 4 was never taken: correct it and send it again, then those after it',
        'R: 4 of 7 lines refused']),
    ('the number is unreadable', good(1) + [(b'a 2x - - - - -', 21)] + early(3), False, [
        'R:3: field 2 (n) "2x": a number of 1 to 10 digits is wanted',
        'R: 1 line of a (line 4) was refused because line 3 was never taken: correct it and send it again, then those after it',
        'R: 2 of 3 lines refused']),
    ('the sender is garbled', good(1, sender=b'camera_box') + [(quiet(2, b'camera-box'), 43)] + early(3, sender=b'camera_box'), False, [
        'R:3: ' + NAME % ('camera-box', 'it has `-`') + ': did you mean `camera_box`?',
        'R: 1 line of camera_box (line 4) was refused because line 3 was never taken: correct it and send it again, then those after it',
        'R: 2 of 3 lines refused']),
    ('a sender in quotes', good(1, sender=b'box') + [(quiet(2, b'"box"'), 43)] + early(3, sender=b'box'), False, [
        'R:3: ' + (NAME % ('box', 'it has `"`')).replace('"box"', '`"box"`', 1) + ': did you mean `box`?',
        'R: 1 line of box (line 4) was refused because line 3 was never taken: correct it and send it again, then those after it',
        'R: 2 of 3 lines refused']),
    ('an old number', good(1, 2, 3) + early(1) + good(4), False, [
        'R:5: field 2 (n) "1": %s; this line was taken before, in line 2' % (NEXT % (4, 3, 3)), 'R: 1 of 5 lines refused']),
    ('an old number with other readings', good(1, 2, 3) + [(b'a 1 5 - - - -', 24)], False, [
        'R:5: field 2 (n) "1": %s; number 1 was used in line 2, with other readings' % (NEXT % (4, 3, 3)), 'R: 1 of 4 lines refused']),
    ('a box that was restarted', good(1, 2, 3) + [(b'a 1 5 - - - -', 24), (b'a 2 6 - - - -', 24)] + good(4, 5), False, [
        'R: 2 lines of a (lines 5 to 6) were not taken: their numbers 1 to 2 were used already, with other readings. '
        'If a was restarted, the readings of these lines are missing: number them on from 6',
        'R: 2 of 7 lines refused']),
    ('a box that was restarted, live', good(1, 2, 3) + [(b'a 1 5 - - - -', 24), (b'a 2 - - - - -', 24)] + good(4), True, [
        'R:5: field 2 (n) "1": %s; number 1 was used in line 2, with other readings' % (NEXT % (4, 3, 3)),
        'R: 2 lines of a (lines 5 to 6) were not taken: their numbers 1 to 2 were used already, 1 of them with other readings. '
        'If a was restarted, the readings of these lines are missing: number them on from 5',
        'R: 2 of 6 lines refused']),
    ('a file twice', good(1, 2, 3) + early(1, 2) + good(3, 4), False, [
        'R: 2 lines of a (lines 5 to 6) were taken before, with the same readings (numbers 1 to 2): none of them is missing',
        'R: 2 of 7 lines refused']),
    ('old numbers, live', good(1, 2, 3) + early(1, 2), True, [
        'R:5: field 2 (n) "1": %s; this line was taken before, in line 2' % (NEXT % (4, 3, 3)),
        'R: 2 lines of a (lines 5 to 6) were taken before, with the same readings (numbers 1 to 2): none of them is missing',
        'R: 2 of 5 lines refused']),
    ('number 0', good(1) + early(0), False, [
        'R:3: field 2 (n) "0": %s; numbers begin with 1' % (NEXT % (2, 1, 1)), 'R: 1 of 2 lines refused']),
    ('too great a number', good(1) + early(4294967296), False, [
        'R:3: field 2 (n) "4294967296": %s; numbers go up to 4294967295' % (NEXT % (2, 1, 1)), 'R: 1 of 2 lines refused']),
    ('a misspelt sender', good(1, 2, sender=b'stage_box') + early(3, sender=b'stage_bx'), False, [
        'R:4: field 2 (n) "3": 1 is wanted, since no line of stage_bx was taken yet (did you mean `stage_box`?); '
        'numbers 1 to 2 of stage_bx did not come before',
        'R: 1 of 3 lines refused']),
    ('other readings', [(b'a 1 5 - - - -', 0), (b'a 1 6 true - - -', 25)], False, [
        'R:3: field 2 (n) "1": number 1 of a was taken in line 2 with other readings: field 3 (stage.pos) was `5` and is `6` here; '
        'field 4 (stage.moving) was `-` and is `true` here; a line that is sent again says the same, '
        'a new one has the next number, 2 at this place',
        'R: 1 of 2 lines refused']),
    ('a ninth sender', EIGHT + [(quiet(1, b'box8'), 42), (quiet(2, b'box8'), 42)], False, [
        'R:10: field 1 (by) "box8": eight senders are known, and no ninth is taken (box0, box1, box2, box3, box4, box5, box6, box7): '
        'let one of the eight send it; a misspelt name counts as one',
        'R: 1 further line (line 11) was refused for the same reason: box8 is a ninth sender', 'R: 2 of 10 lines refused']),
    ('an absent lamp', [(b'a 1 - - - false -', 0), (b'a 2 - - - - true', 23), (b'a 2 - - - true true', 0), (b'a 3 - - - - true', 0)], False, [
        'R:3: field 7 (east.warm) "true": only `-` is taken, because east is absent (since line 2); `true` in field 6 (east) brings it back',
        'R: 1 of 4 lines refused']),
    ('an absent lamp in an old line', [(b'a 1 - - - - true', 0), (b'a 2 - - - false -', 0), (b'a 1 - - - - true', 23)], False, [
        'R:4: field 7 (east.warm) "true": only `-` is taken, because east is absent (since line 3); `true` in field 6 (east) brings it back; '
        'and field 2 (n) "1": %s; this line was taken before, in line 2' % (NEXT % (3, 2, 2)), 'R: 1 of 3 lines refused']),
    ('a lamp that a refused line brings back', [(b'a 1 - - - false -', 0), (b'a 2 x - - true -', 23), (b'a 3 - - - - true', 23)], False, [
        'R:3: ' + FIELD % 'x' + 'for no reading write `-`',
        'R: 1 line of a (line 4) was refused because line 3 was never taken: correct it and send it again, then those after it',
        'R: 2 of 3 lines refused']),
    ('equal faults', [(b'a %d x - - - -' % k, 23) for k in range(1, 1001)], False, [
        'R:%d: ' % k + FIELD % 'x' + 'for no reading write `-`' for k in (2, 3, 4)] + [
        'R: 997 further lines of a (lines 5 to 1001) were refused for the same reason: field 3 (stage.pos)', 'R: 1000 of 1000 lines refused']),
    ('carriage returns', [(b'%s %d - - - - -\r' % (b'ab'[k % 2:k % 2 + 1], k), 23) for k in range(1, 9)], False, [
        'R:2: field 7 (east.warm) "-?": ' + LINE_ENDS,
        'R: 7 further lines (lines 3 to 9) were refused for the same reason: a carriage return at the end', 'R: 8 of 8 lines refused']),
    ('all is taken', good(1, 1, 2), False, []),
    ('a code that nothing here explains', good(1) + [(quiet(2), 24)], False, ['R:3: ' + sentence(24), 'R: 1 of 2 lines refused']),
]


def test_runs():
    for name, lines, live, says in RUNS:
        told = explained(lines, live=live)
        verdict(name, told == says, *told, '----', *says)


def test_number_0():
    """A sender of whom only refused lines came has the last number 0, but a line 0 of it is none that is sent again."""
    explainer = LineExplainer(MODEL, 'R')
    explainer.header(NAMES)
    explainer.refused(2, quiet(5), 24)
    verdict('number 0 is never sent again', explainer.judge(quiet(0)) == 24)


def test_alternating_faults():
    """A sender that corrects each fault: so many are told, the others are counted at the end."""
    told = explained([pair for k in range(1, 201) for pair in ((b'a %d x - - - -' % k, 23), (quiet(k), 0))])
    counted = [text for text in told if 'further' in text]
    verdict('alternating faults', len(told) < 40 and len(counted) == 1 and counted[0].startswith('R: 170 further lines of a '), *told[-4:])


# ---- against the engine

WORDS = (b'-', b'?', b'true', b'false', b'TRUE', b'1', b'0', b'-0', b'+5', b'007', b'2147483647', b'2147483648', b'-2147483648', b'-2147483649',
         b'10139.5', REAL, b'7ff0000000000000', b'fff8000000000000', b'3FF0000000000000', b'21.5', b'1e5', b'x', b'\xff\0', b'5\t6', b'4294967295',
         b'4294967296', b'99999999999', b'nan', b'1,5', b'9' * 30, b'a' * 60)
BOXES = (b'a', b'stage_box', b'camera_box', b'by', b'b' * 24, b's1', b's2', b's3', b's4', b's5', b's6', b's7', b's8',
         b'camera-box', b'1a', b'b' * 25, b'_a')
NUMBERS = (b'0', b'01', b'5', b'1x', b'4294967295', b'4294967296', b'1.0', b'-1', b'12345678901', b'7')


def split_lines(text):
    lines = text.split(b'\n')
    return lines[:-1] if lines[-1] == b'' else lines


def damage_line(rng, line):
    fields = line.split(b' ')
    k = rng.randrange(len(fields))
    way = rng.randrange(9)
    if way == 0:
        fields[k] = rng.choice(WORDS)
    elif way == 1:
        fields[0] = rng.choice(BOXES)
    elif way == 2:
        fields.insert(k, rng.choice(WORDS + (b'',)))
    elif way == 3:
        del fields[k]
    elif way == 4:
        return line + rng.choice((b'\r', b' ', b'\t', b' #', b' \r'))
    elif way == 5:
        return rng.choice((b'', b' ', b'#', line.replace(b' ', b','), line.replace(b' ', b'\t'), b'a ' * 5000, b'\0' * 20))
    elif way == 6 and len(fields) > 1:
        fields[1] = rng.choice(NUMBERS)
    elif way == 7:
        return line[:rng.randrange(len(line) + 1)]
    elif line:
        at = rng.randrange(len(line))
        return line[:at] + bytes([rng.choice([b for b in range(256) if b != 10])]) + line[at + 1:]
    return b' '.join(fields)


def damage(rng, lines):
    """The lines with some of them damaged, left out, sent again, put elsewhere or sent by others."""
    lines = list(lines)
    for _ in range(rng.choice((1, 1, 2, 3, 8, 20))):
        k, j = rng.randrange(len(lines)), rng.randrange(len(lines))
        way = rng.randrange(10)
        if way == 0 and len(lines) > 1:
            del lines[k]
        elif way == 1:
            lines.insert(k, lines[k])
        elif way == 2:
            lines[k], lines[j] = lines[j], lines[k]
        elif way == 3:
            lines += lines[:k]
        elif way == 4:
            lines.insert(k + 1, damage_line(rng, lines[k]))
        elif way == 5:
            lines[k:k + 8] = [other_sender(rng, line) for line in lines[k:k + 8]]
        elif way == 6:
            lines[k:k + 9] = [b'%s 1 %s' % (box, line.split(b' ', 2)[-1]) for box, line in zip(BOXES[k % 4:], lines[k:k + 9])]
        else:
            lines[k] = damage_line(rng, lines[k])
    return lines


def other_sender(rng, line):
    fields = line.split(b' ')
    return b' '.join([rng.choice(BOXES[:6]), b'%d' % rng.randrange(1, 4)] + fields[2:])


def other_names(rng, lines):
    """The same lines with some of their columns."""
    width = len(lines[0].split(b' '))
    kept = [0, 1] + sorted(rng.sample(range(2, width), rng.randrange(width - 1)))
    return [b' '.join((line.split(b' ') + [b'-'] * width)[k] for k in kept) for line in lines]


def code_of(row):
    words = row.split(b' ')
    return int(words[1]) if words[0] == b'refused' and len(words) == 2 else 0


TOLD = re.compile(r'R:(\d+): ')
RUN = re.compile(r'R: (\d+) (?:further )?lines?(?: of \w+)? \((?:line (\d+)|(?:between )?lines (\d+) (?:to|and) (\d+))\)')


def accounted(told, refused, live):
    """Is every refused line told, or counted in a run, and none twice but the first of a run?"""
    lines = [int(found.group(1)) for found in map(TOLD.match, told) if found]
    runs = [found for found in map(RUN.match, told) if found]
    first_told = [text for text in told if RUN.match(text) and ('because number' in text
                  or live and ('because line' in text or 'taken before' in text or 'not taken: their' in text))]
    ranges = [(int(run.group(2) or run.group(3)), int(run.group(2) or run.group(4))) for run in runs]
    covered = all(line in lines or any(first <= line <= last for first, last in ranges) for line in refused)
    total = len(lines) + sum(int(run.group(1)) for run in runs) - len(first_told)
    summary = not refused or told[-1].startswith('R: %d of ' % len(refused))
    return covered and total == len(refused) and summary and len(set(lines)) == len(lines)


class Tally:
    def __init__(self):
        self.lines = self.refused = self.judged_otherwise = self.unexplained = self.unaccounted = self.other_counts = 0


def follow(tally, explainer, lines, codes):
    told, refused = [], []
    for number, (line, code) in enumerate(zip(lines[1:], codes), 2):
        tally.lines += 1
        tally.judged_otherwise += explainer.judge(line) != code
        if not code:
            told += explainer.taken(number, line)
            continue
        refused.append(number)
        said = explainer.refused(number, line, code)
        tally.unexplained += any(sentence(code) in text for text in said)
        told += said
    told += explainer.end()
    tally.refused += len(refused)
    tally.unaccounted += not accounted(told, refused, explainer.live)


def test_against_engine(work):
    rng = random.Random(SEED)
    tally, headers = Tally(), [0, 0]
    for _ in range(DAMAGED_FILES):
        folder = ROOT / 'examples' / rng.choice(EXAMPLES)
        bench, lines = (folder / 'bench.txt').read_bytes(), split_lines((folder / 'readings.txt').read_bytes())[:60]
        if rng.random() < 0.2:
            lines = other_names(rng, lines)
        names = damage_line(rng, lines[0]) if rng.random() < 0.2 else lines[0]
        lines = [names] + damage(rng, lines[1:])
        (work / 'bench.txt').write_bytes(bench)
        (work / 'readings.txt').write_bytes(b'\n'.join(lines) + b'\n')
        rows = split_lines(subprocess.run([str(PROGRAM)], cwd=work, stdout=subprocess.PIPE, check=True).stdout)
        explainer = LineExplainer(read_model(bench), 'R', live=rng.random() < 0.5)
        plain = 'R:1: the line of names is ill formed'
        if rows[0] == b'refused 22':
            headers[0] += 1
            headers[1] += explainer.names(names)[0].startswith(plain)
            continue
        tally.other_counts += len(rows) != len(lines)
        explainer.header(names)
        follow(tally, explainer, lines, [code_of(row) for row in rows[1:]])
    verdict('many lines were tried', tally.lines > 5000 and tally.refused > 2000 and headers[0] > 20, tally.__dict__, headers)
    verdict('a row for each line', tally.other_counts == 0)
    verdict('every line is judged as the engine does', tally.judged_otherwise == 0, tally.__dict__)
    verdict('every refused line has a reason', tally.unexplained == 0 and headers[1] == 0, tally.__dict__, headers)
    verdict('every refused line is told or counted', tally.unaccounted == 0, tally.__dict__)


# ---- states

KEEPER = r'''
#include "bench_engine.h"
#include <stdio.h>
#include <stdlib.h>
#include <string.h>
static uint8_t text[40000], bench[BENCH_SIZE], state[BENCH_STATE_SIZE], row[BENCH_ROW_SIZE], lines[1 << 20];
static size_t read_all(const char *path, uint8_t *to, size_t room)
{
    FILE *from = fopen(path, "rb");
    size_t size = from ? fread(to, 1, room, from) : 0;
    if (from) fclose(from);
    return size;
}
/* Gives each line of a file to the engine and prints its number. */
static void run(const char *path)
{
    size_t size = read_all(path, lines, sizeof lines), names = 0, at, end;
    while (names < size && lines[names] != '\n') names++;
    for (at = names + 1; at < size; at = end + 1) {
        for (end = at; end < size && lines[end] != '\n'; end++) {}
        printf("%u\n", BENCH_NUMBER(bench_line(bench, sizeof bench, state, sizeof state, lines, names, lines + at, end - at, row, sizeof row)));
    }
}
int main(int count, char **paths)
{
    FILE *image;
    if (count != 5) return 2;
    if (bench_check(text, read_all(paths[1], text, sizeof text), bench, sizeof bench) || bench_fresh(bench, sizeof bench, state, sizeof state)) return 1;
    run(paths[2]);
    image = fopen(paths[4], "wb");
    if (!image || fwrite(state, 1, sizeof state, image) != sizeof state || fclose(image)) return 3;
    puts("-");
    run(paths[3]);
    return 0;
}
'''


def build_keeper(work):
    (work / 'keeper.c').write_text(KEEPER)
    compiler = os.environ.get('CC', 'cc').split() + ['-std=c11', '-I', str(ROOT / 'include')]
    return subprocess.run(compiler + [str(work / 'keeper.c'), str(ARCHIVE), '-lm', '-o', str(work / 'keeper')]).returncode == 0


def keep(work, bench, first, second):
    """The engine's numbers for both files, the state in between."""
    for name, data in (('bench', bench), ('first', b'\n'.join(first) + b'\n'), ('second', b'\n'.join(second) + b'\n')):
        (work / name).write_bytes(data)
    paths = [str(work / name) for name in ('keeper', 'bench', 'first', 'second', 'image')]
    out = subprocess.run(paths, stdout=subprocess.PIPE, check=True).stdout
    before, after = out.split(b'-\n')
    return [int(code) for code in before.split()], [int(code) for code in after.split()], (work / 'image').read_bytes()


def same_knowledge(explainer, snapshot):
    """Does a state say what was followed line by line?"""
    state = explainer._state
    followed = [(sender.name.decode(), sender.last, state.last_readings(sender)) for sender in state.known]
    kept = [(sender.name, sender.last, sender.readings) for sender in snapshot.senders]
    return followed == kept and sorted(state.absent) == sorted(name for name, there in snapshot.present.items() if not there)


def test_snapshots(work):
    if not build_keeper(work):
        verdict('the C program for states is built', False)
        return
    rng = random.Random(SEED)
    tally, unlike = Tally(), 0
    for k in range(SNAPSHOTS):
        folder = ROOT / 'examples' / EXAMPLES[k % len(EXAMPLES)]
        bench, lines = (folder / 'bench.txt').read_bytes(), split_lines((folder / 'readings.txt').read_bytes())[:40]
        first = [lines[0]] + damage(rng, lines[1:1 + rng.randrange(1, len(lines))])
        second = other_names(rng, lines) if k % 3 == 0 else lines
        second = [second[0]] + damage(rng, second[1:])
        before, after, image = keep(work, bench, first, second)
        model = read_model(bench)
        snapshot = read_snapshot(model, image)
        explainer = LineExplainer(model, 'R')
        explainer.header(lines[0])
        follow(tally, explainer, first, before)
        unlike += snapshot is None or not same_knowledge(explainer, snapshot)
        explainer = LineExplainer(model, 'R', snapshot, live=k % 2 == 0)
        explainer.header(second[0])
        follow(tally, explainer, second, after)
    verdict('many lines went on from a state', tally.lines > 1500 and tally.refused > 800, tally.__dict__)
    verdict('a state says what was followed', unlike == 0, '%d of %d do not' % (unlike, SNAPSHOTS))
    verdict('every line is judged from a state as the engine does', tally.judged_otherwise == 0 and tally.unexplained == 0, tally.__dict__)
    verdict('every line refused from a state is told or counted', tally.unaccounted == 0, tally.__dict__)
    test_from_state(work)


def test_from_state(work):
    """Single cases of lines that go on from a state."""
    first = [NAMES, b'a 1 5 - - - true', b'a 2 7 true ' + REAL + b' - ?', b'b 1 - - - false -']
    _, _, image = keep(work, BENCH, first, first)
    snapshot = read_snapshot(MODEL, image)
    readings = {'stage.pos': '7', 'stage.moving': 'true', 'stage.temp': REAL.decode(), 'east.warm': '?'}
    verdict('a state is read', snapshot and [tuple(sender) for sender in snapshot.senders] == [('a', 2, readings), ('b', 1, {'east': 'false'})]
            and snapshot.present == {'stage': True, 'west': True, 'east': False}, snapshot)
    verdict('a state with more bytes behind is read', read_snapshot(MODEL, image + b'more') == snapshot)
    cases = [
        ('an old line', (quiet(1), 24), 'R:2: field 2 (n) "1": %s; number 1 was used earlier (by the kept state)' % (NEXT % (3, 2, 2))),
        ('an absent lamp', (b'a 3 - - - - true', 23), 'R:2: field 7 (east.warm) "true": only `-` is taken, because east is absent '
         '(by the kept state); `true` in field 6 (east) brings it back'),
        ('other readings', (b'a 2 8 true ' + REAL + b' - ?', 25), 'R:2: field 2 (n) "2": number 2 of a was taken earlier (by the kept state) '
         'with other readings: field 3 (stage.pos) was `7` and is `8` here; a line that is sent again says the same, '
         'a new one has the next number, 3 at this place'),
    ]
    for name, line, says in cases:
        told = explained([line], snapshot=snapshot)
        verdict('from a state: ' + name, told[:1] == [says], told, says)
    told = explained([(b'a 1 9 - - - -', 24), (b'a 1 9 - - - -', 24)] + good(3, 4), snapshot=snapshot)
    verdict('from a state: a box that was restarted', told[0] == 'R: 2 lines of a (lines 2 to 3) were not taken: their number 1 was used already, '
            'by earlier lines. If these are the same lines, all is well; if a was restarted, their readings are missing: number them on from 5', told)
    told = explained([(b'a 2 7', 25)], names=b'by n stage.pos', snapshot=snapshot)
    verdict('from a state: a column that is not here', 'stage.moving was `true` and has no column here' in told[0], told)
    told = explained([(b'a 3 true', 23)], names=b'by n east.warm', snapshot=snapshot)
    verdict('from a state: no column for presence', told[0].endswith('(by the kept state); a column east with `true` brings it back'), told)
    test_other_images(image)


def test_other_images(image):
    rng = random.Random(SEED)
    plane = len(MODEL.entities) * ENTITY_BYTES
    head = HEAD_BYTES + 2 * plane  # where the first sender's part begins
    part = SENDER_HEAD_BYTES + plane
    first_cell = head + SENDER_HEAD_BYTES + len(MODEL.entities)

    def with_bytes(at, changed):
        return image[:at] + changed + image[at + len(changed):]

    spoilt = {
        'nothing': b'',
        'a short one': image[:head + 20],
        'nine senders': with_bytes(HEAD_BYTES - 1, b'\x09'),
        'a flag of 2': with_bytes(HEAD_BYTES, b'\x02'),
        'no name': with_bytes(head, b'\0'),
        'a long name': with_bytes(head, b'\x19'),
        'number 0': with_bytes(head + SENDER_HEAD_BYTES - 4, bytes(4)),
        'an unknown tag': with_bytes(first_cell, b'\x07'),
        'a value of another kind': with_bytes(first_cell + 9, b'\x02'),
        'a sender twice': image[:head] + 2 * image[head:head + part],
    }
    for name, memory in spoilt.items():
        verdict('no state: ' + name, read_snapshot(MODEL, memory) is None)
    for _ in range(2000):
        memory = bytearray(image[:head + 2 * part])
        for _ in range(rng.randrange(1, 4)):
            memory[rng.randrange(len(memory))] = rng.randrange(256)
        snapshot = read_snapshot(MODEL, bytes(memory[:rng.choice((len(memory), rng.randrange(len(memory))))]))
        explained([(quiet(1), 24), (quiet(2), 25)], snapshot=snapshot)
    verdict('any memory is read without an error', True)


def test_any_bytes():
    """Whatever is given, with whatever number: no error, and something is said or counted."""
    rng = random.Random(SEED)
    said = 0
    for _ in range(300):
        explainer = LineExplainer(MODEL, 'R', live=rng.random() < 0.5)
        names = bytes(rng.choice(b'by n.stageposlamp\t\r\xff,') for _ in range(rng.randrange(40)))
        said += len(explainer.names(names)) > 0
        explainer.header(rng.choice((names, NAMES, b'by n')))
        for number in range(2, 30):
            line = rng.choice((quiet(rng.randrange(5)), bytes(rng.randrange(256) for _ in range(rng.randrange(30))), damage_line(rng, quiet(number))))
            if rng.random() < 0.3:
                explainer.taken(number, line)
            else:
                explainer.refused(number, line, rng.choice((21, 22, 23, 24, 25, 42, 43, 33, 99)))
        said += len(explainer.end()) > 0
    verdict('any bytes', said == 600, said)


def main():
    test_single_lines()
    test_many_columns()
    test_runs()
    test_number_0()
    test_alternating_faults()
    test_any_bytes()
    with tempfile.TemporaryDirectory() as work:
        test_against_engine(Path(work))
        test_snapshots(Path(work))
    print('%d passed, %d failed' % (passed, failed))
    return failed > 0


if __name__ == '__main__':
    sys.exit(main())

#!/usr/bin/env python3
"""The places of the eight points of the design pass, counted from the text alone (docs/DESIGN-PASS.md).

    python3 tools/places.py [POINT ..] [--crates] [--counts]

At the top of a checkout. A place is a line `FILE:LINE function  kind: what`; after the places of a point comes its count, by kind, and with --crates
by crate; --counts leaves out the places. Comments are cut away first but for `none-comment`; clauses count for point 5 alone.
1 choices   own-enum: an enum, not called ..Error, ..Refusal or ..Fault, with a variant named like none or like a failure (NONE) and one with data that
            is not. none-const, none-use: a constant NO_.., REFUSED; a function whose body uses one. none-comment: a function that answers a number or a
            part, whose comment has an `N if`, `N for`, `N where`, `N, which`. refusal: a refusal number as a literal, after `return`, `=>`, `Refused(`,
            `code:`, or where a function has a parameter `code`. kind-const: three and more constants of one file that count up by 1 from 0 (but rows).
            flag-field: a struct with a bool or a count beside other fields. kind-number: a parameter, field or result that is a kind as a number (KIND).
2 twins     same: functions with the same tokens but for consistently renamed names and numbers (15 tokens and more; no export). near: their
            tokens, all names and numbers as one, are 90 % alike (25 tokens and more). A place is a function; groups have a number.
3 loops     every `while` and `loop`. index: a variable of its test is stepped by a constant or set from one that is. jump: stepped by something else.
            reader: the test asks a function about a place. other: the rest.
4 by hand   cast: an `as` (each; in constants too). bytes: shifts, or 256 beside an index. table: a function of tests and constants alone, with two ways
            and more. compare, copy: a loop that compares elements and returns, or sets elements and no more. digits: arithmetic by 10, 48 or 87.
            impl: an impl of Clone, Copy, PartialEq, Eq, PartialOrd, Ord, Debug, Display that no derive wrote.
5 facts     six: a function with six parameters and more. clause: a clause (or a factor of one) in three functions and more. together: a group of three
            and more parameters, by name, in three functions and more (the largest such; a place is a group). guard: a run-time test that returns
            at once where a constant MOST_.. is passed by a row of the bench.
6 buffers   count: a slice or array parameter beside a count (COUNT). columns: two and more slice parameters that stand together in three functions and
            more. packed: numbers put together or taken apart by 8, 32, 256, 65536 with no index. search: a loop that returns at the first that fits.
            room: three arrays and more made in one body. cursor: a function put_.. with a `&mut [u8]` and the offset to write at.
7 steps     choice: a parameter that is an own enum without data, a bool or a kind's number, by which the body chooses what to call. loops: loops of one
            crate, 20 tokens and more, that are 75 % alike; groups have a number.
8 proofs    answers: a file of answers of a function (count, lines). long: a `#[tactic]` over 160 characters. repeated: three lemmas that stand together in
            three and more attributes.
"""
import collections, difflib, glob, re, sys

NONE = re.compile(r'(No|Not|None|Nothing|Blank|Un\w*|Bad\w*|Mal\w*|Ill\w*|Refused|TooLong|No[A-Z]\w*)$')
KIND = re.compile(r'(class|kind|sort|want|code|tag|low|high|flag|previous_flag|other)$')
COUNT = re.compile(r'(count|n|size|length|used|kept|rows|width|most)$')
REFUSALS = set(range(11, 19)) | set(range(21, 26)) | {31, 32, 33} | set(range(41, 50))
TOKEN = re.compile(r"""b?"(?:\\.|[^"\\])*"|b?'(?:\\.|[^'\\])'|'\w+|(?:\w+::)*[^\W\d]\w*|\d\w*|[-+*/|<>=!&.:]=|->|=>|&&|\|\||<<|>>|\.\.|\S""")
WORDS = set('as bool break const continue else enum false fn for i32 i64 f64 if impl in let loop match mut pub ref return self struct true u16 u32 u64 u8 '
            'usize where while'.split())
Function = collections.namedtuple('Function', 'crate path line name comment attributes params result clauses body body_line export')


def close(text, at, pair):
    depth = 0
    for i in range(at, len(text)):
        depth += (text[i] == pair[0]) - (text[i] == pair[1])
        if depth == 0:
            return i
    return len(text)


def split(text, mark=','):
    parts, depth, last, pairs = [], 0, 0, '([{<)]}>' if mark == ',' else '([{)]}'
    for i, c in enumerate(text):
        depth += (c in pairs[:len(pairs) // 2]) - (c in pairs[len(pairs) // 2:] and not (c == '>' and text[i - 1] in '-='))
        if c == mark and depth == 0:
            parts.append(text[last:i])
            last = i + 1
    return [p.strip() for p in parts + [text[last:]] if p.strip()]


def bare(text):
    return re.sub(r'("(?:\\.|[^"\\\n])*")|//[^\n]*', lambda m: m.group(1) or ' ' * len(m.group()), text)


FN = re.compile(r'^([ \t]*)((?:pub(?:\(\w+\))? )?(?:unsafe )?(?:const )?(?:extern "C" )?)fn (\w+)', re.M)
CLAUSE = re.compile(r'\s*(?:requires|ensures)\*?(?: (\w+))? \{')


def functions(path, raw):
    text = bare(raw)
    for m in FN.finditer(text):
        start = m.end()
        if text[start] == '<':
            start = close(text.replace('->', '  ').replace('=>', '  '), start, '<>') + 1
        end = close(text, start, '()')
        clauses, at = [], end + 1
        rest = re.compile(r'(?:\[[^\]]*\]|[^{;])*?(?=\s*[{;]|\s+(?:requires|ensures)\b)').match(text, at)
        result, at = rest.group().replace('->', '').strip(), rest.end()
        while c := CLAUSE.match(text, at):
            stop = close(text, c.end() - 1, '{}')
            clauses.append(' '.join(text[c.end():stop].split()))
            at = stop + 1
        if not (body := re.compile(r'\s*\{').match(text, at)):
            continue  # a trait's function with no body
        at = body.end() - 1
        params = []
        for p in split(text[start + 1:end]):
            name, _, kind = p.partition(':')
            if name.endswith('self'):
                continue
            params.append((name.replace('mut ', '').strip(), kind.strip()))
        above = raw[:m.start()].rstrip('\n').split('\n')
        comment, attributes = [], []
        while above and re.match(r'\s*(//|#\[)', above[-1]):
            (attributes if '#[' in above[-1] else comment).append(above.pop().strip())
        yield Function(path.split('/')[1], path, text.count('\n', 0, m.start()) + 1, m.group(3), ' '.join(reversed(comment)), attributes, params, result,
                       clauses, text[at:close(text, at, '{}') + 1], text.count('\n', 0, at) + 1, 'extern' in m.group(2))


def tokens(body):
    found = TOKEN.findall(body)
    return [t for i, t in enumerate(found) if not (t == ',' and i + 1 < len(found) and found[i + 1] in ')]}')]


def is_name(t):
    return (t[0].isalnum() or t[0] in '_"\'' or t[:2] in ('b"', "b'")) and t not in WORDS


def renamed(ts):
    seen = {}
    return tuple('\x00%d' % seen.setdefault(t, len(seen)) if is_name(t) else t for t in ts)


def plain(ts, calls=False):
    return tuple('\x00' if is_name(t) and not (calls and (ts[i + 1:i + 2] == ['('] or t[0].isupper() or '::' in t)) else t.split('::')[-1]
                 for i, t in enumerate(ts))


def alike(items, least, share):
    """Groups of (key, tokens) that are alike, by single linkage."""
    items = [x for x in items if len(x[1]) >= least]
    group = {x[0]: {x[0]} for x in items}
    for i, (a, s) in enumerate(items):
        match = difflib.SequenceMatcher(None, autojunk=False)
        match.set_seq2(s)
        for b, t in items[i + 1:]:
            if group[a] is group[b] or min(len(s), len(t)) < share * max(len(s), len(t)) * 0.85:
                continue
            match.set_seq1(t)
            if match.real_quick_ratio() >= share and match.quick_ratio() >= share and match.ratio() >= share:
                joined = group[a] | group[b]
                for k in joined:
                    group[k] = joined
    return sorted({tuple(sorted(g)) for g in group.values() if len(g) > 1})


def loops(f):
    """(line, head, body) of each loop of a function."""
    for m in re.finditer(r'\b(?:while\b([^{]*)|loop\s*)\{', f.body):
        end = close(f.body, m.end() - 1, '{}')
        yield f.body_line + f.body.count('\n', 0, m.start()), (m.group(1) or '').strip(), f.body[m.end():end]


def slices(f):
    return [n for n, k in f.params if re.match(r"&('\w+ )?(mut )?\[|\[", k)]


def together(lists, least):
    """Groups of names that stand together in three lists and more: the one that saves most names first, which is then taken out of the lists."""
    lists, found = [frozenset(x) for x in lists], {}
    while True:
        sets = collections.Counter(a & b for a in set(lists) for b in set(lists) if len(a & b) >= least)
        times = {s: sum(s <= x for x in lists) for s in sets}
        best = max((s for s in sets if times[s] > 2), key=lambda s: ((len(s) - 1) * times[s], sorted(s)), default=None)
        if not best:
            return found
        found[best] = times[best]
        lists = [x - best if best <= x else x for x in lists]


SOURCES = {p: open(p, encoding='utf-8').read() for p in sorted(glob.glob('crates/*/src/**/*.rt', recursive=True))}
FUNCTIONS = [f for p, raw in SOURCES.items() for f in functions(p, raw)]
CODES = {f.name: [n for n, _ in f.params].index('code') for f in FUNCTIONS if 'code' in [n for n, _ in f.params]}
ENUMS, STRUCTS = {}, []
for path, raw in SOURCES.items():
    for m in re.finditer(r'^(?:pub(?:\(\w+\))? )?(enum|struct) (\w+)[^{;(]*\{', bare(raw), re.M):
        text = bare(raw)
        fields = split(re.sub(r'#\[[^\]]*\]', '', text[m.end():close(text, m.end() - 1, '{}')]))
        line = text.count('\n', 0, m.start()) + 1
        if m.group(1) == 'enum':
            ENUMS[m.group(2) if m.group(2) not in ENUMS else m.group(2) + ' of ' + path] = (path, line, fields)
        else:
            STRUCTS.append((path, line, m.group(2), [tuple(x.strip() for x in p.replace('pub ', '').split(':', 1)) for p in fields if ':' in p]))
CHOICES = {n for n, (_, _, vs) in ENUMS.items() if not any('(' in v or '{' in v for v in vs)}


def of(f, kind, what, line=None):
    return f.path, line or f.line, f.name, kind, what


def constants():
    for path, raw in SOURCES.items():
        for m in re.finditer(r'^\s*(?:pub )?const (\w+): ([^=]+) = ([^;]*);', bare(raw), re.M):
            yield path, raw.count('\n', 0, m.start(1)) + 1, m.group(1), m.group(2), m.group(3)


def point1():
    for name, (path, line, vs) in ENUMS.items():
        names = [re.match(r'\w+', v).group() for v in vs]
        if not re.search('(Error|Refusal|Fault)$', name) and name not in CHOICES and 0 < sum(map(bool, map(NONE.match, names))) < len(vs):
            yield path, line, name, 'own-enum', ', '.join(names)
    none = re.compile(r'\b(?:\w+::)*(NO_[A-Z]\w*|REFUSED)\b')
    counted = collections.defaultdict(list)
    for path, line, name, kind, value in constants():
        if none.fullmatch(name):
            yield path, line, name, 'none-const', value
        if value.isdigit() and not re.search('_ROWS?$', name):
            counted[path].append((int(value), line, name))
    for path, found in counted.items():
        runs = []
        for value, line, name in found:
            if value == 0:
                runs.append([])
            if runs and value == len(runs[-1]):
                runs[-1].append((line, name))
        for line, name in [x for run in runs if len(run) > 2 for x in run]:
            yield path, line, name, 'kind-const', 'one of those that count up from 0'
    for f in FUNCTIONS:
        if used := none.findall(f.body):
            yield of(f, 'none-use', '%d times %s' % (len(used), ' '.join(sorted(set(used)))))
        elif not f.export and re.search(r'usize|u\d+|&', f.result) and (m := re.search(r'[;:,] (?:or )?(?:\d+|`\w+`|the (?:count|number) of tokens|none)(?: if | for | where |, which )[^.;]*', f.comment)):
            yield of(f, 'none-comment', m.group()[2:])
        for m in re.finditer(r'(?:\breturn |=> |\bRefused\(|\bcode: )(\d+)\b(?=[;,)\s])', f.body):
            if int(m.group(1)) in REFUSALS:
                yield of(f, 'refusal', m.group(), f.body_line + f.body.count('\n', 0, m.start()))
        for m in re.finditer(r'\b(%s)\(' % ('|'.join(CODES) or '$^'), f.body):
            given = split(f.body[m.end():close(f.body, m.end() - 1, '()')])
            if CODES[m.group(1)] < len(given) and given[CODES[m.group(1)]] in map(str, REFUSALS):
                yield of(f, 'refusal', m.group() + '.. %s ..)' % given[CODES[m.group(1)]], f.body_line + f.body.count('\n', 0, m.start()))
        kinds = [n for n, k in f.params if KIND.match(n) and re.fullmatch(r'u8|usize|u64', k)]
        kinds += ['result'] if f.result == 'u8' and re.search('class|kind|sort', f.name) else []
        if kinds:
            yield of(f, 'kind-number', ', '.join(kinds))
    for path, line, name, fields in STRUCTS:
        if len(fields) > 1 and any(k == 'bool' or n == 'count' for n, k in fields):
            yield path, line, name, 'flag-field', ', '.join(n for n, _ in fields)
        if any(KIND.match(n) and k in ('u8', 'usize') for n, k in fields):
            yield path, line, name, 'kind-number', ', '.join(n for n, _ in fields if KIND.match(n))


def point2():
    by = collections.defaultdict(list)
    for i, f in enumerate(FUNCTIONS):
        ts = tokens(f.body)
        if len(ts) >= 15 and not f.export:
            by[renamed(ts)].append(i)
    same = [g for ts, g in by.items() if len(g) > 1 and (len(ts) >= 20 or len({FUNCTIONS[i].crate for i in g}) == 1)]
    near = alike([(g[0], plain(tokens(FUNCTIONS[g[0]].body), True)) for g in by.values()], 25, 0.9)
    for kind, groups in (('same', same), ('near', near)):
        for k, g in enumerate(groups):
            for i in g:
                yield of(FUNCTIONS[i], kind, 'group %d of %d: %s' % (k + 1, len(g), ' '.join(FUNCTIONS[j].name for j in g)))
    shared = collections.Counter(field for _, _, _, fields in STRUCTS for field in fields)
    for path, line, name, fields in STRUCTS:
        if both := [n for n, k in fields if shared[n, k] > 2]:
            yield path, line, name, 'fields', 'shared with three and more: ' + ', '.join(both)
    kinds = {n: tuple(re.sub(r'^\w+', '', v) for v in vs) for n, (_, _, vs) in ENUMS.items() if n not in CHOICES}
    for n, (path, line, _) in ENUMS.items():
        if n in kinds and list(kinds.values()).count(kinds[n]) > 1:
            yield path, line, n, 'fields', 'an enum of the same parts as another'


def stepped(test, body):
    """How a variable of the test is stepped: 'index', 'jump' or None."""
    how = None
    for v in set(re.findall(r'\b[a-z_]\w*\b', test)):
        for m in re.finditer(r'(?<![\w.])%s (\+=|-=|=) ([^;]+);' % v, body):
            if re.fullmatch(r'\d+', m.group(2)) and m.group(1) != '=' or re.fullmatch(r'%s [-+] \d+' % v, m.group(2)):
                return 'index'
            source = re.search(r'let %s = ([^;]+);' % re.escape(m.group(2).split()[0]), body)
            if source and re.fullmatch(r'\w+ [-+] 1', source.group(1)):
                return 'index'
            how = 'jump'
    return how


def point3():
    for f in FUNCTIONS:
        for line, test, body in loops(f):
            how = stepped(test, body) if test else None
            kind = '-reader' if re.search(r'\w\(', test.replace('.len()', '')) else how or '-other'
            yield of(f, kind, 'while ' + test if test else 'loop', line)


def point4():
    for path, raw in SOURCES.items():
        inside = [f for f in FUNCTIONS if f.path == path]
        for k, line in enumerate(bare(raw).split('\n'), 1):
            for _ in re.findall(r'\bas (?:u8|u16|u32|u64|usize|i32|i64|f64)\b', line):
                owner = [f.name for f in inside if f.body_line <= k < f.body_line + f.body.count('\n') + 1]
                yield path, k, (owner or ['const'])[-1], 'cast', line.strip()
        for m in re.finditer(r'^impl(?:<[^{]*?>)? (Clone|Copy|PartialEq|Eq|PartialOrd|Ord|Debug|Display|fmt::Display)\b', raw, re.M):
            yield path, raw.count('\n', 0, m.start()) + 1, m.group(1), 'impl', m.group()
    for f in FUNCTIONS:
        if re.search(r'<<|>>', f.body) or '256' in f.body and re.search(r'\w\[[^\]]+\]', f.body):
            yield of(f, 'bytes', 'integers by bytes or bits')
        if re.search(r'[*/%] (?:10|16|base)\b|\b48\b|\b87\b', f.body):
            yield of(f, 'digits', 'numbers as text')
        flat = re.sub(r'\bif [^{]*\{|\bmatch [^{]*\{|[\w:]+(?:\([\w: ,]*\)|\s*\{[\w:, .]*\})?(?: \| [\w:]+)* =>', '{', f.body)
        ways = len(re.findall(r'\breturn\b|=>', f.body))
        if ways and not re.search(r'\b(let|while|loop|for)\b|[^=!<>]=[^=>]|\+=|[A-Z]\w* \{ ?\w+[:,]|(return|=>|\}\n) *[A-Z]\w+(::\w+)? \{', f.body) and not re.search(r'\w\(|\w\[', flat) and len(tokens(f.body)) > 6:
            if all(is_name(t) or t in WORDS or t in '{}(),;._!&<<==>>||&&-+:*/%' for t in tokens(flat)):
                yield of(f, 'table', '%d ways' % (ways + 1))
        for line, test, body in loops(f):
            if re.search(r'if [^{(]*\[[^{(]*(==|!=)[^{(]*\{\s*return (true|false)', body):
                yield of(f, 'compare', 'while ' + test, line)
            if re.fullmatch(r'\s*[\w\[\]. +]*\w\[[^\]]+\] = [^;]+;\s*\w+ \+= 1;\s*', body):
                yield of(f, 'copy', 'while ' + test, line)


def point5():
    stands = collections.defaultdict(list)
    for f in FUNCTIONS:
        if len(f.params) >= 6:
            yield of(f, 'six', '%d parameters' % len(f.params))
        for c in {re.sub(r'^\((.*)\)$', r'\1', x) for c in f.clauses for x in split(c, '×')}:
            if len(c) > 8 and 'result' not in c:
                stands[c].append(f)
        for m in re.finditer(r'if (MOST_\w+ <=? \w+|[\w.()]+ > MOST_\w+|\w+\.len\(\) < \w+) \{\s*return[^;]*;', f.body):
            if 'len' not in m.group(1):
                yield of(f, 'guard', m.group(1), f.body_line + f.body.count('\n', 0, m.start()))
    for c, fs in stands.items():
        if len(fs) > 2:
            yield of(fs[0], 'clause', '%d functions: %s' % (len(fs), c))
    for s, n in together([[p for p, _ in f.params] for f in FUNCTIONS if not f.export], 3).items():
        f = next(f for f in FUNCTIONS if s <= {p for p, _ in f.params})
        yield of(f, 'together', '%d functions: %s' % (n, ', '.join(p for p, _ in f.params if p in s)))


def point6():
    often = together([slices(f) for f in FUNCTIONS if not f.export], 2)
    for f in FUNCTIONS:
        lent = slices(f)
        counts = [n for n, k in f.params if COUNT.match(n) and k in ('usize', 'u8') and not (n == 'n' and {'offsets', 'at'} & {p for p, _ in f.params})]
        if lent and counts and not f.export:
            yield of(f, 'count', '%s beside %s' % (', '.join(lent), ', '.join(counts)))
        if not f.export and (best := max(often, key=lambda s: len(s & set(lent)), default=None)) and len(best & set(lent)) > 1:
            yield of(f, 'columns', ' '.join(n for n in lent if n in best))
        if re.search(r'[*/%] (?:8|32|256|65536)\b|\b(?:8|32|256|65536) \*', f.body) and not re.search(r'256 \* w|w\d? [/%] 256|n\d? [/%] 256', f.body):
            yield of(f, 'packed', ' '.join(re.findall(r'[*/%] (?:8|32|256|65536)\b|\b(?:8|32|256|65536) \*', f.body)))
        for line, test, body in loops(f):
            if re.search(r'if [^{]*[\w)\]](\[[^{]*\]|\()[^{]*\{\s*return (\w+);', body) and re.search(r'return (i|j|k|n|p|here|true|false|[a-z_]+);', body) and stepped(test, body):
                yield of(f, 'search', 'while ' + test, line)
        if len(made := re.findall(r'let mut (\w+)(?:: [^=]*)? = \[', f.body)) > 2:
            yield of(f, 'room', ' '.join(made))
        if (at := [n for n, k in f.params if n in ('at', 'used') and k == 'usize']) and f.name.startswith('put_') and any(k == '&mut [u8]' for _, k in f.params):
            yield of(f, 'cursor', at[0])


def point7():
    for f in FUNCTIONS:
        for n, k in f.params:
            kind = k in CHOICES or k == 'bool' or KIND.match(n) and k in ('u8', 'usize')
            test = re.search(r'match %s \{' % n, f.body) or re.search(r'if !?%s\b(?: [!=]= \w+)? \{' % n, f.body)
            calls = re.findall(r'\b[a-z_]\w*\(', f.body[test.end():]) if test else []
            arms = re.findall(r'=> (?!\d|true|false|[A-Z]\w*(?:::\w+)?,)', f.body[test.end():]) if test and 'match' in test.group() else []
            if kind and (len(calls) > 1 or len(arms) > 1):
                yield of(f, 'choice', '%s: %s' % (n, k))
    for crate in sorted({f.crate for f in FUNCTIONS}):
        every = [(i, f, line, plain(tokens(test + '{' + body))) for i, f in enumerate(FUNCTIONS) if f.crate == crate for line, test, body in loops(f)]
        for k, g in enumerate(alike([((i, line), ts) for i, _, line, ts in every], 20, 0.75)):
            for i, line in g:
                yield of(FUNCTIONS[i], 'loops', '%s group %d of %d' % (crate, k + 1, len(g)), line)


def point8():
    for path in sorted(glob.glob('crates/*/proofs/**/*.antt', recursive=True)):
        if not re.search(r'/proofs/(laws|steps|theorems)[/.]|/Lib.antt$', path):
            text = open(path, encoding='utf-8').read()
            n = len(re.findall(r'^(?:abbrev )?pub \S+ : ', text, re.M))
            yield path, 1, path.split('/')[-2], 'answers', '%d in %d lines' % (n, text.count('\n'))
    lists = []
    for path, raw in SOURCES.items():
        for k, line in enumerate(raw.split('\n'), 1):
            if '#[tactic' in line or '#![tactic' in line:
                if len(line) > 160:
                    yield path, k, '', 'long', '%d characters' % len(line)
                lists.append([x[-1] for x in map(lambda x: x.split('::'), re.findall(r'\w+(?:::\w+)+', line)) if x[-1][0].islower()])
    for s, n in together(lists, 3).items():
        yield 'crates', 0, '', 'repeated', '%d attributes: %s' % (n, ' '.join(sorted(s)))


def main():
    for point in [int(a) for a in sys.argv[1:] if a.isdigit()] or range(1, 9):
        places = sorted(globals()['point%d' % point](), key=lambda p: p[:2])
        if '--counts' not in sys.argv:
            for path, line, name, kind, what in places:
                print('%s:%d %s  %s: %s' % (path, line, name, kind, what))
        kinds = collections.Counter(p[3] for p in places)
        print('point %d: %d places (%s)' % (point, sum(n for k, n in kinds.items() if k[0] != '-'), ', '.join('%s %d' % x for x in sorted(kinds.items()))))
        if '--crates' in sys.argv:
            crates = collections.Counter(p[0].split('/')[1] for p in places if p[3][0] != '-' and '/' in p[0])
            print('  ' + ', '.join('%s %d' % (c, crates[c]) for c in ORDER if c in crates))


ORDER = [line.split(':')[0].split()[0] for line in open('crates.txt', encoding='utf-8') if line.strip()]
if __name__ == '__main__':
    main()

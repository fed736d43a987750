#!/usr/bin/env python3
"""Public functions, types, definitions and theorems that differ from an older commit, old and new side by side, as Markdown.

    python3 tools/sides.py COMMIT

At the top of a checkout. Compared are, without comments and layout: the signature and the clauses of each public function (one that moved is found by
its name, first in the same file, then in the same crate), public types with their ghost fields and models, each declaration in specs/, and each in proofs/theorems.
"""
import collections, glob, io, os, re, subprocess, sys, tarfile, tempfile

sys.dont_write_bytecode = True
from places import close

FN = re.compile(r'^([ \t]*)(pub )((?:unsafe )?(?:const )?(?:extern "C" )?)fn (\w+)', re.M)
CLAUSE = re.compile(r'\s*(requires|ensures)(\*?)(?: (\w+))? \{')
TYPE = re.compile(r'^pub (?:struct|enum|type|trait|const|static) (\w+)', re.M)
DECLARED = re.compile(r'^(?:(?:abbrev|unfoldable|opaque) )*pub (?:record |data )?(\S+)', re.M)


def bare(text, mark):
    return re.sub(r'("(?:\\.|[^"\\\n])*")|%s[^\n]*' % mark, lambda m: m.group(1) or '', text)


def flat(text):
    return re.sub(r'([(\[]) | ([)\]])|,(?= [)\]])', r'\1\2', ' '.join(text.split())).replace(',)', ')')


def functions(text):
    """(name, owner, what it says) of each public function."""
    owners = [(m.start(), close(text, m.end() - 1, '{}'), m.group(1)) for m in re.finditer(r'^impl(?:<[^{]*?>)? (?:[\w<>\', ]+ for )?(\w+)[^{]*\{', text, re.M)]
    for m in FN.finditer(text):
        start = text.index('(', m.end())
        at = re.compile(r'[^{;]*?(?=\s*[{;]|\s+(?:requires|ensures)\b)').match(text, close(text, start, '()')).end()
        said = [flat(text[m.start(2):at])]
        while c := CLAUSE.match(text, at):
            stop = close(text, c.end() - 1, '{}')
            said.append('    ' + ' '.join(x for x in (c.group(1) + c.group(2), c.group(3), '{ %s }' % flat(text[c.end():stop])) if x))
            at = stop + 1
        owner = next((o for a, b, o in owners if a < m.start() < b), '')
        yield m.group(4), owner, '\n'.join(said)


def blocks(text, pattern):
    """(name, text) of each top declaration: up to the next line that begins at the margin."""
    for m in pattern.finditer(text):
        more = re.compile(r'\n(?=\S)').search(text, m.end())
        while more and text[more.end()] in '})':
            more = re.compile(r'\n(?=\S)').search(text, more.end() + 1)
        yield m.group(1), re.sub(r'\n\s*\n', '\n', text[m.start():more.start() if more else len(text)]).rstrip()


def declared(text):
    """(name, text) of each declaration of a specification, its equations with it."""
    found = collections.OrderedDict()
    starts = [m.start() for m in re.finditer(r'^\S', text, re.M)] + [len(text)]
    name = None
    for a, b in zip(starts, starts[1:]):
        line = text[a:b].rstrip()
        if m := DECLARED.match(line):
            name = m.group(1)
            found[name] = line
        elif name and line.split()[0].strip('()') and not re.match(r'(use|ghost|module|pub|mod|unfolding|infix)\b', line):
            found[name] += '\n' + line
    return [(n, '\n'.join(' '.join(x.split()) for x in t.split('\n') if x.strip())) for n, t in found.items()]


def read(root):
    items = {}
    for path in sorted(glob.glob(os.path.join(root, 'crates/*/src/**/*.rt'), recursive=True)):
        crate, where = path[len(root):].strip('/').split('/')[1], path[len(root):].strip('/')
        text = bare(open(path, encoding='utf-8').read(), '//')
        for name, owner, said in functions(text):
            items['function', crate, where, owner, name] = said
        for name, said in blocks(text, TYPE):
            items['type', crate, where, '', name] = '\n'.join(re.sub(r'^ +(?=#\[)', '    ', x) for x in said.split('\n'))
        for m in re.finditer(r'^impl(?:<[^{]*?>)? [\w<>\', ]+ for (\w+)[^{]*\{', text, re.M):
            ghosts = re.findall(r'ghost (?!use)\w+ = \{.*?\};', text[m.start():close(text, m.end() - 1, '{}')], re.S)
            if ghosts:
                items['type', crate, where, m.group(1), flat(m.group().rstrip('{'))] = '\n'.join(map(flat, ghosts))
    for kind, pattern in (('definition', 'specs/**/*.antt'), ('theorem', 'proofs/theorems/*.antt')):
        for path in sorted(glob.glob(os.path.join(root, 'crates/*', pattern), recursive=True)):
            where = path[len(root):].strip('/')
            if kind == 'definition' and '/declared/' in where:
                continue
            for name, said in declared(bare(open(path, encoding='utf-8').read(), '--')):
                if kind == 'theorem':
                    said = said.split('\n' + name)[0]
                items[kind, where.split('/')[1], where, '', name] = said
    return items


def main(commit):
    with tempfile.TemporaryDirectory() as root:
        packed = subprocess.run(['git', 'archive', commit, 'crates'], check=True, stdout=subprocess.PIPE).stdout
        tarfile.open(fileobj=io.BytesIO(packed)).extractall(root)
        old, new = read(root), read('.')
    gone = {k: v for k, v in old.items() if k not in new}
    added = {k: v for k, v in new.items() if k not in old}
    pairs = {k: (k, k) for k in old if k in new and old[k] != new[k]}
    for near in (lambda a, b: a[2] == b[2], lambda a, b: True):
        for k in list(gone):
            for n in list(added):
                if n[0] == k[0] and n[1] == k[1] and n[4] == k[4] and near(k, n) and k in gone:
                    pairs[k] = (k, n)
                    del gone[k], added[n]
    for kind in ('function', 'type', 'definition', 'theorem'):
        print('\n### %ss\n' % kind.capitalize())
        for k, (a, b) in sorted(pairs.items()):
            if k[0] == kind and (old[a] != new[b] or a[2:] != b[2:]):
                moved = '' if a[2:] == b[2:] else ', now %s in %s' % ('::'.join(x for x in b[3:] if x), b[2].split('/', 1)[1])
                print('`%s` of %s%s%s' % (k[4], k[2].split('/', 1)[1], moved, ':' if old[a] != new[b] else ': word for word'))
                if old[a] != new[b]:
                    print('\n    before\n%s\n    now\n%s\n' % (indent(old[a]), indent(new[b])))
                else:
                    print()
        for what, items in (('Gone', gone), ('New', added)):
            listed = collections.defaultdict(list)
            for k in items:
                if k[0] == kind:
                    listed[k[2].split('/', 1)[1]].append('`%s`' % '::'.join(x for x in k[3:] if x))
            for where, names in sorted(listed.items()):
                print('%s in %s: %s.\n' % (what, where, ', '.join(sorted(names))))


def indent(text):
    return '\n'.join('        ' + line for line in text.split('\n'))


main(sys.argv[1])

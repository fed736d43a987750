#!/usr/bin/env python3
"""Clauses that mean a definition, and not the constant of src that has its name.

    constants.py [--check] [ROOT]

Where a file sees a constant, its bare name in a clause means the constant, also if a `ghost use` brings in a definition of that name: the clause
would follow the constant when that is changed. So where a definition and a constant of any two crates share a name, clauses write the definition with
its module, `Planes.CELL_BYTES`, and a `ghost use` brings in the module. Without --check such names are written so; with it those that stand bare, in a
clause or a `ghost use`, are listed, and the status is 1 if there are any.
"""
import glob
import os
import re
import sys

CONST = re.compile(r'^\s*(?:pub(?:\([^)]+\))? )?(?:const|static|static mut) (\w+):', re.M)
DEFINITION = re.compile(r'^(?:(?:abbrev|unfoldable|opaque) )?pub (\w+) :', re.M)
USE = re.compile(r'^ghost use ([\w.]+)\.\{([^}]*)\};\n', re.M)
CLAUSE = re.compile(r'^[ \t]+(?:requires|ensures)\*?(?= )[^{\n]*\{', re.M)


def read(pattern):
    return {path: open(path, encoding='utf-8').read() for path in sorted(glob.glob(pattern, recursive=True))}


def items(listed):
    return [item.strip() for item in listed.split(',') if item.strip()]


def clauses(text):
    """From where to where each clause stands, without its braces."""
    for m in CLAUSE.finditer(text):
        depth, at = 1, m.end()
        while depth:
            depth += {'{': 1, '}': -1}.get(text[at], 0)
            at += 1
        yield m.end(), at - 1


def bare(text, shared):
    """The shared names that stand bare in clauses, or that a `ghost use` brings in."""
    words = {word for start, end in clauses(text) for word in re.findall(r'(?<![\w.])[A-Za-z_]\w*', text[start:end])}
    words |= {item.split(' as ')[-1].strip() for m in USE.finditer(text) for item in items(m[2])}
    return words & shared


def qualified(text, shared):
    """The text, where clauses write the shared names that a `ghost use` brings in with its module."""
    modules = {item: m[1] for m in USE.finditer(text) for item in items(m[2]) if item in shared}
    parts, at = [], 0
    for start, end in clauses(text):
        clause = text[start:end]
        for name, module in modules.items():
            clause = re.sub(r'(?<![\w.])%s\b' % name, '%s.%s' % (module.split('.')[-1], name), clause)
        parts += [text[at:start], clause]
        at = end
    text = ''.join(parts) + text[at:]
    waiting = {module for module in modules.values() if 'ghost use %s;\n' % module not in text}

    def trimmed(m):
        kept = [item for item in items(m[2]) if modules.get(item) != m[1]]
        line = 'ghost use %s;\n' % m[1] if m[1] in waiting else ''
        waiting.discard(m[1])
        return line + ('ghost use %s.{%s};\n' % (m[1], ', '.join(kept)) if kept else '')
    return USE.sub(trimmed, text)


def main():
    words = [word for word in sys.argv[1:] if word != '--check']
    os.chdir(words[0] if words else '.')
    sources = read('crates/*/src/**/*.rt')
    constants = {name for text in sources.values() for name in CONST.findall(text)}
    shared = constants & {name for text in read('crates/*/specs/**/*.antt').values() for name in DEFINITION.findall(text)}
    found = 0
    for path, text in sources.items():
        if '--check' not in sys.argv and bare(text, shared):
            text = qualified(text, shared)
            with open(path, 'w', encoding='utf-8') as file:
                file.write(text)
        names = bare(text, shared)
        found += len(names)
        if names:
            print('%s: constants as well as definitions: %s' % (path, ', '.join(sorted(names))))
    print('%d names of constants are definitions too; %d times such a name stands bare' % (len(shared), found))
    return 1 if found or not shared else 0


if __name__ == '__main__':
    sys.exit(main())

"""Builds what is run, if it is missing or old: the proved runner, the archive of the engine's calls, the small programs in C on it."""
import glob
import os
import re
import subprocess
from typing import Iterable, List, Optional

from .interrupts import starting
from .output import STDERR, Failure, reason, remove, tell

ROOT = os.path.dirname(os.path.dirname(os.path.dirname(os.path.realpath(__file__))))
RUNNER = os.path.join(ROOT, 'target', 'bin', 'bench')
ARCHIVE = os.path.join(ROOT, 'target', 'staticlib', 'libengine.a')
HEADER = os.path.join(ROOT, 'include', 'bench_engine.h')
TOOL_SECONDS = 5.0  # for one that is interrupted to end by itself


def run_tool(words: List[str], folder: Optional[str] = None) -> bool:
    """Standard output is kept for the rows: what a tool says goes to standard error."""
    tool = None
    try:
        with starting():
            tool = subprocess.Popen(words, cwd=folder, stdin=subprocess.DEVNULL, stdout=STDERR)
        return tool.wait() == 0
    except OSError as error:
        tell('%s: %s' % (words[0], reason(error)))
        return False
    finally:
        if tool is not None:
            end_tool(tool)


def end_tool(tool: subprocess.Popen) -> None:
    """One that is interrupted is asked first: compilers then remove their temporary files."""
    if tool.poll() is not None:
        return
    tool.terminate()
    try:
        tool.wait(TOOL_SECONDS)
    except subprocess.TimeoutExpired:
        tool.kill()
        tool.wait()


def is_program(path: str) -> bool:
    return os.path.isfile(path) and os.access(path, os.X_OK)


def build(name: str, product: str, why: str) -> None:
    from shutil import which  # only a build needs it
    if which('rt') is None:
        raise Failure('%s is %s, and there is no rt on the PATH to build it' % (product, why))
    tell('building %s (bin/build %s)' % (product, name))
    if not run_tool([os.path.join(ROOT, 'bin', 'build'), name], ROOT):
        raise Failure('bin/build %s failed' % name)
    if not os.path.isfile(product):
        raise Failure('bin/build %s left no %s' % (name, product))


def runner() -> str:
    """The program that prints rows: another one if BENCH_PROGRAM names it."""
    named = os.environ.get('BENCH_PROGRAM')
    if named:
        return os.path.abspath(named) if '/' in named else named
    if not is_program(RUNNER):
        build('bench', RUNNER, 'missing')
    return RUNNER


def modified(path: str) -> int:
    try:
        return os.stat(path).st_mtime_ns
    except OSError:
        return 0


def sources() -> Iterable[str]:
    """The sources of the archive, and their folders: a file that was taken away makes it old too."""
    for folder in glob.glob(os.path.join(glob.escape(ROOT), 'crates', '*', 'src')):
        for path, _, names in os.walk(folder):
            yield path
            for name in names:
                yield os.path.join(path, name)


def build_archive() -> None:
    """What it prints is to be what the sources here say."""
    if os.path.isfile(ARCHIVE):
        made = modified(ARCHIVE)
        if not any(modified(path) > made for path in sources()):
            return
    build('engine', ARCHIVE, 'missing or old')


def build_caller(name: str) -> str:
    """The program in C that calls the archive. It gets its name when it is complete, so that nobody runs one that is still being written."""
    program = os.path.join(ROOT, 'target', 'bin', name)
    source = os.path.join(ROOT, 'bin', name + '.c')
    build_archive()
    if is_program(program) and all(modified(path) <= modified(program) for path in (source, HEADER, ARCHIVE)):
        return program
    tell('building %s (cc)' % program)
    unfinished = '%s.%d' % (program, os.getpid())
    flags = ['-std=c11', '-O2', '-Wall', '-Wextra', '-I' + os.path.dirname(HEADER)]
    try:
        os.makedirs(os.path.dirname(program), exist_ok=True)
        if run_tool([os.environ.get('CC') or 'cc'] + flags + [source, ARCHIVE, '-lm', '-o', unfinished]):
            os.rename(unfinished, program)
            return program
    except OSError as error:
        tell('%s: %s' % (program, reason(error)))
    finally:
        remove(unfinished)
    raise Failure('%s could not be built with %s' % (program, ARCHIVE))


def header_number(name: str) -> int:
    """A number that the C header defines."""
    try:
        with open(HEADER, encoding='ascii', errors='replace') as header:
            found = re.search(r'^#define\s+%s\s+\(?(\d+)[uUlL]*\)?' % re.escape(name), header.read(), re.MULTILINE)
    except OSError as error:
        raise Failure('%s: %s' % (HEADER, reason(error))) from None
    if found is None:
        raise Failure('%s has no %s' % (HEADER, name))
    return int(found.group(1))


def commit() -> str:
    """The commit that is checked out, if there is a git to ask."""
    if not os.path.exists(os.path.join(ROOT, '.git')):
        return ''
    try:
        asked = subprocess.run(['git', '-C', ROOT, 'rev-parse', '--short', 'HEAD'], stdin=subprocess.DEVNULL, stdout=subprocess.PIPE,
                               stderr=subprocess.DEVNULL)
    except OSError:
        return ''
    return asked.stdout.decode('ascii', 'replace').strip() if asked.returncode == 0 else ''

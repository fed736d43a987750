"""bin/bench on readings that come while it runs: growing files, named pipes, standard input; signals, readers who leave, closed descriptors,
long lines, many lines, odd bytes. The last line is 'N passed, M failed'."""
import os
import random
import resource
import select
import signal
import subprocess
import sys
import time

sys.dont_write_bytecode = True
from harness import BENCH, ROOT, Tests, append, is_read, read, write  # noqa: E402

PEDAL = read(os.path.join(ROOT, 'examples', 'pedal', 'bench.txt'))
NAMES = b'by n p.down s.pos\n'
HEADER = b'by n k.keep\n'
REFUSED_NAMES = b'by n p.up\n'
RUNNER = os.environ.get('BENCH_PROGRAM') or os.path.join(ROOT, 'target', 'bin', 'bench')
MEMORY_MOST_KB = 65536
LONG_MB = 80
EMPTY_LINES = 400000
ODD_TEXTS = 20
MORE_THAN_A_PIPE = 100000  # bytes

tests = Tests()


def growing():
    """A growing file: rows as lines come, a line counts with its line feed, and a signal ends it in good order."""
    for number, sort in ((signal.SIGINT, 'SIGINT'), (signal.SIGTERM, 'SIGTERM'), (signal.SIGHUP, 'SIGHUP')):
        folder = tests.folder('growing-' + sort, PEDAL, NAMES + b'a 1 true 5\na 2 fal')
        readings = os.path.join(folder, 'readings.txt')
        run = tests.start('-f', folder)
        tests.check(sort + ': first rows', run.wait_for(b'a 1 5\n'), run.said)
        append(readings, b'se 6\n')
        tests.check(sort + ': a line is completed', run.wait_for(b'a 2 -\n'), run.said)
        append(readings, b'a 3 true 8\na 4 fal')
        tests.check(sort + ': a further line', run.wait_for(b'a 3 8\n'), run.said)
        run.process.send_signal(number)
        half = readings.encode() + b':5: this line has no line feed yet, and was not taken\n'
        tests.equal(sort + ': ends in good order', run.end(), (0, HEADER + b'a 1 5\na 2 -\na 3 8\n', half))


def growing_refused():
    folder = tests.folder('growing-refused', PEDAL, NAMES)
    run = tests.start('-f', folder)
    run.wait_for(HEADER)
    append(os.path.join(folder, 'readings.txt'), b'a 2 true 5\n')
    tests.check('a refused row comes', run.wait_for(b'refused 24\n'), run.said)
    tests.check('its words come', run.wait_for(b'readings.txt:2: ', 2), run.said)
    run.process.send_signal(signal.SIGINT)
    status, rows, words = run.end()
    tests.equal('refused lines of a growing file', (status, rows), (4, HEADER + b'refused 24\n'))
    tests.check('the number of refused lines is told at the end', words.endswith(b'readings.txt: 1 of 1 line refused\n'), words)


def unfinished_names():
    folder = tests.folder('unfinished', PEDAL)
    path = os.path.join(folder, 'readings.txt')
    os.mkfifo(path)
    run = tests.start('-f', folder)
    with open(path, 'wb', buffering=0) as devices:
        devices.write(b'by n p.do')
        tests.check('a part of the line of names is read', is_read(devices))
        run.process.send_signal(signal.SIGTERM)
        half = path.encode() + b':1: this line has no line feed yet, and was not taken\n'
        tests.equal('interrupted in the line of names', run.end(), (0, b'', half))


def to_the_group():
    """A terminal sends its signal to bin/bench and its program alike."""
    folder = tests.folder('group', PEDAL, NAMES + b'a 1 true 5\n')
    run = tests.start('-f', folder, start_new_session=True)
    run.wait_for(b'a 1 5\n')
    append(os.path.join(folder, 'readings.txt'), b'a 2 false 6\n')
    run.wait_for(b'a 2 -\n')
    os.killpg(run.process.pid, signal.SIGINT)
    tests.equal('a signal to the whole group', run.end(), (0, HEADER + b'a 1 5\na 2 -\n', b''))


def at_once():
    """Without -f a signal ends it as it ends any program: when it has just opened the readings, or has read some, or while nobody reads what
    it tells."""
    folder = tests.folder('at-once', PEDAL)
    path = os.path.join(folder, 'readings.txt')
    os.mkfifo(path)
    for number in (signal.SIGINT, signal.SIGTERM, signal.SIGHUP):
        for part in (b'', b'by n p.do'):
            run = tests.start(folder)
            with open(path, 'wb', buffering=0) as devices:
                devices.write(part)
                tests.check('what there is is read', is_read(devices))
                run.process.send_signal(number)
                tests.equal('without -f, signal %d after %r' % (number, part), run.end(), (-number, b'', b''))
        run = tests.start('x' * MORE_THAN_A_PIPE)
        select.select([run.process.stderr], [], [])
        run.process.send_signal(number)
        status, _, words = run.end()
        tests.check('signal %d while it tells something' % number, status == -number and b'Traceback' not in words, status, words[-600:])


SIGNAL_ON_START = b'''
import os, subprocess
plain = subprocess.Popen.__init__
def start(self, *words, **options):
    plain(self, *words, **options)
    os.kill(os.getpid(), int(os.environ['SIGNAL_ON_START']))
subprocess.Popen.__init__ = start
'''
# Once its readings end it waits until whoever left it behind is gone.
LEFT_BEHIND = b'''#!/bin/sh
trap '' PIPE
cat >/dev/null
sleep 0.5
echo by n 2>/dev/null || echo left behind >&2
'''


def while_starting():
    """A signal may come when the program runs and bin/bench does not know of it yet: the program is ended, and not left without a reader."""
    hook = tests.folder('signal-on-start')
    write(os.path.join(hook, 'sitecustomize.py'), SIGNAL_ON_START)
    program = os.path.join(hook, 'program')
    write(program, LEFT_BEHIND)
    os.chmod(program, 0o755)
    folder = tests.folder('starting', PEDAL, NAMES)
    for number in (signal.SIGINT, signal.SIGTERM, signal.SIGHUP):
        for option in ([], ['-f']):
            run = tests.start(*option, folder, env=dict(tests.environment(), PYTHONPATH=hook, SIGNAL_ON_START=str(int(number)), BENCH_PROGRAM=program))
            tests.equal('signal %d while the program is started %s' % (number, option), run.end(), (-number, b'', b''))


def changed_file():
    """A file that is cut, replaced or removed is no longer the one that is followed."""
    def cut(path):
        write(path, b'by')

    def replace(path):
        write(path + '.other', NAMES)
        os.rename(path + '.other', path)

    for change, words in ((cut, b'was cut to 2 bytes after'), (replace, b'was replaced by another file'), (os.unlink, b'is gone')):
        folder = tests.folder('changed', PEDAL, NAMES + b'a 1 true 5\na 2')
        run = tests.start('-f', folder)
        run.wait_for(b'a 1 5\n')
        change(os.path.join(folder, 'readings.txt'))
        status, rows, said = run.end()
        tests.equal('%r: rows and status' % words, (status, rows), (3, HEADER + b'a 1 5\n'))
        tests.check('%r: is told' % words, words in said and said.count(b'\n') == 1, said)


def named_pipes():
    for option in ([], ['-f']):
        folder = tests.folder('pipe%d' % len(option), PEDAL)
        path = os.path.join(folder, 'readings.txt')
        os.mkfifo(path)
        run = tests.start(*option, folder)
        with open(path, 'wb', buffering=0) as devices:
            devices.write(NAMES + b'a 1 true 5\na 2')
            tests.check('pipe %s: a row comes' % option, run.wait_for(b'a 1 5\n'), run.said)
            devices.write(b' false 6\na 3 true 9')
            tests.check('pipe %s: a further row comes' % option, run.wait_for(b'a 2 -\n'), run.said)
        tests.equal('pipe %s: ends with the pipe' % option, run.end(), (0, HEADER + b'a 1 5\na 2 -\na 3 9\n', b''))


def standard_input():
    folder = tests.folder('stdin', PEDAL, b'these are not read')
    for option in ([], ['-f']):
        run = tests.start(*option, folder, '-', stdin=subprocess.PIPE)
        run.process.stdin.write(NAMES + b'a 1 true 5\n')
        tests.check('standard input %s: a row comes' % option, run.wait_for(b'a 1 5\n'), run.said)
        run.process.stdin.write(b'a 3 true 5\na 2 true 7')
        tests.check('standard input %s: words' % option, run.wait_for(b'standard input:3: ', 2), run.said)
        status, rows, words = run.end()
        tests.equal('standard input %s: rows and status' % option, (status, rows), (4, HEADER + b'a 1 5\nrefused 24\na 2 -\n'))
    status, rows, words = tests.run('-', folder)
    tests.equal('- before the folder', (status, rows), (2, b''))
    tests.equal('empty standard input', tests.run(folder, '-', data=b'')[:2], (4, b'refused 22\n'))
    with open(os.path.join(folder, 'part'), 'w+b') as part:
        part.write(b'x\n' + NAMES + b'a 1 true 5\n')
        part.flush()
        os.lseek(part.fileno(), 2, os.SEEK_SET)
        run = tests.start('-f', folder, '-', stdin=part)
        tests.check('a file as standard input', run.wait_for(b'a 1 5\n'), run.said)
        append(os.path.join(folder, 'part'), b'a 2 false 5\n')
        tests.check('which grows', run.wait_for(b'a 2 -\n'), run.said)
        run.process.send_signal(signal.SIGTERM)
        tests.equal('and is interrupted', run.end(), (0, HEADER + b'a 1 5\na 2 -\n', b''))


def refused_early():
    """What is refused ends the run although the readings never end."""
    for option in ([], ['-f']):
        folder = tests.folder('early-bench%d' % len(option), b'rules')
        os.mkfifo(os.path.join(folder, 'readings.txt'))
        tests.equal('refused bench file, nobody writes %s' % option, tests.start(*option, folder).end()[:2], (1, b'refused 13 5\n'))
        folder = tests.folder('early-names%d' % len(option), PEDAL)
        path = os.path.join(folder, 'readings.txt')
        os.mkfifo(path)
        run = tests.start(*option, folder)
        with open(path, 'wb', buffering=0) as devices:
            devices.write(REFUSED_NAMES)
            status, rows, words = run.end()
            tests.equal('refused names, the pipe stays open %s' % option, (status, rows), (4, b'refused 22\n'))
            tests.check('refused names are explained %s' % option, b'readings.txt:1: field 3 "p.up"' in words, words)
    folder = tests.folder('early-file', PEDAL, REFUSED_NAMES)
    tests.equal('refused names in a growing file', tests.start('-f', folder).end()[:2], (4, b'refused 22\n'))


def reader_leaves():
    folder = tests.folder('leaves', PEDAL, NAMES + b'a 1 true 5\n')
    run = tests.start('-f', folder)
    run.wait_for(b'a 1 5\n')
    run.process.stdout.close()
    run.process.stdout = None
    tests.equal('a reader who leaves while nothing comes', run.end()[::2], (0, b''))


def closed_descriptors():
    folder = tests.folder('closed', PEDAL, NAMES + b'a 1 true 5\n')
    words = '"%s" "%s"' % (BENCH, folder)

    def shell(command):
        done = subprocess.run(['sh', '-c', command], env=tests.environment(), stdin=subprocess.DEVNULL, stdout=subprocess.PIPE,
                              stderr=subprocess.PIPE, timeout=60)
        return done.returncode, done.stdout, done.stderr

    rows = HEADER + b'a 1 5\n'
    tests.equal('standard input is closed', shell(words + ' <&-'), (0, rows, b''))
    tests.equal('standard error is closed', shell(words + ' 2>&-'), (0, rows, b''))
    status, _, said = shell(words + ' >&-')
    tests.check('standard output is closed', status == 3 and b'not all rows could be written' in said, status, said)
    status, out, said = shell(words + ' - <&-')
    tests.check('readings of a closed standard input', status == 3 and out == b'' and b'standard input cannot be read' in said, status, out, said)
    status, _, said = shell(words + ' <&- >&- 2>&-')
    tests.equal('all are closed', (status, said), (3, b''))
    append(os.path.join(folder, 'readings.txt'), b'a 7 true 5\n')
    tests.equal('words that nobody can read', shell(words + ' 2>/dev/full'), (4, rows + b'refused 24\n', b''))


def long_lines():
    """A line of any length: its row, bounded memory, and the lines after it."""
    folder = tests.folder('long', PEDAL)
    path = os.path.join(folder, 'readings.txt')
    with open(path, 'wb') as file:
        file.write(NAMES + b'a 1 true 5\n')
        for _ in range(LONG_MB):
            file.write(b'x' * (1 << 20))
        file.write(b'\na 2 false 5\n' + b' ' * 40000 + b'\na 3 true 6\n')
    status, rows, words = tests.run(folder)
    tests.equal('long lines', (status, rows), (4, HEADER + b'a 1 5\nrefused 21\na 2 -\nrefused 21\na 3 6\n'))
    tests.check('words about long lines are short', len(words) < 4096 and b'readings.txt:3: ' in words, words)
    tests.check('the length of a line that was cut is not told as its own', b'the line has 32770 bytes or more: ' in words, words)
    with open(path, 'wb') as file:
        for _ in range(LONG_MB):
            file.write(b'by n ' * (1 << 18))
    status, rows, words = tests.run(folder)
    tests.check('a long line of names', (status, rows) == (4, b'refused 22\n') and len(words) < 4096, status, rows[:99], words)
    write(path, NAMES + b'a 1 true 5\n' + b'\n' * EMPTY_LINES)
    status, rows, words = tests.run('--fired', folder)
    tests.equal('very many empty lines', (status, rows), (4, HEADER + b'a 1 5\n'))
    tests.check('words about empty lines are short', len(words) < 4096, words)
    most = resource.getrusage(resource.RUSAGE_CHILDREN).ru_maxrss
    tests.check('memory is bounded', most < MEMORY_MOST_KB, most)
    os.unlink(path)


def slow_reader():
    """Many lines, a reader who begins late, and one line at a time."""
    lines = [b'a %d %s %d\n' % (i, b'true' if i % 2 else b'false', i * 7) for i in range(1, 300001)]
    folder = tests.folder('many', PEDAL, NAMES + b''.join(lines))
    expected = HEADER + b''.join(b'a %d %d\n' % (i, i * 7) if i % 2 else b'a %d -\n' % i for i in range(1, 300001))
    run = tests.start(folder)
    time.sleep(1)
    tests.equal('300,000 lines and a slow reader', run.end(), (0, expected, b''))
    with open(os.path.join(folder, 'readings.txt'), 'rb') as file:
        run = tests.start(folder, '-', stdin=file)
        tests.equal('300,000 lines of standard input', run.end(), (0, expected, b''))


def odd_bytes():
    """Whatever the readings hold, rows are the runner's own, and every refused line is explained somehow."""
    rng = random.Random(21)
    pieces = [b'a ', b'b ', b'1 ', b'2 ', b'true', b'false', b' ', b'-', b'?', b'\n', b'\r\n', b'\0', b'\xff', b'\xc3\xa4', b'\x1b[31m',
              b'99999999999', b'0', b'a 1 true 5\n', b'a 2 - 7\n', b'b 1 ? -\n', b'refused 21', b'%s', b'\t', b'.', b'\xef\xbb\xbf', b"'", b'"']
    folder = tests.folder('odd', PEDAL)
    path = os.path.join(folder, 'readings.txt')
    for turn in range(ODD_TEXTS):
        text = (NAMES if turn % 5 else b'') + b''.join(rng.choice(pieces) for _ in range(rng.randrange(200)))
        write(path, text)
        wanted = subprocess.run([RUNNER], cwd=folder, stdin=subprocess.DEVNULL, stdout=subprocess.PIPE).stdout
        status, rows, words = tests.run(folder)
        refused = b'refused' in wanted
        good = rows == wanted and status == (4 if refused else 0) and (words != b'') == refused
        good = good and b'could not be explained' not in words and b'unexpected' not in words
        tests.check('odd readings %d' % turn, good and all(byte >= 32 or byte == 10 for byte in words), text, rows, wanted, status, words)


for test in (growing, growing_refused, unfinished_names, to_the_group, at_once, while_starting, changed_file, named_pipes, standard_input,
             refused_early, reader_leaves, closed_descriptors, long_lines, slow_reader, odd_bytes):
    test()
sys.exit(tests.end())

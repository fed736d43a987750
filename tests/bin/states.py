"""bin/bench --state: rows that go on from a state, states that are refused, and what a kill at any moment leaves. The last line is
'N passed, M failed'."""
import fcntl
import os
import random
import resource
import shutil
import signal
import subprocess
import sys
import time

sys.dont_write_bytecode = True
from harness import PATIENCE, ROOT, Tests, append, examples, is_read, read, write  # noqa: E402

sys.path.insert(0, os.path.join(ROOT, 'bin'))
from benchlib import limits  # noqa: E402
from benchlib.building import header_number  # noqa: E402
from benchlib.model import read_model  # noqa: E402
from benchlib.state_image import read_snapshot  # noqa: E402

PEDAL = read(os.path.join(ROOT, 'examples', 'pedal', 'bench.txt'))
NAMES = b'by n p.down s.pos\n'
HEADER = b'by n k.keep\n'
TAG = b'bench-state 1\n'
FILE_SIZE = len(TAG) + 35117
KILLS = 20

tests = Tests()


def files_beside(path):
    return sorted(name for name in os.listdir(os.path.dirname(path)))


def last_number(data):
    """Of the only sender of a state file."""
    snapshot = read_snapshot(read_model(PEDAL), data[len(TAG):])
    return snapshot.senders[0].last if snapshot.senders else 0


def place(name):
    folder = tests.folder('state-' + name)
    return os.path.join(folder, 'S')


def limits_of_the_header():
    """What is known here of the engine's limits is what the header says."""
    for name in ('LONGEST_TEXT', 'LONGEST_NAMES', 'LONGEST_LINE', 'MOST_SENDERS'):
        tests.equal(name, getattr(limits, name), header_number('BENCH_' + name))
    tests.equal('LONGEST_NAME', limits.LONGEST_NAME, header_number('BENCH_LONGEST_SENDER'))


def parts_of_days():
    """A day in two parts has the rows of the whole day, and leaves the same state; so has one whose lines come one by one."""
    for name, path, lines, rows in examples():
        whole, halves, live = place('whole-' + name), place('halves-' + name), place('live-' + name)
        status, out, words = tests.run('--state', whole, path)
        tests.equal('%s: rows' % name, out, rows)
        tests.check('%s: a fresh state is told' % name, words.startswith(whole.encode() + b' is new: a fresh state\n'), words)
        tests.equal('%s: status' % name, status, 4 if b'\nrefused' in rows else 0)
        tests.check('%s: the state has its form' % name, len(read(whole)) == FILE_SIZE and read(whole).startswith(TAG), len(read(whole)))
        cut = len(lines) // 2
        first = tests.run('--state=' + halves, path, '-', data=b''.join(lines[:cut]))
        second = tests.run(path, '--state', halves, '-', data=lines[0] + b''.join(lines[cut:]))
        tests.equal('%s: rows of two halves' % name, first[1] + second[1].partition(b'\n')[2], rows)
        tests.check('%s: a state that is there is not new' % name, b'is new' not in second[2], second[2])
        tests.check('%s: the state after two halves' % name, read(halves) == read(whole))
        followed = tests.run('-f', '--state', live, path, '-', data=b''.join(lines))
        tests.equal('%s: rows with -f' % name, followed[1], rows)
        tests.check('%s: the state with -f' % name, read(live) == read(whole))
        tests.equal('%s: nothing else is left' % name, files_beside(whole) + files_beside(halves) + files_beside(live), ['S'] * 3)


def resent():
    """A line of yesterday that is sent again gives its row again; one with other readings is told to be so."""
    file = place('resent')
    folder = tests.folder('resent', PEDAL, NAMES + b'a 1 true 5\n')
    tests.run('--state', file, folder)
    before = read(file)
    tests.equal('sent again', tests.run('--state', file, folder), (0, HEADER + b'a 1 5\n', b''))
    write(os.path.join(folder, 'readings.txt'), NAMES + b'a 1 true 6\n')
    status, rows, words = tests.run('--state', file, folder)
    tests.equal('sent again with other readings', (status, rows), (4, HEADER + b'refused 25\n'))
    tests.check('its words know the state', b'readings.txt:2: ' in words and b'field 4 (s.pos) was' in words, words)
    tests.check('the state is as before', read(file) == before)


def refused(name, data, wanted, words_wanted, bench=PEDAL, readings=NAMES + b'a 1 true 5\n'):
    """The state file stays as it is, and nothing is left beside it."""
    for option in ([], ['-f']):
        file = place(name)
        folder = tests.folder('refused-' + name, bench, readings)
        if data is not None:
            write(file, data)
        status, rows, words = tests.run(*option, '--state', file, folder, '-', data=readings)
        tests.equal('%s %s: status and rows' % (name, option), (status, rows), wanted)
        tests.check('%s %s: words' % (name, option), words_wanted in words, words)
        tests.equal('%s %s: the file' % (name, option), read(file) if data is not None else os.path.exists(file), data if data is not None else False)
        tests.equal('%s %s: beside it' % (name, option), files_beside(file), ['S'] if data is not None else [])


def refusals():
    file = place('good')
    tests.run('--state', file, tests.folder('good', PEDAL, NAMES + b'a 1 true 5\n'))
    good = read(file)
    no_state = b'S is no state file, or it is damaged\n'
    refused('empty', b'', (1, b''), no_state)
    refused('short', good[:-1], (1, b''), no_state)
    refused('long', good + b'\0', (1, b''), no_state)
    refused('tag', b'bench-state 2\n' + good[len(TAG):], (1, b''), no_state)
    refused('untagged', good[len(TAG):], (1, b''), no_state)
    foreign = (b'does not belong to this bench file: it was left by another one, or the file was edited since. Put the old '
               b'bench file back, or begin with a new state file: then every sender begins again at 1\n')
    refused('edited', good, (1, b'refused 33\n'), foreign, PEDAL + b' ')
    refused('spoilt', TAG + bytes(35117), (1, b'refused 33\n'), foreign)
    refused('bench', good, (1, b'refused 13 5\n'), b'refused 13', b'rules')
    refused('bench-new', None, (1, b'refused 13 5\n'), b'refused 13', b'rules')
    refused('names', good, (4, b'refused 22\n'), b'standard input:1: ', readings=b'by n p.up\n')
    refused('names-new', None, (4, b'refused 22\n'), b'standard input:1: ', readings=b'by n p.up\n')
    refused('no-readings', good, (4, b'refused 22\n'), b'standard input:1: ', readings=b'')
    folder = tests.folder('plain', PEDAL, NAMES)
    tests.equal('a folder as state file', tests.run('--state', folder, folder)[:2], (1, b''))
    os.mkfifo(os.path.join(folder, 'pipe'))
    tests.equal('a pipe as state file', tests.run('--state', os.path.join(folder, 'pipe'), folder)[:2], (1, b''))
    tests.equal('readings as state file', tests.run('--state', os.path.join(folder, 'readings.txt'), folder)[:2], (1, b''))
    status, rows, words = tests.run('--state', os.path.join(folder, 'nowhere', 'S'), folder)
    tests.check('a state file in no folder', (status, rows) == (3, b'') and b'cannot be written' in words, status, rows, words)


def cannot_be_written():
    """A disk that is full, a reader who is gone: the file is as before."""
    folder = tests.folder('full', PEDAL, NAMES + b'a 1 true 5\n')
    file = place('full')
    tests.run('--state', file, folder)
    before = read(file)
    write(os.path.join(folder, 'readings.txt'), NAMES + b'a 2 false 6\n')

    def limit():
        resource.setrlimit(resource.RLIMIT_FSIZE, (20000, 20000))

    status, rows, words = tests.run('--state', file, folder, preexec_fn=limit)
    tests.check('no room for the state', status == 3 and rows == HEADER + b'a 2 -\n' and b'resume: ' in words, status, rows, words)
    tests.check('no room: the file is as before', read(file) == before and files_beside(file) == ['S'], files_beside(file))
    status, rows, words = tests.run('-f', '--state', file, folder, '-', data=NAMES + b'a 2 false 6\n', preexec_fn=limit)
    tests.check('no room with -f: no row', status == 3 and b'a 2' not in rows and b'resume: ' in words, status, rows, words)
    tests.check('no room with -f: the file is as before', read(file) == before and files_beside(file) == ['S'], files_beside(file))
    with open('/dev/full', 'wb') as full:
        run = tests.start('--state', file, folder, stdout=full)
        status, _, words = run.end()
    tests.check('rows that cannot be written', status == 3 and b'not all rows could be written' in words and read(file) == before, status, words)
    run = tests.start('--state', file, folder)
    run.process.stdout.close()
    run.process.stdout = None
    status, _, words = run.end()
    tests.check('rows that nobody reads', status == 3 and b'S stays as it was' in words and read(file) == before, status, words)
    tests.equal('nothing is left', files_beside(file), ['S'])


def links_and_modes():
    folder = tests.folder('modes', PEDAL, NAMES + b'a 1 true 5\n')
    file = place('modes')
    tests.run('--state', file, folder, preexec_fn=lambda: os.umask(0o027))
    tests.equal('the mode is that of the umask', os.stat(file).st_mode & 0o777, 0o640)
    link = place('link')
    os.symlink(file, link)
    write(os.path.join(folder, 'readings.txt'), NAMES + b'a 2 false 5\n')
    tests.run('--state', link, folder)
    tests.check('a link stays one', os.path.islink(link))
    tests.equal('what it leads to is replaced', last_number(read(file)), 2)
    odd = os.path.join(tests.folder('odd & %s \n\\t'), 'a b\n')
    tests.equal('an odd name', (tests.run('--state', odd, folder)[0], os.path.exists(odd)), (4, True))
    here = tests.folder('here', PEDAL, NAMES + b'a 1 true 5\n')
    tests.equal('a name without a folder', tests.run('--state', 'S', '.', cwd=here)[0], 0)
    tests.equal('stands where it is run', files_beside(os.path.join(here, 'S')), ['S', 'bench.txt', 'readings.txt'])
    tests.equal('with options', tests.run('--fired', '--state', 'S2', '.', '--decimal', cwd=here)[:2], (0, HEADER + b'a 1 5\n'))


def leftovers():
    """What a killed run has left beside the file is no state, and is gone after the next run."""
    file = place('leftovers')
    folder = tests.folder('leftovers', PEDAL, NAMES + b'a 1 true 5\n')
    other = place('other')
    tests.run('--state', other, tests.folder('other', PEDAL, NAMES + b'a 1 true 5\na 2 false 5\n'))
    for left in (read(other), b'half a st'):
        write(file + '.new', left)
        write(file + '.lock', b'')
        status, rows, words = tests.run('--state', file, folder)
        tests.equal('leftovers are no state', (status, rows, files_beside(file)), (0, HEADER + b'a 1 5\n', ['S']))
        os.unlink(file)


def in_use():
    file = place('in-use')
    folder = tests.folder('in-use', PEDAL, NAMES + b'a 1 true 5\n')
    run = tests.start('-f', '--state', file, folder)
    run.wait_for(b'a 1 5\n')
    status, rows, words = tests.run('--state', file, folder)
    tests.check('a state that another run uses', (status, rows) == (3, b'') and b'is in use by another run' in words, status, rows, words)
    append(os.path.join(folder, 'readings.txt'), b'a 2 false 6\na 3 tr')
    run.wait_for(b'a 2 -\n')
    run.process.send_signal(signal.SIGTERM)
    tests.equal('the other goes on', run.end()[:2], (0, HEADER + b'a 1 5\na 2 -\n'))
    tests.equal('and leaves its state, without the unfinished line', last_number(read(file)), 2)
    with open(file + '.lock', 'wb') as lock:
        fcntl.lockf(lock, fcntl.LOCK_EX)
        status, rows, words = tests.run('--state', file, folder)
        tests.check('a state that a program in C keeps', (status, rows) == (3, b'') and b'is in use' in words, status, rows, words)
    tests.equal('until it ends', tests.run('--state', file, folder, '-', data=NAMES + b'a 3 true 7\n')[:2], (0, HEADER + b'a 3 7\n'))


def unfinished_names():
    file = place('unfinished')
    run = tests.start('-f', '--state', file, tests.folder('unfinished', PEDAL), '-', stdin=subprocess.PIPE)
    run.process.stdin.write(b'by n p.do')
    tests.check('a part of the line of names is read', is_read(run.process.stdin))
    run.process.send_signal(signal.SIGTERM)
    run.process.wait(PATIENCE)  # while its standard input is open
    tests.equal('interrupted in the line of names', run.end(), (0, b'', b'standard input:1: this line has no line feed yet, and was not taken\n'))
    tests.equal('interrupted in the line of names: no state', files_beside(file), [])


def line(number):
    return b'a %d %s %d\n' % (number, b'true' if number % 2 else b'false', number)


def rows_come_first():
    """Without -f the state is replaced when all rows are written, and not before."""
    file = place('rows-first')
    folder = tests.folder('rows-first', PEDAL, NAMES + b''.join(line(i) for i in range(1, 30001)))
    run = tests.start('--state', file, folder)
    tests.check('rows come', run.wait_for(b'a 1 1\n'), run.said)
    time.sleep(1.5)
    tests.check('no state while rows wait to be read', not os.path.exists(file))
    status, rows, _ = run.end()
    tests.equal('all rows, then the state', (status, rows.count(b'\n'), last_number(read(file))), (0, 30001, 30000))


def killed_at_the_end():
    """Without -f: the old state or the new one, and the same command can be run again."""
    file = place('killed')
    lines = 3000
    folder = tests.folder('killed', PEDAL, NAMES + b''.join(line(i) for i in range(2, lines)))
    tests.run('--state', file, folder, '-', data=NAMES + line(1))
    old = read(file)
    began = time.monotonic()
    status, rows, _ = tests.run('--state', file, folder)
    took = time.monotonic() - began
    new = read(file)
    tests.check('two states', old != new and last_number(new) == lines - 1 and status == 0, status)
    rng, found = random.Random(4), set()
    for turn in range(KILLS):
        write(file, old)
        run = tests.start('--state', file, folder, stdout=subprocess.DEVNULL, start_new_session=True)
        after = rng.uniform(0.3, 1.1) * took
        time.sleep(after)
        (run.process.kill if turn % 2 else run.kill_group)()
        if run.end()[0] == 0:
            took = min(took, after)  # this kill came late: the machine is less busy than it was
        left = read(file)
        found.add(left == new)
        tests.check('kill %d leaves a whole state' % turn, left in (old, new), len(left))
        if turn % 5 == 0:
            again = tests.run('--state', file, folder)[:2]
            tests.check('after kill %d it can be run again' % turn, left == new or again == (0, rows), again)
            tests.check('and leaves the new state %d' % turn, read(file) == new and files_beside(file) == ['S'], files_beside(file))
    tests.check('some kills came in time', False in found, found)


def killed_while_following():
    """With -f: what was printed is saved, and the controller goes on by sending its line again. Odd turns kill it as soon as a row is there,
    even ones while a line is on its way."""
    file = place('killed-live')
    folder = tests.folder('killed-live', PEDAL)
    rng = random.Random(5)
    printed = 0
    for turn in range(KILLS):
        run = tests.start('-f', '--state', file, folder, '-', stdin=subprocess.PIPE, start_new_session=True)
        run.process.stdin.write(NAMES + (line(printed) if printed else b''))
        run.wait_for(HEADER)
        on_its_way = 1 - turn % 2
        for _ in range(rng.randrange(3) + turn % 2):
            run.process.stdin.write(line(printed + 1))
            if not run.wait_for(b'a %d ' % (printed + 1)):
                break
            printed += 1
        if on_its_way:
            run.process.stdin.write(line(printed + 1))
            time.sleep(rng.choice((0, 0.001, 0.003, 0.01)))
        run.kill_group()
        status, rows, words = run.end()
        seen = max([0] + [int(row.split(b' ')[1]) for row in rows.splitlines()[1:] if row.startswith(b'a ')])
        tests.check('live kill %d: no line is refused' % turn, b'refused' not in rows, rows, words)
        data = read(file)
        saved = last_number(data) if len(data) == FILE_SIZE and data.startswith(TAG) else -1
        tests.check('live kill %d: what was printed is saved' % turn, max(seen, printed) <= saved <= printed + on_its_way, saved, seen, printed)
        printed = saved  # the controller sends this line again: it was taken, or comes again
    tests.check('many lines were taken', printed > KILLS // 2, printed)
    status, rows, words = tests.run('--state', file, folder, '-', data=NAMES + line(printed) + line(printed + 1))
    tests.check('the last line gives its row again', status == 0 and rows.startswith(HEADER + b'a %d ' % printed), status, rows, words)
    tests.equal('nothing is left beside', files_beside(file), ['S'])


# The program is built now if it has to be, so that what is said about it does not stand beside what is tested.
tests.run('--state', place('built'), tests.folder('built', PEDAL, NAMES))
for test in (limits_of_the_header, parts_of_days, resent, refusals, cannot_be_written, links_and_modes, leftovers, in_use, unfinished_names,
             rows_come_first):
    test()
tests.equal('no temporary folder is left before the kills', os.listdir(tests.temporary), [])
for test in (killed_at_the_end, killed_while_following):
    test()
# A kill cannot be caught: what it leaves is a few bytes.
shutil.rmtree(tests.temporary)
os.mkdir(tests.temporary)
sys.exit(tests.end())

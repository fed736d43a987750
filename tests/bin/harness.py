"""For tests of bin/bench that need more than a shell: a folder to work in, counts, and programs that are watched while they run."""
import fcntl
import os
import select
import shutil
import signal
import struct
import subprocess
import tempfile
import termios
import time

signal.signal(signal.SIGINT, signal.SIG_DFL)  # in the background of a script it would be ignored, by all that is run too

ROOT = os.path.dirname(os.path.dirname(os.path.dirname(os.path.abspath(__file__))))
BENCH = os.path.join(ROOT, 'bin', 'bench')
PATIENCE = 120.0  # seconds after which something that should come does not, on however busy a machine


class Tests:
    """Counts verdicts. Temporary folders of what is run are made in one of their own, so that one that is left shows."""

    def __init__(self):
        self.passed = self.failed = 0
        self.work = tempfile.mkdtemp()
        self.temporary = os.path.join(self.work, 'temporary')
        os.mkdir(self.temporary)

    def check(self, name, good, *shown):
        if good:
            self.passed += 1
            return
        self.failed += 1
        print('failed: ' + name)
        for item in shown:
            print('  ' + repr(item)[:600])

    def equal(self, name, got, wanted):
        self.check(name, got == wanted, 'got', got, 'wanted', wanted)

    def folder(self, name, bench=None, readings=None):
        path = os.path.join(self.work, name)
        os.makedirs(path, exist_ok=True)
        for file, text in (('bench.txt', bench), ('readings.txt', readings)):
            if text is not None:
                write(os.path.join(path, file), text)
        return path

    def environment(self):
        return dict(os.environ, TMPDIR=self.temporary)

    def start(self, *words, **options):
        options.setdefault('stdin', subprocess.DEVNULL)
        options.setdefault('stdout', subprocess.PIPE)
        options.setdefault('stderr', subprocess.PIPE)
        options.setdefault('env', self.environment())
        return Watched(subprocess.Popen([BENCH] + list(words), bufsize=0, **options))

    def run(self, *words, data=None, **options):
        """The status, the rows, the words."""
        if data is not None:
            options['input'] = data
        else:
            options.setdefault('stdin', subprocess.DEVNULL)
        done = subprocess.run([BENCH] + list(words), env=self.environment(), stdout=subprocess.PIPE, stderr=subprocess.PIPE, timeout=PATIENCE,
                              **options)
        return done.returncode, done.stdout, done.stderr

    def end(self):
        self.equal('no temporary folder is left', os.listdir(self.temporary), [])
        shutil.rmtree(self.work)
        print('%d passed, %d failed' % (self.passed, self.failed))
        return 0 if self.failed == 0 else 1


class Watched:
    """A program that runs, and what it has said so far."""

    def __init__(self, process):
        self.process = process
        self.said = {1: b'', 2: b''}
        self.pipes = {1: process.stdout, 2: process.stderr}

    def wait_for(self, words, stream=1):
        """Reads on until the words are there. False if they do not come."""
        until = time.monotonic() + PATIENCE
        while words not in self.said[stream]:
            ready, _, _ = select.select([self.pipes[stream]], [], [], max(0.0, until - time.monotonic()))
            if not ready:
                return False
            chunk = os.read(self.pipes[stream].fileno(), 65536)
            if not chunk:
                return False
            self.said[stream] += chunk
        return True

    def kill_group(self):
        """Kills it and all that it runs, at one time; it was started in a session of its own."""
        os.killpg(self.process.pid, signal.SIGKILL)

    def end(self):
        """The status, and all that was said."""
        if self.process.stdin:
            self.process.stdin.close()
            self.process.stdin = None
        try:
            out, err = self.process.communicate(timeout=PATIENCE)
        except subprocess.TimeoutExpired:
            self.process.kill()
            out, err = self.process.communicate()
            return 'it did not end', self.said[1] + (out or b''), self.said[2] + (err or b'')
        return self.process.returncode, self.said[1] + (out or b''), self.said[2] + (err or b'')


def is_read(pipe):
    """Waits until nothing of what was written to a pipe is left in it. False if something is."""
    until = time.monotonic() + PATIENCE
    while struct.unpack('i', fcntl.ioctl(pipe, termios.FIONREAD, bytes(4)))[0] > 0:
        if time.monotonic() > until:
            return False
        time.sleep(0.01)
    return True


def write(path, data):
    with open(path, 'wb') as file:
        file.write(data)


def append(path, data):
    with open(path, 'ab') as file:
        file.write(data)


def read(path):
    with open(path, 'rb') as file:
        return file.read()


def examples():
    """Those with a bench file that is accepted: name, path, lines of readings, rows."""
    folder = os.path.join(ROOT, 'examples')
    for name in sorted(os.listdir(folder)):
        path = os.path.join(folder, name)
        if not os.path.exists(os.path.join(path, 'bench.txt')):
            continue
        rows = read(os.path.join(path, 'rows.txt'))
        if not rows.startswith(b'refused'):
            yield name, path, read(os.path.join(path, 'readings.txt')).splitlines(keepends=True), rows

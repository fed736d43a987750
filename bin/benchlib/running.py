"""Runs a program on readings: it is fed the bytes as they come, and its rows are printed as they come, each beside its line."""
import os
import select
import subprocess
from typing import List, Optional, Sequence, Tuple

from .folders import BENCH_TEXT_MOST
from .interrupts import GoodOrder, ignore_in_child, starting
from .output import STDOUT, Failure, ReaderGone, is_pipe, reason, remove, say, write_rows
from .report import Report
from .source import CHUNK, Source, SourceFault

GROWTH_POLL_MS = 100  # how often a growing file is looked at
OWN_INPUT = '/dev/stdin'  # of whoever opens it
NAME_BYTES = 8  # of the random name of a temporary folder
KILLED = 128  # the shell's status of a program that a signal ended is this and the signal's number


class Workplace:
    """A folder with the two files that the program reads: the text of the bench file, and readings that are its standard input."""

    def __init__(self) -> None:
        self.path = os.path.join(os.path.abspath(os.environ.get('TMPDIR') or '/tmp'), 'bench.' + os.urandom(NAME_BYTES).hex())
        self._bench = os.path.join(self.path, 'bench.txt')
        self._readings = os.path.join(self.path, 'readings.txt')
        self._is_there = False

    def make(self, text: Optional[bytes]) -> None:
        """Whoever calls it removes it, also if a signal ends this half way."""
        if not os.path.exists(OWN_INPUT):  # to the program it would be a missing file, and those are empty
            raise Failure('%s is missing on this machine: the program cannot be given its readings' % OWN_INPUT)
        self._is_there = True
        try:
            os.mkdir(self.path, 0o700)
            os.symlink(OWN_INPUT, self._readings)
            if text is not None:
                with open(self._bench, 'wb') as file:
                    file.write(text[:BENCH_TEXT_MOST])
        except OSError as error:
            raise Failure('the temporary folder %s could not be made: %s' % (self.path, reason(error))) from None

    def remove(self) -> None:
        if not self._is_there:
            return
        remove(self._bench)
        remove(self._readings)
        try:
            os.rmdir(self.path)
        except OSError:
            pass
        self._is_there = False


def start(words: Sequence[str], **options) -> subprocess.Popen:
    try:
        return subprocess.Popen(list(words), stdout=subprocess.PIPE, bufsize=0, **options)
    except OSError as error:
        raise Failure('%s could not be run: %s' % (words[0], reason(error))) from None


def end(process: subprocess.Popen) -> None:
    """Its output is closed last: it is not to find its reader gone."""
    process.kill()
    process.wait()
    process.stdout.close()


def status_of(process: subprocess.Popen) -> int:
    code = process.wait()
    return code if code >= 0 else KILLED - code


class Run:
    """One run. `source` is None for readings that are missing or, with a `fault`, cannot be opened; `ends_lines` is for a program that takes
    whole lines only."""

    def __init__(self, report: Report, follow: bool = False) -> None:
        self.report = report
        self.source: Optional[Source] = None
        self.follow = follow
        self.ends_lines = False
        self.fault = ''  # why the readings cannot be read to their end
        self._feed: Optional[int] = None  # the program's standard input, while it is open
        self._pending = memoryview(b'')
        self._tail = b''
        self._last_byte = b''
        self._watches_reader = is_pipe(STDOUT)

    def run(self, words: Sequence[str], text: Optional[bytes], descriptors: Sequence[int] = ()) -> int:
        """Gives the program's status."""
        workplace = Workplace()
        process = None
        try:
            workplace.make(text)
            with starting():
                process = start(words, cwd=workplace.path, stdin=subprocess.PIPE, pass_fds=tuple(descriptors),
                                preexec_fn=ignore_in_child if self.follow else None)
            self._workplace = workplace
            self._rows = process.stdout.fileno()
            self._stdin = process.stdin
            self._feed = process.stdin.fileno()
            os.set_blocking(self._feed, False)
            self._pass_all()
            return status_of(process)
        finally:
            if process is not None:
                self._close_feed()
                end(process)
            workplace.remove()

    def _pass_all(self) -> None:
        if not self.follow:
            self._loop(None)
            return
        with GoodOrder() as order:
            self._loop(order.descriptor)

    def _loop(self, signals: Optional[int]) -> None:
        if self.fault:
            self._stop_source()
        elif self.source is None:
            self._end_source()
        while True:
            timeout = self._fill()
            ready = self._poll(signals, timeout)
            if signals is not None and signals in ready:
                os.read(signals, CHUNK)
                self._stop_source()
            if self._watches_reader and STDOUT in ready:
                raise ReaderGone
            if self._feed is not None and self._feed in ready:
                self._write_feed()
            if self.source is not None and self.source.descriptor in ready:
                self._read_source()
            if self._rows in ready and not self._read_rows():
                return

    def _poll(self, signals: Optional[int], timeout: Optional[int]) -> List[int]:
        poller = select.poll()
        poller.register(self._rows, select.POLLIN)
        if self._watches_reader:
            poller.register(STDOUT, 0)  # poll tells of a reader who is gone without being asked
        if signals is not None:
            poller.register(signals, select.POLLIN)
        if self._pending:
            poller.register(self._feed, select.POLLOUT)
        elif self.source is not None and not self.source.is_file:
            poller.register(self.source.descriptor, select.POLLIN)
        return [descriptor for descriptor, _ in poller.poll(timeout)]

    def _fill(self) -> Optional[int]:
        """Reads on in a file, for which poll does not wait, and gives the time after which to look at a growing one again."""
        if self._pending or self.source is None or not self.source.is_file:
            return None
        self._read_source()
        return GROWTH_POLL_MS if self.source is not None and not self._pending else None

    def _read_source(self) -> None:
        try:
            chunk = self.source.read()
        except SourceFault as fault:
            self.fault = str(fault)
            self._stop_source()
            return
        if chunk:
            self.report.lines.add(chunk)
            self._last_byte = chunk[-1:]
            self._pending = memoryview(chunk)
        elif not self.source.grows:
            self._end_source()

    def _end_source(self) -> None:
        """The readings are complete."""
        self.report.lines.finish()
        self.source = None
        if self.ends_lines and self._last_byte != b'\n':
            self._pending = memoryview(b'\n')
        else:
            self._close_feed()

    def _stop_source(self) -> None:
        """The readings end here, before their end: a line that has no line feed yet is none."""
        self.source = None
        self.report.has_half_line = not self.fault and self.report.lines.has_part()
        self.report.most_rows = self.report.lines.whole
        self._pending = self._pending[:bytes(self._pending).rfind(b'\n') + 1]
        if not self._pending:
            self._close_feed()

    def _write_feed(self) -> None:
        try:
            self._pending = self._pending[os.write(self._feed, self._pending):]
        except BlockingIOError:
            return
        except BrokenPipeError:  # the program wants no more; its rows say why
            self._pending = memoryview(b'')
            self.source = None
        if not self._pending and self.source is None:
            self._close_feed()

    def _close_feed(self) -> None:
        if self._feed is None:
            return
        self._feed = None
        try:
            self._stdin.close()
        except OSError:
            pass

    def _read_rows(self) -> bool:
        """Passes on what the program has printed. False at its end."""
        chunk = os.read(self._rows, CHUNK)
        rows = (self._tail + chunk).split(b'\n')
        self._tail = rows.pop()
        if chunk:
            self._print(rows, b'\n')
        elif self._tail:
            self._print([self._tail], b'')
        return bool(chunk)

    def _print(self, rows: List[bytes], end: bytes) -> None:
        if not rows:
            return
        self._workplace.remove()  # the program has opened what it opens
        printed, notes = self.report.take(rows, end)
        write_rows(printed)
        say(notes)


def pass_on(words: Sequence[str], folder: str) -> Tuple[bytes, int]:
    """Runs a program in the folder and passes its output on as it comes. Gives the beginning of what it printed, and its status."""
    process = None
    beginning = b''
    try:
        with starting():
            process = start(words, cwd=folder)
        while True:
            chunk = os.read(process.stdout.fileno(), CHUNK)
            if not chunk:
                return beginning, status_of(process)
            beginning = beginning or chunk
            write_rows(chunk)
    finally:
        if process is not None:
            end(process)

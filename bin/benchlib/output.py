"""Standard output, which is for rows alone, and standard error, which is for words."""
import os
import select
import stat
from typing import Iterable

STDIN, STDOUT, STDERR = 0, 1, 2

# The statuses of bin/bench.
TAKEN = 0
REFUSED = 1
BAD_USAGE = 2
FAILED = 3
LINES_REFUSED = 4


class Failure(Exception):
    """Ends the run with its words and status FAILED."""


class OutputLost(Exception):
    """Rows could not be written."""


class ReaderGone(Exception):
    """Whoever read the rows has seen enough and closed the pipe."""


def encoded(text: str) -> bytes:
    """The bytes of a text; names of files as they were given, whatever bytes they have."""
    try:
        return os.fsencode(text)
    except UnicodeError:
        return text.encode('utf-8', 'backslashreplace')


def printable(text: str) -> str:
    """A name that the run came across, fit for a terminal."""
    return ''.join(c if c.isprintable() else '?' for c in text)


def say(lines: Iterable[str]) -> None:
    """Words on standard error. That nobody can read them is no reason to stop."""
    text = b''.join(encoded(line) + b'\n' for line in lines)
    try:
        write_all(STDERR, text)
    except OSError:
        pass


def tell(words: str) -> None:
    say(['bench: ' + words])


def write_all(descriptor: int, data: bytes) -> None:
    view = memoryview(data)
    while view:
        try:
            view = view[os.write(descriptor, view):]
        except BlockingIOError:  # somebody else has made the descriptor so
            poller = select.poll()
            poller.register(descriptor, select.POLLOUT)
            poller.poll()


def write_rows(data: bytes) -> None:
    try:
        write_all(STDOUT, data)
    except BrokenPipeError:
        raise ReaderGone from None
    except OSError as error:
        raise OutputLost('not all rows could be written: ' + reason(error)) from None


def reason(error: OSError) -> str:
    return error.strerror or str(error)


def remove(path: str) -> None:
    try:
        os.unlink(path)
    except OSError:
        pass


def is_pipe(descriptor: int) -> bool:
    return stat.S_ISFIFO(os.fstat(descriptor).st_mode)


def hold_standard_descriptors() -> None:
    """A standard descriptor that is closed is taken by one that can be neither read nor written as it should: else the next file that
    is opened would get its number, and rows would go there."""
    for descriptor, flags in ((STDIN, os.O_WRONLY), (STDOUT, os.O_RDONLY), (STDERR, os.O_RDONLY)):
        try:
            os.fstat(descriptor)
        except OSError:
            os.open(os.devnull, flags)

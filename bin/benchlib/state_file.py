"""A state on disk: a tag with the number of its form, then the bytes of the state as the engine left them. The new one takes the place of
the old one as a whole, so that a kill at any moment leaves one of the two."""
import fcntl
import os
import stat
import time
from typing import Optional

from .building import header_number
from .output import Failure, reason, remove

LOCK_SECONDS = 3.0  # a program whose caller was killed is gone well before
LOCK_POLL_SECONDS = 0.05


class NoState(Exception):
    """The file is there, and is no state file."""


def tag() -> bytes:
    return b'bench-state %d\n' % header_number('BENCH_STATE_FORM')


class StateFile:
    """A state file that no other run uses while it is entered. `new` is where the next state is written: it is never read as a state."""

    def __init__(self, given: str) -> None:
        self.given = given
        self.path = os.path.realpath(given)  # of a link, what it leads to is replaced
        self.new = self.path + '.new'
        self._lock = self.path + '.lock'
        self.descriptor = -1

    def __enter__(self) -> 'StateFile':
        waits_until = time.monotonic() + LOCK_SECONDS
        while not self._lock_once():
            if time.monotonic() > waits_until:
                raise Failure('%s is in use by another run' % self.given)
            time.sleep(LOCK_POLL_SECONDS)
        remove(self.new)
        return self

    def __exit__(self, *_) -> None:
        remove(self.new)
        remove(self._lock)
        os.close(self.descriptor)

    def _lock_once(self) -> bool:
        """Whoever had the lock before takes its file away: a lock counts if its file still has its name. Of the two kinds of locks the first
        stays with the program that is run, if its caller is killed; the second is that of programs in C that keep a state (lockf)."""
        descriptor = -1
        try:
            descriptor = os.open(self._lock, os.O_RDWR | os.O_CREAT | os.O_CLOEXEC, 0o666)
            fcntl.flock(descriptor, fcntl.LOCK_EX | fcntl.LOCK_NB)
            fcntl.lockf(descriptor, fcntl.LOCK_EX | fcntl.LOCK_NB)
            if os.path.samestat(os.fstat(descriptor), os.stat(self._lock)):
                self.descriptor = descriptor
                return True
        except (BlockingIOError, FileNotFoundError) as error:
            if descriptor < 0:
                raise Failure('%s cannot be written: %s' % (self.given, reason(error))) from None
        except OSError as error:
            raise Failure('%s cannot be written: %s: %s' % (self.given, os.path.basename(self._lock), reason(error))) from None
        os.close(descriptor)
        return False

    def read(self) -> Optional[bytes]:
        """The state's bytes; None if the file is new."""
        begins = tag()
        size = len(begins) + header_number('BENCH_STATE_SIZE')
        try:
            with open(self.path, 'rb', opener=lambda path, flags: os.open(path, flags | os.O_NONBLOCK)) as file:
                is_file = stat.S_ISREG(os.fstat(file.fileno()).st_mode)
                data = file.read(size + 1) if is_file else b''
        except FileNotFoundError:
            return None
        except IsADirectoryError:
            data = b''
        except OSError as error:
            raise Failure('%s cannot be read: %s' % (self.given, reason(error))) from None
        if len(data) != size or not data.startswith(begins):
            raise NoState('%s is no state file, or it is damaged' % self.given)
        return data[len(begins):]

    def replace(self) -> None:
        """The new state takes the place of the old one, for good."""
        try:
            os.rename(self.new, self.path)
            folder = os.open(os.path.dirname(self.path), os.O_RDONLY)
            try:
                os.fsync(folder)
            finally:
                os.close(folder)
        except OSError as error:
            raise Failure('%s could not be replaced: %s' % (self.given, reason(error))) from None

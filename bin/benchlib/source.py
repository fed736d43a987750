"""Where readings come from: a file, a growing file, a named pipe, standard input. What is read never waits: the caller asks poll first."""
import os
import stat
from typing import Optional

from .output import STDIN, reason

CHUNK = 1 << 16


class SourceFault(Exception):
    """The readings cannot be read any further; its words say why."""


class Source:
    """An open source. `path` is None for standard input."""

    def __init__(self, name: str, path: Optional[str], descriptor: int, follow: bool) -> None:
        self.name = name
        self.path = path
        self.descriptor = descriptor
        self.is_file = stat.S_ISREG(os.fstat(descriptor).st_mode)
        self.grows = follow and self.is_file
        # Standard input may be a file of which somebody has read a part.
        self.position = os.lseek(descriptor, 0, os.SEEK_CUR) if self.is_file else 0

    def read(self) -> bytes:
        """What is there; nothing at the end, which of a growing file is the end for now."""
        try:
            chunk = os.read(self.descriptor, CHUNK)
        except BlockingIOError:
            raise SourceFault('%s was read by somebody else' % self.name) from None
        except OSError as error:
            raise SourceFault('%s cannot be read: %s' % (self.name, reason(error))) from None
        self.position += len(chunk)
        if self.grows and not chunk:
            self.check_growth()
        return chunk

    def check_growth(self) -> None:
        """At its end a growing file is still the one that was opened, and not shorter than what was read of it."""
        opened = os.fstat(self.descriptor)
        if opened.st_size < self.position:
            raise SourceFault('%s was cut to %d bytes after %d were read' % (self.name, opened.st_size, self.position))
        if self.path is None:
            return
        try:
            named = os.stat(self.path)
        except OSError as error:
            raise SourceFault('%s is gone: %s' % (self.name, reason(error))) from None
        if not os.path.samestat(opened, named):
            raise SourceFault('%s was replaced by another file' % self.name)

    def close(self) -> None:
        if self.path is not None:
            os.close(self.descriptor)


def open_source(path: Optional[str], follow: bool) -> Optional[Source]:
    """The readings at a path, or standard input for None; None if the file is missing. A named pipe that nobody writes yet is opened
    without waiting."""
    if path is None:
        return Source('standard input', None, STDIN, follow)
    try:
        descriptor = os.open(path, os.O_RDONLY | os.O_NONBLOCK | os.O_CLOEXEC)
    except FileNotFoundError:
        return None
    except OSError as error:
        raise SourceFault('%s cannot be read: %s' % (path, reason(error))) from None
    if stat.S_ISDIR(os.fstat(descriptor).st_mode):
        os.close(descriptor)
        raise SourceFault('%s cannot be read: it is a folder' % path)
    return Source(path, path, descriptor, follow)

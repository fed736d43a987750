"""The files of a folder: a bench file that is read at once, and what is said about one that is missing."""
import os
from typing import Optional

from .limits import LONGEST_TEXT
from .output import Failure, printable, reason
from .suggest import did_you_mean

# One byte more than a bench file may have is enough to have it refused, however long it is; its explanation tells its length.
BENCH_TEXT_MOST = LONGEST_TEXT + 1
BENCH_READ_MOST = 1 << 24


def path_in(folder: str, name: str) -> str:
    """As the user gave the folder, so that words name the file as the user would."""
    return (folder[:-1] if folder.endswith('/') else folder) + '/' + name


def read_bench(path: str) -> Optional[bytes]:
    """The text of a bench file; None if it is missing."""
    try:
        with open(path, 'rb') as file:
            return file.read(BENCH_READ_MOST)
    except FileNotFoundError:
        return None
    except OSError as error:
        raise Failure('%s cannot be read: %s' % (path, reason(error))) from None


def similar_file(folder: str, name: str) -> str:
    """A file of the folder that may be meant by a name that is missing."""
    try:
        names = sorted(entry.name for entry in os.scandir(folder) if entry.is_file() and not entry.name.startswith('.'))
    except OSError:
        return ''
    stem = name.partition('.')[0]
    for there in names:
        if there.lower() == name:
            return there
    for there in names:
        if there.lower().strip() == stem or there.lower().lstrip().startswith(stem + '.'):
            return there
    others = {'bench.txt', 'readings.txt', 'rows.txt', 'cells.txt', 'sheet.txt'}
    return did_you_mean(name, [there for there in names if there not in others])


def missing(folder: str, name: str) -> str:
    there = similar_file(folder, name)
    return '%s is missing%s' % (path_in(folder, name), '; there is ' + printable(there) if there else '')

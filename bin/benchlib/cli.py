"""The command line of bin/bench."""
import os
import subprocess
from collections import deque
from typing import Deque, List, Optional

from . import interrupts
from .building import build_caller, commit, header_number, runner
from .decimals import Shown
from .folders import missing, path_in, read_bench
from .help import HELP, USAGE
from .limits import LONGEST_KEPT
from .output import (BAD_USAGE, FAILED, REFUSED, STDOUT, TAKEN, Failure, OutputLost, ReaderGone, encoded, hold_standard_descriptors,
                     reason, say, tell, write_rows)
from .report import BENCH_REFUSAL, NAMES_REFUSED, Lines, Report
from .running import KILLED, Run, pass_on
from .source import SourceFault, open_source
from .state_file import NoState, StateFile
from .suggest import did_you_mean

SIGPIPE_STATUS = KILLED + 13
CELLS_REFUSED = b'refused 41'

# Words of the command line: what stands alone, and which of the options is set.
ALONE = {'--help': 'help', '-h': 'help', '--version': 'version', '--classes': 'classes'}
FLAGS = {'-f': 'follow', '--decimal': 'decimals', '--fired': 'fired'}
VALUED = {'--state': 'state', '--sheet': 'cells'}


class Usage(Exception):
    """The words of the command line make no command."""


class Options:
    def __init__(self) -> None:
        self.what = 'rows'
        self.follow = False
        self.decimals = False
        self.fired = False
        self.state: Optional[str] = None
        self.cells: Optional[str] = None
        self.folder = ''
        self.from_stdin = False


def parse(words: List[str]) -> Options:
    options = Options()
    plain: List[str] = []
    rest = deque(words)
    while rest:
        word = rest.popleft()
        if word == '--':
            plain += rest
            break
        if word in ALONE:
            return alone(options, word, words)
        if word == '-' or not word.startswith('-'):
            plain.append(word)
        else:
            set_option(options, word, rest)
    set_folder(options, plain)
    return options


def alone(options: Options, word: str, words: List[str]) -> Options:
    options.what = ALONE[word]
    if options.what == 'classes' and len(words) > 1:
        raise Usage('--classes stands alone')
    return options


def set_option(options: Options, word: str, rest: Deque[str]) -> None:
    """Takes the option's value off the front of the rest, if it has one that is not written with it."""
    name, equals, value = word.partition('=')
    if name in VALUED:
        if not equals and not rest:
            raise Usage('CELLS and FOLDER are missing' if name == '--sheet' else 'FILE is missing')
        set_value(options, name, value if equals else rest.popleft())
    elif word in FLAGS:
        setattr(options, FLAGS[word], True)
    else:
        meant = did_you_mean(name, [*ALONE, *FLAGS, *VALUED])
        raise Usage('unknown option %s%s' % (word, ': did you mean %s?' % meant if meant else ''))


def set_value(options: Options, name: str, value: str) -> None:
    if getattr(options, VALUED[name]) is not None:
        raise Usage('%s stands there twice' % name)
    if name == '--state' and not value:
        raise Usage('the name of the state file is empty')
    setattr(options, VALUED[name], value)
    options.what = 'sheet' if name == '--sheet' else options.what


def set_folder(options: Options, plain: List[str]) -> None:
    if not plain:
        raise Usage('FOLDER is missing')
    if plain[0] == '-':
        raise Usage('FOLDER comes before -')
    options.from_stdin = plain[1:] == ['-']
    if len(plain) > 1 and not options.from_stdin:
        raise Usage('one FOLDER at a time')
    if options.cells is not None and (options.follow or options.decimals or options.fired or options.state is not None or options.from_stdin):
        raise Usage('--sheet goes with FOLDER alone')
    if os.path.isfile(plain[0]):
        raise Usage('%s is a file: give the folder that it stands in' % plain[0])
    if not os.path.isdir(plain[0]):
        raise Usage('there is no folder %s' % plain[0])
    options.folder = plain[0]


def print_version() -> int:
    here = commit()
    write_rows(encoded('bench: interface %d, state form %d%s\n' % (
        header_number('BENCH_INTERFACE_VERSION'), header_number('BENCH_STATE_FORM'), ', commit ' + here if here else '')))
    return TAKEN


def print_classes() -> int:
    """The program has told why if it could not print all."""
    program = build_caller('classes')
    try:
        code = subprocess.run([program], stdin=subprocess.DEVNULL).returncode
    except OSError as error:
        raise Failure('%s could not be run: %s' % (program, reason(error))) from None
    status = code if code >= 0 else KILLED - code
    if status in (TAKEN, SIGPIPE_STATUS):
        return TAKEN
    if status == FAILED:
        return FAILED
    raise Failure('%s ended with status %d' % (program, status))


def first_line(path: str) -> Optional[bytes]:
    """Of a file, which can be read once more."""
    if not os.path.isfile(path):
        return None
    lines = Lines()
    try:
        with open(path, 'rb') as file:
            lines.add(file.read(LONGEST_KEPT))
    except OSError:
        return None
    lines.finish()
    return lines.next()


def sheet_words(options: Options, first: bytes) -> int:
    """Explains what stands in place of a sheet, and gives the status."""
    bench_path, readings_path = path_in(options.folder, 'bench.txt'), path_in(options.folder, 'readings.txt')
    refusal = BENCH_REFUSAL.fullmatch(first)
    if not refusal and first not in (NAMES_REFUSED, CELLS_REFUSED):
        return TAKEN
    is_file = os.path.isfile(bench_path)  # which can be read once more
    text = read_bench(bench_path) if is_file else b''
    report = Report(bench_path, text or b'', readings_path, Shown())
    if not os.path.exists(bench_path):
        report.bench_note = missing(options.folder, 'bench.txt')
    if first == CELLS_REFUSED:
        from .cells import explain_cells  # as few runs need it
        say(report.explained('cells: refused 41: ', lambda: explain_cells(text or b'', os.fsencode(options.cells))))
        return REFUSED
    if not os.path.exists(readings_path):
        report.readings_note = missing(options.folder, 'readings.txt')
    line = first_line(readings_path)
    if line is not None:
        report.lines.add(line + b'\n')
    say(report.take([first])[1])
    return report.status


def print_sheet(options: Options) -> int:
    program = build_caller('sheet')
    beginning, status = pass_on([program, options.cells], options.folder)
    first = beginning.partition(b'\n')[0]
    said = sheet_words(options, first)
    if said == REFUSED:
        return REFUSED
    if status != 0:
        raise Failure('%s ended with status %d' % (program, status))
    return said


def open_readings(options: Options, run: Run) -> None:
    """A source that cannot be opened is told when the bench file is accepted: what is refused there comes first."""
    path = None if options.from_stdin else path_in(options.folder, 'readings.txt')
    try:
        run.source = open_source(path, options.follow)
    except SourceFault as fault:
        run.fault = str(fault)
        return
    if run.source is None:
        run.report.readings_note = missing(options.folder, 'readings.txt')
    else:
        run.report.live = options.follow or not run.source.is_file  # somebody may look on


def print_rows(options: Options) -> int:
    bench_path = path_in(options.folder, 'bench.txt')
    source_name = 'standard input' if options.from_stdin else path_in(options.folder, 'readings.txt')
    text = read_bench(bench_path)
    report = Report(bench_path, text or b'', source_name, Shown(options.decimals, options.fired))
    if text is None:
        report.bench_note = missing(options.folder, 'bench.txt')
    run = Run(report, options.follow)
    open_readings(options, run)
    if options.state is None:
        return finish(run, runner(), [], text)
    with StateFile(options.state) as state:
        return print_rows_from_state(run, state, text)


def print_rows_from_state(run: Run, state: StateFile, text: Optional[bytes]) -> int:
    report = run.report
    report.state_path = state.given
    try:
        report.image = state.read()
    except NoState as no_state:
        tell(str(no_state))
        return REFUSED
    if report.image is None:
        report.state_note = '%s is new: a fresh state' % state.given
    run.ends_lines = run.follow
    try:
        status = finish(run, build_caller('resume'), (['-f'] if run.follow else []) + [state.path, state.new], text, [state.descriptor])
    except ReaderGone:
        if run.follow:
            raise
        raise Failure('%s stays as it was: not all rows were read' % state.given) from None
    if not run.follow and report.names_taken and not run.fault:
        sync_rows()
        state.replace()
    return status


def sync_rows() -> None:
    """Rows that go to a file are on disk before the state is. Other outputs cannot be asked for it."""
    try:
        os.fsync(STDOUT)
    except OSError:
        pass


def finish(run: Run, program: str, words: List[str], text: Optional[bytes], descriptors: Optional[List[int]] = None) -> int:
    """Runs the program to its end, and gives the status of the whole run."""
    status = run.run([program] + words, text, descriptors or [])
    say(run.report.end())
    if run.report.status == REFUSED:
        return REFUSED
    if status != 0:
        raise Failure('%s ended with status %d' % (program, status))
    if run.fault:
        tell(run.fault)
        return FAILED
    if run.report.rows == 0 and run.report.most_rows is None:
        raise Failure('%s printed nothing' % program)
    return run.report.status


def print_help() -> int:
    write_rows(encoded(HELP))
    return TAKEN


def command(words: List[str]) -> int:
    options = parse(words)
    if options.what == 'help':
        return print_help()
    if options.what == 'version':
        return print_version()
    if options.what == 'classes':
        return print_classes()
    if options.what == 'sheet':
        return print_sheet(options)
    return print_rows(options)


def status_of_command(words: List[str]) -> int:
    """Runs the command; what ends it early is told in a line."""
    try:
        return command(words)
    except Usage as usage:
        tell(str(usage))
        say((USAGE + 'bin/bench --help tells the rest.').splitlines())
        return BAD_USAGE
    except (Failure, OutputLost) as failure:
        tell(str(failure))
        return FAILED
    except ReaderGone:
        return TAKEN
    except Exception as error:  # an error of this command is told in a line, as all others are
        tell('unexpected error: %s: %s' % (type(error).__name__, ' '.join(str(error).split())))
        return FAILED


def main(words: List[str]) -> int:
    """A signal may also come while something is told: nobody may be reading it."""
    try:
        hold_standard_descriptors()
        interrupts.end_at_once()
        status = status_of_command(words)
        interrupts.end_as_any()
        return status
    except interrupts.Interrupted as interrupted:
        interrupts.die(interrupted.number)
        return KILLED + interrupted.number

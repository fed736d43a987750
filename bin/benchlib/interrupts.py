"""Signals that end a run: at once, with what is open closed, or in good order for one that follows its readings."""
import os
import signal
from contextlib import contextmanager
from typing import Iterator, List, Optional

ENDING = (signal.SIGINT, signal.SIGTERM, signal.SIGHUP)

_waiting: Optional[List[int]] = None  # signals that came while a program is started; None while none is


class Interrupted(BaseException):
    """A signal that ends the run at once."""

    def __init__(self, number: int) -> None:
        super().__init__(number)
        self.number = number


def _raise(number, _frame) -> None:
    if _waiting is not None:
        _waiting.append(number)
        return
    for each in ENDING:  # what is closed now is not to be interrupted again
        signal.signal(each, signal.SIG_IGN)
    raise Interrupted(number)


@contextmanager
def starting() -> Iterator[None]:
    """A signal waits until this is left. A program that is started here is known by then to whoever ends it; it would else run on, and tell of
    a reader who is gone."""
    global _waiting
    _waiting = []
    try:
        yield
    finally:
        came, _waiting = _waiting, None
        if came:
            _raise(came[0], None)


def end_at_once() -> None:
    """What is ignored, as by nohup or in the background of a script, stays so."""
    for number in ENDING:
        if signal.getsignal(number) != signal.SIG_IGN:
            signal.signal(number, _raise)


def end_as_any() -> None:
    """Nothing is open any more: from here on a signal ends the run as it ends any program."""
    for number in ENDING:
        if signal.getsignal(number) == _raise:
            signal.signal(number, signal.SIG_DFL)


def die(number: int) -> None:
    """Ends as the signal would have: whoever waits sees it."""
    signal.signal(number, signal.SIG_DFL)
    os.kill(os.getpid(), number)


def ignore_in_child() -> None:
    """A terminal sends its signals to the whole group: the program ends when its readings do."""
    for number in ENDING:
        signal.signal(number, signal.SIG_IGN)


class GoodOrder:
    """While it is entered a first signal makes `descriptor` readable; a second one ends the run as it would have ended any."""

    def __enter__(self) -> 'GoodOrder':
        self.descriptor, self._woken = os.pipe()
        os.set_blocking(self.descriptor, False)
        os.set_blocking(self._woken, False)
        self._before = {number: signal.getsignal(number) for number in ENDING}
        self._wakeup = signal.set_wakeup_fd(self._woken, warn_on_full_buffer=False)
        for number in ENDING:
            if number != signal.SIGHUP or self._before[number] != signal.SIG_IGN:
                signal.signal(number, self._first)
        return self

    def _first(self, number, _frame) -> None:
        for each in ENDING:
            if signal.getsignal(each) == self._first:
                signal.signal(each, signal.SIG_DFL)

    def __exit__(self, *_) -> None:
        signal.set_wakeup_fd(self._wakeup)
        for number, handler in self._before.items():
            signal.signal(number, handler)
        os.close(self.descriptor)
        os.close(self._woken)

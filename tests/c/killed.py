"""killed.py KEEPER CONTROLLER LATE_KEEPER EXAMPLE FOLDER: kills the keeper (examples/c) at any moment while a controller sends an example's lines.

The rows that the controller gets, and the state that is left, must be byte by byte those of a run without a kill, and the state file must be whole
whenever it is looked at. So it must be with a keeper that hangs for longer than the controller waits, and with a controller that is killed too.
LATE_KEEPER gives the row out before it saves the state: it must be caught, or these runs show nothing. FOLDER is for the files of the runs. Prints
what was done; fails if anything does.
"""
import os
import random
import shutil
import signal
import socket
import subprocess
import sys
import time
from typing import Callable, List, Optional

TAG = b"bench-state 1\n"
STATE_SIZE = 35117
KILLS = 60           # of the keeper, over as many runs as they need
CONTROLLER_KILLS = 20
RUNS_MOST = 40       # after which a run is not tried again
ROWS_BETWEEN = 6     # at most, between the start of a keeper and its kill
PATIENCE = 120.0     # seconds without a row, after which a run has failed, on however busy a machine
HANG = 1.4           # seconds, longer than the controller waits
STEP = 0.0002        # seconds between two looks at the state
TOO_LONG = 70000     # bytes, more than the keeper takes


class Fault(Exception):
    """What was found, in words."""


class Bench:
    """One run: its folder, its keeper and its controller. Names are short because a socket's name has to be."""

    def __init__(self, folder: str, keeper: str, controller: str, example: str):
        shutil.rmtree(folder, ignore_errors=True)
        os.makedirs(folder)
        self.folder = folder
        self.keeper_words = [keeper, os.path.join(example, "bench.txt"), "state", "socket"]
        self.controller_words = [controller, "socket", os.path.join(example, "readings.txt")]
        self.keeper: Optional[subprocess.Popen] = None
        self.controller: Optional[subprocess.Popen] = None
        self.said = open(os.path.join(folder, "said"), "ab")

    def path(self, name: str) -> str:
        return os.path.join(self.folder, name)

    def start_keeper(self) -> None:
        self.keeper = subprocess.Popen(self.keeper_words, cwd=self.folder, stdin=subprocess.DEVNULL, stdout=self.said, stderr=self.said)

    def start_controller(self) -> None:
        with open(self.path("log"), "ab") as log:
            self.controller = subprocess.Popen(self.controller_words, cwd=self.folder, stdin=subprocess.DEVNULL, stdout=log, stderr=self.said)

    def kill_keeper(self) -> None:
        """A keeper that has ended by itself has found its state spoilt, or could not store it."""
        self.keeper.kill()
        if self.keeper.wait() != -signal.SIGKILL:
            raise Fault("the keeper ended with status %d" % self.keeper.returncode)

    def kill_controller(self) -> None:
        self.controller.kill()
        self.controller.wait()

    def ended(self) -> bool:
        return self.controller.poll() is not None

    def rows(self) -> bytes:
        with open(self.path("log"), "rb") as log:
            return log.read()

    def state(self) -> bytes:
        """The state file's bytes, which must be whole; none if there is no file yet."""
        try:
            with open(self.path("state"), "rb") as file:
                state = file.read()
        except FileNotFoundError:
            return b""
        if len(state) != len(TAG) + STATE_SIZE or not state.startswith(TAG):
            raise Fault("the state file is not whole: %d bytes" % len(state))
        return state

    def wait(self, done: Callable[[], bool]) -> None:
        """Looks at the state until something is done or the controller has ended."""
        began = time.monotonic()
        while not done() and not self.ended():
            self.state()
            if self.keeper.poll() is not None:
                raise Fault("the keeper ended with status %d" % self.keeper.returncode)
            if time.monotonic() - began > PATIENCE:
                raise Fault("no row in %d seconds" % PATIENCE)
            time.sleep(STEP)

    def wait_rows(self, count: int) -> None:
        aim = self.rows().count(b"\n") + count
        self.wait(lambda: self.rows().count(b"\n") >= aim)

    def close(self) -> None:
        for process in (self.keeper, self.controller):
            if process is not None and process.poll() is None:
                process.kill()
                process.wait()
        self.said.close()


class Runs:
    """The runs over one example, compared with one that is left alone."""

    def __init__(self, keeper: str, controller: str, example: str, folder: str):
        self.keeper, self.controller, self.example, self.folder = keeper, controller, example, folder
        self.random = random.Random(1)
        began = time.monotonic()
        self.rows, self.state = self.run(lambda bench: None)
        self.line_time = (time.monotonic() - began) / self.rows.count(b"\n")
        with open(os.path.join(example, "rows.txt"), "rb") as file:
            if self.rows != file.read().split(b"\n", 1)[1]:
                raise Fault("the rows of a run without a kill are not those of the example")

    def run(self, disturb: Callable[[Bench], None], keeper: str = ""):
        """A run to its end, and what it leaves."""
        bench = Bench(os.path.join(self.folder, "run"), keeper or self.keeper, self.controller, self.example)
        try:
            bench.start_keeper()
            bench.start_controller()
            disturb(bench)
            bench.wait(bench.ended)
            if bench.controller.returncode != 0:
                raise Fault("the controller ended with status %d" % bench.controller.returncode)
            bench.kill_keeper()
            return bench.rows(), bench.state()
        finally:
            bench.close()

    def moment(self, bench: Bench) -> None:
        """Waits for some rows and then for a part of the time that a line takes."""
        bench.wait_rows(self.random.randrange(ROWS_BETWEEN + 1))
        time.sleep(self.random.random() * 2 * self.line_time)

    def kill_keepers(self, bench: Bench) -> None:
        while not bench.ended():
            self.moment(bench)
            if bench.ended():
                return
            bench.kill_keeper()
            self.kills += 1
            bench.state()
            bench.start_keeper()

    def kill_both(self, bench: Bench) -> None:
        while not bench.ended():
            self.moment(bench)
            if bench.ended():
                return
            bench.kill_controller()
            self.kills += 1
            if self.random.random() < 0.5:
                bench.kill_keeper()
                bench.start_keeper()
            bench.start_controller()

    def killed(self, keeper: str = "") -> str:
        """Runs with kills until there were enough of them."""
        self.kills = runs = 0
        while self.kills < KILLS and runs < RUNS_MOST:
            rows, state = self.run(self.kill_keepers, keeper)
            runs += 1
            if rows != self.rows:
                raise Fault("after %d kills a run gives other rows" % self.kills)
            if state != self.state:
                raise Fault("after %d kills a run leaves another state" % self.kills)
        if self.kills < KILLS:
            raise Fault("only %d kills" % self.kills)
        return "%d kills of the keeper in %d runs: %d rows each and the state as without a kill" % (self.kills, runs, self.rows.count(b"\n"))

    def controller_killed(self) -> str:
        """A controller that comes back prints its last row again, and lines that were refused may be sent again: all else is as without a kill."""
        self.kills = runs = 0
        while self.kills < CONTROLLER_KILLS and runs < RUNS_MOST:
            rows, state = self.run(self.kill_both)
            runs += 1
            if taken(rows) != taken(self.rows) or state != self.state:
                raise Fault("with the controller killed a run gives other rows, or leaves another state")
        if self.kills < CONTROLLER_KILLS:
            raise Fault("only %d kills of the controller" % self.kills)
        return "%d kills of the controller, some with the keeper: no row twice, none lost" % self.kills

    def late(self, keeper: str) -> str:
        """What says so is the same test."""
        try:
            self.killed(keeper)
        except Fault as fault:
            return "a keeper that saves after it has answered is caught: %s" % fault
        raise Fault("a keeper that saves after it has answered is not caught")

    def refused_states(self) -> str:
        """States that the keeper must not start from, and must leave as they are."""
        wrong = {
            "a short one": self.state[:-1], "a long one": self.state + b"\0", "nothing": b"", "a tag alone": TAG,
            "another form": self.state.replace(b"state 1", b"state 2", 1),
            "another text's": TAG + bytes([self.state[len(TAG)] ^ 1]) + self.state[len(TAG) + 1:],
        }
        for name, state in wrong.items():
            bench = Bench(os.path.join(self.folder, "run"), self.keeper, self.controller, self.example)
            with open(bench.path("state"), "wb") as file:
                file.write(state)
            status = refused_start(bench, name)
            with open(bench.path("state"), "rb") as file:
                if status != 1 or file.read() != state:
                    raise Fault("status %d from %s, or it was written over" % (status, name))
        return "%d states refused" % len(wrong)

    def other_file(self) -> str:
        """A file that is no socket has the socket's name: it stays."""
        bench = Bench(os.path.join(self.folder, "run"), self.keeper, self.controller, self.example)
        with open(bench.path("socket"), "wb") as file:
            file.write(b"rows")
        status = refused_start(bench, "a file in the socket's place")
        with open(bench.path("socket"), "rb") as file:
            if status != 1 or file.read() != b"rows":
                raise Fault("status %d from a file in the socket's place, or it was written over" % status)
        return "a file in the socket's place stays"

    def troubled(self) -> str:
        """A run with a second keeper, odd requests and a keeper that hangs."""
        odd = odd_requests(self.random)

        def trouble(bench: Bench) -> None:
            bench.wait_rows(3)
            start_second(bench)
            send_odd(bench, odd)
            bench.wait_rows(3)
            hang(bench)
        if self.run(trouble) != (self.rows, self.state):
            raise Fault("a second keeper, odd requests or a keeper that hangs change the rows or the state")
        with open(os.path.join(self.folder, "run", "said"), "rb") as said:
            if b"sending again" not in said.read():
                raise Fault("with a keeper that hung no line was sent again")
        return "a second keeper refused, %d odd requests refused, a line sent again to a keeper that hung: the same rows" % len(odd)


def refused_start(bench: Bench, name: str) -> int:
    """The status of a keeper that is to end by itself."""
    bench.start_keeper()
    try:
        return bench.keeper.wait(timeout=PATIENCE)
    except subprocess.TimeoutExpired:
        raise Fault("the keeper starts from %s" % name) from None
    finally:
        bench.close()


def start_second(bench: Bench) -> None:
    second = subprocess.run(bench.keeper_words, cwd=bench.folder, stdin=subprocess.DEVNULL, stdout=bench.said, stderr=bench.said, timeout=PATIENCE,
                            check=False)
    if second.returncode != 1:
        raise Fault("a second keeper of the same state ended with status %d" % second.returncode)


def odd_requests(chance: random.Random) -> List[bytes]:
    """Packets that are no request: too long ones, and any bytes."""
    odd = [b"\n", b"last", b"last ", b"last 1", b"last \xff", b"last a\n", b"by n", b"by n\n", b"by n\na 0", b"\0"]
    odd += [b"\xff" * TOO_LONG, b"by n\n" + b"1" * TOO_LONG]
    return odd + [bytes(chance.randrange(256) for _ in range(chance.randrange(1, 60))) for _ in range(100)]


def send_odd(bench: Bench, odd: List[bytes]) -> None:
    for packet in odd:
        answer = asked(bench.path("socket"), packet)
        if not answer.startswith(b"refused "):
            raise Fault("%r was answered by %r" % (packet[:60], answer[:60]))


def hang(bench: Bench) -> None:
    """For longer than the controller waits."""
    bench.keeper.send_signal(signal.SIGSTOP)
    time.sleep(HANG)
    bench.keeper.send_signal(signal.SIGCONT)


def taken(rows: bytes) -> List[bytes]:
    """The rows of taken lines, those that are given again at once left out."""
    kept: List[bytes] = []
    for row in rows.split(b"\n"):
        if not row.startswith(b"refused ") and row not in kept[-1:]:
            kept.append(row)
    return kept


def asked(path: str, packet: bytes) -> bytes:
    with socket.socket(socket.AF_UNIX, socket.SOCK_SEQPACKET) as to:
        to.settimeout(PATIENCE)
        to.connect(os.path.relpath(path))
        to.send(packet)
        return to.recv(65536)


def main() -> int:
    keeper, controller, late_keeper, example, folder = map(os.path.abspath, sys.argv[1:6])
    try:
        runs = Runs(keeper, controller, example, folder)
        for what in (runs.refused_states, runs.other_file, runs.troubled, runs.killed, runs.controller_killed):
            print(what())
        print(runs.late(late_keeper))
    except (Fault, OSError, subprocess.SubprocessError) as fault:
        print("failed: %s" % fault)
        return 1
    return 0


if __name__ == "__main__":
    sys.exit(main())

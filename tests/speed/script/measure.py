"""measure.py FOLDER RUNNER SCRIPT BEFORE [ROUNDS]: the rows of each way first, which must be those of the runner, then CPU times in turn, with those of
the programs that a script runs. BEFORE is another script, or nothing."""
import os
import statistics
import subprocess
import sys

sys.path.insert(0, os.path.join(os.path.dirname(os.path.abspath(__file__)), "..", "lines"))
from cpu import cpu_seconds, short

inputs, runner, script = (os.path.abspath(path) for path in sys.argv[1:4])
before = sys.argv[4] and os.path.abspath(sys.argv[4])
rounds = int(sys.argv[5]) if len(sys.argv) > 5 else 7
BENCHES = ("pedal", "usual", "usual-quiet")
STATE = os.path.join(inputs, "state")
STATUSES = (0, 4)  # some lines of the inputs are refused


def ways():
    """What is measured: its name, its command."""
    yield "runner alone", [runner]
    yield "bin/bench", [script, "."]
    if before:
        yield "bin/bench before", [before, "."]
    yield "bin/bench --decimal --fired", [script, "--decimal", "--fired", "."]
    yield "bin/bench --state", [script, "--state", STATE, "."]


def without_state():
    """A state that a run left would have all lines refused."""
    if os.path.exists(STATE):
        os.remove(STATE)


def printed(command, folder):
    without_state()
    return subprocess.run(command, cwd=folder, stdin=subprocess.DEVNULL, stdout=subprocess.PIPE, stderr=subprocess.DEVNULL).stdout


def check(folder):
    rows = printed([runner], folder)
    for name, command in ways():
        if "--fired" not in command and printed(command, folder) != rows:
            sys.exit(f"{folder}: {name} prints other rows than the runner")


def seconds(command, folder):
    without_state()
    return cpu_seconds(command, folder, STATUSES, subprocess.DEVNULL)


def main():
    names = [name for name, _ in ways()]
    print(f"CPU time with that of the programs run, medians of {rounds} rounds, all in turn; the ratio is to the runner alone in the same round.\n")
    print("| bench | way | s | ratio | least to most |")
    print("|---|---|---|---|---|")
    for bench in BENCHES:
        folder = os.path.join(inputs, bench)
        check(folder)
        found = [[seconds(command, folder) for _, command in ways()] for _ in range(rounds)]
        for at, name in enumerate(names):
            ratios = [one[at] / one[0] for one in found]
            spread = f"{short(statistics.median(ratios))} | {short(min(ratios))} to {short(max(ratios))}"
            print(f"| {bench if at == 0 else ''} | {name} | {short(statistics.median(one[at] for one in found))} | {spread} |", flush=True)


main()

"""measure.py TESTS FOLDER RUNNER SECOND CALLS SECOND_CALLS [ROUNDS]: rows first, which must be equal, then CPU times, each program in turn.

Only the runner of BENCH_BEFORE may give other rows, if what they mean has changed since: it is said how many. One that knows no senders yet (before
document 02's order 5) gets the readings without them.
"""
import os
import re
import shutil
import statistics
import struct
import subprocess
import sys
from itertools import zip_longest

from cpu import cpu_seconds, short

BEFORE = "runner before"
tests, folder, runner, second, calls, second_calls = (os.path.abspath(path) for path in sys.argv[1:7])
rounds = int(sys.argv[7]) if len(sys.argv) > 7 else 7
before = os.environ.get("BENCH_BEFORE")


def opponents(bench):
    """Name, command, and whether its reals are decimals."""
    kind = bench.removesuffix("-quiet")
    lua = os.path.join(tests, kind + ".lua")
    batch = os.path.join(folder, bench, "batch.clp")
    with open(batch, "w", encoding="utf-8") as file:
        files = [os.path.join(tests, name) for name in ("lines.clp", kind + ".clp")]
        if kind == "heavy":
            files.append("rules.clp")
        file.write("".join(f'(load* "{name}")\n' for name in files) + "(main)\n(exit)\n")
    listed = [
        ("runner", [runner], False),
        *([(BEFORE, [os.path.abspath(before)], False)] if before else []),
        # it tries every choice: too long for so many heavy lines
        *([("second interpreter", [second, "."], False)] if bench != "heavy-quiet" else []),
        ("Lua 5.4", ["lua5.4", lua], False),
        ("LuaJIT", ["luajit", lua], False),
        ("LuaJIT, compiler off", ["luajit", "-joff", lua], False),
        ("CLIPS", ["clips", "-f2", batch], True),
    ]
    if bench == "heavy":
        listed += [
            ("Lua 5.4, every choice", ["lua5.4", lua, "heavy_every"], False),
            ("LuaJIT, every choice", ["luajit", lua, "heavy_every"], False),
        ]
    return [entry for entry in listed if shutil.which(entry[1][0])]


def decimals(rows):
    """Rows with their reals as decimals, the form that CLIPS prints."""
    def form(match):
        return b"%.17g" % struct.unpack(">d", bytes.fromhex(match[0].decode()))

    return re.sub(rb"\b[0-9a-f]{16}\b", form, rows)


def rows(command, cwd):
    return subprocess.run(command, cwd=cwd, stdin=subprocess.DEVNULL, stdout=subprocess.PIPE, check=True).stdout


def unsent(text):
    """Readings or rows without their senders."""
    return re.sub(rb"^(?!refused )\S+ ", b"", text, flags=re.MULTILINE)


def place_of(name, command, cwd):
    """Where a program is run: in the bench's folder, or, if it is a runner that refuses a line of names with senders, where there are none."""
    if name != BEFORE or rows(command, cwd) != b"refused 22\n":
        return cwd
    place = os.path.join(cwd, "unsent")
    os.makedirs(place, exist_ok=True)
    shutil.copy(os.path.join(cwd, "bench.txt"), place)
    with open(os.path.join(cwd, "readings.txt"), "rb") as sent, open(os.path.join(place, "readings.txt"), "wb") as file:
        file.write(unsent(sent.read()))
    return place


def unlike(given, expected):
    """How many rows are not the same."""
    return sum(one != other for one, other in zip_longest(given.split(b"\n"), expected.split(b"\n")))


def call_times():
    """The archive's calls and the second interpreter's, in turn."""
    found = {}
    for _ in range(rounds):
        both = [rows([program, folder], folder).decode().splitlines() for program in (calls, second_calls)]
        for own, other in zip(*both):
            name, own_time, *_, own_sum = own.split()
            other_name, other_time, *_, other_sum = other.split()
            if (name, own_sum) != (other_name, other_sum):
                sys.exit(f"{name}: the rows of the archive and of the second interpreter differ")
            found.setdefault(name, []).append((float(own_time), float(other_time)))
    print(f"\nOne call, CPU time in microseconds, medians of {rounds} rounds; each round gives the median of 15.\n")
    print("| call | archive | least to most | second interpreter | least to most | ratio | least to most |")
    print("|---|---|---|---|---|---|---|")
    for name, pairs in found.items():
        own, other = [a for a, _ in pairs], [b for _, b in pairs]
        ratios = [b / a for a, b in pairs]
        spread = [f"{short(statistics.median(x))} | {short(min(x))} to {short(max(x))}" for x in (own, other)]
        print(f"| {name} | {spread[0]} | {spread[1]} | {short(statistics.median(ratios))} | {short(min(ratios))} to {short(max(ratios))} |")


def main():
    table = []
    for bench in ("pedal", "usual", "heavy", "usual-quiet", "heavy-quiet"):
        cwd = os.path.join(folder, bench)
        listed = opponents(bench)
        expected = rows([runner], cwd)
        lines = expected.count(b"\n") - 1
        places = {name: place_of(name, command, cwd) for name, command, _ in listed}
        for name, command, decimal in listed:
            wanted = expected if places[name] == cwd else unsent(expected)
            others = unlike(rows(command, places[name]), decimals(wanted) if decimal else wanted)
            if others and name != BEFORE:
                sys.exit(f"{bench}: the rows of {name} are not the runner's")
            print(f"{bench}: {lines} lines, {others} rows differ: {name}", flush=True)
        times = {name: [] for name, _, _ in listed}
        for _ in range(rounds):
            for name, command, _ in listed:
                times[name].append(cpu_seconds(command, places[name]))
        for name, _, _ in listed:
            # The ratio is taken in each round, so that what slows a whole round does not count.
            ratios = [other / own for other, own in zip(times[name], times["runner"])]
            per_line = [1e6 * seconds / lines for seconds in times[name]]
            table.append((bench, name, statistics.median(per_line), min(per_line), max(per_line), statistics.median(ratios), min(ratios), max(ratios)))
    print(f"\nCPU time, medians of {rounds} rounds, each program in turn; the ratio is to the runner (above 1: the runner is faster).\n")
    print("| bench | program | µs a line | least to most | ratio | least to most |")
    print("|---|---|---|---|---|---|")
    for bench, name, middle, low, high, ratio, ratio_low, ratio_high in table:
        print(f"| {bench} | {name} | {short(middle)} | {short(low)} to {short(high)} | {short(ratio)} | {short(ratio_low)} to {short(ratio_high)} |")


main()
call_times()

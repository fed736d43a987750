"""measure.py FOLDER ORACLE RUNNER SHEET [ROUNDS]: rows and sheet of a small day first, which must be right, then CPU times in turn."""
import os
import statistics
import subprocess
import sys

from make_days import CELLS, COUNTS, SMALL  # makes the folder of tests/speed/lines known too
from cpu import cpu_seconds, short

folder, oracle, runner, sheet = (os.path.abspath(path) for path in sys.argv[1:5])
rounds = int(sys.argv[5]) if len(sys.argv) > 5 else 7
AIM = 1.5


def place(bench, count):
    return os.path.join(folder, bench, str(count))


def printed(command, cwd):
    return subprocess.run(command, cwd=cwd, stdin=subprocess.DEVNULL, stdout=subprocess.PIPE, check=True).stdout


def check_small(bench):
    """Rows and sheet are those of the separate reading of the documents, which is too slow for more lines."""
    cwd = place(bench, SMALL)
    for what, command, words in (("rows", [runner], []), ("sheet", [sheet, CELLS[bench]], ["--sheet", CELLS[bench]])):
        if printed(command, cwd) != printed([sys.executable, oracle, *words, "."], cwd):
            sys.exit(f"{bench}: the {what} of {SMALL} lines are not those of {oracle}")


def times(bench):
    """For each count the seconds of rows and sheet, round by round; in a round every count is measured, rows and sheet in turn."""
    counts = [count for count in COUNTS if count != SMALL]
    found = {count: ([], []) for count in counts}
    for _ in range(rounds):
        for count in counts:
            for into, command in zip(found[count], ([runner], [sheet, CELLS[bench]])):
                into.append(cpu_seconds(command, place(bench, count)))
    return found


def spread(numbers):
    return f"{short(statistics.median(numbers))} | {short(min(numbers))} to {short(max(numbers))}"


def main():
    for bench in CELLS:
        check_small(bench)
        print(f"{bench}: rows and sheet of {SMALL} lines are right", flush=True)
    found = {bench: times(bench) for bench in CELLS}
    print(f"\nCPU time, medians of {rounds} rounds, rows and sheet in turn; the ratio is that of the sheet to the rows (aim: {AIM} at most).\n")
    print("| bench | lines | rows, µs a line | least to most | sheet, µs a line | least to most | ratio | least to most |")
    print("|---|---|---|---|---|---|---|---|")
    for bench, counts in found.items():
        for count, (rows, sheets) in counts.items():
            # The ratio is taken in each round, so that what slows a whole round does not count.
            ratios = [one / other for one, other in zip(sheets, rows)]
            per_line = [[1e6 * seconds / count for seconds in some] for some in (rows, sheets)]
            print(f"| {bench} | {count} | {spread(per_line[0])} | {spread(per_line[1])} | {spread(ratios)} |")
    print("\nGrowth of the sheet's time, in each round against that of the least lines.\n")
    print("| bench | lines | times the lines | times the time | least to most |")
    print("|---|---|---|---|---|")
    for bench, counts in found.items():
        least = min(counts)
        for count, (_, sheets) in counts.items():
            growth = [one / other for one, other in zip(sheets, counts[least][1])]
            print(f"| {bench} | {count} | {short(count / least)} | {spread(growth)} |")


main()

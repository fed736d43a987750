"""make_days.py FOLDER [SEED]: the inputs of the benchmark of sheets, the same for the same seed.

FOLDER/{pedal,usual}/COUNT/ get bench.txt, readings.txt and cells.txt. Benches and readings are those of tests/speed/lines; each COUNT
has the first new lines of the same course, with what is sent twice or refused among them.
"""
import os
import random
import sys

LINES = os.path.join(os.path.dirname(os.path.abspath(__file__)), os.pardir, "lines")
sys.path.insert(0, LINES)
from make_inputs import MAKERS, names_line, numbered, values_line, write

SMALL = 300
COUNTS = (SMALL, 25_000, 50_000, 100_000)
# The usual bench has two real cells: an event that stays, so that most lines take two rows, and an action that is seldom fired.
CELLS = {"pedal": "p.down s.pos k.keep", "usual": "stage.pos pedal.count log.steps probe1.temp log.mm"}


def readings(name, seed, count):
    rng = random.Random(f"{seed} {name}")
    lines = [values_line(number, fields, False) for number, fields in numbered(rng, count, MAKERS[name](rng))]
    return "\n".join([names_line(name)] + lines) + "\n"


def main():
    folder, seed = sys.argv[1], int(sys.argv[2]) if len(sys.argv) > 2 else 1
    for name, cells in CELLS.items():
        with open(os.path.join(LINES, name + ".txt"), encoding="ascii") as file:
            bench = file.read()
        for count in COUNTS:
            into = os.path.join(folder, name, str(count))
            os.makedirs(into, exist_ok=True)
            write(os.path.join(into, "bench.txt"), bench)
            write(os.path.join(into, "readings.txt"), readings(name, seed, count))
            write(os.path.join(into, "cells.txt"), cells + "\n")


if __name__ == "__main__":
    main()

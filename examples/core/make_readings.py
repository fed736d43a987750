"""Writes readings.txt: the readings of a core of three hundred rings, the same ones at every run.

Only random() and plain arithmetic are used, so that every Python gives the same readings.
"""

import random
import struct
from pathlib import Path

SEED = 300
SENDER = "bench_box"  # one box reads the whole bench
RINGS = 300
START = 137000  # right of zero: the stage was zeroed in mid travel
TURN = 151  # the core came in two pieces; the first ring of the second, measured on the way back
LEFT, RIGHT = -1, 1
MISSING = (88, 214)  # rings without width
UNREADABLE = (45, 46)  # rings of which the camera has no width
LONG_PRESSES = (1, 50, 100, 200, 250, 300)
OUTPUT = Path(__file__).resolve().parent / "readings.txt"


def real(number):
    """The 16 hexadecimal digits of a real."""
    return struct.pack(">d", number).hex()


def record(number, *fields):
    return " ".join([SENDER, str(number)] + [str(field) for field in fields])


def width_of(ring, draw):
    """Steps: wide rings near the pith, narrow ones near the bark, more or less."""
    if ring in MISSING:
        return 0
    return 300 + (RINGS - ring) * 6 + int(draw.random() * 400)


def camera_of(ring, width, draw):
    """The camera sees the width to within a hundredth of a millimetre."""
    if ring in UNREADABLE:
        return "?"
    if width == 0:
        return real(0.0)
    return real((width + int(draw.random() * 21) - 10) / 1000)


def disturbed(ring, number, good):
    """What comes down the wire instead of, or after, the good record of a ring."""
    if ring == 30:
        return [good, good]  # the save is sent again: the same row
    if ring == 60:
        return [good[:-16] + good[-16:].upper(), good]  # a real in capitals: 23
    if ring == 90:
        return [good.rsplit(" ", 1)[0], good]  # cut off: 21
    if ring == 120:
        return [good.replace(str(number), str(number + 1), 1), good]  # a number too early: 24
    if ring == 180:
        return [good, record(number, "-", "-", "-", "-", "-", "-")]  # the same number, other readings: 25
    if ring == 240:
        return [good + " ", good]  # a blank at the end: 21
    return [good]


def readings():
    draw = random.Random(SEED)
    lines = ["by n stage.pos stage.edge stage.dir pedal.count pedal.held camera.width"]
    number = 1
    pos = START
    lines.append(record(number, pos, pos, LEFT, "-", "false", "-"))
    for ring in range(1, RINGS + 1):
        width = width_of(ring, draw)
        edge = pos
        pos = edge + width * (LEFT if ring < TURN else RIGHT)
        direction = {1: LEFT, TURN: RIGHT}.get(ring, "-")
        held = "true" if ring in LONG_PRESSES else "false"
        number += 1
        good = record(number, pos, edge, direction, ring, held, camera_of(ring, width, draw))
        lines += disturbed(ring, number, good)
    return lines


if __name__ == "__main__":
    OUTPUT.write_text("".join(line + "\n" for line in readings()), encoding="ascii")

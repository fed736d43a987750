"""Limits that more than one module knows; lengths are in bytes. include/bench_engine.h has them for callers in C."""
import re

LONGEST_TEXT = 32768  # of a bench file
LONGEST_NAMES = 32768  # of a line of names
LONGEST_LINE = 8192  # of a line of readings
LONGEST_NAME = 24  # of all that a bench file declares, and of senders
MOST_SENDERS = 8

# Of a line this much is kept for explanations: more than any line may have.
LONGEST_KEPT = LONGEST_NAMES + 2

SENDER_NAME = re.compile(rb'[A-Za-z][A-Za-z0-9_]{0,%d}\Z' % (LONGEST_NAME - 1))

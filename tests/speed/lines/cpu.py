"""CPU times of whole programs, and numbers as the tables show them."""
import os
import subprocess
import sys


def cpu_seconds(command, cwd, statuses=(0,), stderr=None):
    """User and system time of one run that prints to nowhere, with that of the programs which it ran to their end."""
    process = subprocess.Popen(command, cwd=cwd, stdin=subprocess.DEVNULL, stdout=subprocess.DEVNULL, stderr=stderr)
    _, status, usage = os.wait4(process.pid, 0)
    process.returncode = os.waitstatus_to_exitcode(status)
    if process.returncode not in statuses:
        sys.exit(f"{command[0]} ended with status {process.returncode}")
    return usage.ru_utime + usage.ru_stime


def short(number):
    """Three digits, or all before the point."""
    return f"{number:.3g}" if number < 1000 else f"{number:.0f}"

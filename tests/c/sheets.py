"""sheets.py PROGRAM CASES FOLDER: every stored case of CASES (tests/oracle/sheets.json) by the program (sheets.c).

Each case gets its files in FOLDER/NAME. Fails if a case is answered otherwise than it is stored, or if there are none.
"""
import json
import os
import shutil
import subprocess
import sys


def lay_out(folder, case):
    os.makedirs(folder)
    for name in ("bench", "before", "readings", "cells"):
        with open(os.path.join(folder, name + ".txt"), "wb") as file:
            file.write(case[name].encode("latin-1"))


def answer(program, folder):
    """What the program prints; a program that does not run to its end is shown as such."""
    done = subprocess.run([program, folder], stdin=subprocess.DEVNULL, stdout=subprocess.PIPE, check=False)
    return done.stdout if done.returncode == 0 else b"status %d" % done.returncode


def main():
    program, cases, folder = sys.argv[1:4]
    with open(cases, encoding="ascii") as file:
        stored = json.load(file)
    shutil.rmtree(folder, ignore_errors=True)
    failed = 0
    for case in stored:
        lay_out(os.path.join(folder, case["name"]), case)
        expected = b"%d\n" % case["number"] + case["sheet"].encode("latin-1")
        given = answer(program, os.path.join(folder, case["name"]))
        if given != expected:
            failed += 1
            print(f"failed: {case['name']}\nstored:\n{expected.decode('latin-1')}\ngiven:\n{given.decode('latin-1')}")
    print(f"{len(stored) - failed} sheets passed, {failed} failed")
    return 0 if stored and failed == 0 else 1


if __name__ == "__main__":
    sys.exit(main())

#!/usr/bin/env python3
"""Reads a record whose bytes are damaged at random, and compares what the reader tells with a reader of its own.

  records.py [--program PATH] [--count N] [--seed S]

In each case one to four places of a record are damaged: a bit is turned, bytes are dropped or doubled, a number or a blank is put
in between, a line is dropped or doubled, or the end is cut off. The program `bench_record` has to print the record in short, or
the line and the kind of its first fault, as this script finds them from the grammar of docs/FORMATS.md. It prints how often
each answer came; its own status is 1 where something was wrong.
"""
import argparse
import collections
import os
import pathlib
import random
import re
import subprocess
import sys
import tempfile

HERE = pathlib.Path(__file__).resolve().parent
PROGRAM = HERE.parent / "crates" / "bench_record" / "out" / "bench_record"
NUMBER = rb"(0|[1-9][0-9]*)"
HEADER = re.compile(rb"LCB " + rb" ".join([NUMBER] * 6) + rb"\n")
LINE = re.compile(rb" ".join([NUMBER] * 8) + rb"\n")
RANGES = [(1, 2), (1, 4096), (1, 4096), (1, 16), (3, 65_536), (0, 1000)]


def read(text):
    """The record in short, or its first fault."""
    found = HEADER.match(text)
    numbers = [int(n) for n in found.groups()] if found else []
    if not found or any(not low <= n <= high for n, (low, high) in zip(numbers, RANGES)):
        return "line 1: kind 1"
    rule, width, height, grid, cut, _ = numbers
    at, clusters, count = found.end(), 0, width * height * grid * grid
    for number in range(count):
        if at == len(text):
            return f"line {number + 2}: kind 3"
        found = LINE.match(text, at)
        numbers = [int(n) for n in found.groups()] if found else []
        if not found or numbers[0] > cut or numbers[1] > 2 * cut or any(n >= 2**117 for n in numbers[2:]):
            return f"line {number + 2}: kind 2"
        at, clusters = found.end(), clusters + numbers[0]
    if at < len(text):
        return f"line {count + 2}: kind 3"
    return f"rule {rule} samples {count} clusters {clusters}"


def record(dice):
    """The text of a small record."""
    width, height, grid, cut = dice.randint(1, 3), dice.randint(1, 3), dice.randint(1, 2), dice.choice([3, 1000, 65_536])
    lines = [f"LCB {dice.randint(1, 2)} {width} {height} {grid} {cut} {dice.randint(0, 1000)}"]
    for _ in range(width * height * grid * grid):
        size = dice.choice([0, 1, cut, dice.randint(0, cut)])
        lines.append(" ".join(str(n) for n in [size, size] + [dice.choice([0, 7, 10**21, 2**117 - 1]) for _ in range(6)]))
    return "".join(line + "\n" for line in lines).encode()


def damaged(dice, text):
    """The text with one damage."""
    at, span = dice.randrange(len(text) + 1), dice.choice([1, 1, 2, 3, 8, 40])
    what = dice.randrange(7)
    if what == 0 and text:
        at = min(at, len(text) - 1)
        return text[:at] + bytes([text[at] ^ (1 << dice.randrange(8))]) + text[at + 1 :]
    if what == 1:
        return text[:at] + text[at + span :]
    if what == 2:
        return text[:at] + text[at : at + span] * 2 + text[at + span :]
    if what == 3:
        piece = dice.choice([b"0", b"1", b" ", b"\n", b"\r", b"-", b"+", b".", b"\0", b"9" * 40, str(2**117).encode()])
        return text[:at] + piece + text[at:]
    if what in (4, 5):
        lines = text.splitlines(keepends=True) or [b""]
        line = dice.randrange(len(lines))
        lines[line] = lines[line] * 2 if what == 4 else b""
        return b"".join(lines)
    return text[:at]


def main():
    words = argparse.ArgumentParser(description=__doc__, formatter_class=argparse.RawDescriptionHelpFormatter)
    words.add_argument("--program", default=str(PROGRAM))
    words.add_argument("--count", type=int, default=20_000)
    words.add_argument("--seed", type=int, default=1)
    asked = words.parse_args()
    program = os.path.abspath(asked.program)
    answers, bad = collections.Counter(), 0
    with tempfile.TemporaryDirectory() as folder:
        for number in range(asked.count):
            dice = random.Random(f"{asked.seed} {number}")
            text = record(dice)
            for _ in range(dice.choice([0, 1, 1, 1, 2, 4])):
                text = damaged(dice, text)
            pathlib.Path(folder, "r.lcb").write_bytes(text)
            done = subprocess.run([program, "r.lcb"], cwd=folder, capture_output=True, timeout=60)
            answer, wanted = done.stdout.decode("ascii", "replace"), read(text) + "\n"
            answers[wanted.split(": ")[1].rstrip() if ": " in wanted else "read"] += 1
            if (done.returncode, answer, done.stderr) != (0, wanted, b""):
                bad += 1
                print(f"case {number}: status {done.returncode}, {answer!r} in place of {wanted!r}")
    told = ", ".join(f"{answer}: {count}" for answer, count in sorted(answers.items()))
    print(f"{asked.count} records, {told}")
    print(f"{asked.count - bad} passed, {bad} failed")
    sys.exit(bad > 0)


if __name__ == "__main__":
    main()

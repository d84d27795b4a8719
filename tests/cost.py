#!/usr/bin/env python3
"""Tells what each crate costs to check: the processor seconds of its proofs, of the proofs of its tests, and of its
wrong bodies. It runs a command (`rt ci --anew` at the top of the repository, or the words that it was given), looks
twice a second at the processes of the checker below it, prints a table in Markdown, and ends with the command's status.
What a process used within its last half second is not counted.

    tests/cost.py [COMMAND WORD..]
"""
import os
import subprocess
import sys
import time

PARTS = ("proofs", "tests", "wrong bodies")
TICKS = os.sysconf("SC_CLK_TCK")


def checker(process):
    """The crate and the part that a process checks, where it is the checker."""
    folder = f"/proc/{process}"
    with open(f"{folder}/cmdline", "rb") as file:
        words = file.read().decode(errors="replace").split("\0")
    if os.path.basename(words[0]) != "rattle" or "--crate-name" not in words:
        return None
    crate = words[words.index("--crate-name") + 1]
    if "rt-edit" in os.readlink(f"{folder}/cwd"):
        return crate, "wrong bodies"
    return crate, "tests" if "--test" in words else "proofs"


def used(process):
    """The parent of a process, when it began, and the seconds that it has used."""
    with open(f"/proc/{process}/stat") as file:
        fields = file.read().rsplit(")", 1)[1].split()
    return fields[1], fields[19], sum(int(ticks) for ticks in fields[11:13]) / TICKS


def processes():
    """Every process, with what it has used."""
    found = {}
    for process in filter(str.isdigit, os.listdir("/proc")):
        try:
            found[process] = used(process)
        except (OSError, IndexError):
            continue
    return found


def line_to(command, process, found):
    """The process, what started it, and so on down to what the command started; none where the command did not."""
    line = []
    while process in found and process != command:
        line.append(process)
        process = found[process][0]
    return line if process == command else []


def work(command, process, found):
    """What a process below the command works for: what it checks, or the nearest of those that started it."""
    return next(filter(None, map(checker, line_to(command, process, found))), None)


def look(command, known, seconds):
    """Brings both tables up to what every process below the command has used until now."""
    found = processes()
    for process, (_, began, so_far) in found.items():
        key = process, began
        try:
            checked = known.get(key) or work(command, process, found)
        except (OSError, IndexError):
            continue
        if checked:
            known[key] = checked
            seconds[key] = so_far


def table(known, seconds):
    """The lines of the table, by crate, with a last one of the sums."""
    costs = {}
    for key, so_far in seconds.items():
        crate, part = known[key]
        costs.setdefault(crate, dict.fromkeys(PARTS, 0.0))[part] += so_far
    yield "| crate | " + " | ".join(PARTS) + " | all |"
    yield "|---|" + "---:|" * (len(PARTS) + 1)
    rows = sorted(costs.items()) + [("all", {part: sum(row[part] for row in costs.values()) for part in PARTS})]
    for crate, row in rows:
        cells = [f"{row[part]:,.0f}" for part in PARTS] + [f"{sum(row.values()):,.0f}"]
        yield f"| {crate} | " + " | ".join(cells) + " |"


def main():
    command = sys.argv[1:] or ["rt", "ci", "--anew"]
    known, seconds = {}, {}
    started = time.time()
    running = subprocess.Popen(command)
    while running.poll() is None:
        look(str(running.pid), known, seconds)
        time.sleep(0.5)
    print("\n".join(table(known, seconds)))
    print(f"{time.time() - started:,.0f} seconds on {os.cpu_count()} processors")
    return running.returncode


sys.exit(main())

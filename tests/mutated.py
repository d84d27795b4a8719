#!/usr/bin/env python3
"""Renders a small scene whose texts are damaged at random, and looks at what the program answers.

  mutated.py [--program PATH] [--beside PATH] [--count N] [--beside-count N] [--seed S]

In each case one of the texts (job, scene, library, lights) is damaged in one to four places: a bit is turned, bytes are
dropped or doubled, bytes of another text are put in between, or the end is cut off. Every run has to end by itself with a
status from 0 to 10, the line on standard error has to be that of the status, and the line of a fault has to be one of the
text. With --beside the first cases are also given to another program of the same commands, which has to answer the same
status, line and files. It prints how often each status came; its own status is 1 where something was wrong.
"""
import argparse
import collections
import os
import pathlib
import random
import re
import subprocess
import sys
import tempfile

HERE = pathlib.Path(__file__).resolve().parent
PROGRAM = HERE.parent / "crates" / "lightcuts" / "out" / "lightcuts"

TEXTS = {
    "j.txt": b"# a job\nscene s.obj\nlights l.txt\npicture p.ppm\nbounds b.lcb\neye 0.5 -0.25 5\nat 0 0 0\nup 0 1 0\n"
    b"view 0.8\nsize 3 2\ngrid 1\nseed 7\nerror 20\ncut 5\nwhite 0.5\nrule 2\n",
    "s.obj": b"# two triangles and a quadrilateral\nmtllib m.mtl\no a\nv -1 -1 0\nv 1 -1 0\nv 0 1 0\nv 0 0 -1.5e0\nvn 0 0 1\nvn 0 1 0\n"
    b"vt 0 0\nvt 1 0.5\nusemtl dull\nf 1//1 2//1 3//1\nf 1/1 2/2 4/1\ns 1\nusemtl shiny metal\nf -4 -3 -2 \\\n -1\nf 1/1/2 2/2/2 4/1/1\n",
    "m.mtl": b"newmtl dull\nKd 0.5 0.25 1\nKa 1 1 1\nillum 2\nnewmtl shiny metal\nKd 0.2\nKs 0.5 0.5 0.75\nNs 20.5\nd 1.0\n",
    "l.txt": b"# lights\npoint 0 0 1.0016 1 1 1\npoint -2 3.5 4 0.5 0 2e1\narea -1 2 -1 2 0 0 0 0 2 20 20 20 5\nsun 1 2 1 0.2 0.2 0.2\n"
    b"point 0 -2 \\\n 1 1 1 1\n",
}

NOTES = {
    1: rb"out of memory\n",
    2: rb"usage: .*\n",
    3: rb"(?P<name>j\.txt): line (?P<line>\d+): kind (?P<kind>\d)(: [a-z]+)?\n",
    4: rb"(?P<name>.+): line (?P<line>\d+): kind (?P<kind>\d)\n",
    5: rb"(?P<name>.+): line (?P<line>\d+): kind (?P<kind>\d)\n",
    6: rb"(?P<name>.+): line (?P<line>\d+): kind (?P<kind>\d)\n",
    7: rb"(.|\n)*: absent\n",
    8: rb"(.|\n)*: read fault\n",
    9: rb"(picture|bounds): write fault\n",
    10: rb"(.|\n)+: longer than 134217728 bytes\n",
}


def damaged(dice, text, others):
    """The text with one damage."""
    at = dice.randrange(len(text) + 1)
    span = dice.choice([1, 1, 2, 3, 8, 40])
    what = dice.randrange(6)
    if what == 0 and text:
        at = min(at, len(text) - 1)
        return text[:at] + bytes([text[at] ^ (1 << dice.randrange(8))]) + text[at + 1 :]
    if what == 1:
        return text[:at] + text[at + span :]
    if what == 2:
        return text[:at] + text[at : at + span] * dice.choice([2, 3]) + text[at + span :]
    if what == 3:
        other = dice.choice(others)
        begin = dice.randrange(len(other))
        return text[:at] + other[begin : begin + span] + text[at:]
    if what == 4:
        piece = dice.choice([b"\n", b"\\\n", b"\r\n", b"\0", b"-", b"e5", b"1e-40", b"99999999999999999999", b"#", b" ", b"\xef\xbb\xbf", b"\xff", b"/", b"."])
        return text[:at] + piece + text[at:]
    return text[:at]


def case(dice):
    """The texts of a case, of which one is damaged."""
    texts = dict(TEXTS)
    name = dice.choice(sorted(texts))
    for _ in range(dice.choice([1, 1, 1, 2, 4])):
        texts[name] = damaged(dice, texts[name], list(TEXTS.values()))
    return texts


def run(program, texts, folder):
    """What a program answers: its status, the line on standard error, and the files that it leaves."""
    for name, text in texts.items():
        (folder / name).write_bytes(text)
    done = subprocess.run([program, "render", "j.txt"], cwd=folder, capture_output=True, timeout=300)
    files = {p.name: p.read_bytes() for p in folder.iterdir() if p.is_file() and p.name not in texts}
    return done.returncode, done.stdout, done.stderr, files


def wrong(texts, status, out, note):
    """What is wrong with an answer, or nothing."""
    if out:
        return "something on standard output"
    if status == 0:
        return "a line without a fault" if note else None
    if status not in NOTES:
        return "no status of the table"
    found = re.fullmatch(NOTES[status], note)
    if not found:
        return "another line"
    if "line" in found.groupdict():
        name = os.fsdecode(found["name"])
        line, kind = int(found["line"]), int(found["kind"])
        if name not in texts:
            return "a fault of a text that is none"
        if line > texts[name].count(b"\n") + 1:
            return "no line of the text"
        # A job whose lines are right may lack a keyword, look at its own eye, or name two files alike.
        if line == 0 and not (status == 3 and kind in (5, 6, 7)):
            return "no line"
    return None


def main():
    words = argparse.ArgumentParser(description=__doc__, formatter_class=argparse.RawDescriptionHelpFormatter)
    words.add_argument("--program", default=str(PROGRAM))
    words.add_argument("--beside")
    words.add_argument("--count", type=int, default=100_000)
    words.add_argument("--beside-count", type=int, default=2_000)
    words.add_argument("--seed", type=int, default=1)
    asked = words.parse_args()
    program = os.path.abspath(asked.program)
    beside = asked.beside and os.path.abspath(asked.beside)
    statuses, bad, compared = collections.Counter(), 0, 0
    for number in range(asked.count):
        texts = case(random.Random(f"{asked.seed} {number}"))
        with tempfile.TemporaryDirectory() as folder:
            answer = run(program, texts, pathlib.Path(folder))
        found = wrong(texts, *answer[:3])
        if not found and beside and number < asked.beside_count:
            with tempfile.TemporaryDirectory() as folder:
                other = run(beside, texts, pathlib.Path(folder))
            compared += 1
            if other != answer:
                found = f"the other program answers {other[0]} {other[2]!r}"
        statuses[answer[0]] += 1
        if found:
            bad += 1
            print(f"case {number}: {found}: status {answer[0]}, {answer[2]!r}")
    told = ", ".join(f"{status}: {count}" for status, count in sorted(statuses.items()))
    print(f"{asked.count} damaged texts, by status {told}; {compared} compared")
    print(f"{asked.count - bad} passed, {bad} failed")
    sys.exit(bad > 0)


main()

#!/usr/bin/env python3
"""Audits records of renders, some of them changed at random, and compares the answers with a verdict of its own.

  audits.py [--program PATH] [--beside PATH] [--count N] [--seed S]

In each case a small random job is rendered under one of the two rules, and once more with cuts of all lights, whose
estimates are the sums over all lights. From these, and from the grammar and the promise of a record, follows what
`audit` has to answer for the record as it is, which is yes, and for records with one other digit, an estimate or a
bound at the edge of what holds, or damaged bytes, with a random step each: its status, its line on standard output or
standard error, and no file that it writes. With --beside another program of the same commands has to write the same
record and to answer the same. It prints how often each answer came; its own status is 1 where something was wrong.
"""
import argparse
import collections
import os
import pathlib
import random
import re
import subprocess
import sys
import tempfile

from records import damaged, read

HERE = pathlib.Path(__file__).resolve().parent
PROGRAM = HERE.parent / "crates" / "lightcuts" / "out" / "lightcuts"


def vector(dice, size):
    return " ".join(f"{dice.uniform(-size, size):.4f}" for _ in range(3))


def light(dice):
    """A line of a light, or of a few."""
    colour = " ".join(f"{dice.choice([0, 1, dice.uniform(0, 20)]):.4f}" for _ in range(3))
    kind = dice.choice(["point", "point", "point", "sun", "area"])
    if kind == "sun":
        return f"sun {vector(dice, 1)} {colour}"
    if kind == "area":
        sides = [f"{dice.uniform(0.1, 2):.4f}" for _ in range(2)]
        return f"area {vector(dice, 3)} 0 {sides[0]} 0 {sides[1]} 0 0 {colour} {dice.randint(1, 9)}"
    return f"point {vector(dice, 4)} {colour}"


def encoded(texts):
    return {name: "".join(f"{line}\n" for line in text).encode() for name, text in texts.items()}


def world(dice):
    """The texts of a random job, and those of the same job with cuts of all lights."""
    scene = ["mtllib m.mtl"] + [f"v {vector(dice, 3)}" for _ in range(dice.randint(3, 15))]
    count = len(scene) - 1
    for _ in range(dice.randint(1, 12)):
        scene.append(f"usemtl {dice.choice('ab')}")
        scene.append("f " + " ".join(str(n) for n in dice.sample(range(1, count + 1), 3)))
    library = f"newmtl a\nKd 0.5 0.25 1\nnewmtl b\nKd 0.2\nKs 0.5 0.75 0.5\nNs {dice.choice([0, 1, 7.5, 100])}\n"
    lights = [light(dice) for _ in range(dice.choice([1, 2, 5, 20, 60]))]
    job = ["scene s.obj", "lights l.txt", "picture p.ppm", "bounds b.lcb"]
    job += [f"eye {vector(dice, 1)}", f"at {vector(dice, 1)}", f"view {dice.choice([0.3, 1, 3])}"]
    job += [f"size {dice.randint(1, 4)} {dice.randint(1, 4)}", f"grid {dice.randint(1, 2)}"]
    job += [f"seed {dice.randrange(2**64)}", f"rule {dice.randint(1, 2)}"]
    limits = [f"error {dice.choice([0, 20, 200, 1000])}", f"cut {dice.choice([3, 4, 10, 1000])}"]
    files = {"s.obj": scene, "m.mtl": [library], "l.txt": lights}
    coarse = {**files, "j.txt": job + limits}
    exact = {**files, "j.txt": job + ["error 0", "cut 65536"]}
    return encoded(coarse), encoded(exact)


def written(folder, texts):
    for name, text in texts.items():
        pathlib.Path(folder, name).write_bytes(text)


def answer(program, folder, *words):
    """The status, standard output and standard error."""
    done = subprocess.run([program, *words], cwd=folder, capture_output=True, timeout=300)
    return done.returncode, done.stdout, done.stderr


def rendered(program, texts):
    """The record of a job."""
    with tempfile.TemporaryDirectory() as folder:
        written(folder, texts)
        got = answer(program, folder, "render", "j.txt")
        if got != (0, b"", b""):
            raise SystemExit(f"{program} does not render: {got}")
        return pathlib.Path(folder, "b.lcb").read_bytes()


def numbers(record):
    """The numbers of a record's lines, without its header."""
    return [[int(n) for n in line.split()] for line in record.split(b"\n")[1:-1]]


def sums(record):
    """The sums over all lights at each sample, by a record whose cuts have all lights."""
    lines = numbers(record)
    if any(any(line[5:]) for line in lines):
        raise SystemExit("a cut of all lights has a bound")
    return [line[2:5] for line in lines]


def holds(cut, permille, size, plain, est, bound):
    """Whether a bound holds."""
    return abs(plain - est) <= bound and (size == cut or 1000 * bound <= permille * est)


def wanted(own, plain, record, step):
    """The answer to a record, by the record of the render and the sums over all lights."""
    told = read(record)
    if told.startswith("line"):
        return 12, b"", f"b.lcb: {told}\n".encode()
    header = record.split(b"\n")[0]
    if header != own.split(b"\n")[0]:
        return 12, b"", b"b.lcb: line 1: kind 4\n"
    cut, permille = [int(n) for n in header.split()[5:]]
    lines = numbers(record)
    for sample in range(0, len(lines), step):
        line = lines[sample]
        for channel in range(3):
            each = plain[sample][channel], line[2 + channel], line[5 + channel]
            if not holds(cut, permille, line[0], *each):
                told = f"audit: sample {sample} channel {channel} plain {each[0]} est {each[1]} bound {each[2]}\n"
                return 11, b"", told.encode()
    return 0, f"audit yes {len(range(0, len(lines), step))}\n".encode(), b""


def with_number(record, sample, field, number):
    """The record with another number."""
    lines = record.split(b"\n")
    fields = lines[1 + sample].split(b" ")
    fields[field] = b"%d" % number
    lines[1 + sample] = b" ".join(fields)
    return b"\n".join(lines)


def other_digit(dice, record):
    """The record with one other digit."""
    at = dice.choice([found.start() for found in re.finditer(rb"[0-9]", record)])
    digit = dice.choice([d for d in b"0123456789" if d != record[at]])
    return record[:at] + bytes([digit]) + record[at + 1 :]


def at_edge(dice, plain, record):
    """The record with an estimate or a bound next to where it begins to hold."""
    lines = numbers(record)
    lit = [n for n, line in enumerate(lines) if any(line[2:5])] or range(len(lines))
    sample, channel = dice.choice(lit), dice.randrange(3)
    est, bound = lines[sample][2 + channel], lines[sample][5 + channel]
    off, by = abs(plain[sample][channel] - est), dice.choice([-1, 0, 1])
    permille = int(record.split(b"\n")[0].split()[6])
    what = dice.randrange(4)
    if what == 0:
        return with_number(record, sample, 2 + channel, max(0, plain[sample][channel] + bound + by))
    if what == 1:
        return with_number(record, sample, 2 + channel, max(0, plain[sample][channel] - bound + by))
    if what == 2:
        return with_number(record, sample, 5 + channel, max(0, off + by))
    return with_number(record, sample, 5 + channel, max(0, permille * est // 1000 + by))


def trials(dice, own, plain):
    """Records and steps that are to be audited."""
    yield own, 1
    yield own, dice.choice([1, 2, 3, 5, 4_294_967_295])
    for _ in range(3):
        yield other_digit(dice, own), dice.choice([1, 1, 1, 2, 3, 7])
        yield at_edge(dice, plain, own), dice.choice([1, 1, 1, 2, 3, 7])
    yield damaged(dice, own), 1


def main():
    words = argparse.ArgumentParser(description=__doc__, formatter_class=argparse.RawDescriptionHelpFormatter)
    words.add_argument("--program", default=str(PROGRAM))
    words.add_argument("--beside")
    words.add_argument("--count", type=int, default=300)
    words.add_argument("--seed", type=int, default=1)
    asked = words.parse_args()
    program = os.path.abspath(asked.program)
    beside = asked.beside and os.path.abspath(asked.beside)
    answers, bad = collections.Counter(), 0
    for number in range(asked.count):
        dice = random.Random(f"{asked.seed} {number}")
        coarse, exact = world(dice)
        own, plain = rendered(program, coarse), sums(rendered(program, exact))
        if beside and rendered(beside, coarse) != own:
            bad += 1
            print(f"case {number}: the other program records otherwise")
        for record, step in trials(dice, own, plain):
            right = wanted(own, plain, record, step)
            if record == own and right[0] != 0:
                bad += 1
                print(f"case {number}: a render whose record does not hold: {right[2]!r}")
            texts = {**coarse, "b.lcb": record}
            for one in filter(None, [program, beside]):
                with tempfile.TemporaryDirectory() as folder:
                    written(folder, texts)
                    got = answer(one, folder, "audit", "j.txt", str(step))
                    left = {path.name: path.read_bytes() for path in pathlib.Path(folder).iterdir()}
                if got != right or left != texts:
                    bad += 1
                    print(f"case {number}, step {step}: {one} answers {got} in place of {right}")
            kind = right[2][-2:-1].decode() if right[0] == 12 else ""
            answers[f"{right[0]} kind {kind}" if kind else str(right[0])] += 1
    told = ", ".join(f"{status}: {count}" for status, count in sorted(answers.items()))
    print(f"{asked.count} jobs, {sum(answers.values())} records, by status {told}")
    print("each wrong answer is told above" if bad else "all answers are right", f"({bad} wrong)")
    sys.exit(bad > 0)


if __name__ == "__main__":
    main()

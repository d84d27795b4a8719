#!/usr/bin/env bash
# Times whole renders in furnished rooms that an outside generator makes: by the number of lights, of triangles and of
# clusters, the full sum, and a large picture.
#
#     bench/render.sh ROWS RUNS GENERATOR [PROGRAM..]
#
# ROWS is `all` or names of rows with commas between, as they stand in the list below. RUNS is how often each program runs
# in each row, all in turn; the least is told. GENERATOR is a Python script that makes the folder of a room by the words
# `room FOLDER --tris T --lights L --size WxH --cut C`. Give the paths of programs of the same commands; without one it
# takes the built program. All have to write the same files. It prints a table in Markdown: processor seconds (user and
# system, start to end with the files), of the first program and of each other and in brackets the first one's over the
# other's, the peak memory in the same order, the mean size of the cuts, and the evaluations a second of the first program.
set -eu
here=$(cd "$(dirname "$0")/.." && pwd)
[ $# -ge 3 ] || { sed -n '2,16s/^# \{0,1\}//p' "$0" >&2; exit 2; }
wanted=$1 runs=$2 generator=$(realpath "$3")
shift 3
programs=("$@")
[ ${#programs[@]} -gt 0 ] || programs=("$here/crates/lightcuts/out/lightcuts")
for at in "${!programs[@]}"; do
    programs[at]=$(realpath "${programs[at]}")
done
work=$(mktemp -d)
trap 'rm -rf "$work"' EXIT
cd "$work"

# name, command, lights, triangles, greatest size, columns and rows
rows='
lights-100 render 100 20000 1000 160x120
lights-1000 render 1000 20000 1000 96x72
lights-10000 render 10000 20000 1000 80x60
lights-60000 render 60000 20000 1000 80x60
triangles-200 render 1000 200 1000 80x60
triangles-2000 render 1000 2000 1000 80x60
triangles-20000 render 1000 20000 1000 80x60
triangles-200000 render 1000 200000 1000 80x60
cut-100 render 10000 20000 100 160x120
cut-1000 render 10000 20000 1000 80x60
cut-10000 render 10000 20000 10000 32x24
plain-100 plain 100 20000 1000 160x120
plain-1000 plain 1000 20000 1000 96x72
large render 10 20000 100 1920x1080
'
cat >measure.py <<'END_OF_MEASURE'
"""Runs a program and prints its microseconds (user and system) and its peak memory in kilobytes."""
import resource
import subprocess
import sys

before = resource.getrusage(resource.RUSAGE_CHILDREN)
done = subprocess.run(["/usr/bin/time", "-f", "%M", "-o", "memory", *sys.argv[1:]])
after = resource.getrusage(resource.RUSAGE_CHILDREN)
seconds = after.ru_utime - before.ru_utime + after.ru_stime - before.ru_stime
print(round(seconds * 1e6), open("memory").read().split()[-1])
sys.exit(done.returncode)
END_OF_MEASURE
cat >row.py <<'END_OF_ROW'
"""Prints a row of the table, of the measurements of each program."""
import collections
import sys

name, command, lights, triangles, cut, size, programs, record = sys.argv[1:9]
measured = collections.defaultdict(list)
for line in open("measured"):
    program, *numbers = map(int, line.split())
    measured[program].append(numbers)
seconds = [min(run[0] for run in measured[at]) / 1e6 for at in range(int(programs))]
memory = [max(run[1] for run in measured[at]) / 1024 for at in range(int(programs))]
width, height = map(int, size.split("x"))
if command == "render":
    sizes = evaluations = 0
    for line in open(record).readlines()[1:]:
        words = line.split(" ", 2)
        sizes += int(words[0])
        evaluations += int(words[1])
    mean = f"{sizes / (width * height):,.0f}"
else:
    evaluations, mean = int(lights) * width * height, "all"
times = [f"{seconds[0]:.3f} s"] + [f"{other:.3f} s ({seconds[0] / other:.2f})" for other in seconds[1:]]
kept = ", ".join(f"{one:.0f}" for one in memory)
print(f"| {name} | `{command}` | {int(lights):,} | {int(triangles):,} | {int(cut):,} | {size.replace('x', ' by ')} | "
      f"{' | '.join(times)} | {kept} MB | {mean} | {evaluations / seconds[0] / 1e6:.2f} million |")
END_OF_ROW

others=$((${#programs[@]} - 1))
printf '| row | command | lights | triangles | greatest size | picture | seconds |'
for at in $(seq "$others"); do printf ' program %s |' $((at + 1)); done
printf ' memory | mean cut | evaluations a second |\n|---|---|---|---|---|---|---|'
for at in $(seq "$others"); do printf -- '---|'; done
printf -- '---|---|---|\n'
while read -r name command lights triangles cut size; do
    [ -n "$name" ] || continue
    [[ "$wanted" = all || ",$wanted," = *",$name,"* ]] || continue
    python3 "$generator" room room --tris "$triangles" --lights "$lights" --size "$size" --cut "$cut" >made
    real=$(sed -n 's/.*: \([0-9]*\) triangles.*/\1/p' made)
    : >measured
    rm -f first.*
    for _ in $(seq "$runs"); do
        for at in "${!programs[@]}"; do
            rm -f room/room.ppm room/room.lcb
            (cd room && python3 ../measure.py "${programs[at]}" "$command" j.txt >../one)
            echo "$at $(cat one)" >>measured
            for kind in ppm lcb; do
                [ -e "room/room.$kind" ] || continue
                [ -e "first.$kind" ] || cp "room/room.$kind" "first.$kind"
                cmp "first.$kind" "room/room.$kind" || { echo "$name: another file by ${programs[at]}" >&2; exit 1; }
            done
        done
    done
    python3 row.py "$name" "$command" "$lights" "${real:-$triangles}" "$cut" "$size" "${#programs[@]}" room/room.lcb
done <<<"$rows"

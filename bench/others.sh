#!/usr/bin/env bash
# Compares whole pictures with what other programs make of the same matte room under points of light: the exact sum in
# floats over Embree (bench/others/embree.c) and POV-Ray, in turn with `plain` and `render`.
#
#     bench/others.sh RUNS GENERATOR [PROGRAM]
#
# RUNS is how often each runs, and the least is told. GENERATOR is a Python script that makes the folder of a room by the
# words `room FOLDER --tris T --lights L --size WxH --area 0 --suns 0 --shiny 0`. Without PROGRAM it takes the built one.
# What is not installed (gcc with libembree-dev, povray) is left out, and named. It prints a table in Markdown: processor
# seconds (user and system, start to end with the files), how many times those of `plain`, and the mean of the picture
# over that of the exact sums, in all channels. Then the bounds that `render` records and its real errors, in the green
# channel. The exact sums are those of a record whose cuts hold all lights. It takes ten minutes.
set -eu
here=$(cd "$(dirname "$0")/.." && pwd)
[ $# -ge 2 ] || { sed -n '2,15s/^# \{0,1\}//p' "$0" >&2; exit 2; }
runs=$1 generator=$(realpath "$2")
program=$(realpath "${3:-$here/crates/lightcuts/out/lightcuts}")
work=$(mktemp -d)
trap 'rm -rf "$work"' EXIT
cd "$work"

kinds="plain render"
if gcc -O3 -march=native -ffast-math -o embree "$here/bench/others/embree.c" -lembree3 -lm 2>gcc.log; then
    kinds="$kinds embree"
else
    echo "left out: the sum over Embree (gcc and libembree-dev)" >&2
fi
if command -v povray >povray.log; then
    kinds="$kinds povray"
else
    echo "left out: POV-Ray (povray)" >&2
fi

cat >measure.py <<'END_OF_MEASURE'
"""Runs a program and prints its seconds (user and system)."""
import resource
import subprocess
import sys

before = resource.getrusage(resource.RUSAGE_CHILDREN)
done = subprocess.run(sys.argv[1:], stdout=open("out", "w"), stderr=subprocess.STDOUT)
after = resource.getrusage(resource.RUSAGE_CHILDREN)
print(after.ru_utime - before.ru_utime + after.ru_stime - before.ru_stime)
if done.returncode:
    sys.exit(open("out").read())
END_OF_MEASURE
cat >compare.py <<'END_OF_COMPARE'
"""Prints the rows of a room."""
import array
import sys

count, kinds = int(sys.argv[1]), sys.argv[2].split()
WHITE, UNIT = 20, 65536 * 10 ** 17
NAMES = {"plain": "`plain`", "render": "`render`", "embree": "sum in floats over Embree", "povray": "POV-Ray"}


def rows(name):
    return [[int(word) for word in line.split()] for line in open(name).read().splitlines()[1:]]


def pixels(name, size):
    data = open(name, "rb").read()
    wide = size * (2 if name == "povray.ppm" else 1)
    return [int.from_bytes(data[at:at + wide // size], "big") for at in range(len(data) - wide, len(data), wide // size)]


def light(kind, size):
    """All channels of a picture, in units of radiance."""
    if kind == "plain":
        return [WHITE * ((byte + 0.5) / 255) ** 2 if byte else 0.0 for byte in pixels("plain.ppm", size)]
    if kind == "render":
        return [channel / UNIT for row in rows("render.lcb") for channel in row[2:5]]
    if kind == "embree":
        return array.array("f", open("embree.floats", "rb").read())
    return [WHITE * share / 65535 for share in pixels("povray.ppm", size)]


exact = rows("sums.lcb")
sums = [channel / UNIT for row in exact for channel in row[2:5]]
least = {kind: min(map(float, open(kind + ".seconds"))) for kind in kinds}
for kind in kinds:
    ratio = sum(light(kind, len(sums))) / sum(sums)
    print(f"| {count:,} | {NAMES[kind]} | {least[kind]:.2f} s | {least[kind] / least['plain']:.2f} | {ratio:.4f} |")
middle = lambda values: sorted(values)[(len(values) - 1) // 2]
pairs = [(one, all_[3]) for one, all_ in zip(rows("render.lcb"), exact) if all_[3] > 0]
bounds = [one[6] / total for one, total in pairs]
errors = [abs(one[3] - total) / total for one, total in pairs]
root = (sum(error * error for error in errors) / len(errors)) ** 0.5
share = max((abs(one[3] - total) / one[6] for one, total in pairs if one[6]), default=0)
size = sum(one[0] for one, _ in pairs) / len(pairs)
with open("errors", "a") as file:
    file.write(f"| {count:,} | {size:,.0f} | {100 * middle(bounds):.2f} % | {100 * middle(errors):.3f} % | {100 * root:.3f} % "
               f"| {share:.3f} |\n")
END_OF_COMPARE

# job NAME KNOB VALUE..: the room's job with other files and knobs
job() {
    local name=$1
    shift
    sed "/^error/d; /^cut/d; s/room\.ppm/$name.ppm/; s/room\.lcb/$name.lcb/" j.txt >"$name.txt"
    printf '%s %s\n' white 20 "$@" >>"$name.txt"
}
run() {
    local kind=$1 columns rows
    read -r _ columns rows < <(grep '^size' j.txt)
    case $kind in
        plain | render) python3 ../measure.py "$program" "$kind" "$kind.txt" ;;
        embree) python3 ../measure.py ../embree room.floats embree.floats ;;
        povray) python3 ../measure.py povray +Iroom.pov +Opovray.ppm +FP16 "+W$columns" "+H$rows" +WT1 -D -A -GA File_Gamma=1.0 ;;
    esac >>"$kind.seconds"
}

echo '| lights | what | seconds | of `plain` | mean over the exact sum |'
echo '|---|---|---|---|---|'
for room in "1000 80x60" "10000 40x30"; do
    read -r count size <<<"$room"
    python3 "$generator" room "$count" --tris 20000 --lights "$count" --size "$size" --area 0 --suns 0 --shiny 0 >made
    cd "$count"
    job sums error 0 cut 65536
    job plain error 20 cut 1000
    job render error 20 cut 1000
    python3 "$here/bench/others/convert.py" plain.txt room.pov room.floats
    "$program" render sums.txt
    for _ in $(seq "$runs"); do
        for kind in $kinds; do
            run "$kind"
        done
    done
    python3 ../compare.py "$count" "$kinds"
    tail -n 1 errors >>../errors
    cd ..
done
echo
echo '| lights | mean cut | recorded bound, median | real error, median | its root mean square | greatest error as a share of its bound |'
echo '|---|---|---|---|---|---|'
cat errors

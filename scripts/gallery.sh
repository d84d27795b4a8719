#!/usr/bin/env bash
# Renders the scenes of scenes/ and writes them as PNG with a page that tells of them into docs/gallery/:
#
#     scripts/gallery.sh [PROGRAM [MAPS]]
#
# PROGRAM is the program that renders, and MAPS the one that maps a record (`boundmap RECORD PICTURE KIND`); without them
# it takes the built ones. Where MAPS is not there, the page goes without maps, and those of before are removed.
set -eu
here=$(cd "$(dirname "$0")/.." && pwd)
program=$(realpath "${1:-$here/crates/lightcuts/out/lightcuts}")
maps=$(realpath "${2:-$here/crates/boundmap/out/boundmap}" 2>/dev/null || true)
gallery=$here/docs/gallery
work=$(mktemp -d)
trap 'rm -rf "$work"' EXIT
cd "$work"
ln -s "$here/scenes" scenes
mkdir -p "$gallery"
rm -f "$gallery"/*.png
TIMEFORMAT='%U %S'

shown() { python3 "$here/scripts/png.py" "$1.ppm" "$gallery/$1.png"; }

# The row of a scene: its pixels, lights, seconds, cuts and bounds.
row() {
    python3 - "$1" "$2" <<'PY'
import sys

name, seconds = sys.argv[1], sum(map(float, sys.argv[2].split()))
header, *rows = ([*map(int, line.split()[1 if line[0] == "L" else 0:])] for line in open(name + ".lcb"))
lights = 0
for line in open(f"scenes/{name}.lights"):
    fields = line.split("#")[0].split()
    lights += int(fields[13]) if fields[:1] == ["area"] else len(fields) > 0
size = sum(row[0] for row in rows) / len(rows)
lit = [row for row in rows if any(row[2:5])]
shares = sorted(max(bound / est for est, bound in zip(row[2:5], row[5:8]) if est) for row in lit)
dark = sum(any(bound and not est for est, bound in zip(row[2:5], row[5:8])) for row in rows)
print(f"| [{name}]({name}.png) | `lightcuts render scenes/{name}.txt` | {header[1]} by {header[2]} | {lights:,} | {seconds:.1f} "
      f"| {size:.1f} of {header[4]} | {shares[(len(shares) - 1) // 2]:.2f} | {shares[-1]:.0f} | {dark:,} |")
PY
}

{
    cat <<'END_OF_HEAD'
# Gallery

The scenes of scenes/, each rendered by the command beside it, given at the top of this repository with the program on the
path (docs/USAGE.md), and turned into a PNG by `scripts/png.py`. `scripts/gallery.sh` makes the pictures and this page again.

Seconds are those of one processor of the machine that it ran on. The rest is of the record, and the same everywhere: the
mean size of a cut and the greatest that the job allows; the bound of a sample's error as a share of its estimate, in the
channel where that is greatest, at the median of the lit samples and at the greatest; and the samples that have a bound
and the estimate 0 in a channel.

| picture | command | pixels | lights | seconds | clusters, mean | bound, median | bound, greatest | estimate 0 |
|---|---|---|---|---|---|---|---|---|
END_OF_HEAD
    for name in room street stage; do
        seconds=$( { time "$program" render "scenes/$name.txt"; } 2>&1)
        shown "$name"
        row "$name" "$seconds"
    done
    for name in room street stage; do
        printf '\n## %s\n\n![%s](%s.png)\n' "$name" "$name" "$name"
        [ -x "$maps" ] || continue
        for kind in bound size missed; do
            "$maps" "$name.lcb" "$name-$kind.ppm" "$kind"
            shown "$name-$kind"
        done
        printf '\nMaps of its record by `boundmap`, brighter for more: the bound over the estimate, the size of the cuts, and\n'
        printf 'where the thousandths of the job were not reached.\n\n'
        printf '![%s](%s.png)\n' bound "$name-bound" size "$name-size" missed "$name-missed"
    done
} >page.md
mv page.md "$gallery/README.md"
[ -x "$maps" ] || echo "no maps: there is no program ${2:-$here/crates/boundmap/out/boundmap}" >&2

#!/usr/bin/env bash
# What the two knobs of a job do, `cut` and `error`: renders one room under 100, 1,000 and 10,000 points of light at 64 by 48
# pixels with cuts of several greatest sizes and with three values of `error`, and once with cuts of all lights, whose
# estimates are the sums over all lights. For each it tells the seconds, the mean size of cuts, the median of the recorded
# bounds and of the real errors in thousandths of the sums, the root of the mean square of the real errors, and the greatest
# real error as a share of its bound, in the green channel. Give the path of the program; without one it takes the built one.
set -eu
set -- 1 "$@"
. "$(dirname "$0")/rooms.sh"
program=${programs[0]}
job() {
    printf 'scene room.obj\nlights %s.lights\npicture %s.ppm\nbounds %s.lcb\neye 2.2 1.7 2.3\nat -0.5 0.9 -0.6\nview 0.75\nsize 64 48\nwhite 1.6\ncut %s\nerror %s\n' \
        "$1" "$2" "$2" "$3" "$4" >"$2.txt"
}
for count in 100 1000 10000; do
    many_lights "$count" >"$count.lights"
    job "$count" sums 65536 0
    "$program" render sums.txt
    for knobs in "30 20" "100 20" "300 20" "1000 20" "3000 20" "10000 20" "300 0" "300 100" "10000 100"; do
        # shellcheck disable=SC2086 # two words
        set -- $knobs
        job "$count" one "$1" "$2"
        begin=$(date +%s%N)
        "$program" render one.txt
        end=$(date +%s%N)
        python3 - "$count" "$1" "$2" $(((end - begin) / 1000000)) <<'PY'
import sys

def rows(name):
    return [[int(word) for word in line.split()] for line in open(name).read().splitlines()[1:]]

count, cut, error, took = sys.argv[1:]
pairs = [(one, exact[3]) for one, exact in zip(rows("one.lcb"), rows("sums.lcb")) if exact[3] > 0]
middle = lambda values: sorted(values)[(len(values) - 1) // 2]
bounds = [1000 * one[6] / exact for one, exact in pairs]
errors = [1000 * abs(one[3] - exact) / exact for one, exact in pairs]
share = max((abs(one[3] - exact) / one[6] for one, exact in pairs if one[6]), default=0)
print(f"{count} lights, cut {cut}, error {error}: {int(took) / 1000:.2f} s, mean size {sum(one[0] for one, _ in pairs) / len(pairs):.0f}, "
      f"bound {middle(bounds):.1f}, real error {middle(errors):.2f}, root mean square {(sum(e * e for e in errors) / len(errors)) ** 0.5:.2f}, "
      f"greatest share of a bound {share:.3f}")
PY
    done
done

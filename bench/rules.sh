#!/usr/bin/env bash
# Renders one room under 1,000 and 10,000 points of light by both rules for bounds, at 64 by 48 pixels, with cuts of at most
# 300 and 1,000 clusters: the least time of so many runs, start to end with the files, the rules and programs in turn, and for
# each rule the mean size of cuts and the mean and the median of the samples' bounds in thousandths of their estimates, in the
# green channel. Give the number of runs, and the paths of programs of the same commands that are to be compared; without one
# it takes the built program.
set -eu
runs=${1:-5}
. "$(dirname "$0")/rooms.sh"
declare -A cuts=([1000]=300 [10000]=1000)
for count in 1000 10000; do
    many_lights "$count" >"$count.lights"
    for rule in 1 2; do
        printf 'scene room.obj\nlights %s.lights\npicture %s-%s.ppm\nbounds %s-%s.lcb\neye 2.2 1.7 2.3\nat -0.5 0.9 -0.6\nview 0.75\nsize 64 48\nwhite 1.6\ncut %s\nrule %s\n' \
            "$count" "$count" "$rule" "$count" "$rule" "${cuts[$count]}" "$rule" >"$count-$rule.txt"
    done
done
for count in 1000 10000; do
    declare -A least=() sums=()
    for _ in $(seq "$runs"); do
        for rule in 1 2; do
            for program in "${programs[@]}"; do
                begin=$(date +%s%N)
                "$program" render "$count-$rule.txt"
                end=$(date +%s%N)
                key="$rule $program"
                took=$(((end - begin) / 1000))
                [ -n "${least[$key]:-}" ] && [ "${least[$key]}" -le "$took" ] || least[$key]=$took
                sum=$(cat "$count-$rule.ppm" "$count-$rule.lcb" | cksum)
                [ "${sums[$rule]:-$sum}" = "$sum" ] || { echo "$key: other files" >&2; exit 1; }
                sums[$rule]=$sum
            done
        done
    done
    for rule in 1 2; do
        for program in "${programs[@]}"; do
            echo "$count lights, rule $rule: ${least["$rule $program"]} microseconds by $program"
        done
        python3 - "$count-$rule.lcb" <<'PY'
import sys
rows = [[int(x) for x in line.split()] for line in open(sys.argv[1]).read().splitlines()[1:]]
rows = [r for r in rows if r[3] > 0]
shares = sorted(1000 * r[6] / r[3] for r in rows)
print("    %d lit samples, mean size %.0f, bound in thousandths: mean %.1f, median %.1f" % (
    len(rows), sum(r[0] for r in rows) / len(rows), sum(shares) / len(shares), shares[(len(shares) - 1) // 2]))
PY
    done
done

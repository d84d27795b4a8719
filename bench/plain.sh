#!/usr/bin/env bash
# Times `plain` and `render` in the room of scenes/ under 100 and 1,000 points of light, at 64 by 48 pixels with the default
# cut, start to end with its files: the least of so many runs, the programs and commands in turn. Give the number of runs, and
# the paths of programs of the same commands that are to be compared; without one it takes the built program.
set -eu
runs=${1:-5}
. "$(dirname "$0")/rooms.sh"
for count in 100 1000; do
    awk -v n="$count" 'BEGIN { for (i = 0; i < n; i++)
        printf "point %.4f %.4f %.4f %.4f %.4f %.4f\n", (i * 37 % 101) / 18 - 2.8, 0.3 + (i * 29 % 97) / 40, (i * 53 % 103) / 22 - 2.3,
            2 / n, 1.7 / n, 1.2 / n }' >"$count.lights"
    printf 'scene room.obj\nlights %s.lights\npicture %s.ppm\nbounds %s.lcb\neye 2.2 1.7 2.3\nat -0.5 0.9 -0.6\nview 0.75\nsize 64 48\nwhite 0.1600\n' \
        "$count" "$count" "$count" >"$count.txt"
done
for count in 100 1000; do
    declare -A least=() sums=()
    for _ in $(seq "$runs"); do
        for command in plain render; do
            for program in "${programs[@]}"; do
                begin=$(date +%s%N)
                "$program" "$command" "$count.txt"
                end=$(date +%s%N)
                key="$command $program"
                took=$(((end - begin) / 1000))
                [ -n "${least[$key]:-}" ] && [ "${least[$key]}" -le "$took" ] || least[$key]=$took
                sum=$(cat "$count.ppm" | cksum)
                [ "${sums[$command]:-$sum}" = "$sum" ] || { echo "$key: another picture" >&2; exit 1; }
                sums[$command]=$sum
            done
        done
    done
    for command in plain render; do
        for program in "${programs[@]}"; do
            echo "$count lights, $command: ${least["$command $program"]} microseconds by $program"
        done
    done
done

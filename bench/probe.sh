#!/usr/bin/env bash
# Makes light files of 1,000 points and of 60,000 lights of the three kinds, and times the built program over them and over
# an empty file: the mean of so many runs, start to end.
# Give the number of runs and the program's path, or run `rt run` in crates/lightcuts first.
set -eu
runs=${1:-200}
program=$(realpath "${2:-$(dirname "$0")/../crates/lightcuts/out/lightcuts}")
work=$(mktemp -d)
trap 'rm -rf "$work"' EXIT
points() {
    awk -v n="$1" 'BEGIN { for (i = 0; i < n; i++)
        printf "point %.4f %.4f %.4f %.4f %.4f %.4f\n", i % 41 - 20.5, 5 + i % 7, i % 43 - 21.25, 1 + i % 3, 2, 0.5 }'
}
points 1000 >"$work/points.txt"
{
    points 20000
    awk 'BEGIN {
        for (i = 0; i < 20000; i++)
            printf "sun %.4f %.4f %.4f 0.0%d 0.02 0.03\n", i % 37 - 18.5, 3 + i % 11, i % 29 - 14.25, 1 + i % 9
        for (i = 0; i < 20; i++)
            printf "area %d 9 %d 2 0 0 0 0 2 20 20 20 1000\n", 3 * i - 30, i % 7 - 3
    }'
} >"$work/kinds.txt"
: >"$work/empty.txt"
cd "$work"
for file in points.txt kinds.txt empty.txt; do
    "$program" probe $file 0 0 0 0 1 0 >/dev/null
    begin=$(date +%s%N)
    for _ in $(seq "$runs"); do
        "$program" probe $file 0 0 0 0 1 0 >/dev/null
    done
    end=$(date +%s%N)
    echo "$file: $(((end - begin) / runs / 1000)) microseconds a run, $("$program" probe $file 0 0 0 0 1 0 | cut -d ' ' -f 1,2)"
done

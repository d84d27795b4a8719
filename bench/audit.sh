#!/usr/bin/env bash
# Renders the room of scenes/ under 1,000 points of light at 1920 by 1080 pixels, with cuts of at most 30 clusters,
# and times the audit of its record by the steps 1000 and 4294967295, of which the second looks at one sample alone:
# the least seconds, start to end with the files, and the peak memory of so many runs, the programs in turn. The first
# program renders. Give the number of runs, and the paths of programs of the same commands that are to be compared;
# without one it takes the built program.
set -eu
runs=${1:-3}
. "$(dirname "$0")/rooms.sh"
many_lights 1000 >r.lights
cat >r.txt <<'END'
scene room.obj
lights r.lights
picture r.ppm
bounds r.lcb
eye 2.2 1.7 2.3
at -0.5 0.9 -0.6
view 0.75
size 1920 1080
white 1.6
cut 30
END
"${programs[0]}" render r.txt
echo "a record of $(wc -c <r.lcb) bytes"
for step in 1000 4294967295; do
    for _ in $(seq "$runs"); do
        for at in "${!programs[@]}"; do
            /usr/bin/time -f '%e %M' -o time.txt "${programs[at]}" audit r.txt "$step" >"answer-$at"
            cmp "answer-$at" answer-0
            tail -n 1 time.txt >>"times-$at"
        done
    done
    for at in "${!programs[@]}"; do
        awk -v told="step $step, $(cat answer-0)" -v program="${programs[at]}" '
            !s || $1 < s { s = $1 } $2 > m { m = $2 }
            END { printf "%s: %.2f s, %.0f MB by %s\n", told, s, m / 1024, program }' "times-$at"
        rm "times-$at"
    done
done

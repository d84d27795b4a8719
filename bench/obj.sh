#!/usr/bin/env bash
# Makes OBJ files of 10,000, 100,000 and 1,000,000 triangles over as many places, and tells the seconds and the peak memory
# of the proved program `bench_obj` that reads them: the best of several runs.
# `bench/obj.sh RUNS PROGRAM` also times another program of the same rules, which is given a job whose light file is absent, so
# that it stops after it has read the mesh.
set -eu
cd "$(dirname "$0")/.."
runs=${1:-5}
other=${2:-}
log=$(mktemp)
work=$(mktemp -d)
trap 'rm -rf "$log" "$work"' EXIT
(cd crates/bench_obj && rt run -- cube.obj >"$log" 2>&1) || { cat "$log"; exit 1; }
program=$(realpath crates/bench_obj/out/bench_obj)
[ -z "$other" ] || other=$(realpath "$other")
cd "$work"
printf 'scene m.obj\nlights none.txt\npicture p.ppm\nbounds b.lcb\neye 0 0 5\nat 0 0 0\nsize 1 1\n' >j.txt
best() {
    for _ in $(seq "$runs"); do
        /usr/bin/time -f '%e %M' -o time.txt "$@" >/dev/null 2>&1 || true
        tail -n 1 time.txt
    done | awk '!s || $1 < s { s = $1 } $2 > m { m = $2 } END { printf "%.2f s, %.0f MB\n", s, m / 1024 }'
}
for count in 10000 100000 1000000; do
    awk -v n="$count" 'BEGIN {
        for (i = 0; i < n; i++) printf "v %.4f %.4f %.4f\n", i % 1000 * 0.5, i % 7 * 0.25, int(i / 1000) * 0.5
        for (i = 0; i < n; i++) {
            if (i % 1000 == 0) printf "usemtl part %d\n", i / 1000
            printf "f %d %d %d\n", i + 1, (i + 1) % n + 1, (i + 1000) % n + 1
        }
    }' >m.obj
    echo "$count triangles, $(wc -c <m.obj) bytes: proved $(best "$program" m.obj)"
    [ -z "$other" ] || echo "$count triangles: other $(best "$other" render j.txt)"
done

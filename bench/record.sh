#!/usr/bin/env bash
# Makes records of pictures of 1920 by 135, 540 and 1080 pixels, and tells the seconds and the peak memory of the proved program
# `bench_record` that reads them: the best of several runs. Give the number of runs.
set -eu
cd "$(dirname "$0")/.."
runs=${1:-3}
log=$(mktemp)
work=$(mktemp -d)
trap 'rm -rf "$log" "$work"' EXIT
(cd crates/bench_record && rt run -- small.lcb >"$log" 2>&1) || { cat "$log"; exit 1; }
program=$(realpath crates/bench_record/out/bench_record)
cd "$work"
for height in 135 540 1080; do
    awk -v h="$height" 'BEGIN {
        printf "LCB 1 1920 %d 1 1000 20\n", h
        for (i = 0; i < 1920 * h; i++) {
            d = 100000000 + i
            printf "%d %d %d8350080000000000000 %d9350080000000000000 %d7350080000000000000 %d83500800000000000 %d93500800000000000 %d73500800000000000\n",
                i % 1001, i % 1001, d, d, d, d, d, d
        }
    }' >r.lcb
    for _ in $(seq "$runs"); do
        /usr/bin/time -f '%e %M' -o time.txt "$program" r.lcb
        tail -n 1 time.txt >>times.txt
    done | sort -u
    awk -v h="$height" -v bytes="$(wc -c <r.lcb)" '!s || $1 < s { s = $1 } $2 > m { m = $2 }
        END { printf "1920 by %d, %d bytes: %.2f s, %.0f MB\n", h, bytes, s, m / 1024 }' times.txt
    rm times.txt
done

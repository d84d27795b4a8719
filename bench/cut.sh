#!/usr/bin/env bash
# Times the tree and the cuts of many lights in the proved program: the best of several runs.
set -eu
cd "$(dirname "$0")/.."
lights=${1:-60000}
spots=${2:-200}
runs=${3:-5}
log=$(mktemp)
trap 'rm -f "$log"' EXIT
(cd crates/bench_cut && rt run >"$log" 2>&1) || { cat "$log"; exit 1; }
for _ in $(seq "$runs"); do
    crates/bench_cut/out/bench_cut "$lights" "$spots" time
done | awk '
    /^evaluations/ { evaluations = $2 }
    /^tree/ { if (!tree || $2 < tree) tree = $2; if (!cuts || $4 < cuts) cuts = $4 }
    END { printf "tree %.1f ms, %d evaluations, %.0f ns each\n", tree / 1e6, evaluations, cuts / evaluations }'

# For the scripts that time a proved program beside the same loops in plain Rust; they read this file.

# beside NAME ROUNDS RUNS: builds crates/bench_NAME and NAME.rs, sees that both give the same sums, and prints for each
# term the nanoseconds of a call, the best of so many runs in turn. A call of `list` goes through 64 triangles, and the
# time is that of one.
beside() {
    local name=$1 rounds=$2 runs=$3 work proved
    cd "$(dirname "${BASH_SOURCE[0]}")/.."
    work=$(mktemp -d)
    # shellcheck disable=SC2064
    trap "rm -rf '$work'" EXIT
    rustc --edition 2021 -O "bench/$name.rs" -o "$work/plain"
    (cd "crates/bench_$name" && rt run >"$work/build.log" 2>&1) || { cat "$work/build.log"; exit 1; }
    proved=crates/bench_$name/out/bench_$name
    if [ "$("$proved" 3)" != "$("$work/plain" 3)" ]; then
        echo "the two programs answer differently"
        exit 1
    fi
    for _ in $(seq "$runs"); do
        "$proved" "$rounds" time | sed 's/^/proved /'
        "$work/plain" "$rounds" time | sed 's/^/plain /'
    done | awk -v calls=$((rounds * 1024)) '
        { key = $1 " " $2; if (!(key in best) || $4 < best[key]) best[key] = $4; terms[$2] }
        END {
            for (term in terms) {
                each = calls * (term == "list" ? 64 : 1)
                p = best["proved " term] / each; q = best["plain " term] / each
                printf "%-10s proved %6.1f ns  plain %6.1f ns  ratio %.2f\n", term, p, q, p / q
            }
        }' | sort
}

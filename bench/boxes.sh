#!/usr/bin/env bash
# Times the hierarchy of boxes in the proved program and in plain Rust, in rooms of 204 to 196,044 triangles: nanoseconds for a
# query, triangles tested for a segment, seconds to build and megabytes, the least of several runs.
# `bench/boxes.sh ROUNDS RUNS SOURCES` also times an outside program's hierarchy, of the same answers, whose modules `num`
# and `geom` lie in the folder SOURCES.
set -eu
cd "$(dirname "$0")/.."
rounds=${1:-10}
runs=${2:-10}
sources=${3:+$(realpath "$3")}
work=$(mktemp -d)
trap 'rm -rf "$work"' EXIT

write_plain() {
cat >"$work/plain.rs" <<END
#[path = "$PWD/bench/boxes.rs"]
mod boxes;

fn main() {
    boxes::main_of::<boxes::Hier>();
}
END
}
write_outside() {
cat >"$work/outside.rs" <<END
#[path = "$PWD/bench/boxes.rs"]
mod boxes;
#[path = "$sources/geom.rs"]
mod geom;
#[path = "$sources/num.rs"]
mod num;

use boxes::{Boxes, Group, Hit, Tri, Vec3};

struct Outside(geom::Hier);

fn place(v: Vec3) -> num::V3 {
    num::V3::new(v.x, v.y, v.z)
}

impl Boxes for Outside {
    fn build(list: &[Tri]) -> Outside {
        let triangle = |t: &Tri| geom::Tri::new(place(t.a), place(t.b), place(t.c));
        Outside(geom::Hier::build(list.iter().map(triangle).collect(), 100_000))
    }

    fn blocked(&self, groups: &[Group]) -> u64 {
        let mut sum = 0;
        for group in groups {
            let from = self.0.from(place(group.p));
            for q in &group.ends {
                sum += self.0.blocker(&self.0.seg(&from, place(*q))).is_some() as u64;
            }
        }
        sum
    }

    fn tests(&self, _: &[Group]) -> Option<u64> {
        None
    }

    fn nearest(&self, e: Vec3, d: Vec3) -> Option<Hit> {
        self.0.nearest(place(e), place(d)).map(|(depth, number)| Hit { depth, number })
    }
}

fn main() {
    boxes::main_of::<Outside>();
}
END
}
# For the same processor as the proved program.
compile() {
    rustc --edition 2021 -A warnings -C opt-level=3 -C codegen-units=1 -C panic=abort -C target-cpu=x86-64-v2 \
        "$work/$1.rs" -o "$work/$1"
}
write_plain
compile plain
programs="proved plain"
if [ -n "$sources" ]; then
    write_outside
    compile outside
    programs="$programs outside"
else
    echo "no outside program is named, so none is timed"
fi
(cd crates/bench_hier && rt run -- 1 1 >"$work/build.log" 2>&1) || { cat "$work/build.log"; exit 1; }
cp crates/bench_hier/out/bench_hier "$work/proved"

for grid in 1 3 10 31; do
    for program in $programs; do
        "$work/$program" "$grid" 1 >"$work/$program.sums"
    done
    if ! cmp -s "$work/proved.sums" "$work/plain.sums"; then
        echo "the proved program and the plain Rust answer differently for a grid of $grid"
        exit 1
    fi
    if [ -n "$sources" ] && [ "$(grep -v tests "$work/proved.sums")" != "$(cat "$work/outside.sums")" ]; then
        echo "the proved program and the outside one answer differently for a grid of $grid"
        exit 1
    fi
    grep tests "$work/proved.sums" | sed "s/^/$grid proved /" >>"$work/times"
done
for _ in $(seq "$runs"); do
    for grid in 1 3 10 31; do
        for program in $programs; do
            /usr/bin/time -f 'megabytes 0 %M' -o "$work/memory" "$work/$program" "$grid" "$rounds" time >"$work/run"
            cat "$work/memory" >>"$work/run"
            sed "s/^/$grid $program /" "$work/run" | grep -v tests >>"$work/times"
        done
    done
done
awk -v rounds="$rounds" -v programs="$programs" '
    $3 ~ /-tests/ { tests[$1 " " $3] = $4; next }
    {
        key = $1 " " $2 " " $3
        if (!(key in least) || $5 < least[key]) least[key] = $5
        if ($3 == "triangles") triangles[$1] = $4
    }
    END {
        count["lamps"] = 8192; count["suns"] = 4096; count["rays"] = 4096
        split("1 3 10 31", grids, " "); names = split(programs, name, " ")
        for (g = 1; g <= 4; g++) {
            grid = grids[g]
            printf "%d triangles\n", triangles[grid]
            split("lamps suns rays triangles megabytes", kinds, " ")
            for (k = 1; k <= 5; k++) {
                kind = kinds[k]
                if (kind == "triangles") { unit = 1e6; shown = "build ms" }
                else if (kind == "megabytes") { unit = 1024; shown = "megabytes" }
                else { unit = rounds * count[kind]; shown = kind " ns" }
                first = least[grid " proved " kind] / unit
                printf "  %-10s", shown
                for (n = 1; n <= names; n++) {
                    here = least[grid " " name[n] " " kind] / unit
                    printf "  %s %9.2f", name[n], here
                    if (n > 1) printf " (ratio %.2f)", first / here
                }
                if (k <= 2) printf "  tests %.2f", tests[grid " " kind "-tests"] / count[kind]
                print ""
            }
        }
    }' "$work/times"

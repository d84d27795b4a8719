#!/usr/bin/env bash
# Makes each allocation of a probe, a render, an audit, a plain picture, a made scene, a map of a record and a reading of
# a record fail in turn, one a run, by a library that stands before the C library's. Each run has to give what it gives with ample
# memory, or status 1, `out of memory` or nothing on standard error, nothing on standard output and no file but first
# parts of the right ones. A reading, by the program `bench_record`, tells the record, or that there was no memory. It
# ends with 1 where a run did something else. It takes a C compiler. Give the three programs' paths, or run `rt run` in
# crates/lightcuts, crates/bench_record and crates/boundmap first.
set -u
crates=$(realpath "$(dirname "$0")/../crates") || exit 2
program=$(realpath "${1:-$crates/lightcuts/out/lightcuts}") || exit 2
reader=$(realpath "${2:-$crates/bench_record/out/bench_record}") || exit 2
maps=$(realpath "${3:-$crates/boundmap/out/boundmap}") || exit 2
work=$(mktemp -d)
trap 'rm -rf "$work"' EXIT
cd "$work" || exit 2
cat >refuse.c <<'END'
#include <stdio.h>
#include <stdlib.h>
extern void *__libc_malloc(size_t size);
extern void *__libc_realloc(void *old, size_t size);
static long count, refused = -1;
static int is_refused(void)
{
    if (refused < 0)
        refused = getenv("REFUSED") ? atol(getenv("REFUSED")) : 0;
    return ++count == refused;
}
void *malloc(size_t size)
{
    return is_refused() ? NULL : __libc_malloc(size);
}
void *realloc(void *old, size_t size)
{
    return is_refused() ? NULL : __libc_realloc(old, size);
}
__attribute__((destructor)) static void tell(void)
{
    long all = count;
    FILE *to = getenv("COUNTED") ? fopen(getenv("COUNTED"), "w") : NULL;
    if (to) {
        fprintf(to, "%ld\n", all);
        fclose(to);
    }
}
END
cc -shared -fPIC -O1 -o refuse.so refuse.c || exit 2
printf 'point 0 0 1 1 1 1\nsun 0 0 1 1 1 1\narea -2 4 4 4 0 0 0 0 4 20 20 20 30\n' >lights.txt
printf 'scene s.obj\nlights lights.txt\npicture p.ppm\nbounds b.lcb\neye 0 0 5\nat 0 0 0\nsize 3 2\n' >j.txt
printf 'mtllib m.mtl\nv -1 -1 0\nv 1 -1 0\nv 0 1 0\nusemtl a\nf 1 2 3\n' >s.obj
printf 'newmtl a\nKd 0.5\n' >m.mtl
passed=0 failed=0

# is_part FILE WHOLE: the file is not there, or is a first part of the other
is_part() { [ ! -e "$1" ] || cmp -s -n "$(stat -c %s "$1")" "$1" "$2"; }

# is_same FILE WHOLE: both files are the same, or neither is there
is_same() { [ ! -e "$1" ] && [ ! -e "$2" ] || cmp -s "$1" "$2"; }

# refuse PICTURE RECORD WORDS..: the words of a command, and the files that it writes, `none` for one that it does not
refuse() {
    local picture=$1 record=$2 count n status told=0
    shift 2
    rm -rf whole && mkdir whole
    (cd whole && ln -s ../*.txt ../s.obj ../m.mtl . && COUNTED=$work/count LD_PRELOAD=$work/refuse.so "$program" "$@" >out 2>err) ||
        { echo "$*: not done with ample memory"; failed=$((failed + 1)); return; }
    count=$(cat count)
    for n in $(seq "$count"); do
        rm -rf part && mkdir part
        (cd part && ln -s ../*.txt ../s.obj ../m.mtl . && REFUSED=$n LD_PRELOAD=$work/refuse.so "$program" "$@" >out 2>err)
        status=$?
        if [ $status -eq 0 ] && cmp -s part/out whole/out && [ ! -s part/err ] && is_same part/$picture whole/$picture && is_same part/$record whole/$record; then
            passed=$((passed + 1))
        elif [ $status -eq 1 ] && [ ! -s part/out ] && { [ ! -s part/err ] || [ "$(cat part/err)" = 'out of memory' ]; } &&
            is_part part/$picture whole/$picture && is_part part/$record whole/$record; then
            passed=$((passed + 1)) told=$((told + 1))
        else
            failed=$((failed + 1))
            echo "$*, allocation $n: status $status, output '$(cat part/out)', note '$(cat part/err)'"
        fi
    done
    echo "$*: $count allocations refused in turn, $told times status 1"
}

# refuse_reading FILE: the reading of a record
refuse_reading() {
    local whole count n status told=0 out
    whole=$(COUNTED=$work/count LD_PRELOAD=$work/refuse.so "$reader" "$1")
    case $whole in rule*) ;; *) echo "reading: $whole"; failed=$((failed + 1)); return ;; esac
    count=$(cat count)
    for n in $(seq "$count"); do
        out=$(REFUSED=$n LD_PRELOAD=$work/refuse.so "$reader" "$1" 2>err)
        status=$?
        if [ $status -eq 0 ] && [ "$out" = "$whole" ]; then
            passed=$((passed + 1))
        elif [ "$status:$out" = '0:out of memory' ] || [ "$status:$out" = "0:$1: not read" ] || [ "$status:$out" = '1:' ]; then
            passed=$((passed + 1)) told=$((told + 1))
        else
            failed=$((failed + 1))
            echo "reading, allocation $n: status $status, output '$out', note '$(cat err)'"
        fi
    done
    echo "reading $1: $count allocations refused in turn, $told times no memory"
}

refuse none none probe lights.txt 0 0 0 0 0 1
refuse p.ppm b.lcb render j.txt
cp whole/b.lcb kept.txt
sed 's/b.lcb/kept.txt/' j.txt >kept_job.txt
refuse none none audit kept_job.txt 1
refuse p.ppm none plain j.txt
program=$maps refuse m.ppm none kept.txt m.ppm bound
refuse made.ppm made.lcb make 0
cp whole/made.lcb .
refuse_reading made.lcb
echo "$passed passed, $failed failed"
[ $failed -eq 0 ]

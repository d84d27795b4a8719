#!/usr/bin/env bash
# Runs the built programs from a shell, over real files, devices and streams, and compares status, output and note.
# Give the paths of lightcuts and boundmap, or run `rt run` in crates/lightcuts and crates/boundmap first.
set -u
program=$(realpath "${1:-$(dirname "$0")/../crates/lightcuts/out/lightcuts}") || exit 2
maps=$(realpath "${2:-$(dirname "$0")/../crates/boundmap/out/boundmap}") || exit 2
work=$(mktemp -d)
trap 'chmod -R u+rwx "$work"; rm -rf "$work"' EXIT
cd "$work" || exit 2
# A copy that another user may run as well.
chmod 755 "$work"
cp "$program" lightcuts && chmod 755 lightcuts && program=$work/lightcuts || exit 2
good=0 bad=0
# Root may read and write everything: where leave is to be refused, another user runs the program, if one can be had here.
other=none
if [ "$(id -u)" -ne 0 ]; then
    other=self
elif setpriv --reuid 65534 --clear-groups ./lightcuts >/dev/null 2>&1; [ $? -eq 2 ]; then
    other=nobody
fi
as_other() {
    if [ $other = nobody ]; then
        setpriv --reuid 65534 --clear-groups "$program" "$@"
    else
        "$program" "$@"
    fi
}

# case NAME STATUS OUTPUT NOTE COMMAND..: the command's standard output and error are files of these names
case_of() {
    local name=$1 status=$2 output=$3 note=$4
    shift 4
    "$@" >out 2>err
    local got=$?
    if [ $got -eq "$status" ] && [ "$(cat out)" = "$output" ] && [ "$(cat err)" = "$note" ]; then
        good=$((good + 1))
    else
        bad=$((bad + 1))
        echo "$name: status $got, output '$(cat out)', note '$(cat err)'"
    fi
}

probe() { "$program" probe "$1" 0 0 0 0 0 1; }
usage='usage: lightcuts probe LIGHTS X Y Z NX NY NZ | render JOB | plain JOB | audit JOB STEP | make N'
row='1 1 6553600000000000000000 6553600000000000000000 6553600000000000000000 0 0 0'
echo 'point 0 0 1 1 1 1' >l.txt
echo 'point 0 0 one 1 1 1' >faulty.txt
printf 'point 0 0 1 1 1 1' >unended.txt
: >empty.txt
mkdir folder
truncate -s 134217729 long.txt
cp l.txt locked.txt
chmod 000 locked.txt

case_of 'a light' 0 "$row" '' probe l.txt
case_of 'no line feed at the end' 0 "$row" '' probe unended.txt
case_of 'a path' 0 "$row" '' probe "$work/l.txt"
case_of 'a pipe as the file' 0 "$row" '' probe <(cat l.txt)
case_of 'no light' 0 '0 0 0 0 0 0 0 0' '' probe empty.txt
case_of 'no words' 2 '' "$usage" "$program"
case_of 'a word too few' 2 '' "$usage" "$program" probe l.txt 0 0 0 0 0
case_of 'a number out of range' 2 '' "$usage" "$program" probe l.txt 0 0 5000.0001 0 0 1
case_of 'a word that is no text' 2 '' "$usage" "$program" probe $'\xff' 0 0 0 0 0 1
case_of 'an audit without a step' 2 '' "$usage" "$program" audit j.txt
case_of 'an audit by a step of 0' 2 '' "$usage" "$program" audit j.txt 0
case_of 'a faulty number' 6 '' 'faulty.txt: line 1: kind 2' probe faulty.txt
case_of 'a missing file' 7 '' 'none.txt: absent' probe none.txt
case_of 'a name without letters' 7 '' ': absent' probe ''
case_of 'a folder as the file' 8 '' 'folder: read fault' probe folder
case_of 'a long file' 10 '' 'long.txt: longer than 134217728 bytes' probe long.txt
truncate -s 134217728 long.txt
case_of 'a file of the limit, of NUL bytes' 6 '' 'long.txt: line 1: kind 1' probe long.txt
closed() { probe l.txt >&-; }
case_of 'standard output closed' 9 '' 'report: write fault' closed
full() { probe l.txt >/dev/full; }
case_of 'standard output full' 9 '' 'report: write fault' full
mute() { probe none.txt 2>&-; }
case_of 'standard error closed' 7 '' '' mute
[ $other = none ] || case_of 'a file without leave to read' 8 '' 'locked.txt: read fault' as_other probe locked.txt 0 0 0 0 0 1

# a picture of one pixel: a triangle under one light
mkdir scene
printf 'mtllib m.mtl\nv -1 -1 0\nv 1 -1 0\nv 0 1 0\nusemtl a\nf 1 2 3\n' >scene/s.obj
printf 'newmtl a\nKd 0.5\n' >scene/m.mtl
echo 'point 0 0 1 1 1 1' >lights.txt
job() { printf 'scene scene/s.obj\nlights lights.txt\npicture %s\nbounds %s\neye 0 0 5\nat 0 0 0\nsize 1 1\n' "$1" "$2"; }
job p.ppm b.lcb >j.txt
render() { "$program" render "$1"; }
case_of 'a picture' 0 '' '' render j.txt
case_of 'the header of the picture' 0 "$(printf 'P6\n1 1\n255\n')" '' head -c 11 p.ppm
case_of 'the record' 0 'LCB 1 1 1 1 1000 20' '' head -n 1 b.lcb
cp p.ppm rendered.ppm
plain() { "$program" plain "$1"; }
case_of 'a picture by the full sum' 0 '' '' plain j.txt
case_of 'the same picture' 0 '' '' cmp p.ppm rendered.ppm
case_of 'a missing job of a plain picture' 7 '' 'none.txt: absent' plain none.txt
case_of 'a missing job' 7 '' 'none.txt: absent' render none.txt
echo 'eye 0 0' >bad.txt
case_of 'a faulty job' 3 '' 'bad.txt: line 1: kind 3' render bad.txt
echo 'scene scene/s.obj' >short.txt
case_of 'a job that lacks a keyword' 3 '' 'short.txt: line 0: kind 5: lights' render short.txt
job none/p.ppm b.lcb >nofolder.txt
case_of 'a picture in no folder' 9 '' 'picture: write fault' render nofolder.txt
job p.ppm /dev/full >full.txt
case_of 'a record on a full disk' 9 '' 'bounds: write fault' render full.txt
job /dev/stdout b.lcb >pipe.txt
piped() {
    (sleep 0.3; "$program" render pipe.txt; echo $? >status) | true
    return "$(cat status)"
}
case_of 'a picture into a closed pipe' 9 '' 'picture: write fault' piped
printf 'f 1 2 3\n' >scene/bad.obj
sed 's/s.obj/bad.obj/' j.txt >badscene.txt
case_of 'a faulty scene' 4 '' 'scene/bad.obj: line 1: kind 4' render badscene.txt
mv scene/m.mtl scene/kept.mtl
case_of 'a library that is not beside the scene' 7 '' 'scene/m.mtl: absent' render j.txt
echo 'Kd 1' >scene/m.mtl
case_of 'a faulty library' 5 '' 'scene/m.mtl: line 1: kind 3' render j.txt


# devices, names and streams
printf 'newmtl a\nKd 0.5\n' >scene/m.mtl
cp rendered.ppm wanted.ppm
job folder b.lcb >infolder.txt
case_of 'a folder as the picture' 9 '' 'picture: write fault' render infolder.txt
long=$(printf '%05000d' 7)
job "$long" b.lcb >longname.txt
case_of 'a picture with a name of 5000 bytes' 9 '' 'picture: write fault' render longname.txt
case_of 'lights with a name of 5000 bytes' 8 '' "$long: read fault" probe "$long"
mkfifo fifo
(cat l.txt >fifo &)
case_of 'a fifo as the lights' 0 "$row" '' probe fifo
job fifo b.lcb >tofifo.txt
cat fifo >fromfifo.ppm &
case_of 'a fifo as the picture' 0 '' '' render tofifo.txt
wait
case_of 'the picture from the fifo' 0 '' '' cmp fromfifo.ppm wanted.ppm
mkdir readonly
chmod 555 readonly
job readonly/p.ppm b.lcb >inreadonly.txt
touch b.lcb
chmod 666 b.lcb
[ $other = none ] || case_of 'a picture in a folder without leave to write' 9 '' 'picture: write fault' as_other render inreadonly.txt
streamless() { (exec 0<&- 1>&- 2>&-; exec "$program" render j.txt); }
rm -f p.ppm b.lcb
case_of 'all standard streams closed' 0 '' '' streamless
case_of 'the picture with all streams closed' 0 '' '' cmp p.ppm wanted.ppm
case_of 'the record with all streams closed' 0 'LCB 1 1 1 1 1000 20' '' head -n 1 b.lcb
faulty_streamless() { (exec 0<&- 1>&- 2>&-; exec "$program" render bad.txt); }
case_of 'a faulty job with all streams closed' 3 '' '' faulty_streamless

# two runs at once
job one.ppm one.lcb >one.txt
job two.ppm two.lcb >two.txt
both() { "$program" render one.txt & "$program" render two.txt && wait $!; }
case_of 'two renders at once' 0 '' '' both
case_of 'the same picture of both' 0 '' '' cmp one.ppm two.ppm
case_of 'the same record of both' 0 '' '' cmp one.lcb two.lcb

# audits of records
audit() { "$program" audit "$1" 1; }
case_of 'the record of a render' 0 'audit yes 1' '' audit one.txt
case_of 'the same picture after an audit' 0 '' '' cmp one.ppm two.ppm
case_of 'the same record after an audit' 0 '' '' cmp one.lcb two.lcb
mkdir audits
printf 'v -1 -1 0\nv 1 -1 0\nv 0 1 0\nf 1 2 3\n' >audits/s.obj
echo 'point 0 0 1.0016 1 1 1' >audits/lights.txt
job audits/p.ppm audits/b.lcb | sed 's,^scene scene,scene audits,; s,^lights ,lights audits/,' >audit.txt
lit=5242880000000000000000
record() { printf 'LCB 1 1 1 1 1000 20\n1 1 %s %s %s 0 0 0\n' "$1" $lit $lit; }
case_of 'no record' 7 '' 'audits/b.lcb: absent' audit audit.txt
record $lit >audits/b.lcb
case_of 'a record that holds' 0 'audit yes 1' '' audit audit.txt
case_of 'a record by the greatest step' 0 'audit yes 1' '' "$program" audit audit.txt 4294967295
audit_closed() { audit audit.txt >&-; }
case_of 'standard output closed at an audit' 9 '' 'report: write fault' audit_closed
audit_full() { audit audit.txt >/dev/full; }
case_of 'standard output full at an audit' 9 '' 'report: write fault' audit_full
over=5242880000000000000001
record $over >audits/b.lcb
case_of 'an estimate one unit off' 11 '' "audit: sample 0 channel 0 plain $lit est $over bound 0" audit audit.txt
audit_mute() { audit audit.txt 2>&-; }
case_of 'standard error closed at an estimate one unit off' 11 '' '' audit_mute
record 0$lit >audits/b.lcb
case_of 'a record with a faulty line' 12 '' 'audits/b.lcb: line 2: kind 2' audit audit.txt
record $lit | sed 's/LCB 1/LCB 2/' >audits/b.lcb
case_of 'a record of another rule' 12 '' 'audits/b.lcb: line 1: kind 4' audit audit.txt
truncate -s 536870913 audits/b.lcb
case_of 'a long record' 10 '' 'audits/b.lcb: longer than 536870912 bytes' audit audit.txt
rm audits/b.lcb
mkdir audits/b.lcb
case_of 'a folder as the record' 8 '' 'audits/b.lcb: read fault' audit audit.txt
case_of 'no picture of an audit' 1 '' '' test -e audits/p.ppm

# made scenes
made() { "$program" make "$1"; }
made 0 >line 2>err
case_of 'the line of a made scene' 0 'lights 1513 triangles 14 samples 768 cut' '' cut -d ' ' -f 1-7 line
case_of 'the header of a made picture' 0 "$(printf 'P6\n32 24\n255\n')" '' head -c 13 made.ppm
case_of 'the lines of a made record' 0 '769' '' grep -c '' made.lcb
mv made.ppm once.ppm
mv made.lcb once.lcb
cp line once.txt
made 0 >line 2>err
case_of 'the same picture again' 0 '' '' cmp made.ppm once.ppm
case_of 'the same record again' 0 '' '' cmp made.lcb once.lcb
case_of 'the same line again' 0 '' '' cmp line once.txt
case_of 'a scene of no number' 2 '' "$usage" made 10000
made_full() { made 0 >/dev/full; }
case_of 'standard output full after a made scene' 9 '' 'report: write fault' made_full
case_of 'the picture of that scene' 0 '' '' cmp made.ppm once.ppm

# maps of a record
maps_usage='usage: boundmap RECORD PICTURE bound|size|missed'
for kind in bound size missed; do
    case_of "a map: $kind" 0 '' '' "$maps" made.lcb map.ppm $kind
    case_of "the header of the map: $kind" 0 "$(printf 'P6\n32 24\n255\n')" '' head -c 13 map.ppm
    case_of "the bytes of the map: $kind" 0 2317 '' stat -c %s map.ppm
done
cp made.lcb kept.lcb
case_of 'a map of no words' 2 '' "$maps_usage" "$maps"
case_of 'a map over its record' 2 '' "$maps_usage" "$maps" made.lcb made.lcb size
case_of 'the record after it' 0 '' '' cmp made.lcb kept.lcb
case_of 'a map of no record' 7 '' 'absent.lcb: absent' "$maps" absent.lcb none.ppm size
case_of 'a map of no text of a record' 12 '' 'l.txt: line 1: kind 1' "$maps" l.txt none.ppm size
case_of 'no picture of it' 1 '' '' test -e none.ppm
case_of 'a map on a full device' 9 '' 'picture: write fault' "$maps" made.lcb /dev/full missed

# a signal in the middle of a picture: both files are first parts of what a whole run leaves
ended() {
    rm -f made.ppm made.lcb
    "$program" make 39 >/dev/null &
    local run=$!
    for _ in $(seq 500); do
        [ -s made.lcb ] && break
        sleep 0.01
    done
    kill -TERM $run 2>/dev/null
    wait $run 2>/dev/null
    mv made.ppm part.ppm
    mv made.lcb part.lcb
    made 39 >/dev/null
    cmp -n "$(stat -c %s part.ppm)" part.ppm made.ppm && cmp -n "$(stat -c %s part.lcb)" part.lcb made.lcb
}
case_of 'a run that a signal ends' 0 '' '' ended

echo "$good passed, $bad failed"
[ $bad -eq 0 ]

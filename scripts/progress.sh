#!/bin/sh
# Tells how far the render of a job is, by the lines that its record has by now:
#
#     scripts/progress.sh JOB
#
# prints one line as `62.5 %, 12000 of 19200 samples`. Run it in the folder that the render runs in: the name of the
# record in the job is relative to that folder. The percentage is rounded down, so that 100.0 % stands for all samples.
#
# It reads the lines `bounds`, `size`, `grid`, `rule`, `cut` and `error` of the job as docs/FORMATS.md has them: blanks,
# carriage returns, comments, a byte order mark, leading zeros, names with blanks. What it does not do:
# - It reads no joined lines. A job in which a line ends with a backslash is refused.
# - It tests no other lines and no other faults of the job. Where a keyword stands twice, which `render` refuses, it
#   takes the last.
# - It reads no line of the record but the first. A finished record of the same job counts as whole, also while a new
#   render has not begun its files: these are begun after the scene and the lights are read.
# - `plain`, `audit` and `make` have no record of a job that grows.
#
# Status 0: the line was printed. Else standard error says what is wrong:
# 1  a program that this script calls failed
# 2  not one job was named
# 3  there is no such job, or it cannot be read
# 4  the job has no right `size` or `bounds`, or a wrong `grid`, `rule`, `cut` or `error`, or a joined line
# 5  there is no record yet: the line is printed, with 0.0 %
# 6  the record's file is no regular file, cannot be read, or is no record of this job
set -u
LC_ALL=C
export LC_ALL

# wrong STATUS MESSAGE: the message goes to standard error
wrong() {
    printf '%s\n' "$2" >&2
    exit "$1"
}

# tell SAMPLES: the line of so many samples
tell() {
    tenths=$(($1 * 1000 / total))
    printf '%d.%d %%, %d of %d samples\n' $((tenths / 10)) $((tenths % 10)) "$1" "$total" || exit 1
}

[ $# -eq 1 ] || wrong 2 'usage: progress.sh JOB'
job=$1
[ -e "$job" ] || wrong 3 "$job: no such job"
{ [ ! -d "$job" ] && [ -r "$job" ]; } || wrong 3 "$job: cannot be read"

# Three lines: the number of samples, the header of the record and its name, or one line that says what is wrong.
told=$(awk '
    # The value of a whole number in the field k, where it is from low to high and no field follows the last; else -1.
    function whole(k, last, low, high) {
        if (count < last || count > last && substr(field[last + 1], 1, 1) != "#") return -1
        if (field[k] !~ /^[0-9]+$/ || length(field[k]) > 30) return -1
        return field[k] + 0 < low || field[k] + 0 > high ? -1 : field[k] + 0
    }
    BEGIN { width = 0; height = 0; grid = 1; rule = 1; cut = 1000; error = 20; name = "" }
    NR == 1 { sub(/^\357\273\277/, "") }
    /\\\r?$/ { joined = NR }
    {
        line = $0
        sub(/^[ \t\r]+/, "", line)
        sub(/[ \t\r]+$/, "", line)
        count = split(line, field, /[ \t\r]+/)
        if (field[1] == "size") { width = whole(2, 3, 1, 4096); height = whole(3, 3, 1, 4096) }
        if (field[1] == "grid") grid = whole(2, 2, 1, 16)
        if (field[1] == "rule") rule = whole(2, 2, 1, 2)
        if (field[1] == "cut") cut = whole(2, 2, 3, 65536)
        if (field[1] == "error") error = whole(2, 2, 0, 1000)
        if (field[1] == "bounds") { name = substr(line, 7); sub(/^[ \t\r]+/, "", name) }
    }
    END {
        if (joined) print "line " joined ": joined lines are not read"
        else if (width == 0) print "no size line"
        else if (width < 0 || height < 0) print "size: a wrong number"
        else if (grid < 0) print "grid: a wrong number"
        else if (rule < 0) print "rule: a wrong number"
        else if (cut < 0) print "cut: a wrong number"
        else if (error < 0) print "error: a wrong number"
        else if (name == "") print "no bounds line"
        else {
            printf "%.0f\n", width * height * grid * grid
            print "LCB " rule " " width " " height " " grid " " cut " " error
            print name
        }
    }' <"$job") || exit 1
feed='
'
case $told in
    *"$feed"*) ;;
    *) wrong 4 "$job: $told" ;;
esac
total=${told%%"$feed"*}
told=${told#*"$feed"}
header=${told%%"$feed"*}
record=${told#*"$feed"}

if [ ! -e "$record" ]; then
    tell 0
    wrong 5 "$record: no record yet"
fi
[ -f "$record" ] || wrong 6 "$record: no regular file"
[ -r "$record" ] || wrong 6 "$record: cannot be read"
# Only whole lines count. One may be half written.
lines=$(wc -l <"$record") || exit 1
if [ "$lines" -eq 0 ]; then
    tell 0
    exit 0
fi
first=$(head -n 1 <"$record") || exit 1
[ "$first" = "$header" ] || wrong 6 "$record: the first line is not \`$header\`, as in a record of this job"
[ $((lines - 1)) -le "$total" ] || wrong 6 "$record: more lines than $total samples have"
tell $((lines - 1))

#!/bin/sh
# Prints the seconds and the peak memory of `feed_tool apply W` over N and 2 N `add` lines, and over 2 N changes of 10
# members. The last column has the bytes for each line above the peak memory without a line. Beside them stand those of
# `sqlite3`, where it is installed, which takes the same lines into a table in memory, so it keeps each one.
# usage: bench/apply.sh [N [PROGRAM]]. N is 2,000,000 if it isn't given. PROGRAM is run in place of the one of this repository.
count=${1:-2000000}
top=$(CDPATH='' cd -- "$(dirname -- "$0")/.." && pwd) || exit 1
tool=${2:-$top/out/feed_tool}
[ -n "$2" ] || "$top/prove" || exit 1

work=$(mktemp -d) || exit 1
trap 'rm -rf "$work"' EXIT
trap 'exit 1' HUP INT TERM

adds() { seq -f 'add Advisory number %.0f' "$1"; }
changes() { seq -f '%.0f' "$1" | awk '{ print "change " NR % 10 + 1 " Advisory number " $0 }'; }

# Runs a command over the lines of the input, and prints its row of the table. BASE is the peak memory without a line.
# usage: measure NAME LINES BASE COMMAND..
measure() {
    name=$1 lines=$2 base=$3
    shift 3
    /usr/bin/time -o "$work/took" -f '%e %M' "$@" >/dev/null || exit 1
    awk -v name="$name" -v lines="$lines" -v base="$base" '{
        printf "%-36s %10d %8.2f s %9d KiB", name, lines, $1, $2
        if (lines > 0) printf " %8.1f bytes a line", ($2 - base) * 1024 / lines
        print ""
    }' "$work/took"
}

table='CREATE TABLE lines (line TEXT)'

# The peak memory of the last run.
peak() { cut -d ' ' -f 2 "$work/took"; }

measure 'apply 4' 0 0 "$tool" apply 4 </dev/null
base=$(peak)
adds "$count" | measure 'apply 100, add' "$count" "$base" "$tool" apply 100 || exit 1
adds $((count * 2)) | measure 'apply 100, add' $((count * 2)) "$base" "$tool" apply 100 || exit 1
adds $((count * 2)) | measure 'apply 4, add' $((count * 2)) "$base" "$tool" apply 4 || exit 1
{
    adds 10
    changes $((count * 2 - 10))
} | measure 'apply 4, changes of 10 members' $((count * 2)) "$base" "$tool" apply 4 || exit 1
if command -v sqlite3 >/dev/null; then
    measure 'sqlite3' 0 0 sqlite3 :memory: "$table" '.import /dev/null lines'
    base=$(peak)
    adds $((count * 2)) | measure 'sqlite3' $((count * 2)) "$base" sqlite3 :memory: "$table" '.import /dev/stdin lines' || exit 1
fi

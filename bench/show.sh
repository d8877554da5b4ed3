#!/bin/sh
# Prints the seconds, the MB (1,000,000 bytes) per second and the peak memory in KiB of `feed_tool show` on a document of 100
# short entries and on one of about 30 MB, and beside them those of `xmllint --noout --stream`, where that is installed.
# Each run is a process of its own, whose start counts.
# usage: bench/show.sh
top=$(CDPATH='' cd -- "$(dirname -- "$0")/.." && pwd) || exit 1
work=$(mktemp -d) || exit 1
trap 'rm -rf "$work"' EXIT
trap 'exit 1' HUP INT TERM

# Runs the command RUNS times on the document, and prints the time and the memory of a run.
# usage: measure NAME RUNS DOCUMENT COMMAND..
measure() {
    name=$1 runs=$2 document=$3
    shift 3
    # shellcheck disable=SC2016
    /usr/bin/time -o "$work/took" -f '%e %U %S %M' sh -c '
        runs=$1 document=$2
        shift 2
        while [ "$runs" -gt 0 ]; do
            "$@" <"$document" >/dev/null || exit 1
            runs=$((runs - 1))
        done' sh "$runs" "$document" "$@" || {
        echo "$name: failed" >&2
        exit 1
    }
    awk -v name="$name" -v runs="$runs" -v bytes="$(wc -c <"$document")" '{
        if ($1 == 0) $1 = 0.01
        printf "%s: %d bytes, %d runs, %.4f seconds a run (%.4f of a processor), %.1f MB per second, %d KiB\n",
            name, bytes, runs, $1 / runs, ($2 + $3) / runs, bytes * runs / $1 / 1000000, $4
    }' "$work/took"
}

"$top/prove" || exit 1
seq 100 | sed 's/^/add Advisory number /' | "$top/out/feed_tool" apply 100 >"$work/short" || exit 1

# The same document with a summary and a content of 65,529 bytes of HTML in each entry, 152,901 with their escapes.
awk 'BEGIN {
        for (count = 0; count < 7281; count++) html = html "&lt;p&gt;a&lt;/p&gt;\n"
    }
    {
        at = index($0, "<content></content>")
        if (at == 0) print
        else print substr($0, 1, at - 1) "<summary type=\"html\">" html "</summary><content type=\"html\">" html "</content></entry>"
    }' "$work/short" >"$work/long" || exit 1

measure_both() {
    measure "show, $1" "$2" "$work/$1" "$top/out/feed_tool" show
    if command -v xmllint >/dev/null; then
        measure "xmllint, $1" "$2" "$work/$1" xmllint --noout --stream "$work/$1"
    fi
}
measure_both short 500
measure_both long 5

#!/bin/sh
# Prints the seconds and the peak memory in KiB of `feed_tool drill 7 N` for N = 1000 and 2000, three times each, and the
# summaries. Each step of a drill loads its store or its mirror anew, so twice the requests take about four times as long.
# usage: bench/drill.sh
top=$(CDPATH='' cd -- "$(dirname -- "$0")/.." && pwd) || exit 1
work=$(mktemp -d) || exit 1
trap 'rm -rf "$work"' EXIT
trap 'exit 1' HUP INT TERM

"$top/prove" || exit 1
tool=$top/out/feed_tool
for count in 1000 2000; do
    for _ in 1 2 3; do
        /usr/bin/time -o "$work/took" -f '%e %M' "$tool" drill 7 $count >"$work/printed" || exit 1
        read -r seconds memory <"$work/took"
        echo "drill 7 $count: $seconds seconds, $memory KiB"
    done
    cat "$work/printed"
done

#!/bin/sh
# Prints the seconds and the peak memory of a load of a store, beside those of one `sha256sum` of its two files, for three
# stores that the program makes itself:
# - N members, each added by a line whose operation takes 300 bytes of the journal, in windows of 100;
# - the same in windows of 4, which have many small archives;
# - 2 N / 5 changes of 10 members, in windows of 100.
# The load is that of `show feed`, which then prints at most 100 entries. The two commands take turns, ROUNDS times, since the
# speed of a machine changes. Each figure is the median. The stores are in the folder DIR, or in /dev/shm if it isn't given,
# where no device takes time.
# usage: bench/load.sh [N [DIR [PROGRAM]]]. N is 1,000,000 if it isn't given. PROGRAM is run in place of the one of this
# repository. ROUNDS in the environment is 5 if it isn't given.
count=${1:-1000000}
rounds=${ROUNDS:-5}
top=$(CDPATH='' cd -- "$(dirname -- "$0")/.." && pwd) || exit 1
tool=${3:-$top/out/feed_tool}
case $tool in
    /*) ;;
    */*) tool=$(CDPATH='' cd -- "$(dirname -- "$tool")" && pwd)/$(basename -- "$tool") || exit 1 ;;
esac
[ -n "$3" ] || "$top/prove" || exit 1

work=$(mktemp -d "${2:-/dev/shm}/load.XXXXXX") || exit 1
trap 'rm -rf "$work"' EXIT
trap 'exit 1' HUP INT TERM
cd "$work" || exit 1

# Lines with titles of 256 bytes.
adds() { seq -f 'add Advisory number %0240.0f' "$1"; }
changes() { seq -f '%0240.0f' "$1" | awk '{ print "change " NR % 10 + 1 " Advisory number " $0 }'; }

# The median of a column of a file that has a line for each round.
# usage: median FILE COLUMN
median() { cut -d ' ' -f "$2" "$1" | sort -n | sed -n "$(((rounds + 1) / 2))p"; }

# Makes a store by the lines of the input, and prints its row of the table.
# usage: measure NAME WINDOW
measure() {
    name=$1 window=$2
    rm -f journal sealed load digest
    "$tool" init --base http://feed.example/ --uuid 6d1f0c5a-93be-4c27-8d10-2b7f9e4a5c36 --title Feed --author Editor \
        --window "$window" --capacity 68719476736 >/dev/null || exit 1
    "$tool" apply >/dev/null || exit 1
    for _ in $(seq "$rounds"); do
        /usr/bin/time -a -o load -f '%e %M' "$tool" show feed </dev/null >/dev/null || exit 1
        /usr/bin/time -a -o digest -f '%e %M' sha256sum journal sealed >/dev/null || exit 1
    done
    awk -v name="$name" -v bytes="$(($(wc -c <journal) + $(wc -c <sealed)))" -v load="$(median load 1)" \
        -v memory="$(median load 2)" -v digest="$(median digest 1)" -v used="$(median digest 2)" 'BEGIN {
        printf "%-36s %11d %8.2f s %8.2f s %6.2f %8d KiB %8d KiB\n",
            name, bytes, load, digest, load / (digest > 0 ? digest : 0.01), memory, used
    }'
}

printf '%-36s %11s %10s %10s %6s %12s %12s\n' store bytes 'show feed' sha256sum ratio 'show feed' sha256sum
adds "$count" | measure "$count members, windows of 100" 100 || exit 1
adds "$count" | measure "$count members, windows of 4" 4 || exit 1
{
    adds 10
    changes $((count * 2 / 5))
} | measure "$((count * 2 / 5)) changes of 10 members" 100

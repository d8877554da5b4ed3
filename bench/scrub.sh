#!/bin/sh
# Prints the seconds of a load of a store, of `scrub`, and of `scrub --repair` of the same store without its sealed area, each
# with its peak memory, for two stores that the program makes itself: N members, each added by a line whose operation takes
# 300 bytes of the journal, in windows of 100 and in windows of 4. The load is that of `show feed`, which then prints at most
# 100 entries. The three commands take turns, ROUNDS times, since the speed of a machine changes. Each figure is the median.
# After each repair `scrub` has to find the store sound. The stores are in the folder DIR, or in /dev/shm if it isn't given,
# where no device takes time.
# usage: bench/scrub.sh [N [DIR [PROGRAM]]]. N is 1,000,000 if it isn't given. PROGRAM is run in place of the one of this
# repository. ROUNDS in the environment is 5 if it isn't given.
count=${1:-1000000}
rounds=${ROUNDS:-5}
top=$(CDPATH='' cd -- "$(dirname -- "$0")/.." && pwd) || exit 1
tool=${3:-$top/out/feed_tool}
case $tool in
    /*) ;;
    */*) tool=$(CDPATH='' cd -- "$(dirname -- "$tool")" && pwd)/$(basename -- "$tool") || exit 1 ;;
esac
[ -n "$3" ] || "$top/prove" || exit 1

work=$(mktemp -d "${2:-/dev/shm}/scrub.XXXXXX") || exit 1
trap 'rm -rf "$work"' EXIT
trap 'exit 1' HUP INT TERM
cd "$work" || exit 1

# The median of a column of a file that has a line for each round.
# usage: median FILE COLUMN
median() { cut -d ' ' -f "$2" "$1" | sort -n | sed -n "$(((rounds + 1) / 2))p"; }

# Runs the program, and appends its seconds and its peak memory to a file.
# usage: timed FILE WORD ..
timed() {
    file=$1
    shift
    /usr/bin/time -a -o "$file" -f '%e %M' "$tool" "$@" </dev/null
}

# Makes a store, and prints its row of the table.
# usage: measure WINDOW
measure() {
    window=$1
    rm -f journal sealed load scrub repair
    "$tool" init --base http://feed.example/ --uuid 6d1f0c5a-93be-4c27-8d10-2b7f9e4a5c36 --title Feed --author Editor \
        --window "$window" --capacity 68719476736 >/dev/null || exit 1
    seq -f 'add Advisory number %0240.0f' "$count" | "$tool" apply >/dev/null || exit 1
    sound=$("$tool" scrub) || exit 1
    for _ in $(seq "$rounds"); do
        timed load show feed >/dev/null || exit 1
        timed scrub scrub >/dev/null || exit 1
        : >sealed
        timed repair scrub --repair >/dev/null || exit 1
        [ "$("$tool" scrub)" = "$sound" ] || { echo "windows of $window: not repaired" >&2; exit 1; }
    done
    awk -v name="$count members, windows of $window" -v load="$(median load 1)" -v scrub="$(median scrub 1)" \
        -v repair="$(median repair 1)" -v load_memory="$(median load 2)" -v scrub_memory="$(median scrub 2)" \
        -v repair_memory="$(median repair 2)" 'BEGIN {
        unit = load > 0 ? load : 0.01
        printf "%-34s %7.2f s %7.2f s %5.2f %7.2f s %5.2f %8d KiB %8d KiB %8d KiB\n",
            name, load, scrub, scrub / unit, repair, repair / unit, load_memory, scrub_memory, repair_memory
    }'
}

printf '%-34s %9s %9s %5s %9s %5s %12s %12s %12s\n' store 'show feed' scrub ratio repair ratio 'show feed' scrub repair
measure 100
measure 4

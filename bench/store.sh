#!/bin/sh
# Prints three tables about a store:
# - the durable changes a second of `feed_tool apply` over N `add` lines, beside those of a loop that makes only the writes and
#   the syncs of each change, and of `sqlite3` with one insert a transaction (WAL, synchronous FULL);
# - the writes and the syncs of a change, which `strace` counts over N lines, beside those of the same two;
# - the peak memory of `show feed` on an empty store, on one of MEMBERS members and on one of MEMBERS changes of 10 members, with
#   the bytes above the empty store's for each, beside those of `sqlite3` with a table in memory that has a row for each.
# Without `sqlite3` its lines are left out, and without `strace` the second table. The files of the first table are in the
# folder DIR, or in the system's folder for temporary files if it isn't given. A folder in memory measures everything but the
# device. The files of the other two are in /dev/shm.
# usage: bench/store.sh N [DIR [PROGRAM]]. PROGRAM is run in place of the one of this repository. MEMBERS in the environment is
# 1,000,000 if it isn't given.
count=${1:?usage: bench/store.sh N [DIR [PROGRAM]]}
members=${MEMBERS:-1000000}
top=$(CDPATH='' cd -- "$(dirname -- "$0")/.." && pwd) || exit 1
tool=${3:-$top/out/feed_tool}
case $tool in
    /*) ;;
    */*) tool=$(CDPATH='' cd -- "$(dirname -- "$tool")" && pwd)/$(basename -- "$tool") || exit 1 ;;
esac
[ -n "$3" ] || "$top/prove" || exit 1

work=$(mktemp -d "${2:-${TMPDIR:-/tmp}}/store.XXXXXX") || exit 1
memory=$(mktemp -d /dev/shm/store.XXXXXX) || { rm -rf "$work"; exit 1; }
trap 'rm -rf "$work" "$memory"' EXIT
trap 'exit 1' HUP INT TERM

adds() { seq -f 'add Advisory number %.0f' "$1"; }
changes() { seq -f '%.0f' "$1" | awk '{ print "change " NR % 10 + 1 " Advisory number " $0 }'; }

# Makes an empty store in the current folder.
# usage: init WINDOW
init() {
    rm -f journal sealed
    "$tool" init --base http://feed.example/ --uuid 6d1f0c5a-93be-4c27-8d10-2b7f9e4a5c36 --title Feed --author Editor \
        --window "$1" --capacity 68719476736 >/dev/null || exit 1
}

# The statements of so many inserts.
# usage: inserts N
inserts() {
    echo 'PRAGMA journal_mode=WAL; PRAGMA synchronous=FULL; CREATE TABLE entries (number INTEGER PRIMARY KEY, title TEXT);'
    seq -f "INSERT INTO entries (title) VALUES ('Advisory number %.0f');" "$1"
}

# Prints seconds, and the changes a second.
# usage: rate NAME SECONDS
rate() {
    awk -v name="$1" -v count="$count" -v seconds="$2" 'BEGIN {
        printf "%-40s %12.3f %12.0f\n", name, seconds, count / seconds
    }'
}

# Prints the seconds of a command whose input is a file, and its changes a second.
# usage: measure NAME INPUT COMMAND..
measure() {
    name=$1 input=$2
    shift 2
    began=$(date +%s.%N)
    "$@" <"$input" >"$memory/printed" || { echo "$name: failed" >&2; exit 1; }
    rate "$name" "$(awk -v began="$began" -v ended="$(date +%s.%N)" 'BEGIN { printf "%.6f", ended - began }')"
}

adds "$count" >"$memory/lines"
inserts "$count" >"$memory/inserts"
cd "$work" || exit 1
printf '%-40s %12s %12s\n' "$count changes" seconds 'a second'
init 100
measure 'feed_tool apply' "$memory/lines" "$tool" apply
# it prints its seconds without the start of the interpreter
seconds=$("$top/bench/store_loop.py" "$count" "$work/loop") || exit 1
rate 'the writes and syncs alone' "$seconds"
if command -v sqlite3 >/dev/null; then
    measure 'sqlite3' "$memory/inserts" sqlite3 "$work/database"
fi

# Runs a command, and leaves the numbers of its writes and of its syncs in `writes` and `syncs`.
# usage: trace INPUT COMMAND..
trace() {
    input=$1
    shift
    strace -f -qq -e trace=pwrite64,pwritev,pwritev2,fsync,fdatasync -o "$memory/trace" "$@" <"$input" >"$memory/printed" || exit 1
    writes=$(grep -c pwrite "$memory/trace")
    syncs=$(grep -c sync "$memory/trace")
}

# Prints the writes and the syncs of a change: those of the last run beyond those of one without a change.
# usage: calls NAME WRITES_WITHOUT SYNCS_WITHOUT
calls() {
    awk -v name="$1" -v count="$count" -v writes="$((writes - $2))" -v syncs="$((syncs - $3))" 'BEGIN {
        printf "%-40s %12.3f %12.3f\n", name, writes / count, syncs / count
    }'
}

cd "$memory" || exit 1
if command -v strace >/dev/null; then
    printf '\n%-40s %12s %12s\n' 'calls of a change' writes syncs
    for window in 100 4; do
        init "$window"
        # the first load makes the file of the seals
        "$tool" apply </dev/null >"$memory/printed" || exit 1
        trace /dev/null "$tool" apply
        before="$writes $syncs"
        trace "$memory/lines" "$tool" apply
        # shellcheck disable=SC2086
        calls "feed_tool apply, windows of $window" $before
    done
    trace /dev/null "$top/bench/store_loop.py" 0 "$memory/loop"
    before="$writes $syncs"
    trace /dev/null "$top/bench/store_loop.py" "$count" "$memory/loop"
    # shellcheck disable=SC2086
    calls 'the writes and syncs alone' $before
    if command -v sqlite3 >/dev/null; then
        inserts 0 >"$memory/none"
        trace "$memory/none" sqlite3 "$memory/first"
        before="$writes $syncs"
        trace "$memory/inserts" sqlite3 "$memory/second"
        # shellcheck disable=SC2086
        calls 'sqlite3' $before
    fi
fi

# Prints the peak memory of a command and leaves it in `peak`. If BASE isn't 0, it prints the bytes above it for each of
# MEMBERS, too.
# usage: hold NAME BASE COMMAND..
hold() {
    name=$1 base=$2
    shift 2
    /usr/bin/time -o "$memory/took" -f '%M' "$@" </dev/null >"$memory/printed" || exit 1
    read -r peak <"$memory/took"
    awk -v name="$name" -v base="$base" -v peak="$peak" -v members="$members" 'BEGIN {
        printf "%-40s %12d", name, peak
        if (base > 0) printf " %12.1f", (peak - base) * 1024 / members
        print ""
    }'
}

printf '\n%-40s %12s %12s\n' 'peak memory' KiB 'bytes each'
init 100
hold 'show feed, empty store' 0 "$tool" show feed
empty=$peak
adds "$members" | "$tool" apply >"$memory/printed" || exit 1
hold "show feed, $members members" "$empty" "$tool" show feed
init 100
{
    adds 10
    changes "$members"
} | "$tool" apply >"$memory/printed" || exit 1
hold "show feed, $members changes of 10" "$empty" "$tool" show feed
if command -v sqlite3 >/dev/null; then
    # a column for each number that a store keeps of a member
    table='CREATE TABLE members (number INTEGER PRIMARY KEY, version INTEGER, updated INTEGER, edited INTEGER,
        newer INTEGER, older INTEGER, place INTEGER, length INTEGER)'
    rows="WITH RECURSIVE numbers (n) AS (SELECT 1 UNION ALL SELECT n + 1 FROM numbers WHERE n < $members)
        INSERT INTO members SELECT n, n, 1700000000000 + n, 1700000000000 + n, n + 1, n - 1, 60 * n, 55 FROM numbers"
    hold 'sqlite3, no row' 0 sqlite3 :memory: "$table"
    empty=$peak
    hold "sqlite3, $members rows" "$empty" sqlite3 :memory: "$table" "$rows"
fi

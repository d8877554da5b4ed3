#!/bin/sh
# Prints the seconds and the peak memory of `feed_tool mirror` on the piles of four stores, which the program makes itself,
# beside those of one `sha256sum` of the pile:
# - N members, each added by a line whose operation takes 300 bytes, in windows of 100;
# - N / 20 members that are added and then all changed, in order of number;
# - the same, but changed in steps of 101, so that neighbours by number stand in different documents;
# - 2 N / 5 changes of 10 members.
# For each pile `mirror` prints its certificate twice: from a mirror that holds nothing, and from one that holds all, which
# gets an empty pile. Then `mirror --report` prints the report of the latter. The last columns are the peak memory of the
# first above that of the program on an empty pile, for each live member and for each document. The commands take turns,
# ROUNDS times, and each figure is the median. The files are in the folder DIR, or in /dev/shm if it isn't given, where no
# device takes time.
# usage: bench/mirror.sh [N [DIR [PROGRAM]]]. N is 1,000,000 if it isn't given. PROGRAM is run in place of the one of this
# repository. ROUNDS in the environment is 3 if it isn't given.
count=${1:-1000000}
rounds=${ROUNDS:-3}
top=$(CDPATH='' cd -- "$(dirname -- "$0")/.." && pwd) || exit 1
tool=${3:-$top/out/feed_tool}
case $tool in
    /*) ;;
    */*) tool=$(CDPATH='' cd -- "$(dirname -- "$tool")" && pwd)/$(basename -- "$tool") || exit 1 ;;
esac
[ -n "$3" ] || "$top/prove" || exit 1

work=$(mktemp -d "${2:-/dev/shm}/mirror.XXXXXX") || exit 1
trap 'rm -rf "$work"' EXIT
trap 'exit 1' HUP INT TERM
cd "$work" || exit 1
printf 'pile 1\n' >nothing

# Lines with titles of 256 bytes.
adds() { seq -f 'add Advisory number %0240.0f' "$1"; }
# usage: changes NUMBER MEMBERS STEP
changes() {
    seq -f '%0240.0f' "$1" |
        awk -v members="$2" -v step="$3" '{ print "change " (NR - 1) * step % members + 1 " Advisory number " $0 }'
}

# Runs a command, and appends its seconds and peak memory to a file.
# usage: timed FILE INPUT COMMAND..
timed() {
    file=$1 input=$2
    shift 2
    /usr/bin/time -q -a -o "$file" -f '%e %M' "$@" <"$input" >printed
}

# The median of a column of a file that has a line for each round.
# usage: median FILE COLUMN
median() { cut -d ' ' -f "$2" "$1" | sort -n | sed -n "$(((rounds + 1) / 2))p"; }

# The peak memory of the program on an empty pile. It ends with 3, since the feed's document is missing.
empty() {
    for _ in $(seq "$rounds"); do
        rm -f mirror
        timed bare nothing "$tool" mirror --base http://feed.example/
    done
    median bare 2
}

# Makes a store by the lines of the input, and prints the row of its pile.
# usage: measure NAME
measure() {
    name=$1
    rm -f journal sealed first again report digest
    "$tool" init --base http://feed.example/ --uuid 6d1f0c5a-93be-4c27-8d10-2b7f9e4a5c36 --title Feed --author Editor \
        --window 100 --capacity 68719476736 >/dev/null || exit 1
    "$tool" apply >/dev/null || exit 1
    "$tool" show pile >./pile || exit 1
    for _ in $(seq "$rounds"); do
        rm -f mirror
        timed first pile "$tool" mirror --base http://feed.example/ --capacity 68719476736 || exit 1
        grep -c '^document ' printed >documents
        sed -n 's/^live \([0-9]*\) .*/\1/p' printed >members
        timed digest pile sha256sum || exit 1
        timed again nothing "$tool" mirror --base http://feed.example/ --capacity 68719476736 || exit 1
        timed report nothing "$tool" mirror --base http://feed.example/ --report --capacity 68719476736 || exit 1
    done
    awk -v name="$name" -v bytes="$(wc -c <pile)" -v first="$(median first 1)" -v again="$(median again 1)" \
        -v report="$(median report 1)" -v digest="$(median digest 1)" -v memory="$(median first 2)" \
        -v printing="$(median report 2)" -v bare="$bare" -v members="$(cat members)" -v documents="$(cat documents)" 'BEGIN {
        digest = digest > 0 ? digest : 0.01
        above = (memory - bare) * 1024
        printf "%-32s %11d %7.2f s %5.2f %7.2f s %5.2f %7.2f s %5.2f %7.2f s %8d KiB %8d KiB %8.1f %8.1f\n", name, bytes,
            first, first / digest, again, again / digest, report, report / digest, digest, memory, printing,
            above / members, above / documents
    }'
}

bare=$(empty)
printf '%-32s %11s %9s %5s %9s %5s %9s %5s %9s %12s %12s %8s %8s\n' pile bytes 'from none' ratio 'all held' ratio report \
    ratio sha256sum 'from none' report 'a member' 'a doc'
members=$((count / 20))
adds "$count" | measure "$count members" || exit 1
{
    adds "$members"
    changes "$members" "$members" 1
} | measure "$members changed in order" || exit 1
{
    adds "$members"
    changes "$members" "$members" 101
} | measure "$members in steps of 101" || exit 1
{
    adds 10
    changes $((count * 2 / 5)) 10 1
} | measure "$((count * 2 / 5)) changes of 10" || exit 1

#!/bin/sh
# Prints the seconds that `feed_tool mirror --fetch --report` takes for a feed of ARCHIVES archives over the loopback, and those
# that one `curl` takes to get the same addresses one after the other, each over a connection of its own. Then it prints the
# seconds of a second run of the mirror, which loads what the first one kept and asks for the feed alone, beside those of
# `sha256sum` of the mirror's file. Each archive has 4 operations. The mirror's file is in the folder DIR, or in /dev/shm if
# it isn't given, where no device takes time.
# usage: bench/walk.sh [ARCHIVES [DIR [PROGRAM]]]. ARCHIVES is 10,000 if it isn't given. PROGRAM is run in place of the one of
# this repository.
archives=${1:-10000}
top=$(CDPATH='' cd -- "$(dirname -- "$0")/.." && pwd) || exit 1
tool=${3:-$top/out/feed_tool}
case $tool in
    /*) ;;
    */*) tool=$(CDPATH='' cd -- "$(dirname -- "$tool")" && pwd)/$(basename -- "$tool") || exit 1 ;;
esac
[ -n "$3" ] || "$top/prove" || exit 1

work=$(mktemp -d "${2:-/dev/shm}/walk.XXXXXX") || exit 1
server=
trap '[ -z "$server" ] || kill "$server"; rm -rf "$work"' EXIT
trap 'exit 1' HUP INT TERM
mkdir "$work/server" "$work/mirror" || exit 1

# A port below those that the system gives to clients. One of them may connect to itself.
port=$(awk -v seed=$$ 'BEGIN { srand(seed); print 10000 + int(rand() * 20000) }')
base=http://127.0.0.1:$port/

cd "$work/server" || exit 1
"$tool" init --base "$base" --uuid 6d1f0c5a-93be-4c27-8d10-2b7f9e4a5c36 --title Feed --author Editor --window 4 \
    --capacity 68719476736 >/dev/null || exit 1
seq $((archives * 4 + 1)) | sed 's/^/add Advisory number /' | "$tool" apply >/dev/null || exit 1
"$tool" serve --listen "127.0.0.1:$port" --requests 1000000 </dev/null >printed 2>&1 &
server=$!
until curl -s -o /dev/null "${base}feed"; do
    kill -0 "$server" 2>/dev/null || { echo "walk.sh: the server of port $port ended" >&2; exit 1; }
    sleep 0.1
done

# usage: measure NAME COMMAND..
measure() {
    name=$1
    shift
    /usr/bin/time -f "$name: $archives archives, %e seconds, %U + %S of the processor, %M KiB" "$@" >"$work/printed" || exit 1
}

cd "$work/mirror" || exit 1
{
    printf 'url = "%sfeed"\noutput = "/dev/null"\n' "$base"
    seq "$archives" -1 1 | sed "s|.*|url = \"${base}archive/&\"\noutput = \"/dev/null\"|"
} >"$work/addresses"
# curl runs on both sides of the mirror, because the speed of a machine changes
measure 'curl' curl -s -K "$work/addresses"
measure 'mirror --fetch --report' "$tool" mirror --base "$base" --fetch --report
tail -n 1 "$work/printed"
measure 'curl' curl -s -K "$work/addresses"
wc -c mirror
measure 'mirror --fetch --report, all held' "$tool" mirror --base "$base" --fetch --report
tail -n 1 "$work/printed"
measure 'sha256sum' sha256sum mirror

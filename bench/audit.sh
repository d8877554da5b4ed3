#!/bin/sh
# Prints the seconds and the peak memory in KiB of `feed_tool audit` on the certificate and the pile of a store of N
# operations, and on those of half as many, beside `sha256sum` of the same bytes. The program makes the pile by `show pile`
# and the certificate by `mirror`, whose seconds and memory are printed too. The last column is the time of `audit` as a
# multiple of that of `sha256sum`. All files are in the folder DIR, or in /dev/shm if it isn't given, where no device takes
# time. Each run is a process of its own, whose start counts. With N = 1,600,000 the pile has about half of the greatest
# input's bytes.
# usage: bench/audit.sh N [DIR]
count=${1:?usage: bench/audit.sh N [DIR]}
top=$(CDPATH='' cd -- "$(dirname -- "$0")/.." && pwd) || exit 1
work=$(mktemp -d "${2:-/dev/shm}/audit.XXXXXX") || exit 1
trap 'rm -rf "$work"' EXIT
trap 'exit 1' HUP INT TERM

"$top/prove" || exit 1
tool=$top/out/feed_tool
cd "$work" || exit 1
"$tool" init --base http://feed.example/ --uuid 6d1f0c5a-93be-4c27-8d10-2b7f9e4a5c36 --title Feed --author Editor \
    --window 100 --capacity 68719476736 >/dev/null || exit 1

# usage: measure NAME INPUT COMMAND..; prints a line, and leaves the seconds in the file `seconds`
measure() {
    name=$1 input=$2
    shift 2
    /usr/bin/time -o took -f '%e %M' "$@" <"$input" >printed || exit 1
    read -r seconds memory <took
    echo "$name: $operations operations, $(wc -c <"$input") bytes, $seconds seconds, $memory KiB"
}

half=$((count / 2))
for part in 1 2; do
    operations=$((half * part))
    seq "$half" | sed 's/^/add Advisory number /' | "$tool" apply >/dev/null || exit 1
    "$tool" show pile >./pile || exit 1
    rm -f mirror
    measure 'mirror' pile "$tool" mirror --base http://feed.example/ --capacity 68719476736
    cat printed pile >audited
    measure 'sha256sum' audited sha256sum
    digest=$seconds
    measure 'audit' audited "$tool" audit
    cat printed
    awk -v audit="$seconds" -v digest="$digest" 'BEGIN { printf "audit takes %.2f times as long as sha256sum\n", audit / digest }'
done

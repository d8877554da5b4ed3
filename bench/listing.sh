#!/bin/sh
# Measures GET of the list of members and of the service document of `feed_tool serve --service` over the loopback: on a
# feed of N members, on one of N / 100 members that were made and never changed, and on one of as many that were changed
# until its history is as long as the first one's. Each line has the bytes of a reply, the requests a second, the MB
# (1,000,000 bytes) a second, and the server's processor seconds for each 100 MB.
# usage: bench/listing.sh [N [DIR [PROGRAM]]]. N is 100,000 if it is left out. DIR is /dev/shm if it is left out, where
# the syncs of `apply` take no time. PROGRAM is run in place of the one of this repository. It needs python3.
members=${1:-100000}
top=$(CDPATH='' cd -- "$(dirname -- "$0")/.." && pwd) || exit 1
tool=${3:-$top/out/feed_tool}
case $tool in
    /*) ;;
    */*) tool=$(CDPATH='' cd -- "$(dirname -- "$tool")" && pwd)/$(basename -- "$tool") || exit 1 ;;
esac
[ -n "$3" ] || "$top/prove" || exit 1
work=$(mktemp -d "${2:-/dev/shm}/listing.XXXXXX") || exit 1
server=
finish() {
    [ -z "$server" ] || { kill "$server" && wait "$server"; } 2>/dev/null
    server=
}
trap 'finish; rm -rf "$work"' EXIT
trap 'exit 1' HUP INT TERM

cat >"$work/client.py" <<'PYTHON'
"""usage: client.py NAME PORT SERVER PATH. It asks for the path for two seconds."""
import os
import socket
import sys
import time

name, port, server, path = sys.argv[1], int(sys.argv[2]), sys.argv[3], sys.argv[4]
buffer = memoryview(bytearray(1 << 26))


def request():
    with socket.socket() as client:
        client.connect(("127.0.0.1", port))
        client.sendall(f"GET {path} HTTP/1.1\r\nHost: feed.example\r\n\r\n".encode())
        count = 0
        while got := client.recv_into(buffer[count:]):
            count += got
        return count


def processor():
    with open(f"/proc/{server}/stat") as file:
        fields = file.read().rsplit(")", 1)[1].split()
    return (int(fields[11]) + int(fields[12])) / os.sysconf("SC_CLK_TCK")


for _ in range(600):
    try:
        length = request()
        break
    except ConnectionRefusedError:
        time.sleep(0.1)
if buffer[9:12] != b"200":
    sys.exit(f"{name}: {bytes(buffer[:length])[:80]}")
count, before, began = 0, processor(), time.perf_counter()
while time.perf_counter() - began < 2:
    request()
    count += 1
took, used = time.perf_counter() - began, processor() - before
moved = count * length / 1e6
print(f"{name}: {length} bytes, {count / took:.0f} a second, {moved / took:.0f} MB/s, {100 * used / moved:.2f} s of the processor for 100 MB")
PYTHON

# makes a store from the lines of `apply` on standard input, and measures its pages
# usage: measure FOLDER NAME
measure() {
    mkdir "$work/$1" && cd "$work/$1" || exit 1
    "$tool" init --base http://feed.example/ --uuid 6d1f0c5a-93be-4c27-8d10-2b7f9e4a5c36 --title News \
        --author Editor --window 100 --capacity 4294967296 >/dev/null || exit 1
    "$tool" apply >/dev/null || exit 1
    port=$(awk -v seed="$$$1" 'BEGIN { srand(seed); print 10000 + int(rand() * 20000) }')
    "$tool" serve --service --listen "127.0.0.1:$port" --requests 1000000 >/dev/null &
    server=$!
    for path in members service; do
        python3 "$work/client.py" "$2, $path" "$port" "$server" "/$path" || exit 1
    done
    finish
}

few=$((members / 100))
seq "$members" | sed 's/^/add Advisory number /' | measure 1 "$members members"
seq "$few" | sed 's/^/add Advisory number /' | measure 2 "$few members"
{
    seq "$few" | sed 's/^/add Advisory number /'
    seq "$((members - few))" | awk -v few="$few" '{ print "change", ($1 % few) + 1, "Advisory", $1 }'
} | measure 3 "$few members after $members operations"

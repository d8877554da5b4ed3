#!/bin/sh
# Measures `feed_tool serve` over the loopback, with one connection for each request:
# - POST of an entry of 300 bytes by 1 and by 8 clients on a disk, and by one on a folder in memory, beside the loop of
#   bench/store.sh that makes only the writes and the syncs of each change;
# - GET of a sealed archive of about 100 KB and of the feed by 1 and by 8 clients, beside `feed_tool relay` on a mirror of the
#   same documents, and beside nginx with one worker and the same bytes in files, where nginx is installed;
# - GET of the feed while one more client is connected and silent;
# - GET of the feed after OPERATIONS operations and after 1,000.
# usage: bench/serve.sh [OPERATIONS [DIR [PROGRAM]]]. OPERATIONS is a multiple of 100 over 1,000, or else 20,000: both feeds have
# 100 entries. DIR is a folder on the disk, or else the system's folder for temporary files. PROGRAM is run in place of the
# one of this repository. SECONDS_EACH, POSTS, CLIENTS and ROUNDS in the environment change how much is done.
# Each line has the requests a second, the median and the 99th percentile of the latency, and the processor time of the
# server and of the clients for a request. If the server takes nearly a whole processor, the clients aren't what holds it up.
# The compared measurements take turns, ROUNDS times, since the speed of a machine and of its disk changes. The last lines
# have the ratios of the rounds and their median.
operations=${1:-20000}
seconds=${SECONDS_EACH:-1}
posts=${POSTS:-1000}
clients=${CLIENTS:-1 8}
rounds=${ROUNDS:-5}
top=$(CDPATH='' cd -- "$(dirname -- "$0")/.." && pwd) || exit 1
tool=${3:-$top/out/feed_tool}
case $tool in
    /*) ;;
    */*) tool=$(CDPATH='' cd -- "$(dirname -- "$tool")" && pwd)/$(basename -- "$tool") || exit 1 ;;
esac
[ -n "$3" ] || "$top/prove" || exit 1

disk=$(mktemp -d "${2:-${TMPDIR:-/tmp}}/serve.XXXXXX") || exit 1
memory=$(mktemp -d /dev/shm/serve.XXXXXX) || { rm -rf "$disk"; exit 1; }
server=
# the servers and clients that were started
started=
finish() {
    # the server may be stopped at any moment, and nginx ends its worker on this signal
    [ -z "$server" ] || { kill "$server" && wait "$server"; } 2>/dev/null
    server=
}
trap 'kill $started 2>/dev/null; rm -rf "$disk" "$memory"' EXIT
trap 'exit 1' HUP INT TERM

# The client of all measurements. A process for each client sends the same request again and again, each over a connection
# of its own, and reads until the server closes it.
cat >"$memory/client.py" <<'PYTHON'
"""usage: client.py NAME PORT SERVER CLIENTS LIMIT PATH [BODY]

LIMIT is a number of seconds, or with BODY, a file that is posted, the number of requests of each client.
"""
import os
import signal
import socket
import struct
import sys
import time

TICKS = os.sysconf("SC_CLK_TCK")
ROOM = 1 << 20


def request(port, text, buffer):
    """Reads a reply into the buffer, which is longer, and returns its length."""
    count = 0
    # `create_connection` would look the address up, and a timeout would poll before each call
    with socket.socket() as client:
        client.connect(("127.0.0.1", port))
        client.sendall(text)
        while got := client.recv_into(buffer[count:]):
            count += got
    return count


def run(port, text, limit, counted, out):
    buffer = memoryview(bytearray(ROOM))
    took = []
    clock = time.perf_counter
    end = clock() + limit
    while len(took) < limit if counted else clock() < end:
        began = clock()
        request(port, text, buffer)
        took.append(clock() - began)
        if buffer[9:12] not in (b"200", b"201"):
            sys.exit(f"client.py: {bytes(buffer[:200])}")
    with os.fdopen(out, "wb") as pipe:
        pipe.write(struct.pack(f"{len(took)}d", *took))


def processor(server):
    """Returns the processor seconds of a process and of those that it started."""
    seconds = 0
    for name in filter(str.isdigit, os.listdir("/proc")):
        try:
            with open(f"/proc/{name}/stat") as file:
                fields = file.read().rsplit(")", 1)[1].split()
        except OSError:
            continue
        if name == server or fields[1] == server:
            seconds += (int(fields[11]) + int(fields[12])) / TICKS
    return seconds


def main():
    name, port, server, clients, limit, path = sys.argv[1:7]
    port, clients, limit = int(port), int(clients), int(limit)
    text = f"GET {path} HTTP/1.1\r\nHost: feed.example\r\nConnection: close\r\n\r\n".encode()
    if len(sys.argv) > 7:
        with open(sys.argv[7], "rb") as file:
            body = file.read()
        text = f"POST {path} HTTP/1.1\r\nHost: feed.example\r\nContent-Type: application/atom+xml\r\n" \
            f"Content-Length: {len(body)}\r\n\r\n".encode() + body
    size = request(port, text, memoryview(bytearray(ROOM))) if len(sys.argv) == 7 else 0
    before, began, pipes = processor(server), time.perf_counter(), []
    for _ in range(clients):
        reader, writer = os.pipe()
        if os.fork() == 0:
            os.close(reader)
            # ends a client whose reply doesn't come
            signal.alarm(600)
            run(port, text, limit, len(sys.argv) > 7, writer)
            os._exit(0)
        os.close(writer)
        pipes.append(reader)
    took = []
    for reader in pipes:
        with os.fdopen(reader, "rb") as pipe:
            data = pipe.read()
        took += struct.unpack(f"{len(data) // 8}d", data)
    statuses = [os.wait()[1] for _ in pipes]
    seconds = time.perf_counter() - began
    busy, own = processor(server) - before, sum(os.times()[2:4])
    if any(statuses) or not took:
        sys.exit(f"{name}: failed")
    took.sort()
    count = len(took)
    print(f"{name}, {clients} {'client' if clients == 1 else 'clients'}: " + (f"{size} bytes, " if size else "")
          + f"{count} requests, {count / seconds:.0f} a second, median {took[count // 2] * 1e3:.3f} ms, "
          f"99% {took[count * 99 // 100] * 1e3:.3f} ms, processor for a request: server {busy / count * 1e6:.0f} us "
          f"({busy / seconds:.0%} of one), clients {own / count * 1e6:.0f} us", flush=True)
    with open(os.environ["RATES"], "a") as rates:
        print(name, clients, count / seconds, sep="\t", file=rates)


main()
PYTHON

# A port below those that the system gives to clients. One of them may connect to itself.
port=$(awk -v seed=$$ 'BEGIN { srand(seed); print 10000 + int(rand() * 20000) }')

# waits until a server answers, as long as it runs
# usage: await PATH
await() {
    until python3 -c 'import sys, urllib.request as r; r.build_opener(r.ProxyHandler({})).open(sys.argv[1]).read()' \
        "http://127.0.0.1:$port/$1" 2>/dev/null; do
        kill -0 "$server" 2>/dev/null || { echo "serve.sh: the server of port $port ended" >&2; exit 1; }
        sleep 0.1
    done
}

# the rates of all measurements, one a line: its name, the number of clients, and the requests a second
export RATES="$memory/rates"
: >"$RATES"

# prints how many times as fast the first of two measurements was in each round, and the median
# usage: ratio FIRST SECOND CLIENTS [CLIENTS_OF_SECOND]
ratio() {
    python3 - "$@" <<'PYTHON'
import os, statistics, sys
first, second, clients = sys.argv[1:4]
wanted = {first: clients, second: sys.argv[4] if len(sys.argv) > 4 else clients}
rates = {first: [], second: []}
with open(os.environ["RATES"]) as lines:
    for name, number, rate in (line.rstrip("\n").split("\t") for line in lines):
        if name in rates and number == wanted[name]:
            rates[name].append(float(rate))
ratios = [one / other for one, other in zip(rates[first], rates[second])]
if ratios:
    print(f"{first} / {second}, {clients} {'client' if clients == '1' else 'clients'}: "
          f"{' '.join(f'{ratio:.2f}' for ratio in ratios)}, median {statistics.median(ratios):.2f}")
PYTHON
}

# starts the program on the store of a folder, on the next port
# usage: serve FOLDER
serve() {
    finish
    port=$((port + 1))
    (cd "$1" && exec "$tool" serve --listen "127.0.0.1:$port" --requests 1000000) </dev/null >"$1/printed" 2>&1 &
    server=$! started="$started $!"
    await feed
}

# usage: measure NAME CLIENTS LIMIT PATH [BODY]
measure() {
    name=$1 number=$2 limit=$3
    shift 3
    python3 "$memory/client.py" "$name" "$port" "$server" "$number" "$limit" "$@" || exit 1
}

# makes a store with windows of 100 operations
# usage: make FOLDER
make() {
    mkdir -p "$1" || exit 1
    (cd "$1" && "$tool" init --base http://feed.example/ --uuid 6d1f0c5a-93be-4c27-8d10-2b7f9e4a5c36 --title Feed \
        --author Editor --window 100 --capacity 68719476736) >/dev/null || exit 1
}

# POST

awk 'BEGIN {
    front = "<entry xmlns=\"http://www.w3.org/2005/Atom\"><title>Advisory</title><content>"; back = "</content></entry>"
    printf "%s", front
    for (left = 300 - length(front) - length(back); left > 0; left--) printf "a"
    printf "%s", back
}' >"$memory/entry"

# usage: loop NAME FOLDER COUNT
loop() {
    took=$("$top/bench/store_loop.py" "$3" "$2/loop") || exit 1
    awk -v name="$1" -v count="$3" -v took="$took" -v rates="$RATES" 'BEGIN {
        printf "%s: %d changes, %.0f changes a second\n", name, count, count / took
        printf "%s\t1\t%f\n", name, count / took >>rates
    }'
}

make "$disk/posts"
make "$memory/posts"
for _ in $(seq "$rounds"); do
    loop 'writes and syncs alone, on the disk' "$disk" "$posts"
    serve "$disk/posts"
    for number in $clients; do
        measure 'POST, on the disk' "$number" $((posts / number)) /feed "$memory/entry"
    done
    finish
done
loop 'writes and syncs alone, in memory' "$memory" $((posts * 50))
serve "$memory/posts"
measure 'POST, in memory' 1 "$posts" /feed "$memory/entry"
finish

# GET beside nginx. Titles of 770 bytes make an archive of about 100 KB, and a feed of 50 entries of about half of that.

make "$memory/store"
title=$(awk 'BEGIN { for (count = 0; count < 770; count++) printf "a" }')
seq 150 | sed "s/.*/add $title/" | (cd "$memory/store" && "$tool" apply) >/dev/null || exit 1
mkdir -p "$memory/files/archive"
(cd "$memory/store" && "$tool" show archive 1) >"$memory/files/archive/1" || exit 1
(cd "$memory/store" && "$tool" show feed) >"$memory/files/feed" || exit 1
mkdir "$memory/relay"
(cd "$memory/store" && "$tool" show pile) >"$memory/pile" || exit 1
(cd "$memory/relay" && "$tool" mirror --base http://feed.example/) <"$memory/pile" >/dev/null || exit 1

serve "$memory/store"
tool_port=$port tool_server=$server
port=$((port + 1))
(cd "$memory/relay" && exec "$tool" relay --base http://feed.example/ --listen "127.0.0.1:$port" --requests 1000000) \
    </dev/null >"$memory/relay/printed" 2>&1 &
server=$! started="$started $!"
await feed
relay_port=$port relay_server=$server
nginx=$(command -v nginx || PATH=$PATH:/usr/sbin command -v nginx)
if [ -n "$nginx" ]; then
    nginx_port=$((port + 1))
    # a worker of root's nginx runs as another user, who has to reach the files
    chmod 755 "$memory"
    mkdir "$memory/nginx"
    cat >"$memory/nginx/conf" <<TEXT
worker_processes 1;
daemon off;
pid $memory/nginx/pid;
error_log $memory/nginx/error;
events {
    worker_connections 1024;
}
http {
    access_log off;
    sendfile on;
    tcp_nopush on;
    keepalive_timeout 0;
    default_type application/atom+xml;
    client_body_temp_path $memory/nginx/body;
    proxy_temp_path $memory/nginx/proxy;
    fastcgi_temp_path $memory/nginx/fastcgi;
    uwsgi_temp_path $memory/nginx/uwsgi;
    scgi_temp_path $memory/nginx/scgi;
    server {
        listen 127.0.0.1:$nginx_port;
        root $memory/files;
    }
}
TEXT
    "$nginx" -p "$memory/nginx/" -c "$memory/nginx/conf" </dev/null >/dev/null 2>&1 &
    nginx_server=$! started="$started $!"
    port=$nginx_port server=$nginx_server
    await feed
else
    echo 'nginx: not installed'
fi
for _ in $(seq "$rounds"); do
    for number in $clients; do
        for path in archive/1 feed; do
            port=$tool_port server=$tool_server
            measure "feed_tool, GET of $path" "$number" "$seconds" "/$path"
            port=$relay_port server=$relay_server
            measure "relay, GET of $path" "$number" "$seconds" "/$path"
            if [ -n "$nginx" ]; then
                port=$nginx_port server=$nginx_server
                measure "nginx, GET of $path" "$number" "$seconds" "/$path"
            fi
        done
    done
done
port=$tool_port server=$tool_server
python3 -c 'import socket, sys; socket.create_connection(("127.0.0.1", int(sys.argv[1]))).recv(1)' "$port" &
started="$started $!"
measure 'feed_tool beside a silent client, GET of feed' 1 "$seconds" /feed
if [ -n "$nginx" ]; then
    server=$nginx_server
    finish
fi
server=$relay_server
finish
server=$tool_server
finish

# The feed after many operations. The folder is in memory, where the syncs of `apply` take no time.

small='' large=''
for count in 1000 "$operations"; do
    make "$memory/$count"
    seq "$count" | sed 's/^/add Advisory number /' | (cd "$memory/$count" && "$tool" apply) >/dev/null || exit 1
    began=$(date +%s.%N)
    server=
    serve "$memory/$count"
    awk -v count="$count" -v began="$began" -v ended="$(date +%s.%N)" 'BEGIN {
        printf "%d operations: listens after %.1f seconds\n", count, ended - began
    }'
    small=${small:-$port:$server} large=$port:$server
done
for _ in $(seq "$rounds"); do
    for number in $clients; do
        for running in "$operations:$large" "1000:$small"; do
            rest=${running#*:}
            port=${rest%:*} server=${rest#*:}
            measure "${running%%:*} operations, GET of the feed" "$number" "$seconds" /feed
        done
    done
done
server=${small#*:}
finish
server=${large#*:}
finish

for number in $clients; do
    ratio 'POST, on the disk' 'writes and syncs alone, on the disk' "$number" 1
    for path in archive/1 feed; do
        ratio "relay, GET of $path" "feed_tool, GET of $path" "$number"
        ratio "feed_tool, GET of $path" "nginx, GET of $path" "$number"
    done
    ratio "$operations operations, GET of the feed" '1000 operations, GET of the feed' "$number"
done

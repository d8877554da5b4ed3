#!/bin/sh
# Prints how many requests one origin and its three relays carry, and how many bytes they send, while readers mirror the feed
# from the relays. In each of ROUNDS rounds the origin takes CHANGES new entries of 300 bytes, each relay fetches from the
# origin and is started again, and each of READERS readers asks for the feed, and then for the archives that it doesn't hold.
# All is done twice. At first each reader asks one relay, so each of its requests reaches that. Then all readers ask nginx,
# which has deploy/nginx-relays.conf with other addresses and folders. The second part is left out where there is no nginx.
# usage: bench/network.sh [READERS [ROUNDS [CHANGES [PROGRAM]]]]. They are 300, 4 and 250 if they aren't given, and the window
# of the feed has 100 operations. PROGRAM is run in place of the one of this repository. The folders are in /dev/shm. It prints
# a line for each server and for the readers of both parts, and ends with 1 if a reader doesn't get the origin's bytes. It
# needs python3.
readers=${1:-300}
rounds=${2:-4}
changes=${3:-250}
top=$(CDPATH='' cd -- "$(dirname -- "$0")/.." && pwd) || exit 1
tool=${4:-$top/out/feed_tool}
case $tool in
    /*) ;;
    */*) tool=$(CDPATH='' cd -- "$(dirname -- "$tool")" && pwd)/$(basename -- "$tool") || exit 1 ;;
esac
[ -n "$4" ] || "$top/prove" || exit 1

work=$(mktemp -d /dev/shm/network.XXXXXX) || exit 1
trap 'rm -rf "$work"' EXIT
trap 'exit 1' HUP INT TERM

python3 - "$readers" "$rounds" "$changes" "$tool" "$work" "$top/deploy/nginx-relays.conf" <<'PYTHON'
import concurrent.futures
import os
import re
import shutil
import socket
import subprocess
import sys
import time

readers, rounds, changes = map(int, sys.argv[1:4])
tool, work, settings = sys.argv[4:7]


def free_port():
    with socket.socket() as probe:
        probe.bind(("127.0.0.1", 0))
        return probe.getsockname()[1]


def ask(port, method, path, body=b""):
    """Returns status and body of a server's reply."""
    head = f"{method} {path} HTTP/1.1\r\nHost: feed.example\r\nConnection: close\r\nContent-Length: {len(body)}\r\n\r\n"
    with socket.create_connection(("127.0.0.1", port), timeout=60) as client:
        client.sendall(head.encode() + body)
        reply = b""
        while piece := client.recv(65536):
            reply += piece
    head, _, body = reply.partition(b"\r\n\r\n")
    return int(head[9:12]), body


def wait_for(port):
    while True:
        try:
            with socket.create_connection(("127.0.0.1", port)):
                return
        except OSError:
            time.sleep(0.01)


class Server:
    """The origin or a relay, with the log of all its processes."""

    def __init__(self, folder, name, words):
        self.folder, self.name, self.words, self.port, self.process = f"{folder}/{name}", name, words, free_port(), None
        os.makedirs(self.folder)

    def run(self, *words):
        subprocess.run([tool, *words], cwd=self.folder, check=True, stdin=subprocess.DEVNULL, stdout=subprocess.DEVNULL)

    def start(self):
        with open(f"{self.folder}/log", "ab") as log:
            self.process = subprocess.Popen(
                [tool, *self.words, "--listen", f"127.0.0.1:{self.port}", "--requests", "1000000"],
                cwd=self.folder, env=os.environ | {"FEED_LOG": "stderr"}, stdin=subprocess.DEVNULL,
                stdout=subprocess.DEVNULL, stderr=log)  # fmt: skip
        wait_for(self.port)

    def stop(self):
        if self.process:
            self.process.kill()
            self.process.wait()

    def carried(self):
        """The sizes of its replies with a document."""
        with open(f"{self.folder}/log", encoding="ascii") as log:
            return re.findall(r"^event=connection .* method=GET .* status=200 bytes=(\d+)", log.read(), re.M)


class Nginx:
    """nginx before the relays."""

    def __init__(self, folder, relays):
        self.folder, self.name, self.port = f"{folder}/nginx", "nginx", free_port()
        os.makedirs(self.folder)
        with open(settings, encoding="ascii") as file:
            text = file.read()
        text = text.replace("listen 80;", f"listen 127.0.0.1:{self.port};")
        text = text.replace("/var/cache/nginx-feed", f"{self.folder}/cache")
        for number, relay in enumerate(relays):
            text = text.replace(f"192.0.2.1{number + 1}:8090", f"127.0.0.1:{relay.port}")
        own = "user root;\n" if os.getuid() == 0 else ""
        own += f"daemon off;\npid {self.folder}/pid;\nerror_log {self.folder}/errors;\nevents {{ worker_connections 1024; }}\n"
        own += f"http {{\nlog_format sent 'status=$status bytes=$body_bytes_sent';\naccess_log {self.folder}/log sent;\n"
        for kind in ("client_body", "proxy", "fastcgi", "uwsgi", "scgi"):
            own += f"{kind}_temp_path {self.folder}/{kind};\n"
        with open(f"{self.folder}/conf", "w", encoding="ascii") as file:
            file.write(own + text + "}\n")
        self.process = subprocess.Popen(["nginx", "-c", f"{self.folder}/conf", "-e", f"{self.folder}/errors"])
        wait_for(self.port)

    def stop(self):
        self.process.terminate()
        self.process.wait()

    def carried(self):
        with open(f"{self.folder}/log", encoding="ascii") as log:
            return re.findall(r"^status=200 bytes=(\d+)", log.read(), re.M)


class Reader:
    def __init__(self, server):
        self.server, self.archives, self.asked, self.bytes = server, {}, 0, 0

    def get(self, path):
        status, body = ask(self.server.port, "GET", path)
        if status != 200:
            raise SystemExit(f"{self.server.name} replied {status} to {path}")
        self.asked, self.bytes = self.asked + 1, self.bytes + len(body)
        return body

    def read(self):
        """Returns the feed's document, after all archives are held."""
        feed = document = self.get("/feed")
        while link := re.search(rb'rel="prev-archive" href="[^"]*/(archive/\d+)"', document):
            path = "/" + link[1].decode()
            if path in self.archives:
                break
            document = self.archives[path] = self.get(path)
        return feed


def measure(name, fronts):
    """Runs all rounds, with readers of the servers that `fronts` returns of the relays, and prints what each server carried."""
    folder = f"{work}/{name}"
    origin = Server(folder, "origin", ["serve"])
    base = f"http://127.0.0.1:{origin.port}/"
    relays = [Server(folder, f"relay{number}", ["relay", "--base", base]) for number in (1, 2, 3)]
    origin.run("init", "--base", base, "--uuid", "6d1f0c5a-93be-4c27-8d10-2b7f9e4a5c36", "--title", "Feed",
               "--author", "Editor", "--window", "100")  # fmt: skip
    origin.start()
    first = fronts(folder, relays)
    servers = [origin, *relays, *(it for it in first if it not in relays)]
    everyone = [Reader(first[number % len(first)]) for number in range(readers)]
    seconds, feeds = 0, set()
    for _ in range(rounds):
        for number in range(changes):
            title = f"Advisory number {number:0240}"
            entry = f'<entry xmlns="http://www.w3.org/2005/Atom"><title>{title}</title></entry>'
            ask(origin.port, "POST", "/feed", entry.encode())
        for relay in relays:
            relay.stop()
            relay.run("mirror", "--base", base, "--fetch")
            relay.start()
        # nginx has the feed's last document for a second more.
        while first is not relays and {ask(first[0].port, "GET", "/feed")[1]} == feeds:
            time.sleep(0.2)
        began = time.monotonic()
        with concurrent.futures.ThreadPoolExecutor(8) as pool:
            feeds = set(pool.map(Reader.read, everyone))
        seconds += time.monotonic() - began
        if len(feeds) != 1:
            raise SystemExit("the readers have different feeds")
    for server in servers:
        sent = [int(it) for it in server.carried()]
        print(f"{name}, {server.name}: {len(sent)} requests, {sum(sent) / 1e6:.1f} MB")
    if feeds != {ask(origin.port, "GET", "/feed")[1]}:
        raise SystemExit("the readers have another feed than the origin")
    for server in servers:
        server.stop()
    print(f"{name}, {readers} readers, {rounds} rounds: {sum(reader.asked for reader in everyone)} requests, "
          f"{sum(reader.bytes for reader in everyone) / 1e6:.1f} MB in {seconds:.1f} s")  # fmt: skip


measure("relays", lambda folder, relays: relays)
if shutil.which("nginx"):
    measure("nginx", lambda folder, relays: [Nginx(folder, relays)])
else:
    print("nginx isn't here", file=sys.stderr)
PYTHON

#!/bin/sh
# Runs an origin, two relays in a row and a mirror behind the second one, each in a folder of its own, while entries are
# made, changed and removed at the origin. A relay is `feed_tool mirror --fetch` and then `feed_tool relay`, in turn in one
# folder. In each of ROUNDS rounds the fetches and the relays are killed with SIGKILL at random moments and started again,
# and some relays end by themselves after a few connections. Then the round is made once more without a kill and without a
# change. The last mirror's certificate has to be the one that a mirror makes of the origin's own pile, and `audit` has to
# accept it over that pile.
# All documents have one base, whatever relay sends them. So a proxy at the base's port passes a fetch on to the server
# that the fetch is to ask.
# Usage: checks/relay.sh [ROUNDS [PROGRAM]]. ROUNDS is 10 if it isn't given. PROGRAM is run in place of the one of this
# repository. It prints a line of counts and ends with 0 if all agrees. It ends at the first difference with 1, and leaves
# the files. It needs python3.
rounds=${1:-10}
top=$(CDPATH='' cd -- "$(dirname -- "$0")/.." && pwd) || exit 1
tool=${2:-$top/out/feed_tool}
case $tool in
    /*) ;;
    */*) tool=$(CDPATH='' cd -- "$(dirname -- "$tool")" && pwd)/$(basename -- "$tool") || exit 1 ;;
esac
# The launcher isn't used below, because it looks at all sources at each start.
[ -n "$2" ] || "$top/prove" || exit 1

work=$(mktemp -d) || exit 1
mkdir "$work/origin" "$work/relay1" "$work/relay2" "$work/mirror" || exit 1

python3 - "$rounds" "$tool" "$work" <<'PYTHON'
import os
import random
import re
import shutil
import signal
import socket
import subprocess
import sys
import threading
import time

rounds, tool, work = int(sys.argv[1]), sys.argv[2], sys.argv[3]
# the numbers of the live members, and of the members that were made
live, made = [], 0
operations = fetches = killed_fetches = starts = killed_relays = whole_relays = accepted = 0
# the port of the server that the proxy passes connections on to
target = 0
stopping = threading.Event()
changing = threading.Lock()


class Differs(Exception):
    """A relay or the mirror doesn't agree with the origin."""


def free_port():
    """Returns a port below those that the system gives to clients. One of them may connect to itself."""
    while True:
        port = random.randrange(10000, 30000)
        with socket.socket() as probe:
            try:
                probe.bind(("127.0.0.1", port))
                return port
            except OSError:
                pass


base_port = free_port()
base = f"http://127.0.0.1:{base_port}/"


def read_all(client):
    reply = b""
    while piece := client.recv(65536):
        reply += piece
    return reply


def forward(client, port):
    """Passes a request on to a server, and its reply back."""
    with client:
        try:
            request = b""
            while b"\r\n\r\n" not in request:
                piece = client.recv(65536)
                if not piece:
                    return
                request += piece
            with socket.create_connection(("127.0.0.1", port), timeout=60) as server:
                server.sendall(request)
                client.sendall(read_all(server))
        except OSError:
            # the fetch or the server was killed
            pass


def proxy(listener):
    while True:
        try:
            client, _ = listener.accept()
        except OSError:
            return
        threading.Thread(target=forward, args=(client, target), daemon=True).start()


def ask(port, method, path, body=b""):
    """Returns status and body of a server's reply."""
    head = f"{method} {path} HTTP/1.1\r\nHost: feed.example\r\nContent-Length: {len(body)}\r\n\r\n"
    with socket.create_connection(("127.0.0.1", port), timeout=60) as client:
        client.sendall(head.encode() + body)
        head, _, body = read_all(client).partition(b"\r\n\r\n")
    return int(head[9:12]), body


class Server:
    """The origin or a relay, which serves a folder."""

    def __init__(self, place, words):
        self.place, self.words, self.port, self.process = place, words, free_port(), None

    def start(self, requests=1000000):
        """Starts it, and returns when it listens."""
        words = [tool, *self.words, "--listen", f"127.0.0.1:{self.port}", "--requests", str(requests)]
        self.requests = requests
        self.process = subprocess.Popen(words, cwd=f"{work}/{self.place}", stdin=subprocess.DEVNULL,
                                        stdout=subprocess.PIPE, stderr=subprocess.STDOUT)
        for _ in range(3000):
            if self.process.poll() is not None:
                raise Differs(f"{self.place} ended with {self.process.returncode}: {self.process.communicate()[0]}")
            try:
                status, _ = ask(self.port, "GET", "/feed")
                break
            except OSError:
                time.sleep(0.01)
        else:
            raise Differs(f"{self.place} doesn't listen")
        if status not in (200, 404):
            raise Differs(f"{self.place} replied {status}")

    def stop(self):
        """Kills it, unless it has ended by itself after the last of its connections."""
        global killed_relays, whole_relays
        self.process.kill()
        printed, _ = self.process.communicate()
        code, self.process = self.process.returncode, None
        if code == -signal.SIGKILL:
            killed_relays += self is not origin
            return
        lines = printed.decode(errors="replace").splitlines()
        if code != 0 or len(lines) != self.requests or not all(re.fullmatch(r"\d+ \d+", line) for line in lines):
            raise Differs(f"{self.place} ended with {code}: {lines[-3:]}")
        whole_relays += 1


origin = Server("origin", ["serve"])
relays = [Server(f"relay{number}", ["relay", "--base", base]) for number in (1, 2)]


def change():
    """Makes, changes or removes an entry at the origin."""
    global made, operations
    chosen = random.randrange(4) if live else 0
    entry = f'<entry xmlns="http://www.w3.org/2005/Atom"><title>News {random.random()}</title></entry>'.encode()
    if chosen < 2:
        status, body = ask(origin.port, "POST", "/feed", entry)
        made += status == 201
        live.append(made)
    else:
        number = random.choice(live)
        if chosen == 2:
            status, body = ask(origin.port, "PUT", f"/member/{number}", entry)
        else:
            status, body = ask(origin.port, "DELETE", f"/member/{number}")
            live.remove(number)
    if status not in (200, 201):
        raise Differs(f"the origin replied {status}: {body}")
    operations += 1


def change_on():
    """Goes on until it is stopped."""
    while not stopping.wait(0.01):
        with changing:
            change()


def start_fetch(place, source):
    global target, fetches
    target = source.port
    fetches += 1
    return subprocess.Popen([tool, "mirror", "--base", base, "--fetch"], cwd=f"{work}/{place}",
                            stdin=subprocess.DEVNULL, stdout=subprocess.PIPE)


def fetch_whole(place, source):
    """Returns the certificate of a fetch from a server that isn't killed, and how long it took."""
    began = time.monotonic()
    process = start_fetch(place, source)
    printed, _ = process.communicate()
    if process.returncode != 0:
        raise Differs(f"the fetch of {place} ended with {process.returncode}: {printed[-300:]}")
    return printed, time.monotonic() - began


def restart(relay):
    """Starts a relay again, which may serve a few connections alone."""
    global starts
    starts += 1
    relay.start(1000000 if random.randrange(2) else random.randrange(2, 12))


def fetch_amid_kills(place, source, seconds):
    """Fetches from a server while the fetch or the server is killed within this time."""
    global killed_fetches
    process = start_fetch(place, source)
    time.sleep(random.uniform(0, seconds))
    if source is not origin and random.randrange(2):
        source.stop()
        printed, _ = process.communicate()
        restart(source)
    else:
        process.kill()
        printed, _ = process.communicate()
        killed_fetches += process.returncode == -signal.SIGKILL
    # 3: a document isn't there yet. 7: the server ended in the middle.
    if process.returncode not in (0, 3, 7, -signal.SIGKILL):
        raise Differs(f"the fetch of {place} ended with {process.returncode}: {printed[-300:]}")


def chain():
    """The folders in a row, each with the server that it fetches from and the relay that serves it, if one does."""
    return [("relay1", origin, relays[0]), ("relay2", relays[0], relays[1]), ("mirror", relays[1], None)]


def kill_round(seconds):
    for place, source, relay in chain():
        if relay and relay.process:
            relay.stop()
        for _ in range(random.randrange(1, 4)):
            fetch_amid_kills(place, source, seconds)
        if relay:
            restart(relay)


def whole_round():
    """Each folder fetches all of the one before it. Returns the last certificate, and the longest time of a fetch."""
    global starts
    longest = 0.02
    for place, source, relay in chain():
        if relay and relay.process:
            relay.stop()
        certificate, took = fetch_whole(place, source)
        longest = max(longest, took)
        if relay:
            starts += 1
            relay.start()
    for relay in relays:
        for method, path, expected in (("POST", "/feed", 405), ("GET", "/member/1", 404), ("GET", "/archive/1", 200)):
            status, _ = ask(relay.port, method, path)
            if status != expected:
                raise Differs(f"{relay.place} replied {status} to {method} {path}")
    return certificate, longest


def run(words, place, given=b""):
    return subprocess.run([tool, *words], cwd=f"{work}/{place}", input=given, stdout=subprocess.PIPE)


def compare(certificate):
    """Compares a certificate with the origin's own, and audits it."""
    global accepted
    origin.stop()
    pile = run(["show", "pile"], "origin").stdout
    own = f"{work}/own"
    shutil.rmtree(own, ignore_errors=True)
    os.mkdir(own)
    made_of_pile = run(["mirror", "--base", base], "own", pile)
    if made_of_pile.returncode != 0 or made_of_pile.stdout != certificate:
        raise Differs(f"the certificate isn't the origin's: {certificate[:300]} {made_of_pile.stdout[:300]}")
    verdict = run(["audit"], "own", certificate + pile)
    if verdict.returncode != 0:
        raise Differs(f"the audit ended with {verdict.returncode}: {verdict.stdout}")
    accepted += 1
    origin.start()


def play():
    origin.start()
    for _ in range(60):
        change()
    seconds = whole_round()[1]
    for _ in range(rounds):
        stopping.clear()
        worker = threading.Thread(target=change_on, daemon=True)
        worker.start()
        kill_round(seconds)
        stopping.set()
        worker.join()
        certificate, seconds = whole_round()
        compare(certificate)


subprocess.run([tool, "init", "--base", base, "--uuid", "6d1f0c5a-93be-4c27-8d10-2b7f9e4a5c36", "--title", "Feed",
                "--author", "Editor", "--window", "4"], cwd=f"{work}/origin", check=True, stdout=subprocess.DEVNULL)
differs = 0
listener = socket.create_server(("127.0.0.1", base_port))
try:
    threading.Thread(target=proxy, args=(listener,), daemon=True).start()
    play()
except Differs as difference:
    differs = 1
    print(f"DIFFERS: {difference}; the files are in {work}")
finally:
    stopping.set()
    for server in (origin, *relays):
        if server.process:
            server.process.kill()
            server.process.wait()
print(f"{operations} operations, {fetches} fetches, {killed_fetches} of them killed, {starts} starts of relays, "
      f"{killed_relays} relays killed, {whole_relays} ended by themselves, {accepted} certificates accepted, "
      f"{differs} differ")
sys.exit(differs)
PYTHON
status=$?
[ "$status" -ne 0 ] || rm -rf "$work"
exit "$status"

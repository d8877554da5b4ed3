#!/bin/sh
# Serves a feed to hostile clients, and measures how long one good client waits beside them. The good client asks for the
# feed and posts an entry in turn, each on a connection of its own, and compares each reply. The feed has an archive of
# 10 MB, which it also reads once. The kinds of hostile clients are:
# - silent: connects and sends nothing
# - slow: sends a request a byte at a time
# - half: sends a part of a head and then nothing
# - reset: sends a part of a head and resets the connection
# - gets: asks for the feed again and again
# - garbage: sends bytes that are no request, again and again
# - greedy: asks for the large archive and reads nothing of it
# - stuck: has its reply and never closes the connection
# Each kind is there alone, and then all at once. Greedy and stuck clients send a byte now and then, to see whether they were
# cut off. A client that was cut off connects again. Then all is done once more, in half the time, with a server that may
# have 64 descriptors.
# Usage: checks/flood.sh [SECONDS [CLIENTS [PROGRAM]]]. SECONDS, the time of the first round, is 60 if it isn't given. CLIENTS,
# the number of hostile connections at a time, is 200, of which 100 are greedy where no other kind is there. PROGRAM is run in place of the one of this repository. It needs python3.
# It prints a line for each kind: what the good client waited, and the server's memory and descriptors before and after. It
# ends with a line of counts, and with 1 if under some kind
# - the server ended, or a reply was missing or wrong,
# - the worst wait was more than a second longer than without hostile clients,
# - the server kept descriptors, 12 seconds after the hostile clients had gone, or
# - an entry whose 201 was received isn't in the store afterwards.
seconds=${1:-60}
clients=${2:-200}
top=$(CDPATH='' cd -- "$(dirname -- "$0")/.." && pwd) || exit 1
tool=${3:-$top/out/feed_tool}
case $tool in
    /*) ;;
    */*) tool=$(CDPATH='' cd -- "$(dirname -- "$tool")" && pwd)/$(basename -- "$tool") || exit 1 ;;
esac
# The launcher isn't used below, because it looks at all sources at each start.
[ -n "$3" ] || "$top/prove" || exit 1

# The store is in memory where it is, so that no wait is that of a disk.
work=$(mktemp -d -p "$([ -d /dev/shm ] && echo /dev/shm || echo "${TMPDIR:-/tmp}")") || exit 1
mkdir "$work/store" || exit 1

python3 - "$seconds" "$clients" "$tool" "$work" <<'PYTHON'
import os
import random
import re
import resource
import selectors
import shutil
import signal
import socket
import struct
import subprocess
import sys
import time

seconds, clients, tool, work = float(sys.argv[1]), int(sys.argv[2]), sys.argv[3], sys.argv[4]
KINDS = ("silent", "slow", "half", "reset", "gets", "garbage", "greedy", "stuck")
# How many shares of the time all kinds at once have. Each kind alone has one, and so has the good client alone.
ALL_SHARES = 4
FEW_DESCRIPTORS = 64
# How many greedy clients there are without others. The server makes a reply of 10 MB for each, one after the other.
MOST_GREEDY = 100
# the good client's longest wait above that without hostile clients
MORE_SECONDS = 1.0
# when the good client gives a reply up
PATIENCE = 15.0
# how long the server may take to close what hostile clients have left. Its own limit for a request is 10 seconds.
FALL_SECONDS = 12.0
# the good client's pause between two requests
PAUSE = 0.005
# how often slow clients send a byte
TICK = 0.1
LARGE_ENTRIES = 100


class Wrong(Exception):
    """A reply isn't what it has to be."""


# The hostile clients. All of them are in one process.

GET_FEED = b"GET /feed HTTP/1.1\r\nHost: feed.example\r\n\r\n"
GET_ARCHIVE = b"GET /archive/1 HTTP/1.1\r\nHost: feed.example\r\n\r\n"
PART = b"GET /feed HTTP/1.1\r\nHost: feed.example\r\nX-Part: "
SLOW = b"POST /feed HTTP/1.1\r\nHost: feed.example\r\nContent-Length: 60000\r\n\r\n" + b"a" * 60000
GARBAGE = [random.randbytes(random.randint(1, 4096)) for _ in range(64)]
FIRST = {"half": PART, "reset": PART, "gets": GET_FEED, "stuck": GET_FEED, "greedy": GET_ARCHIVE}


class Hostile:
    """A hostile client, which connects again when its connection ends."""

    def __init__(self, kind, number, port, selector):
        self.kind, self.port, self.selector = kind, port, selector
        # It has an address of its own, so that it takes no port away from another client.
        self.address = f"127.0.{2 + number // 250}.{1 + number % 250}"
        self.socket, self.watched, self.opened, self.ticks = None, 0, 0, random.randrange(3)

    def watch(self, events):
        """Has the selector report these events."""
        if self.watched and events:
            self.selector.modify(self.socket, events, self)
        elif events:
            self.selector.register(self.socket, events, self)
        elif self.watched:
            self.selector.unregister(self.socket)
        self.watched = events

    def close(self):
        if self.socket:
            self.watch(0)
            self.socket.close()
            self.socket = None

    def open(self):
        self.close()
        self.socket = socket.socket()
        self.socket.setblocking(False)
        if self.kind == "greedy":
            self.socket.setsockopt(socket.SOL_SOCKET, socket.SO_RCVBUF, 4096)
        if self.kind == "reset":
            self.socket.setsockopt(socket.SOL_SOCKET, socket.SO_LINGER, struct.pack("ii", 1, 0))
        # The port is chosen when the client connects, so one that waits for its last packets can be taken again.
        self.socket.setsockopt(socket.IPPROTO_IP, getattr(socket, "IP_BIND_ADDRESS_NO_PORT", 24), 1)
        self.socket.bind((self.address, 0))
        self.is_connected = self.is_done = False
        self.sent = 0
        self.opened += 1
        try:
            self.socket.connect(("127.0.0.1", self.port))
        except BlockingIOError:
            pass
        except OSError:
            return self.close()
        self.watch(selectors.EVENT_WRITE)

    def begin(self):
        """Does what a client of its kind does when it is connected."""
        self.is_connected = True
        self.watch(selectors.EVENT_READ)
        if self.kind in FIRST:
            self.socket.send(FIRST[self.kind])
        if self.kind == "garbage":
            self.socket.send(random.choice(GARBAGE))
            self.socket.shutdown(socket.SHUT_WR)
        elif self.kind == "reset" and random.randrange(2):
            # the others are reset at the next tick
            self.open()
        elif self.kind == "greedy":
            self.is_done = True
            self.watch(0)

    def read(self):
        if self.socket.recv(65536):
            return
        if self.kind == "stuck":
            self.is_done = True
            self.watch(0)
        else:
            self.open()

    def ready(self):
        """Goes on after the selector's report."""
        if not self.is_connected and self.socket.getsockopt(socket.SOL_SOCKET, socket.SO_ERROR):
            # The next tick tries again.
            return self.close()
        try:
            if self.is_connected:
                self.read()
            else:
                self.begin()
        except OSError:
            self.open()

    def tick(self):
        self.ticks += 1
        if not self.socket:
            return self.open()
        if not self.is_connected:
            return
        try:
            if self.kind == "slow":
                self.sent += self.socket.send(SLOW[self.sent : self.sent + 1])
            elif self.kind == "reset":
                self.open()
            elif self.is_done and self.ticks % 3 == 0:
                self.socket.send(b"a")
        except BlockingIOError:
            pass
        except OSError:
            self.open()


def besiege(kinds, server, stop):
    """Keeps hostile clients going until `stop` ends. Returns how many connections they made, and how many descriptors the
    server had at most."""
    selector = selectors.DefaultSelector()
    selector.register(stop, selectors.EVENT_READ)
    count = min(clients, MOST_GREEDY) if kinds == ("greedy",) else clients
    chosen = [kinds[number % len(kinds)] for number in range(count)] if kinds else []
    hostile = [Hostile(kind, number, server.port, selector) for number, kind in enumerate(chosen)]
    next_tick, most = 0, 0
    while True:
        if time.monotonic() >= next_tick:
            next_tick = time.monotonic() + TICK
            most = max(most, server.descriptors() or 0)
            for client in hostile:
                client.tick()
        for key, _ in selector.select(max(0, next_tick - time.monotonic())):
            if key.data is None:
                return sum(client.opened for client in hostile), most
            key.data.ready()


class Siege:
    """Hostile clients in a process of their own, which ends with this one."""

    def __init__(self, kinds, server):
        stop, self.stop = os.pipe()
        self.told, tell = os.pipe()
        self.process = os.fork()
        if self.process == 0:
            signal.signal(signal.SIGTERM, signal.SIG_DFL)
            os.close(self.stop)
            try:
                opened, most = besiege(kinds, server, stop)
                os.write(tell, f"{opened} {most}".encode())
            except Exception as error:
                print(f"the hostile clients: {error!r}", file=sys.stderr)
            finally:
                os._exit(0)
        os.close(stop)
        os.close(tell)

    def end(self):
        """Ends them, and returns what `besiege` did."""
        os.close(self.stop)
        with os.fdopen(self.told) as told:
            opened, most = told.read().split()
        os.waitpid(self.process, 0)
        return int(opened), int(most)


# The server

def free_port():
    """Returns a port below those that the system gives to clients. One of them may connect to itself."""
    while True:
        port = random.randrange(10000, 30000)
        with socket.socket() as probe:
            try:
                probe.bind(("127.0.0.1", port))
                return port
            except OSError:
                pass


class Server:
    """The program, which serves the store."""

    running = None

    def __init__(self, descriptors):
        self.port = free_port()
        words = [tool, "serve", "--listen", f"127.0.0.1:{self.port}", "--requests", "1000000"]

        def limit():
            if descriptors:
                resource.setrlimit(resource.RLIMIT_NOFILE, (descriptors, descriptors))

        self.process = subprocess.Popen(words, cwd=f"{work}/store", stdin=subprocess.DEVNULL, stdout=subprocess.DEVNULL,
                                        preexec_fn=limit)
        Server.running = self
        while self.is_up():
            try:
                return socket.create_connection(("127.0.0.1", self.port)).close()
            except ConnectionRefusedError:
                time.sleep(0.01)
        sys.exit(f"the server doesn't start: status {self.process.returncode}")

    def is_up(self):
        return self.process.poll() is None

    def descriptors(self):
        """Returns the number of its descriptors, or `None` if it ended."""
        try:
            return len(os.listdir(f"/proc/{self.process.pid}/fd"))
        except OSError:
            return None

    def memory(self, name):
        """Returns `VmRSS` or `VmHWM` in kB, or `None` if it ended."""
        with open(f"/proc/{self.process.pid}/status") as lines:
            found = re.search(rf"^{name}:\s*(\d+) kB$", lines.read(), re.MULTILINE)
        return int(found[1]) if found else None

    def stop(self):
        self.process.terminate()
        self.process.wait()
        Server.running = None


# The good client

ITEM = re.compile(rb"<id>urn:uuid:6d1f0c5a-93be-8c27-8000-([0-9a-f]{12})</id><title>([^<]*)</title>")
ENTRY = '<entry xmlns="http://www.w3.org/2005/Atom"><title>{}</title><content>{}</content></entry>'


def entries(text):
    """Returns the titles of a text's entries by number, in their order."""
    return {int(number, 16): title.decode() for number, title in ITEM.findall(text)}


class Good:
    """The good client. It knows the title of each entry whose 201 it has received."""

    def __init__(self):
        # `unsure` has the titles whose reply it gave up
        self.titles, self.unsure, self.archive, self.compared, self.waits, self.lost = {}, set(), None, 0, [], 0

    def ask(self, method, path, body=b""):
        """Returns head and body of a reply, which has to have this status, and keeps how long it took."""
        head = f"{method} {path} HTTP/1.1\r\nHost: feed.example\r\nContent-Length: {len(body)}\r\n\r\n".encode()
        began, reply = time.monotonic(), bytearray()
        try:
            with socket.socket() as client:
                client.settimeout(PATIENCE)
                client.connect(("127.0.0.1", Server.running.port))
                client.sendall(head + body)
                while piece := client.recv(1 << 20):
                    reply += piece
                    client.settimeout(max(0.001, began + PATIENCE - time.monotonic()))
        except OSError as error:
            raise Wrong(f"{method} {path}: {error} after {time.monotonic() - began:.1f} seconds and {len(reply)} bytes")
        finally:
            self.waits.append(time.monotonic() - began)
        head, _, body = bytes(reply).partition(b"\r\n\r\n")
        status = {"GET": b"200 OK", "POST": b"201 Created"}[method]
        if not head.startswith(b"HTTP/1.1 " + status) or f"\r\nContent-Length: {len(body)}\r\n".encode() not in head:
            raise Wrong(f"{method} {path}: {head[:60]} and {len(body)} bytes")
        self.compared += 1
        return head, body

    def compare(self, shown):
        """Compares entries with those that were acknowledged."""
        for number, title in shown.items():
            if self.titles.get(number, title) != title or number not in self.titles and title not in self.unsure:
                raise Wrong(f"member {number} has the title {title[:40]}")

    def read_feed(self):
        _, body = self.ask("GET", "/feed")
        span = re.search(rb'<sp:span first="(\d+)" last="(\d+)"/>', body)
        if not span:
            raise Wrong(f"the feed has no span: {body[:200]}")
        first, last, shown = int(span[1]), int(span[2]), entries(body)
        if last < max(self.titles, default=0) or list(shown) != list(range(last, first - 1, -1)):
            raise Wrong(f"the feed has the span {first} to {last}, and {len(self.titles)} entries were acknowledged")
        self.compare(shown)

    def post(self, content="good"):
        title = f"Entry {time.time_ns()}"
        self.unsure.add(title)
        head, body = self.ask("POST", "/feed", ENTRY.format(title, content).encode())
        shown = entries(body)
        number = max(shown, default=0)
        if shown != {number: title} or number in self.titles or number > len(self.titles) + len(self.unsure) \
                or f"\r\nLocation: http://feed.example/member/{number}\r\n".encode() not in head:
            raise Wrong(f"POST: {head} {body[:200]}")
        self.unsure.remove(title)
        self.titles[number] = title

    def read_archive(self):
        _, body = self.ask("GET", "/archive/1")
        if self.archive not in (None, body):
            raise Wrong(f"the archive has {len(body)} bytes, and {len(self.archive)} before")
        self.archive = body

    def attempt(self, act):
        """Returns what was wrong with a reply."""
        try:
            act()
            return []
        except Wrong as fault:
            return [str(fault)]

    def go_on(self, share):
        """Asks and posts for this time. Returns what it waited, in order of length, and what was wrong with replies."""
        self.waits, faults = [], []
        ends, is_over = time.monotonic() + share, False
        while not is_over:
            faults += self.attempt(self.read_feed) + self.attempt(self.post)
            time.sleep(PAUSE)
            is_over = time.monotonic() > ends or not Server.running.is_up()
        return sorted(self.waits), faults + self.attempt(self.read_archive)

    def look_for_all(self):
        """Compares the store, which nobody serves, with what was acknowledged. Returns what is wrong."""
        pile = subprocess.run([tool, "show", "pile"], cwd=f"{work}/store", stdin=subprocess.DEVNULL, stdout=subprocess.PIPE)
        shown = entries(pile.stdout)
        missing = [number for number, title in self.titles.items() if shown.get(number) != title]
        self.lost += len(missing)
        if missing:
            return [f"{len(missing)} acknowledged entries aren't in the store, the first one is member {missing[0]}"]
        return self.attempt(lambda: self.compare(shown))


def printed(waits):
    """Returns the median, the 99th percentile and the worst of sorted waits."""
    chosen = (("median", waits[len(waits) // 2]), ("99%", waits[len(waits) * 99 // 100]), ("worst", waits[-1]))
    return ", ".join(f"{name} {wait * 1e3:.1f} ms" for name, wait in chosen)


def fall(server, held):
    """Waits until a server has no more descriptors than it held before. Returns what is wrong."""
    ends = time.monotonic() + FALL_SECONDS
    while server.is_up() and (server.descriptors() or 0) > held:
        if time.monotonic() > ends:
            return [f"the server keeps {server.descriptors()} descriptors, and held {held} before"]
        time.sleep(0.02)
    return [] if server.is_up() else [f"the server ended with {server.process.returncode}"]


def try_kinds(good, label, kinds, share, descriptors, base):
    """Serves hostile clients of these kinds. Returns the worst wait, how many connections they made, and what is wrong."""
    server = Server(descriptors)
    faults = good.attempt(good.read_feed)
    time.sleep(0.3)
    held, before = server.descriptors(), server.memory("VmRSS")
    siege = Siege(kinds, server)
    time.sleep(0.5)
    waits, more = good.go_on(share)
    faults += more
    if faults:
        faults = [f"{len(faults)} replies were missing or wrong, the first one: {faults[0]}"]
    opened, most = siege.end()
    faults += fall(server, held)
    after = "ended"
    if server.is_up():
        after = f"{server.memory('VmRSS')} kB, at most {server.memory('VmHWM')} kB, {server.descriptors()} descriptors"
    server.stop()
    faults += good.look_for_all()
    if base is not None and waits[-1] > base + MORE_SECONDS:
        faults.append(f"the worst wait is {waits[-1]:.1f} seconds, and {base:.3f} without hostile clients")
    print(f"{label}: {len(waits)} waits, {printed(waits)}; {opened} hostile connections; server before: {before} kB, {held} "
          f"descriptors; at most {most} descriptors; after: {after}", flush=True)
    for fault in faults:
        print(f"FAILED: {label}: {fault}", flush=True)
    return waits[-1], opened, faults


def make_store(good):
    """Makes a store whose first archive has 10 MB."""
    words = ["init", "--base", "http://feed.example/", "--uuid", "6d1f0c5a-93be-4c27-8d10-2b7f9e4a5c36", "--title", "Feed",
             "--author", "Editor", "--window", "100"]
    subprocess.run([tool, *words], cwd=f"{work}/store", stdout=subprocess.DEVNULL, check=True)
    server = Server(0)
    for _ in range(LARGE_ENTRIES):
        # each `&` becomes five bytes
        good.post("<![CDATA[" + "a&" * 17000 + "]]>")
    good.post()
    good.read_archive()
    server.stop()


def play(good):
    """Tries all kinds, and returns how many failed."""
    make_store(good)
    print(f"the archive has {len(good.archive)} bytes, at most {clients} hostile connections at a time", flush=True)
    tried, connections, failed = 0, 0, 0
    parts = [("none", (), 1)] + [(kind, (kind,), 1) for kind in KINDS] + [("all", KINDS, ALL_SHARES)]
    share = seconds / sum(shares for _, _, shares in parts)
    for part, descriptors, suffix in ((1, 0, ""), (0.5, FEW_DESCRIPTORS, f", {FEW_DESCRIPTORS} descriptors")):
        base = None
        for name, kinds, shares in parts:
            worst, opened, faults = try_kinds(good, name + suffix, kinds, shares * share * part, descriptors, base)
            base = worst if base is None else base
            tried, connections, failed = tried + 1, connections + opened, failed + bool(faults)
    print(f"{tried} tried, {connections} hostile connections, {good.compared} replies compared, {len(good.titles)} entries "
          f"acknowledged, {good.lost} lost, {failed} failed")
    return failed


signal.signal(signal.SIGTERM, lambda *_: sys.exit(1))
good = Good()
try:
    failed = play(good)
finally:
    if Server.running:
        Server.running.process.kill()
        Server.running.process.wait()
    if good.lost:
        print(f"the files are in {work}", file=sys.stderr)
    else:
        shutil.rmtree(work)
sys.exit(1 if failed else 0)
PYTHON

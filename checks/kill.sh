#!/bin/sh
# Posts entries to the built program, kills it with SIGKILL at a random moment, starts it again on the same files, and
# compares: each entry whose 201 was received is there with its bytes, there is at most one entry more, and each archive
# that was received before is the same to the byte. Windows of 4 operations make it seal often.
# In each round it also kills two commands on files of their own:
# - `apply`, in the middle of its lines. It acknowledges them at its end alone, by the document that it prints. So the store
#   has to open to the first lines, any number of them, with the same archives and timestamps as before, and to all lines
#   that an earlier run left. The next `apply` goes on from there.
# - `init`. It leaves no store, and a second `init` makes one, or it leaves a whole one.
# Usage: checks/kill.sh ROUNDS [PROGRAM]. PROGRAM is run in place of the one of this repository. It prints a line of counts
# and ends with 0 if nothing was lost. It ends at the first loss with 1, and leaves the files. It needs python3.
# A killed program leaves all that it wrote, synced or not. So this checks the order of its writes, and not its syncs.
rounds=${1:?usage: checks/kill.sh ROUNDS [PROGRAM]}
top=$(CDPATH='' cd -- "$(dirname -- "$0")/.." && pwd) || exit 1
tool=${2:-$top/out/feed_tool}
case $tool in
    /*) ;;
    */*) tool=$(CDPATH='' cd -- "$(dirname -- "$tool")" && pwd)/$(basename -- "$tool") || exit 1 ;;
esac
# The launcher isn't used below, because it looks at all sources at each start.
[ -n "$2" ] || "$top/prove" || exit 1

work=$(mktemp -d) || exit 1
(cd "$work" && "$tool" init --base http://feed.example/ --uuid 6d1f0c5a-93be-4c27-8d10-2b7f9e4a5c36 --title Feed \
    --author Editor --window 4) >/dev/null || exit 1

python3 - "$rounds" "$tool" "$work" <<'PYTHON'
import os
import random
import re
import shutil
import signal
import socket
import subprocess
import sys
import threading
import time

rounds, tool, work = int(sys.argv[1]), sys.argv[2], sys.argv[3]
# what was received, and the titles that were sent. Entry n is at place n - 1, and is None if its 201 was cut.
members, titles, archives = [], [], []
more = compared = 0
# A server is killed within the time of some 20 posts, so that a round is short on any disk.
posts, seconds = 1, 0.01
# how long the last start took, and its process
load, server = 0.02, None


class Lost(Exception):
    """Something that was acknowledged isn't there, or isn't the same."""


def free_port():
    """Returns a port below those that the system gives to clients. One of them may connect to itself."""
    while True:
        port = random.randrange(10000, 30000)
        with socket.socket() as probe:
            try:
                probe.bind(("127.0.0.1", port))
                return port
            except OSError:
                pass


port = free_port()


def ask(method, path, body=b""):
    """Returns status, head and body of the reply. The body is None if it was cut, and the status 0 if the head was."""
    head = f"{method} {path} HTTP/1.1\r\nHost: feed.example\r\nContent-Length: {len(body)}\r\n\r\n"
    reply = b""
    try:
        with socket.create_connection(("127.0.0.1", port), timeout=60) as client:
            client.sendall(head.encode() + body)
            while piece := client.recv(65536):
                reply += piece
    except ConnectionError:
        pass
    except OSError as error:
        raise Lost(f"{method} {path}: {error}")
    head, end, body = reply.partition(b"\r\n\r\n")
    length = re.search(rb"\r\nContent-Length: (\d+)", head)
    if not end or not length:
        # A status line that came whole acknowledges too.
        line = re.match(rb"HTTP/1\.1 (\d{3}) [^\r]*\r\n", reply)
        return int(line[1]) if line else 0, head, None
    return int(head[9:12]), head, body if len(body) == int(length[1]) else None


def start():
    global server
    words = [tool, "serve", "--listen", f"127.0.0.1:{port}", "--requests", "100000"]
    server = subprocess.Popen(words, cwd=work, stdin=subprocess.DEVNULL, stdout=subprocess.PIPE, stderr=subprocess.STDOUT)


def kill():
    """Kills the server, which may not have ended before by itself."""
    server.kill()
    printed, _ = server.communicate()
    if server.returncode != -signal.SIGKILL:
        raise Lost(f"the server ended with {server.returncode}: {printed.decode(errors='replace').strip()}")


def start_and_wait():
    """Starts the server, and returns when it listens."""
    global load
    began = time.monotonic()
    start()
    while server.poll() is None and time.monotonic() < began + 60:
        try:
            socket.create_connection(("127.0.0.1", port), timeout=60).close()
            load = time.monotonic() - began
            return
        except ConnectionRefusedError:
            time.sleep(0.002)
    kill()
    raise Lost("the server doesn't listen")


def fetch(path):
    status, _, body = ask("GET", path)
    if status != 200 or body is None:
        raise Lost(f"GET {path}: status {status}")
    return body


def compare_member(number):
    body = fetch(f"/member/{number}")
    if members[number - 1] is None:
        if f"<title>{titles[number - 1]}</title>".encode() not in body:
            raise Lost(f"member {number} isn't the entry that was sent")
        members[number - 1] = body
    elif body != members[number - 1]:
        raise Lost(f"member {number} has other bytes")


def compare_archive(number):
    global compared
    compared += 1
    if fetch(f"/archive/{number}") != archives[number - 1]:
        raise Lost(f"archive {number} has other bytes")


def some(count, new):
    """Returns the numbers from `new` to `count`, and at most ten older ones."""
    old = range(1, min(new, count + 1))
    return list(range(new, count + 1)) + random.sample(old, min(10, len(old)))


def compare(last_sent, new_member, new_archive):
    """Compares what the server has with what was received. `last_sent` is a title whose reply wasn't seen."""
    global more
    span = re.search(rb'<sp:span first="\d+" last="(\d+)"/>', fetch("/feed"))
    version = int(span[1]) if span else -1
    if last_sent is not None and version == len(members) + 1:
        more += 1
        members.append(None)
        titles.append(last_sent)
    if version != len(members):
        raise Lost(f"the feed has {version} entries, and {len(members)} were acknowledged")
    for number in some(len(members), new_member):
        compare_member(number)
    for number in some(len(archives), new_archive):
        compare_archive(number)
    while len(archives) < (len(members) - 1) // 4:
        archives.append(fetch(f"/archive/{len(archives) + 1}"))


def post_until_killed(title):
    """Posts entries until the server is gone, and returns the last title, whose reply didn't come."""
    global posts, seconds
    timer = threading.Timer(random.uniform(0, 20 * seconds / posts), server.kill)
    timer.start()
    while True:
        text = f"{title} {len(members) + 1}"
        content = "a&lt;b " * random.randrange(300)
        entry = f'<entry xmlns="http://www.w3.org/2005/Atom"><title>{text}</title><content>{content}</content></entry>'
        began = time.monotonic()
        status, head, body = ask("POST", "/feed", entry.encode())
        if status == 0:
            timer.join()
            return text
        if status != 201:
            raise Lost(f"POST: status {status}: {body}")
        number = len(members) + 1
        if body is not None and f"\r\nLocation: http://feed.example/member/{number}\r\n".encode() not in head:
            raise Lost(f"member {number} has another address: {head}")
        members.append(body)
        titles.append(text)
        posts, seconds = posts + 1, seconds + time.monotonic() - began
        if len(archives) < (len(members) - 1) // 4:
            status, _, body = ask("GET", f"/archive/{len(archives) + 1}")
            if body is not None and status != 200:
                raise Lost(f"archive {len(archives) + 1}: status {status}")
            # If the server was killed, the archive is received after the next start.
            archives.extend([body] if body is not None else [])


# `apply` and `init`, which are killed on stores of their own.

BASE = "http://feed.example/"
FEED_ID = "6d1f0c5a-93be-4c27-8d10-2b7f9e4a5c36"
INIT = ["init", "--base", BASE, "--uuid", FEED_ID, "--title", "Feed", "--author", "Editor", "--window", "4"]
STAMP = r"\d{4}-\d\d-\d\dT\d\d:\d\d:\d\d(?:\.\d{3})?Z"
OPEN_TAG = (
    '<feed xmlns="http://www.w3.org/2005/Atom" xmlns:fh="http://purl.org/syndication/history/1.0"'
    ' xmlns:at="http://purl.org/atompub/tombstones/1.0" xmlns:app="http://www.w3.org/2007/app"'
    ' xmlns:sp="urn:archived-feed:span:1">'
)
# How many lines an `apply` is given.
LINES = 20


def ran(folder, words, given=b""):
    """Runs the program to its end, and returns its status and what it printed."""
    done = subprocess.run([tool, *words], cwd=folder, input=given, stdout=subprocess.PIPE, stderr=subprocess.STDOUT)
    return done.returncode, done.stdout


class Plan:
    """Lines of `apply`, all of which fit those before, and the documents of the feed after each of them."""

    def __init__(self):
        # each operation: its line, what it does, the number of its member, and its title or window
        self.operations = []
        self.live, self.made = [], 0
        # the timestamps that were seen, by operation. Operation 0 is `init`.
        self.seen = {}

    def lengthen(self):
        """Adds a line."""
        kind = random.choice(("add", "add", "change", "change", "remove", "title", "window"))
        text = f"Line {len(self.operations) + 1}" + " a&b<c>" * random.choice((0, 1, 20))
        if kind == "title":
            self.operations.append((f"title {text}", kind, 0, text))
        elif kind == "window":
            window = random.randrange(2, 7)
            self.operations.append((f"window {window}", kind, 0, window))
        elif kind == "add" or not self.live:
            self.made += 1
            self.live.append(self.made)
            self.operations.append((f"add {text}", "entry", self.made, text))
        elif kind == "change":
            number = random.choice(self.live)
            self.operations.append((f"change {number} {text}", "entry", number, text))
        else:
            number = self.live.pop(random.randrange(len(self.live)))
            self.operations.append((f"remove {number}", "tombstone", number, ""))

    def last_setting(self, kind, count, default):
        """The title or the window after the first `count` operations."""
        return next((it[3] for it in reversed(self.operations[:count]) if it[1] == kind), default)

    def ends(self, count):
        """The last operations of the full windows among the first `count` operations, after a 0."""
        ends = [0]
        while (end := ends[-1] + self.last_setting("window", ends[-1], 4)) <= count:
            ends.append(end)
        return ends

    def document(self, count, archive=None):
        """The subscription document after `count` operations, or an archive, in parts. A number stands for the timestamp
        of this operation."""
        ends = self.ends(count)
        sealed = sum(end < count for end in ends[1:])
        prev = archive - 1 if archive else sealed
        first, last = ends[prev] + 1, ends[archive] if archive else count
        title = escaped(self.last_setting("title", last, "Feed"))
        own = f"archive/{archive}" if archive else "feed"
        parts = [f'<?xml version="1.0" encoding="utf-8"?>\n{OPEN_TAG}\n<id>urn:uuid:{FEED_ID}</id>\n']
        parts += [f"<title>{title}</title>\n<updated>", last, "</updated>\n<author><name>Editor</name></author>\n"]
        parts += [f'<link rel="self" href="{BASE}{own}"/>\n']
        parts += [f'<link rel="current" href="{BASE}feed"/>\n'] if archive else []
        parts += [f'<link rel="prev-archive" href="{BASE}archive/{prev}"/>\n'] if prev else []
        parts += [f'<link rel="next-archive" href="{BASE}archive/{archive + 1}"/>\n<fh:archive/>\n'] if archive else []
        parts += [f'<sp:span first="{first}" last="{last}"/>\n']
        named = set()
        for at in range(last, first - 1, -1):
            _, kind, number, text = self.operations[at - 1]
            if kind in ("entry", "tombstone") and number not in named:
                named.add(number)
                parts += self.item(at, kind, number, text)
        return [*parts, "</feed>\n"]

    def item(self, at, kind, number, text):
        name = f"urn:uuid:6d1f0c5a-93be-8c27-8000-{number:012x}"
        if kind == "tombstone":
            return [f'<at:deleted-entry ref="{name}" when="', at, '"/>\n']
        return [
            f"<entry><id>{name}</id><title>{escaped(text)}</title><updated>", at, "</updated><app:edited>", at,
            f'</app:edited><link rel="edit" href="{BASE}member/{number}"/><content></content></entry>\n',
        ]  # fmt: skip

    def compare(self, document, count, archive=None):
        """Compares a document, and keeps its timestamps."""
        pattern, new = "", set()
        for part in self.document(count, archive):
            if isinstance(part, str):
                pattern += re.escape(part)
            elif part in self.seen:
                pattern += re.escape(self.seen[part])
            elif part in new:
                pattern += f"(?P=at{part})"
            else:
                pattern += f"(?P<at{part}>{STAMP})"
                new.add(part)
        found = re.fullmatch(pattern, document.decode(errors="replace"))
        if not found:
            name = f"archive {archive}" if archive else "the feed"
            raise Lost(f"{name} at version {count} is another one: {document.decode(errors='replace')}")
        self.seen |= {at: found[f"at{at}"] for at in new}


def escaped(text):
    return str(text).replace("&", "&amp;").replace("<", "&lt;").replace(">", "&gt;")


def read_pile(printed):
    """Returns the documents of a pile with their addresses."""
    documents, at = [], len(b"pile 1\n")
    while at < len(printed):
        end = printed.index(b"\n", at)
        address, length = printed[at:end].split(b" ")
        documents.append((address.decode(), printed[end + 1 : end + 1 + int(length)]))
        at = end + 2 + int(length)
    return documents


class Applied:
    """A store on which `apply` is killed."""

    def __init__(self):
        self.folder, self.plan, self.version, self.archives = f"{work}/apply", Plan(), 0, []
        # how long a line takes, the load of the store included
        self.seconds, self.kills, self.kept = 0.001, 0, 0
        os.mkdir(self.folder)
        ended = ran(self.folder, INIT)
        if ended != (0, b"ready\n"):
            raise Lost(f"init: {ended}")

    def compare(self, least, most):
        """Compares the store with the first lines, at least and at most so many."""
        global compared
        status, printed = ran(self.folder, ["show", "pile"])
        documents = read_pile(printed) if status == 0 else [("", printed)]
        span = re.search(rb'<sp:span first="\d+" last="(\d+)"/>', documents[0][1])
        version = int(span[1]) if status == 0 and span else -1
        if not least <= version <= most:
            raise Lost(f"the store has {version} lines, of {least} to {most}: status {status}, {documents[0][1][:80]}")
        sealed = len(documents) - 1
        names = ["feed", *(f"archive/{j}" for j in range(sealed, 0, -1))]
        if [address for address, _ in documents] != [BASE + name for name in names]:
            raise Lost(f"the pile has other addresses: {[address for address, _ in documents]}")
        if sealed != sum(end < version for end in self.plan.ends(version)[1:]) or sealed < len(self.archives):
            raise Lost(f"version {version} has {sealed} archives")
        found = [document for _, document in documents[:0:-1]]
        if found[: len(self.archives)] != self.archives:
            raise Lost("an archive has other bytes")
        compared += len(found)
        for number in range(len(self.archives) + 1, sealed + 1):
            self.plan.compare(found[number - 1], version, number)
        self.plan.compare(documents[0][1], version)
        self.version, self.archives = version, found
        moments = [self.plan.seen[at][:-1] for at in sorted(self.plan.seen)]
        if any(later <= earlier for earlier, later in zip(moments, moments[1:])):
            raise Lost("the timestamps don't rise")
        return documents[0][1]

    def rest(self):
        """The next lines, as bytes."""
        while len(self.plan.operations) < self.version + LINES:
            self.plan.lengthen()
        return b"".join(line.encode() + b"\n" for line, *_ in self.plan.operations[self.version : self.version + LINES])

    def apply_whole(self):
        """Applies the next lines, without a kill."""
        began = time.monotonic()
        status, printed = ran(self.folder, ["apply"], self.rest())
        self.seconds = (time.monotonic() - began) / LINES
        if status != 0:
            raise Lost(f"apply ended with {status}: {printed[:80]}")
        all_lines = self.version + LINES
        if self.compare(all_lines, all_lines) != printed:
            raise Lost("apply printed another document")

    def apply_killed(self):
        """Kills `apply`. It has been given all of the next lines, or some of them up to the middle of a line."""
        given, old = self.rest(), self.version
        is_cut = random.randrange(3) == 0
        sent = given[: random.randrange(len(given))] if is_cut else given
        process = subprocess.Popen([tool, "apply"], cwd=self.folder, stdin=subprocess.PIPE, stdout=subprocess.PIPE,
                                   stderr=subprocess.STDOUT)  # fmt: skip
        try:
            process.stdin.write(sent)
            process.stdin.flush()
            if not is_cut:
                process.stdin.close()
        except BrokenPipeError:
            # It has ended, and its status says how.
            pass
        time.sleep(random.uniform(0, 1.2 * self.seconds * LINES))
        process.kill()
        printed = process.stdout.read()
        process.wait()
        if process.returncode not in (-signal.SIGKILL, 0) or (is_cut and process.returncode == 0):
            raise Lost(f"apply ended with {process.returncode}: {printed[:80]}")
        # It prints only if all lines were applied.
        is_acknowledged = bool(printed) or process.returncode == 0
        most = old + sent.count(b"\n")
        self.compare(most if is_acknowledged else old, most)
        self.kills += process.returncode != 0
        self.kept += self.version - old if process.returncode != 0 else 0


class Made:
    """Folders in which `init` is killed."""

    def __init__(self):
        self.folder, self.kills, self.left = f"{work}/init", 0, 0
        os.mkdir(self.folder)
        process = self.start()
        began = time.monotonic()
        self.wait_for_file(process)
        opened = time.monotonic()
        printed, _ = process.communicate()
        # how long it took before it made its first file, and after that
        self.before, self.after = opened - began, time.monotonic() - opened
        if (process.returncode, printed) != (0, b"ready\n"):
            raise Lost(f"init ended with {process.returncode}: {printed[:80]}")

    def start(self):
        return subprocess.Popen([tool, *INIT], cwd=self.folder, stdin=subprocess.DEVNULL, stdout=subprocess.PIPE,
                                stderr=subprocess.STDOUT)  # fmt: skip

    def wait_for_file(self, process):
        while process.poll() is None and not os.listdir(self.folder):
            pass

    def init_killed(self):
        """Kills `init` in an empty folder, and then makes a second one and applies a line."""
        shutil.rmtree(self.folder)
        os.mkdir(self.folder)
        process = self.start()
        if random.randrange(4) == 0:
            time.sleep(random.uniform(0, self.before))
        else:
            self.wait_for_file(process)
            time.sleep(random.uniform(0, self.after))
        process.kill()
        printed, _ = process.communicate()
        if process.returncode not in (-signal.SIGKILL, 0) or (process.returncode == 0 and printed != b"ready\n"):
            raise Lost(f"init ended with {process.returncode}: {printed[:80]}")
        status, found = ran(self.folder, ["show", "feed"])
        is_made = status == 0
        if not is_made and (printed or (status, found) != (6, b"not init\n")):
            raise Lost(f"a killed init printed {printed}, and the folder opens with {status}: {found[:80]}")
        again = ran(self.folder, INIT)
        if again != ((6, b"already init\n") if is_made else (0, b"ready\n")):
            raise Lost(f"a second init: {again}")
        plan = Plan()
        plan.compare(ran(self.folder, ["show", "feed"])[1], 0)
        plan.lengthen()
        plan.compare(ran(self.folder, ["apply"], plan.operations[0][0].encode())[1], 1)
        self.kills += process.returncode != 0
        self.left += is_made and process.returncode != 0


def play():
    last_sent, new_member, new_archive = None, 1, 1
    for count in range(1, rounds + 1):
        if random.randrange(4) == 0:
            # A load writes too, so some are killed.
            start()
            time.sleep(random.uniform(0, load))
            kill()
        start_and_wait()
        compare(last_sent, new_member, new_archive)
        new_member, new_archive = len(members) + 1, len(archives) + 1
        last_sent = post_until_killed(f"round {count}")
        kill()
    start_and_wait()
    compare(last_sent, 1, 1)


def play_commands():
    """Kills `apply` and `init`, as often as the server."""
    for count in range(rounds):
        if count % 10 == 0:
            applied.apply_whole()
        applied.apply_killed()
        made.init_killed()
    applied.apply_whole()


lost = 0
applied = made = None
try:
    play()
    applied, made = Applied(), Made()
    play_commands()
except Lost as loss:
    lost = 1
    print(f"LOST: {loss}; the files are in {work}")
finally:
    if server is not None:
        server.kill()
        server.wait()
kills = [applied.kills, applied.kept] if applied else [0, 0]
kills += [made.kills, made.left] if made else [0, 0]
print(f"{rounds} rounds, {len(members) - more} acknowledged, {more} seen more, {compared} archives compared, "
      f"{kills[0]} applies killed after {kills[1]} lines, {kills[2]} inits killed with {kills[3]} stores made, {lost} lost")
sys.exit(lost)
PYTHON
status=$?
[ "$status" -ne 0 ] || rm -rf "$work"
exit "$status"

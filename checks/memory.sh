#!/bin/sh
# Refuses memory to the built program. In each run a preloaded library, `refuse_memory.c`, refuses one request for memory
# and grants all others: the first request, in the next run the second one, until a run makes fewer. It does so for `init`,
# `apply`, `show feed`, `show pile`, `scrub`, `scrub --repair` of a damaged archive, a POST to `serve` that seals an archive,
# three runs of `mirror`, `audit` and `drill`.
# Each run has to end in one of these ways:
# - As if nothing was refused: the status, the output, the reply and the files are right.
# - No memory: status 5, or the reply 503. A store is as before. `apply` and `mirror` keep the lines and the documents
#   that they took before. A run that is ended at the same request says how many.
# - A counted fault of an object that found no memory: status 4 of the files, 7 of the port or of a fetch, or a connection
#   that is cut. A store is as before, or has the operation if its reply was begun as 201 or was 500. A mirror as above.
# What is right is made here from the formats, and not by the program: documents, piles, replies, certificate and summary.
# After each run the program opens the files without a refusal, and goes on from them. Some runs are made twice.
# Usage: checks/memory.sh [PROGRAM]. PROGRAM is run in place of the one of this repository. With STEP=K in the environment
# it refuses each K-th request alone. With ONLY='NAME N' it makes one run, of the name and the number that a loss was
# printed with. With ONLY=NAME it makes the runs of one command. It prints a line for each command, and then one of counts.
# It ends with 1 if there is a loss, and leaves the files of each one. It needs gcc and python3.
top=$(CDPATH='' cd -- "$(dirname -- "$0")/.." && pwd) || exit 1
tool=${1:-$top/out/feed_tool}
case $tool in
    /*) ;;
    */*) tool=$(CDPATH='' cd -- "$(dirname -- "$tool")" && pwd)/$(basename -- "$tool") || exit 1 ;;
esac
# The launcher isn't used below, because it looks at all sources at each start.
[ -n "$1" ] || "$top/prove" || exit 1

# The files are written thousands of times, so they are in memory where it is.
work=$(mktemp -d -p "$([ -d /dev/shm ] && echo /dev/shm || echo "${TMPDIR:-/tmp}")") || exit 1
# Without -fno-builtin the compiler may take the functions of the library for those of C.
gcc -O2 -Wall -Wextra -fno-builtin -shared -fPIC -o "$work/refuse.so" "$top/checks/refuse_memory.c" || exit 1

python3 - "$tool" "$work" "${STEP:-1}" "${ONLY:-}" <<'PYTHON'
import collections
import concurrent.futures
import hashlib
import os
import queue
import random
import shutil
import socket
import subprocess
import sys
import tempfile
import threading
import time

tool, work, step, only = sys.argv[1], sys.argv[2], int(sys.argv[3]), sys.argv[4].split()
WORKERS = os.cpu_count()
# Each run with one of these numbers is made twice.
TWICE = 20
SECONDS = 60


class Lost(Exception):
    """A run doesn't end in one of the ways that it may."""


# What is right, by the formats. The clock stands, so operation n has the timestamp n milliseconds after `init`.

FEED_ID = "6d1f0c5a-93be-4c27-8d10-2b7f9e4a5c36"
WINDOW = 4
DECLARATION = '<?xml version="1.0" encoding="utf-8"?>\n'
AUTHOR = "<author><name>Editor</name></author>"
FEED_TAG = (
    '<feed xmlns="http://www.w3.org/2005/Atom" xmlns:fh="http://purl.org/syndication/history/1.0"'
    ' xmlns:at="http://purl.org/atompub/tombstones/1.0" xmlns:app="http://www.w3.org/2007/app"'
    ' xmlns:sp="urn:archived-feed:span:1">'
)


def stamp(operation):
    return "2023-11-14T22:13:20" + (f".{operation:03}" if operation else "") + "Z"


def inner_of(base, number, title, updated, author=""):
    """The inner text of an entry that has a title alone."""
    return (
        f"<id>urn:uuid:6d1f0c5a-93be-8c27-8000-{number:012x}</id><title>{title}</title><updated>{updated}</updated>"
        f'<app:edited>{updated}</app:edited>{author}<link rel="edit" href="{base}member/{number}"/><content></content>'
    )


def member_of(base, number, title, updated):
    tag = '<entry xmlns="http://www.w3.org/2005/Atom" xmlns:app="http://www.w3.org/2007/app">'
    return f"{DECLARATION}{tag}{inner_of(base, number, title, updated, AUTHOR)}</entry>\n".encode()


def title_of(number):
    """The titles of the members are a, b and so on. Operation n makes member n."""
    return chr(96 + number)


def document_of(base, version, archive=None):
    """The subscription document after `version` operations, or an archive."""
    prev = archive - 1 if archive else max(0, version - 1) // WINDOW
    first, last = prev * WINDOW + 1, archive * WINDOW if archive else version
    lines = [FEED_TAG, f"<id>urn:uuid:{FEED_ID}</id>", "<title>Feed</title>", f"<updated>{stamp(last)}</updated>", AUTHOR]
    lines.append(f'<link rel="self" href="{base}{f"archive/{archive}" if archive else "feed"}"/>')
    if archive:
        lines.append(f'<link rel="current" href="{base}feed"/>')
    if prev:
        lines.append(f'<link rel="prev-archive" href="{base}archive/{prev}"/>')
    if archive:
        lines += [f'<link rel="next-archive" href="{base}archive/{archive + 1}"/>', "<fh:archive/>"]
    lines.append(f'<sp:span first="{first}" last="{last}"/>')
    for number in range(last, first - 1, -1):
        lines.append(f"<entry>{inner_of(base, number, title_of(number), stamp(number))}</entry>")
    return (DECLARATION + "".join(line + "\n" for line in [*lines, "</feed>"])).encode()


def documents_of(base, version):
    """The subscription document and the archives, newest first, with their addresses."""
    sealed = max(0, version - 1) // WINDOW
    archives = [(f"{base}archive/{j}", document_of(base, version, j)) for j in range(sealed, 0, -1)]
    return [(f"{base}feed", document_of(base, version)), *archives]


def offer_of(address, document):
    return b"%s %d\n%s\n" % (address.encode(), len(document), document)


def pile_of(documents):
    return b"pile 1\n" + b"".join(offer_of(*document) for document in documents)


def certificate_of(base, version):
    lines = ["coverage 1", f"feed {FEED_ID} {base}", f"version {version}"]
    for address, document in documents_of(base, version):
        lines.append(f"document {address} {hashlib.sha256(document).hexdigest()}")
    members = b"".join(member_of(base, n, title_of(n), stamp(n)) for n in range(1, version + 1))
    lines += [f"live {version} {hashlib.sha256(members).hexdigest()}", "end"]
    return "".join(line + "\n" for line in lines).encode()


def service_of(base):
    """The service document of the feed."""
    title = "<atom:title>Feed</atom:title>"
    return (
        f'{DECLARATION}<service xmlns="http://www.w3.org/2007/app" xmlns:atom="http://www.w3.org/2005/Atom"><workspace>{title}'
        f'<collection href="{base}feed">{title}<accept>application/atom+xml;type=entry</accept></collection></workspace></service>\n'
    ).encode()


def listing_of(base, version):
    """The list of members, of which operation n made member n."""
    return "".join(f"{number} {base}member/{number}\n" for number in range(version, 0, -1)).encode()


def walk_of(documents, version):
    """The output of `foreign` over these documents."""
    lines = [
        f"entry urn:uuid:6d1f0c5a-93be-8c27-8000-{number:012x} {stamp(number)} {title_of(number)}\n"
        for number in range(1, version + 1)
    ]
    return ("".join(lines) + f"complete {len(documents)} {version}\n").encode()


def summary_of_drill(seed, count):
    """The summary of a drill, in which each operation is made in the end, with the timestamp of its request."""
    live, drawn = {}, seed

    def draw():
        nonlocal drawn
        drawn = (drawn * 6364136223846793005 + 1442695040888963407) % 2**64
        return drawn >> 32

    made = 0
    for k in range(1, count + 1):
        kind = draw() % 4
        if not live or kind < 2:
            made += 1
            live[made] = k
        else:
            number = sorted(live)[draw() % len(live)]
            if kind == 2:
                live[number] = k
            else:
                del live[number]
        if k % 7 == 0:
            draw()
            draw()
    members = b""
    for number, k in sorted(live.items()):
        updated = time.strftime("%Y-%m-%dT%H:%M:%SZ", time.gmtime(1700000000 + k))
        members += member_of("http://feed.example/", number, f"t{k}", updated)
    return (
        f"operations {count}\nversion {count}\narchives {(count - 1) // 16}\nstops {count // 7}\n"
        f"mirror stops {count // 15}\ncomplete {count} {len(live)}\nlive {hashlib.sha256(members).hexdigest()}\n"
    ).encode()


def reply_of(status, media, body, location=""):
    return f"HTTP/1.1 {status}\r\nContent-Type: {media}\r\nContent-Length: {len(body)}\r\n{location}".encode() + (
        b"Connection: close\r\n\r\n" + body
    )


# The program.

def run(room, words, given=b"", refused=0, ends=False):
    """Runs the program in the folder `files` of a room, and returns its status and its output. It is refused the request
    of this number, or ends there."""
    process = start(room, words, refused, given, ends)
    try:
        printed, errors = process.communicate(timeout=SECONDS)
    except subprocess.TimeoutExpired:
        process.kill()
        process.communicate()
        raise Lost(f"{words[0]} runs for more than {SECONDS} seconds")
    if errors:
        raise Lost(f"{words[0]} prints to standard error: {errors[:80]}")
    return process.returncode, printed


def start(room, words, refused, given=b"", ends=False):
    variables = {"LD_PRELOAD": f"{work}/refuse.so", "REFUSE": str(refused), "REFUSED": f"{room}/refused"}
    if ends:
        variables["REFUSE_ENDS"] = "1"
    # A pipe would give its bytes in other pieces in each run, and so the requests would have other numbers.
    with tempfile.TemporaryFile(dir=work) as file:
        file.write(given)
        file.seek(0)
        return subprocess.Popen(
            [tool, *words], cwd=f"{room}/files", env=os.environ | variables, stdin=file, stdout=subprocess.PIPE,
            stderr=subprocess.PIPE,
        )  # fmt: skip


def free_port():
    """Returns a port below those that the system gives to clients. One of them may connect to itself."""
    while True:
        port = random.randrange(10000, 30000)
        with socket.socket() as probe:
            try:
                probe.bind(("127.0.0.1", port))
                return port
            except OSError:
                pass


def read_all(client):
    """Returns what a connection brings until it ends or is reset."""
    reply = b""
    try:
        while piece := client.recv(65536):
            reply += piece
    except ConnectionError:
        pass
    return reply


BASE = "http://feed.example/"
INIT = ["init", "--base", BASE, "--uuid", FEED_ID, "--title", "Feed", "--author", "Editor", "--window", str(WINDOW)]
NO_STORE = (6, b"not init\n")
FAULTS = {"no memory": (5, b"no memory\n"), "files": (4, b"disk fault\n"), "fetch": (7, b"fetch fault\n")}


def store_at(version):
    """What `show pile` prints of a store."""
    return 0, pile_of(documents_of(BASE, version))


def opened(room):
    return run(room, ["show", "pile"])


def kind_of(ended, right, faults, before=(b"",)):
    """Returns in which way a run ended. It may have printed one of the texts `before` before the line of a fault."""
    if ended == right:
        return "as if nothing was refused"
    for name in ("no memory", *faults):
        status, line = FAULTS[name]
        if ended in [(status, text + line) for text in before]:
            return "no memory" if name == "no memory" else "counted fault"
    raise Lost(f"status {ended[0]}, and printed {ended[1][-200:]}")


def check(what, found, *allowed):
    if found not in allowed:
        raise Lost(f"{what}: {str(found)[:300]}")


# Each command makes one run with a refusal in a room, and returns in which way it ended.

class Case:
    """A command, on the files of a store that has `version` operations, or on none."""

    def __init__(self, name, words, right, version=None, given=b"", faults=("files",), before=(b"",)):
        self.name, self.words, self.right, self.version = name, words, (0, right), version
        self.given, self.faults, self.before = given, faults, before

    def prepare(self, room):
        if self.version is not None:
            shutil.copytree(f"{work}/store-{self.version}/files", f"{room}/files")
        else:
            os.mkdir(f"{room}/files")

    def play(self, room, refused):
        kind = kind_of(run(room, self.words, self.given, refused), self.right, self.faults, self.before)
        if self.version is not None:
            check("the store then", opened(room), store_at(self.version))
        return kind

    def ended(self, room, refused):
        """Makes the same run in a room of its own and ends it at the request. Returns the room."""
        room = f"{room}/ended"
        os.mkdir(room)
        self.prepare(room)
        run(room, self.words, self.given, refused, ends=True)
        return room


class Init(Case):
    """`init`, which makes a store or leaves none, so that a second one says which."""

    def play(self, room, refused):
        kind = kind_of(run(room, INIT, refused=refused), self.right, self.faults)
        found = opened(room)
        if kind == "as if nothing was refused":
            check("the store then", found, store_at(0))
        else:
            # A fault of the files may come after the store was made.
            check("the store then", found, NO_STORE, *([store_at(0)] if kind == "counted fault" else []))
        check("a second init", run(room, INIT), self.right if found == NO_STORE else (6, b"already init\n"))
        check("the store at last", opened(room), store_at(0))
        return kind


class Apply(Case):
    """`apply`, which takes lines one after another."""

    def play(self, room, refused):
        kind = kind_of(run(room, self.words, self.given, refused), self.right, self.faults)
        stores = [store_at(version) for version in range(self.version, self.version + self.given.count(b"\n") + 1)]
        found, before = opened(room), opened(self.ended(room, refused))
        check("the store then", found, *stores)
        taken = stores.index(found)
        if kind == "as if nothing was refused":
            check("the lines taken", taken, len(stores) - 1)
        elif kind == "no memory":
            check("the store then", found, before)
        else:
            # A fault of the files may come after a line was taken.
            check("the lines taken", taken - stores.index(before), 0, 1)
        rest = b"".join(self.given.splitlines(True)[taken:])
        check("an apply of the rest", run(room, self.words, rest), self.right)
        return kind


class Repair(Case):
    """`scrub --repair` of a store whose archive 2 is damaged. It keeps archive 1, and makes the later ones in order."""

    def prepare(self, room):
        super().prepare(room)
        with open(f"{room}/files/sealed", "r+b") as file:
            length = int.from_bytes(file.read(5)[1:], "big")
            # the first letter of archive 2
            file.seek(5 + length + 5)
            file.write(b"?")

    def play(self, room, refused):
        kind = kind_of(run(room, self.words, self.given, refused), self.right, self.faults)
        least = 3 if kind == "as if nothing was refused" else 1
        ways = [(0, b"repaired %d %d\n" % (kept, 3 - kept)) for kept in range(least, 4)]
        check("a second repair", run(room, self.words), *ways)
        check("a scrub then", run(room, ["scrub"]), (0, b"sound 13 3\n"))
        check("the store then", opened(room), store_at(self.version))
        return kind


class Mirror(Case):
    """`mirror`, which takes documents in a known order, and holds the first ones in the end."""

    def __init__(self, name, words, right, documents, given=b"pile 1\n", **more):
        super().__init__(name, words, right[1], given=given, **more)
        self.right, self.documents = right, [document for _, document in documents]

    def held(self, room):
        """Returns how many documents the mirror holds: the payloads of its log."""
        path, at, payloads = f"{room}/files/mirror", 0, []
        log = open(path, "rb").read() if os.path.exists(path) else b""
        while log[at : at + 1] == b"\1":
            end = at + 5 + int.from_bytes(log[at + 1 : at + 5], "big")
            payloads.append(log[at + 5 : end])
            at = end
        check("the documents held", payloads, self.documents[: len(payloads)])
        return len(payloads)

    def play(self, room, refused):
        kind = kind_of(run(room, self.words, self.given, refused), self.right, self.faults)
        held = self.held(room)
        before = self.held(self.ended(room, refused))
        if kind == "as if nothing was refused":
            check("the documents held", held, len(self.documents))
        else:
            # A fault of the files may come after a document was taken.
            check("the documents held", held, before, *([before + 1] if kind == "counted fault" else []))
        report = run(room, [*self.words[:3], "--report"], b"pile 1\n")
        check("the status of the mirror then", report[0], self.right[0] if held == len(self.documents) else 3)
        if b"offers 0 0 0 0\n" not in report[1] or b"refused" in report[1]:
            raise Lost(f"the mirror then prints {report[1][:80]}")
        check("a second mirror", run(room, self.words, self.given), self.right)
        check("the documents held at last", self.held(room), len(self.documents))
        return kind


class Post(Case):
    """A POST to `serve`, on a store whose window is full, so that it seals an archive."""

    BODY = f'<entry xmlns="http://www.w3.org/2005/Atom"><title>{title_of(5)}</title></entry>'.encode()
    REQUEST = (
        b"POST /feed HTTP/1.1\r\nHost: feed.example\r\nContent-Type: application/atom+xml;type=entry\r\n"
        b"Content-Length: %d\r\n\r\n%s" % (len(BODY), BODY)
    )
    CREATED = reply_of(
        "201 Created", "application/atom+xml;type=entry", member_of(BASE, 5, title_of(5), stamp(5)),
        f"Location: {BASE}member/5\r\n",
    )  # fmt: skip
    NO_MEMORY = reply_of("503 Service Unavailable", "text/plain;charset=utf-8", b"no memory\n")
    DISK = reply_of("500 Internal Server Error", "text/plain;charset=utf-8", b"disk\n")

    def ask(self, port):
        """Posts, and returns the reply. Without somebody who listens it is `None`."""
        try:
            with socket.create_connection(("127.0.0.1", port), timeout=SECONDS) as client:
                try:
                    client.sendall(self.REQUEST)
                except ConnectionError:
                    return b""
                return read_all(client)
        except ConnectionRefusedError:
            return None
        except ConnectionError:
            return b""
        except TimeoutError:
            raise Lost(f"no reply within {SECONDS} seconds")

    def serve(self, room, refused):
        """Runs the server, and returns its status, its output and the replies."""
        port = ports.get()
        process = start(room, [*self.words, "--listen", f"127.0.0.1:{port}", "--requests", "1"], refused)
        replies, end = [], time.monotonic() + SECONDS
        try:
            while process.poll() is None and time.monotonic() < end:
                reply = self.ask(port)
                if reply is not None:
                    replies.append(reply)
                    try:
                        # A server that dropped the connection waits for another one.
                        process.wait(SECONDS if reply else 2)
                    except subprocess.TimeoutExpired:
                        pass
                else:
                    time.sleep(0.001)
            if process.poll() is None:
                raise Lost(f"the server runs on after {len(replies)} replies: {replies[:1]}")
            printed, errors = process.communicate()
        finally:
            process.kill()
            process.communicate()
            ports.put(port)
        if errors:
            raise Lost(f"serve prints to standard error: {errors[:80]}")
        return process.returncode, printed, replies

    # the reply and the line if nothing is refused, and the store after it
    GIVEN, LINE, VERSION = CREATED, b"201 5\n", 5

    def play(self, room, refused):
        status, printed, replies = self.serve(room, refused)
        reply = replies[-1] if replies else b""
        before, after = store_at(4), store_at(self.VERSION)
        # the ways to end: status, output, reply, in which way this is, and what the store then may be
        ways = [
            (0, self.LINE, self.GIVEN, "as if nothing was refused", [after]),
            (0, b"503 4\n", self.NO_MEMORY, "no memory", [before]),
            (5, b"no memory\n", b"", "no memory", [before]),
            (4, b"disk fault\n", b"", "counted fault", [before]),
            (4, b"500 4\ndisk fault\n", self.DISK, "counted fault", [before, after]),
            (7, b"door fault\n", b"", "counted fault", [before]),
            (0, b"0 4\n", b"", "counted fault", [before]),
        ]
        if reply and self.GIVEN.startswith(reply):
            ways.append((0, self.LINE, reply, "counted fault", [after]))
        found = [way for way in ways if way[:3] == (status, printed, reply)]
        # Memory for a session is taken before it listens, so nobody can have connected.
        if not found or any(replies[:-1]) or (status == 5 and replies):
            raise Lost(f"status {status}, printed {printed}, replies {replies}")
        check("the store then", opened(room), *found[0][4])
        return found[0][3] if len(replies) < 2 else "counted fault"


class List(Post):
    """A GET of the list of members from `serve --service`, which changes nothing."""

    REQUEST = b"GET /members HTTP/1.1\r\nHost: feed.example\r\n\r\n"
    GIVEN = reply_of("200 OK", "text/plain;charset=utf-8", listing_of(BASE, 4))
    LINE, VERSION = b"200 4\n", 4


def answer_gets(listener, documents):
    """Answers gets of documents for ever, one connection at a time."""
    while True:
        client, _ = listener.accept()
        with client:
            client.settimeout(SECONDS)
            try:
                request = b""
                while b"\r\n\r\n" not in request and (piece := client.recv(65536)):
                    request += piece
                words = request.split(b" ", 2)
                if len(words) == 3 and words[1].decode() in documents:
                    client.sendall(reply_of("200 OK", "application/atom+xml;type=feed", documents[words[1].decode()]))
                    # Without this a reset may overtake the reply.
                    client.shutdown(socket.SHUT_WR)
                    read_all(client)
            except OSError:
                # the mirror has gone
                pass


def cases():
    listener = socket.create_server(("127.0.0.1", free_port()), backlog=128)
    fetched_base = f"http://127.0.0.1:{listener.getsockname()[1]}/"
    whole, fetched = documents_of(BASE, 13), documents_of(fetched_base, 13)
    some = [document for document in whole if document[0] != f"{BASE}archive/2"]
    served = {address.removeprefix(fetched_base[:-1]): document for address, document in fetched}
    served["/service"] = service_of(fetched_base)
    threading.Thread(target=answer_gets, args=(listener, served), daemon=True).start()
    piles = [pile_of(whole[:count]) for count in range(len(whole))]
    missing = (3, f"missing {BASE}archive/2\n".encode())
    empty = documents_of(BASE, 0)
    mirror = ["mirror", "--base", BASE]
    return [
        Init("init", INIT, b"ready\n"),
        Apply("apply", ["apply"], document_of(BASE, 9), version=4, given=b"add e\nadd f\nadd g\nadd h\nadd i\n"),
        Case("feed", ["show", "feed"], document_of(BASE, 13), version=13),
        Case("pile", ["show", "pile"], pile_of(whole), version=13, before=(b"", *piles)),
        Case("scrub", ["scrub"], b"sound 13 3\n", version=13),
        Repair("repair", ["scrub", "--repair"], b"repaired 1 2\n", version=13),
        Post("post", ["serve"], b"", version=4),
        List("list", ["serve", "--service"], b"", version=4),
        Mirror("mirror", mirror, missing, some, given=pile_of(some)),
        Mirror("empty", mirror, (0, certificate_of(BASE, 0)), empty, given=pile_of(empty)),
        Mirror("fetch", ["mirror", "--base", fetched_base, "--fetch"], (0, certificate_of(fetched_base, 13)), fetched,
               faults=("files", "fetch")),
        Case("foreign", ["foreign", "--from", f"{fetched_base}feed"], walk_of(fetched, 13), faults=("fetch",)),
        Case("discover", ["discover", f"{fetched_base}service"], f"collection {fetched_base}feed entries\n".encode(),
             faults=("fetch",)),
        Case("audit", ["audit"], b"accepted 13 13\n", given=certificate_of(BASE, 13) + pile_of(whole), faults=()),
        Case("drill", ["drill", "7", "20"], summary_of_drill(7, 20), faults=()),
    ]  # fmt: skip


def attempt(case, number):
    """Makes a run in a new room. Returns what was refused, in which way it ended, and the loss or `None`."""
    room = f"{work}/{case.name}-{number}"
    shutil.rmtree(room, ignore_errors=True)
    os.mkdir(room)
    case.prepare(room)
    kind, loss = "lost", None
    try:
        kind = case.play(room, number)
    except Lost as lost:
        loss = str(lost)
    refused = None
    if os.path.exists(f"{room}/refused"):
        with open(f"{room}/refused") as file:
            refused = file.read().strip()
    if loss is None and refused is None and kind != "as if nothing was refused":
        kind, loss = "lost", f"nothing was refused, and the run ends as {kind}"
    if loss is None:
        shutil.rmtree(room)
    return refused, kind, loss


def attempt_some_twice(task):
    case, number = task
    made = attempt(case, number)
    if number % TWICE == 1 and made[2] is None:
        again = attempt(case, number)
        if again != made:
            return made[0], "lost", f"a second run ends in another way: {made}, {again}"
    return made


def sweep(case, pool, numbers):
    """Makes the runs of a case, and returns how many ended in each way."""
    counts = collections.Counter()
    while numbers:
        batch, numbers = numbers[: 8 * WORKERS], numbers[8 * WORKERS :]
        for number, made in zip(batch, pool.map(attempt_some_twice, [(case, number) for number in batch])):
            refused, kind, loss = made
            counts["runs"] += 1
            counts["refused"] += refused is not None
            counts[kind] += 1
            if loss is not None:
                print(f"LOST: {case.name} {number}, refused {refused}: {loss}; the files are in {work}/{case.name}-{number}")
            elif len(only) == 2:
                print(f"{case.name} {number}, refused {refused}: {kind}")
            if refused is None:
                # Later runs of the batch refuse nothing either.
                return counts
    return counts


def told(counts):
    kinds = [("as if nothing was refused",) * 2, ("no memory",) * 2, ("counted fault", "counted faults"), ("lost",) * 2]
    return f"{counts['runs']} runs, {counts['refused']} refused, " + ", ".join(f"{counts[k]} {text}" for k, text in kinds)


def prepare_stores():
    for version in (4, 13):
        room = f"{work}/store-{version}"
        os.makedirs(f"{room}/files")
        lines = "".join(f"add {title_of(number)}\n" for number in range(1, version + 1))
        check("init", run(room, INIT), (0, b"ready\n"))
        check("apply", run(room, ["apply"], lines.encode()), (0, document_of(BASE, version)))


def main():
    total = collections.Counter()
    chosen = [case for case in cases() if not only or case.name == only[0]]
    if not chosen:
        shutil.rmtree(work)
        sys.exit(f"ONLY names no command: {only[0]}")
    prepare_stores()
    with concurrent.futures.ThreadPoolExecutor(WORKERS) as pool:
        for case in chosen:
            counts = sweep(case, pool, [int(only[1])] if len(only) == 2 else range(1, sys.maxsize, step))
            print(f"{case.name}: {told(counts)}", flush=True)
            total += counts
    print(told(total))
    return 1 if total["lost"] else 0


ports = queue.Queue()
for port in {free_port() for _ in range(2 * WORKERS)}:
    ports.put(port)
try:
    status = main()
except Lost as lost:
    print(f"LOST: {lost}; the files are in {work}")
    status = 1
if status == 0:
    shutil.rmtree(work)
sys.exit(status)
PYTHON

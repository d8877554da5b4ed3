#!/bin/sh
# Simulates power loss. It records the writes and the syncs that the built program makes on the files of a store and of a
# mirror, and builds the files that a crash may leave at each moment: of each write that wasn't synced all bytes, none, a
# prefix, some sectors, zeros or random bytes, and any size between the old and the new one. A file may be missing as long
# as the folder wasn't synced after it was made. It opens each with the program.
# - The store is made (`init`), served while entries are posted, changed and deleted, in windows of 4, and then given lines
#   (`apply`), a new title and a new window among them. Each file must open to the feed and the archives that the server had
#   at one version. That version has each operation that was acknowledged by then, and at most one more. Some stores then
#   take further entries.
# - The mirror takes a pile of documents in any order, and the documents of the server. Each file must open to the first
#   documents taken, with each one that was synced, or after which the next one was asked for. It then takes the rest.
# - The archives of the store are damaged and repaired (`scrub --repair`). A second repair of the files must keep each
#   archive that was kept, and each one that was made and synced, and bring the others back.
# - Some files are opened after two crashes: the program alone is killed or the machine stops, a load of the files is
#   recorded, and the machine stops at some moment of that. The second crash must leave what the load printed. A repair is
#   made after each of the two.
# Usage: checks/torn.sh [IMAGES [PROGRAM]]. IMAGES, the number of stores and mirrors to open, is 20,000 if it isn't given.
# PROGRAM is run in place of the one of this repository. SEED in the environment makes a run repeatable. It prints a line of
# counts and ends with 0 if nothing was lost. It ends at the first loss with 1, and leaves the files. It needs `strace` and
# python3.
images=${1:-20000}
top=$(CDPATH='' cd -- "$(dirname -- "$0")/.." && pwd) || exit 1
tool=${2:-$top/out/feed_tool}
case $tool in
    /*) ;;
    */*) tool=$(CDPATH='' cd -- "$(dirname -- "$tool")" && pwd)/$(basename -- "$tool") || exit 1 ;;
esac
# The launcher isn't used below, because it looks at all sources at each start.
[ -n "$2" ] || "$top/prove" || exit 1
command -v strace >/dev/null || { echo 'strace is needed' >&2; exit 1; }

# The files are written thousands of times, so they are in memory where it is.
work=$(mktemp -d -p "$([ -d /dev/shm ] && echo /dev/shm || echo "${TMPDIR:-/tmp}")") || exit 1
mkdir "$work/store" || exit 1

python3 - "$images" "$tool" "$work" "${SEED:-$$}" <<'PYTHON'
import concurrent.futures
import multiprocessing
import os
import random
import re
import shutil
import socket
import subprocess
import sys
import time

images, tool, work, seed = int(sys.argv[1]), sys.argv[2], sys.argv[3], int(sys.argv[4])
random.seed(seed)
OPERATIONS = 90
WINDOW = 4
# what the store is given after it was served, a line at a time. The window of 6 is full, and sealed, before the end.
LINES = [b"add last", b"title New title", b"window 6"] + [b"add more %d" % count for count in range(1, 13)]
# how many files are opened after a first crash and the load that follows it
SECOND_CRASHES = 8
SECTOR = 512


class Lost(Exception):
    """A file that a crash may leave doesn't open to what it has to."""


def free_port():
    """Returns a port below those that the system gives to clients. One of them may connect to itself."""
    while True:
        port = random.randrange(10000, 30000)
        with socket.socket() as probe:
            try:
                probe.bind(("127.0.0.1", port))
                return port
            except OSError:
                pass


port = free_port()
BASE = f"http://127.0.0.1:{port}/"
INIT = ["init", "--base", BASE, "--uuid", "6d1f0c5a-93be-4c27-8d10-2b7f9e4a5c36", "--title", "Feed", "--author", "Editor",
        "--window", str(WINDOW)]
MIRROR = ["mirror", "--base", BASE]


def run(folder, words, given=b""):
    """Runs the program, and returns its status and what it printed."""
    done = subprocess.run([tool, *words], cwd=folder, input=given, stdout=subprocess.PIPE, stderr=subprocess.DEVNULL)
    return done.returncode, done.stdout


# A recorded run: what happens to the files, and what is told to the outside.

KNOWN = "openat,close,pwrite64,fsync,fdatasync,sendto,write"
# calls that would change a file or its name, and of which this script knows nothing
UNKNOWN = "writev,pwritev,pwritev2,ftruncate,truncate,fallocate,sendfile,copy_file_range,rename,renameat,renameat2,link," \
    "linkat,unlink,unlinkat"
LINE = re.compile(r"^\d+ +(\w+)\((.*)\) += (-?\d+)")


def traced(folder, words, trace, given=b""):
    """Runs the program under strace, and returns its status and what it printed."""
    done = subprocess.run([*under_strace(trace), tool, *words], cwd=folder, input=given, stdout=subprocess.PIPE)
    return done.returncode, done.stdout


def under_strace(trace):
    return ["strace", "-f", "-xx", "-s", "100000000", "-e", f"trace={KNOWN},{UNKNOWN}", "-e", "signal=none", "-o", trace]


def text_of(quoted):
    """The bytes of a string as `strace -xx` prints it."""
    return bytes.fromhex(re.match(r'[^"]*"((?:\\x[0-9a-f]{2})*)"(?!\.\.\.)', quoted)[1].replace("\\x", ""))


def events_of(trace, areas):
    """Yields ('made', area) for a new file, ('named',) for a sync of the folder, ('write', area, offset, bytes),
    ('sync', area), and ('told', bytes) for bytes that are sent or printed."""
    opened = {}
    with open(trace) as lines:
        for line in lines:
            if "unfinished" in line or "resumed" in line:
                raise Lost(f"a call of two threads: {line[:80]}")
            found = LINE.match(line)
            if not found or int(found[3]) < 0:
                continue
            name, given, returned = found[1], found[2], int(found[3])
            if name == "openat":
                opened[returned] = os.path.basename(os.path.normpath(text_of(given).decode(errors="replace")))
                if opened[returned] in areas and "O_CREAT" in given:
                    yield "made", opened[returned]
                continue
            number = int(given.split(",")[0]) if given.split(",")[0].isdigit() else None
            of = opened.get(number)
            if name == "close":
                opened.pop(number, None)
            elif name == "pwrite64" and of in areas:
                yield "write", of, int(given.rsplit(", ", 1)[1]), text_of(given)[:returned]
            elif name in ("fsync", "fdatasync") and of in areas:
                yield "sync", of
            elif name == "fsync" and of == ".":
                yield ("named",)
            elif name in ("sendto", "write") and of is None:
                if number != 2:
                    yield "told", text_of(given)
            elif of in areas or name in UNKNOWN.split(",") and number is None:
                raise Lost(f"a call that isn't known here: {line[:80]}")


# What a crash leaves of a file: its synced bytes, and what it may have of the later writes.

class File:
    def __init__(self, synced=b"", pending=(), is_made=False, is_named=False):
        self.synced, self.pending, self.is_made, self.is_named = synced, list(pending), is_made, is_named

    def copy(self):
        return File(self.synced, self.pending, self.is_made, self.is_named)

    def take(self, event):
        """Applies a recorded event: a write, a sync, the making of the file, or a sync of the folder."""
        if event[0] == "write":
            self.pending.append(event[2:])
        elif event[0] == "sync":
            self.synced, self.pending = self.whole(), []
        elif event[0] == "made":
            self.is_made = True
        else:
            self.is_named = self.is_made

    def is_settled(self):
        """Whether a crash can leave one file only."""
        return not self.pending and (self.is_named or not self.synced)

    def whole(self):
        """The bytes if no crash comes."""
        now = bytearray(self.synced)
        for at, written in self.pending:
            now.extend(bytes(max(0, at + len(written) - len(now))))
            now[at : at + len(written)] = written
        return bytes(now)

    def left(self, chance):
        """One of the files that a crash may leave, by chance. None if it leaves none."""
        if not self.is_named and chance.randrange(2):
            return None
        old, new = len(self.synced), len(self.whole())
        size = chance.choice((old, new, chance.randint(old, new)))
        left = bytearray(self.synced) + bytes(new - old)
        for at, written in self.pending:
            left[at : at + len(written)] = torn(chance, at, bytes(left[at : at + len(written)]), written)
        return bytes(left[:size])


def torn(chance, at, old, new):
    """The bytes that a crash leaves at the offset of a write."""
    kind = chance.choice(("old", "new", "cut", "zeros", "noise", "sectors", "mixed"))
    cut = chance.randint(0, len(new))
    if kind == "sectors":
        first = at // SECTOR
        is_new = [chance.randrange(2) for _ in range(first, (at + len(new)) // SECTOR + 1)]
        return bytes((old, new)[is_new[(at + one) // SECTOR - first]][one] for one in range(len(new)))
    if kind == "mixed":
        noise = chance.randbytes(len(new))
        return bytes(chance.choice(candidates) for candidates in zip(old, new, bytes(len(new)), noise))
    return {"old": old, "new": new, "cut": new[:cut] + old[cut:], "zeros": bytes(len(new)),
            "noise": chance.randbytes(len(new))}[kind]


def lay(folder, files):
    """Makes a folder with these files, without those that are None."""
    shutil.rmtree(folder, ignore_errors=True)
    os.makedirs(folder)
    for area, text in files.items():
        if text is not None:
            with open(f"{folder}/{area}", "wb") as file:
                file.write(text)


# Piles of documents, which `show pile` prints and `mirror` reads

def pile_of(documents):
    return b"pile 1\n" + b"".join(b"%s %d\n%s\n" % (at.encode(), len(it), it) for at, it in documents)


def read_pile(printed):
    """Yields the documents of a pile with their addresses."""
    at = len(b"pile 1\n")
    while at < len(printed):
        end = printed.index(b"\n", at)
        address, length = printed[at:end].split(b" ")
        yield address.decode(), printed[end + 1 : end + 1 + int(length)]
        at = end + 2 + int(length)


# The store

def ask(method, path, body=b""):
    """Returns the status and the body of a reply."""
    head = f"{method} {path} HTTP/1.1\r\nHost: feed.example\r\nContent-Length: {len(body)}\r\n\r\n"
    for _ in range(3000):
        try:
            with socket.create_connection(("127.0.0.1", port), timeout=60) as client:
                client.sendall(head.encode() + body)
                reply = b""
                while piece := client.recv(65536):
                    reply += piece
            break
        except ConnectionRefusedError:
            time.sleep(0.01)
    head, _, body = reply.partition(b"\r\n\r\n")
    return int(head[9:12]), body


def operate():
    """Makes operations, and returns what the server has at each version: the feed, and all archives."""
    feeds, archives, live, made = [ask("GET", "/feed")[1]], [], [], 0
    for count in range(1, OPERATIONS + 1):
        title = f"Title {count} " + "a&lt;b " * random.choice((0, 1, 30, 300))
        entry = f'<entry xmlns="http://www.w3.org/2005/Atom"><title>{title}</title><content>{count}</content></entry>'.encode()
        act = random.choice("ppppuud") if live else "p"
        if act == "p":
            status, made = ask("POST", "/feed", entry)[0], made + 1
            live.append(made)
        elif act == "u":
            status = ask("PUT", f"/member/{random.choice(live)}", entry)[0]
        else:
            status = ask("DELETE", f"/member/{live.pop(random.randrange(len(live)))}")[0]
        if status not in (200, 201):
            raise Lost(f"operation {count}: status {status}")
        feeds.append(ask("GET", "/feed")[1])
        if len(archives) < (count - 1) // WINDOW:
            archives.append(ask("GET", f"/archive/{len(archives) + 1}")[1])
    return feeds, archives


def serve(requests, front):
    """Starts the program, after the words in `front`, as the server of the store for this number of requests."""
    words = [*front, tool, "serve", "--listen", f"127.0.0.1:{port}", "--requests", str(requests)]
    return subprocess.Popen(words, cwd=f"{work}/store", stdin=subprocess.DEVNULL, stdout=subprocess.DEVNULL)


class Store:
    """What a store has to show: its documents at each version."""

    areas, words, given = ("journal", "sealed"), ["show", "pile"], b""

    def __init__(self, piles):
        self.piles = piles

    def versions(self, answer, least, most):
        """Returns the version that the program showed. It is -1 if there is no store."""
        status, printed = answer
        if status == 6 and printed == b"not init\n" and least < 0:
            return [-1]
        if status:
            raise Lost(f"status {status}: {printed[:80]}")
        documents = dict(read_pile(printed))
        version = version_of(documents)
        if not least <= version <= most:
            raise Lost(f"version {version}, and at least {least} was acknowledged")
        if documents != self.piles[version]:
            raise Lost(f"version {version} has other documents")
        return [version]

    def check(self, folder, chance, least, most):
        """Opens a store, and has some take further operations."""
        [version] = self.versions(run(folder, self.words), least, most)
        if chance.randrange(4):
            return
        if version < 0:
            if run(folder, INIT) != (0, b"ready\n"):
                raise Lost("init fails after a crash")
            version = 0
            kept = {}
        else:
            kept = {at: it for at, it in self.piles[version].items() if "/archive/" in at}
        status, printed = run(folder, ["apply"], b"add further\n" * 7)
        if status:
            raise Lost(f"apply after a crash: status {status}: {printed[:80]}")
        documents = dict(read_pile(run(folder, self.words)[1]))
        if version_of(documents) != version + 7 or not kept.items() <= documents.items():
            raise Lost(f"7 operations after version {version} give version {version_of(documents)}, or other archives")


def version_of(documents):
    found = re.search(rb'<sp:span first="\d+" last="(\d+)"/>', documents.get(f"{BASE}feed", b""))
    return int(found[1]) if found else -1


def record_store():
    """Makes a store, and returns it with the moments of its runs."""
    folder = f"{work}/store"
    traced(folder, INIT, f"{work}/init.trace")
    requests = 1 + 2 * OPERATIONS + (OPERATIONS - 1) // WINDOW
    server = serve(requests, under_strace(f"{work}/serve.trace"))
    feeds, archives = operate()
    if server.wait(60):
        raise Lost("the server didn't end with 0")
    piles = []
    for version, feed in enumerate(feeds):
        sealed = archives[: max(0, version - 1) // WINDOW]
        piles.append({f"{BASE}feed": feed} | {f"{BASE}archive/{j}": it for j, it in enumerate(sealed, 1)})
    for count, line in enumerate(LINES):
        status, printed = traced(folder, ["apply"], f"{work}/apply{count}.trace", line)
        if status:
            raise Lost(f"apply: status {status}: {printed[:80]}")
        piles.append(dict(read_pile(run(folder, ["show", "pile"])[1])))
    store = Store(piles)
    files, moments, least = {area: File() for area in store.areas}, [], -1
    for name in ["init", "serve"] + [f"apply{count}" for count in range(len(LINES))]:
        for event in events_of(f"{work}/{name}.trace", store.areas):
            if event[0] != "told":
                take(files, event)
            elif name == "serve":
                # a reply to a change has no feed document
                least += bool(re.match(rb"HTTP/1\.1 20[01] ", event[1])) and b";type=feed" not in event[1]
            else:
                least = 0 if name == "init" else OPERATIONS + 1 + int(name[len("apply"):])
            moments.append((store, least, min(least + 1, len(piles) - 1), copied(files)))
    if least != len(piles) - 1:
        raise Lost(f"{least} of {len(piles) - 1} operations were acknowledged")
    compare_files(folder, files)
    return store, moments


def take(files, event):
    """Applies a recorded event to the file that it concerns, or a sync of the folder to all."""
    for area, file in files.items():
        if len(event) == 1 or event[1] == area:
            file.take(event)


def copied(files):
    return {area: file.copy() for area, file in files.items()}


def compare_files(folder, files):
    """Compares files with what their recorded calls make."""
    for area, it in files.items():
        with open(f"{folder}/{area}", "rb") as file:
            if file.read() != it.whole():
                raise Lost(f"the trace doesn't make the file {area}")


# The mirror

class Mirror:
    """What a mirror has to report if it holds the first few documents."""

    areas, words, given = ("mirror",), [*MIRROR, "--report"], pile_of([])

    def __init__(self, documents):
        self.documents, self.reports = documents, []
        for count in range(len(documents) + 1):
            lay(f"{work}/some", {})
            run(f"{work}/some", MIRROR, pile_of(documents[:count]))
            self.reports.append(run(f"{work}/some", self.words, self.given))
        self.whole = self.reports[-1][1].partition(b"\n")[2]

    def versions(self, answer, least, most):
        """Returns the numbers of first documents that give this answer."""
        found = [count for count in range(least, most + 1) if self.reports[count] == answer]
        if not found:
            raise Lost(f"{answer[0]} {answer[1][:80]}, and {least} documents were synced")
        return found

    def check(self, folder, chance, least, most):
        """Opens a mirror, and gives it all documents."""
        found = self.versions(run(folder, self.words, self.given), least, most)
        answer = run(folder, self.words, pile_of(self.documents))
        all_of = len(self.documents)
        if answer not in [(0, b"offers %d %d 0 0\n" % (all_of - count, count) + self.whole) for count in found]:
            raise Lost(f"with all documents {answer[0]} {answer[1][:80]}, and it had {found}")


def record_mirror(documents, is_fetch):
    """Has a mirror take documents from a pile, or those of the server, and returns the moments of that."""
    folder, trace = f"{work}/mirror", f"{work}/mirror.trace"
    mirror = Mirror(documents)
    lay(folder, {})
    if is_fetch:
        server = serve(1 + len(documents), [])
        ask("GET", "/feed")
        traced(folder, [*MIRROR, "--fetch"], trace)
        if server.wait(60):
            raise Lost("the server didn't end with 0")
    else:
        traced(folder, MIRROR, trace, pile_of(documents))
    files, moments, opened, least, asked = {"mirror": File()}, [], 0, 0, 0
    for event in events_of(trace, mirror.areas):
        if event[0] != "told":
            take(files, event)
            # a gate that opens is one byte in the synced bytes
            opened += event[0] == "write" and event[3] == b"\x01"
            least = opened if event[0] == "sync" and not is_fetch else least
        elif event[1].startswith(b"GET "):
            # It asks for a document after it took the one before.
            least, asked = asked, asked + 1
        else:
            least = len(documents)
        moments.append((mirror, least, min(least + 1, len(documents)), copied(files)))
    if opened != len(documents) or least != len(documents):
        raise Lost(f"{opened} of {len(documents)} documents were taken")
    compare_files(folder, files)
    return moments


# Repairs

class Repair:
    """What a second repair has to do: to keep the first few archives, and to bring the others back."""

    areas, words, given = ("journal", "sealed"), ["scrub", "--repair"], b""

    def __init__(self, documents):
        self.documents = documents

    def versions(self, answer, least, most):
        """Returns the number of archives that were kept, and that of all."""
        status, printed = answer
        words = printed.split()
        if status or words[:1] != [b"repaired"]:
            raise Lost(f"status {status}: {printed[:80]}")
        kept, made = int(words[1]), int(words[2])
        if kept < least or kept + made != most:
            raise Lost(f"{printed} of {most} archives, and at least {least} were there")
        return [kept, most]

    def check(self, folder, chance, least, most):
        """Repairs a store, and has some take further operations."""
        self.versions(run(folder, self.words), least, most)
        documents = dict(read_pile(run(folder, ["show", "pile"])[1]))
        if documents != self.documents:
            raise Lost("other documents after two repairs")
        if not chance.randrange(4):
            status, printed = run(folder, ["apply"], b"add further\n" * 7)
            if status:
                raise Lost(f"apply after two repairs: status {status}: {printed[:80]}")


def ends_of(text):
    """The offsets after each frame of a file."""
    ends, at = [], 0
    while text[at] == 1:
        at += 5 + int.from_bytes(text[at + 1 : at + 5], "big")
        ends.append(at)
    return ends


def damaged(sealed, ends):
    """Yields a damage of the archives, and how many of the first ones are right."""
    yield b"", 0
    for kept in random.sample(range(len(ends)), 3):
        at = random.randrange(ends[kept - 1] + 5 if kept else 5, ends[kept])
        yield sealed[:at] + bytes([sealed[at] ^ 1]) + sealed[at + 1 :], kept
    at = random.randrange(1, len(sealed))
    yield sealed[:at], sum(end < at for end in ends)


def record_repairs(documents):
    """Repairs damaged copies of the store, and returns the moments of that."""
    repair, all_of = Repair(documents), len(documents) - 1
    with open(f"{work}/store/journal", "rb") as journal, open(f"{work}/store/sealed", "rb") as sealed:
        journal, sealed = journal.read(), sealed.read()
    moments = []
    for number, (left, kept) in enumerate(damaged(sealed, ends_of(sealed))):
        folder, trace = f"{work}/repair{number}", f"{work}/repair{number}.trace"
        # The gate after the journal is open in every second one.
        texts = {"journal": journal[:-1] + bytes([number % 2]), "sealed": left}
        lay(folder, texts)
        repair.versions(traced(folder, repair.words, trace), kept, all_of)
        files, least, opened = {area: File(text, (), True, True) for area, text in texts.items()}, kept, kept
        moments.append((repair, least, all_of, copied(files)))
        for event in events_of(trace, repair.areas):
            if event[0] != "told":
                take(files, event)
                # a gate that opens is one byte in the synced bytes
                opened += event[:2] == ("write", "sealed") and event[3] == b"\x01"
                least = opened if event[:2] == ("sync", "sealed") else least
            moments.append((repair, least, all_of, copied(files)))
        if least != all_of:
            raise Lost(f"{least} of {all_of} archives were made")
        compare_files(folder, files)
    return moments


# The crashes. A moment has a `Store`, `Mirror` or `Repair`, the least and the greatest version that it may show, and the files.

def crash(folder, chance, moment):
    """Opens files that a crash may leave."""
    of, least, most, files = moment
    lay(folder, {area: file.left(chance) for area, file in files.items()})
    of.check(folder, chance, least, most)


def crash_twice(folder, chance, moment):
    """Kills the program or stops the machine, records a load, and opens files that a crash within or after it may leave."""
    of, least, most, files = moment
    is_killed = chance.randrange(2)
    if is_killed:
        files = copied(files)
    else:
        left = {area: file.left(chance) for area, file in files.items()}
        files = {area: File(it or b"", (), it is not None, it is not None) for area, it in left.items()}
    lay(folder, {area: file.whole() if file.is_made else None for area, file in files.items()})
    trace = f"{folder}.trace"
    found = of.versions(traced(folder, of.words, trace, of.given), least, most)
    if not is_killed:
        # The load read synced bytes only, so no later crash changes what they show.
        least, most = found[0], found[-1]
    moments = [(of, least, most, copied(files))]
    for event in events_of(trace, of.areas):
        if event[0] != "told":
            take(files, event)
        else:
            least, most = found[0], found[-1]
        moments.append((of, least, most, copied(files)))
    compare_files(folder, {area: file for area, file in files.items() if file.is_made})
    os.remove(trace)
    for _ in range(SECOND_CRASHES):
        crash(folder, chance, chance.choice(moments))


def tried(task):
    """Opens the files of a crash, and returns where they are and what is wrong with them, or `None`."""
    number, act, moment = task
    folder = f"{work}/opened/{number}"
    try:
        act(folder, random.Random(f"{seed} {number}"), MOMENTS[moment])
    except Lost as lost:
        return f"{folder}: {lost} (seed {seed})"
    shutil.rmtree(folder)
    return None


def plan(numbers, count):
    """Returns what to do at these moments, so that `count` files are opened, a fifth of them after two crashes."""
    settled = [it for it in numbers if all(file.is_settled() for file in MOMENTS[it][3].values())]
    unsettled = sorted(set(numbers) - set(settled))
    twice = [(crash_twice, random.choice(numbers)) for _ in range(count // 5 // SECOND_CRASHES)]
    # A moment with all bytes synced leaves one file only.
    once = [(crash, it) for it in random.sample(settled, min(len(settled), count // 5))]
    rest = count - len(twice) * SECOND_CRASHES - len(once)
    return twice + once + [(crash, random.choice(unsettled)) for _ in range(rest)]


MOMENTS = []


def main():
    store, of_store = record_store()
    newest = list(store.piles[-1].items())
    shuffled = sorted(newest, key=lambda it: random.random())
    # the order in which a mirror asks: the feed, and then the archives, newest first
    walked = sorted(newest, key=lambda it: -int(it[0].rpartition("/")[2].replace("feed", "1000")))
    of_mirror = record_mirror(shuffled, False) + record_mirror(walked, True)
    of_repair = record_repairs(store.piles[-1])
    MOMENTS.extend(of_store + of_mirror + of_repair)
    unsynced = sum(any(file.pending for file in it[3].values()) for it in MOMENTS)
    acts = plan(range(len(of_store)), images * 5 // 8)
    acts += plan(range(len(of_store), len(of_store + of_mirror)), images // 4)
    acts += plan(range(len(of_store + of_mirror), len(MOMENTS)), images - images * 5 // 8 - images // 4)
    random.shuffle(acts)
    tasks = [(number, act, moment) for number, (act, moment) in enumerate(acts)]
    # The processes have the moments from this one.
    pool = concurrent.futures.ProcessPoolExecutor(os.cpu_count(), multiprocessing.get_context("fork"))
    try:
        for wrong in pool.map(tried, tasks, chunksize=10):
            if wrong:
                raise Lost(wrong)
    finally:
        pool.shutdown(cancel_futures=True)
    second = SECOND_CRASHES * sum(act is crash_twice for act, _ in acts)
    print(f"{len(of_store)} moments of a store, {len(of_mirror)} of a mirror, {len(of_repair)} of a repair, "
          f"{unsynced} with bytes not synced, "
          f"{len(acts) + second - second // SECOND_CRASHES} files opened, {second} of them after two crashes, 0 lost")


try:
    main()
except Lost as lost:
    print(f"LOST: {lost}")
    sys.exit(1)
shutil.rmtree(work)
PYTHON

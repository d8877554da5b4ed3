#!/bin/sh
# Measures `feed_tool foreign` on documents of 10,000 entries of 300 bytes, 3,000 bytes and 4,096 bytes, whose content is plain
# text, html or xhtml, and on documents of 1 MB (1,000,000 bytes) that are made to be slow. A server in Python sends them
# over the loopback. The times are those of the processor, user and system together, the best of RUNS runs.
# The fetch is taken out: it is the time of a document of the same length whose first byte is refused, before any other
# byte is read.
# Beside the entries it prints the times of `xmllint --noout --stream`, of Python's expat in a reader that keeps
# `id`, `title` and `updated`, and of feedparser on 300 bytes, each if it is there. The times of Python leave out its start.
# Beside each slow document it prints how many times as long it takes as 1 MB of plain text, without the fetch and with it.
# The ratio without the fetch is rough: plain text takes so little that two fetches can differ by more. If valgrind is
# there, it also prints the processor instructions for each byte, which a busy machine doesn't change.
# usage: bench/foreign.sh [RUNS [PROGRAM]]. RUNS is 3 if it isn't given. PROGRAM is run in place of the one of this
# repository. The files are in /dev/shm.
runs=${1:-3}
top=$(CDPATH='' cd -- "$(dirname -- "$0")/.." && pwd) || exit 1
tool=${2:-$top/out/feed_tool}
case $tool in
    /*) ;;
    */*) tool=$(CDPATH='' cd -- "$(dirname -- "$tool")" && pwd)/$(basename -- "$tool") || exit 1 ;;
esac
[ -n "$2" ] || "$top/prove" || exit 1

work=$(mktemp -d /dev/shm/foreign.XXXXXX) || exit 1
trap 'rm -rf "$work"' EXIT
trap 'exit 1' HUP INT TERM

python3 - "$runs" "$tool" "$work" "$top/bench" <<'PYTHON'
import importlib.util
import os
import re
import shutil
import socket
import subprocess
import sys
import threading

runs, tool, work = int(sys.argv[1]), sys.argv[2], sys.argv[3]
sys.path.insert(0, sys.argv[4])
sys.dont_write_bytecode = True
from feed_documents import ENTRIES, KINDS, SLOW, entries_of

SIZES = (300, 3000, 4096)

EXPAT = '''
import sys, time, xml.parsers.expat
ATOM = "http://www.w3.org/2005/Atom "
KEPT = {ATOM + name for name in ("id", "title", "updated")}
entries, entry, text = [], None, None
def start(name, attributes):
    global entry, text
    if name == ATOM + "entry":
        entry = {}
    elif entry is not None and name in KEPT:
        text = []
def end(name):
    global entry, text
    if name == ATOM + "entry":
        entries.append(entry)
        entry = None
    elif text is not None and name in KEPT:
        entry[name] = "".join(text)
        text = None
def characters(data):
    if text is not None:
        text.append(data)
began = time.process_time()
parser = xml.parsers.expat.ParserCreate(namespace_separator=" ")
parser.buffer_text = True
parser.StartElementHandler, parser.EndElementHandler, parser.CharacterDataHandler = start, end, characters
with open(sys.argv[1], "rb") as file:
    parser.ParseFile(file)
print(len(entries), time.process_time() - began)
'''

FEEDPARSER = '''
import sys, time, feedparser
began = time.process_time()
with open(sys.argv[1], "rb") as file:
    entries = feedparser.parse(file.read()).entries
print(len(entries), time.process_time() - began)
'''

listener = socket.create_server(("127.0.0.1", 0))
base = f"http://127.0.0.1:{listener.getsockname()[1]}/"


def serve():
    """Sends the file of each request's path."""
    while True:
        client, _ = listener.accept()
        with client:
            request = b""
            while not request.endswith(b"\r\n\r\n"):
                request += client.recv(65536)
            path = f"{work}{request.split(b' ')[1].decode()}"
            client.sendall(b"HTTP/1.1 200 OK\r\nContent-Length: %d\r\n\r\n" % os.path.getsize(path))
            with open(path, "rb") as file:
                client.sendfile(file)


def processor_seconds(words):
    """Runs a program, and returns its status, what it printed and its time, user and system."""
    with open(f"{work}/printed", "wb") as file:
        process = subprocess.Popen(words, stdin=subprocess.DEVNULL, stdout=file, stderr=subprocess.DEVNULL)
        _, status, usage = os.wait4(process.pid, 0)
        process.returncode = os.waitstatus_to_exitcode(status)
    with open(f"{work}/printed", "rb") as file:
        return process.returncode, file.read(), usage.ru_utime + usage.ru_stime


def walked(name, status, times):
    """Returns the least time of a walk of the document."""
    took = []
    for _ in range(times):
        ended, printed, seconds = processor_seconds([tool, "foreign", "--from", base + name])
        if ended != status:
            raise SystemExit(f"{name}: status {ended}, {printed[-200:]}")
        took.append(seconds)
    return min(took)


def write(name, text):
    """Writes a document, and one of the same length that is refused at its first byte."""
    bytes_of = text.encode()
    with open(f"{work}/{name}", "wb") as file:
        file.write(bytes_of)
    with open(f"{work}/refused", "wb") as file:
        file.write(b"\xff" * len(bytes_of))
    return len(bytes_of)


def rate(length, seconds):
    return f"{seconds:.4f} seconds, {length / max(seconds, 0.0001) / 1_000_000:.0f} MB per second"


def by_python(script, name):
    with open(f"{work}/script.py", "w") as file:
        file.write(script)
    took = []
    for _ in range(runs):
        count, seconds = subprocess.run([sys.executable, f"{work}/script.py", f"{work}/{name}"], check=True,
                                        stdout=subprocess.PIPE).stdout.split()
        if int(count) != ENTRIES:
            raise SystemExit(f"{name}: {count} entries")
        took.append(float(seconds))
    return min(took)


def measure_entries():
    for size in SIZES:
        for kind in KINDS:
            name = f"{kind}_{size}"
            length = write(name, entries_of(kind, size))
            fetch = walked("refused", 3, runs)
            read = walked(name, 0, runs) - fetch
            print(f"{name}: {length} bytes, {rate(length, read)}, after a fetch of {fetch:.4f} seconds", flush=True)
            others = {}
            if shutil.which("xmllint"):
                words = ["xmllint", "--noout", "--stream", f"{work}/{name}"]
                others["xmllint"] = min(processor_seconds(words)[2] for _ in range(runs))
            others["expat in Python"] = by_python(EXPAT, name)
            if size == SIZES[0] and importlib.util.find_spec("feedparser"):
                others["feedparser"] = by_python(FEEDPARSER, name)
            for other, seconds in others.items():
                print(f"  {other}: {rate(length, seconds)}, {seconds / read:.1f} times as long", flush=True)
            os.remove(f"{work}/{name}")


def instructions(name):
    """Returns the processor instructions of a walk, or none without valgrind."""
    if not shutil.which("valgrind"):
        return None
    words = ["valgrind", "--tool=callgrind", "--callgrind-out-file=/dev/null", tool, "foreign", "--from", base + name]
    said = subprocess.run(words, stdout=subprocess.DEVNULL, stderr=subprocess.PIPE, text=True).stderr
    return int(re.search(r"Collected : (\d+)", said)[1])


def measure_slow():
    write("slow", SLOW["plain text"][0])
    # The documents have the same length, so one fetch stands for all.
    fetch, fetched = walked("refused", 3, 3 * runs), instructions("refused")
    plain = worst = whole = None
    for name, (text, status) in SLOW.items():
        length = write("slow", text)
        took = walked("slow", status, 3 * runs)
        read = max(took - fetch, 0.0001)
        counted = fetched and instructions("slow") - fetched
        if plain is None:
            plain, whole, worst = read, took, (0, 0, name)
        times, with_fetch = read / plain, took / whole
        worst = max(worst, (times, with_fetch, name))
        more = f", {counted / length:.1f} instructions a byte" if counted else ""
        print(f"{name}: {length} bytes, {rate(length, read)}, {times:.1f} times as long, "
              f"{with_fetch:.1f} with the fetch{more}", flush=True)
    print(f"the slowest takes {worst[0]:.1f} times as long as plain text, {worst[1]:.1f} with the fetch: {worst[2]}")


threading.Thread(target=serve, daemon=True).start()
measure_entries()
measure_slow()
PYTHON

#!/bin/sh
# Walks archived feeds by `feed_tool foreign --from`, and compares what is printed, the exit status, the addresses that were
# asked and the bytes of each request. A server in Python sends replies from files: chains that are whole, broken, circular
# or of two feeds, documents of each kind that is refused, documents at the limits, and replies of HTTP that are redirected,
# chunked, compressed, cut, slow or silent. Then the feed of this program's own `serve` is walked through the same server while
# entries are added, changed and removed, and compared with `mirror --fetch --report`.
# Usage: checks/foreign.sh [PROGRAM]. PROGRAM is run in place of the one of this repository. It prints a line for each
# difference and a line of counts. It ends with 0 if all agrees, and with 1 if not, and then leaves the files. It needs
# python3. It takes at least 30 seconds, which a silent server has.
top=$(CDPATH='' cd -- "$(dirname -- "$0")/.." && pwd) || exit 1
tool=${1:-$top/out/feed_tool}
case $tool in
    /*) ;;
    */*) tool=$(CDPATH='' cd -- "$(dirname -- "$tool")" && pwd)/$(basename -- "$tool") || exit 1 ;;
esac
command -v python3 >/dev/null || { echo 'foreign.sh: needs python3' >&2; exit 2; }
# The launcher isn't used below, because it looks at all sources at each start.
[ -n "$1" ] || "$top/prove" || exit 1

work=$(mktemp -d) || exit 1
mkdir "$work/site" "$work/store" "$work/mirror" "$work/empty" || exit 1

python3 - "$tool" "$work" <<'PYTHON'
import gzip
import os
import random
import re
import signal
import socket
import struct
import subprocess
import sys
import threading
import time
import urllib.parse

tool, work = sys.argv[1], sys.argv[2]
ATOM = "http://www.w3.org/2005/Atom"
DATE = "2020-01-01T00:00:00Z"
MOST_BYTES = 67_108_864
MOST_ENTRIES = 10_000
MOST_DOCUMENTS = 10_000
SILENT_SECONDS = 30
UUID = "6d1f0c5a-93be-4c27-8d10-2b7f9e4a5c36"
UUID_OF_MEMBER = "6d1f0c5a-93be-8c27-8000-{:012x}"
USAGE = "usage: feed_tool init, apply, show, serve, mirror, audit, drill, foreign, discover, relay, scrub\n"
passed = failed = 0

# The server


def free_port():
    """Returns a port below those that the system gives to clients. One of them may connect to itself."""
    while True:
        port = random.randrange(10000, 30000)
        with socket.socket() as probe:
            try:
                probe.bind(("127.0.0.1", port))
                return port
            except OSError:
                pass


listener = socket.create_server(("127.0.0.1", 0), backlog=64)
port = listener.getsockname()[1]
base = f"http://127.0.0.1:{port}/"
# accepts connections in its queue, and never sends a byte
silent = socket.create_server(("127.0.0.1", 0))
# the paths that were asked, in order, and the requests that have other bytes than they should
asked = []
odd_requests = []
# paths whose replies are sent byte by byte, and paths whose connection is reset after the reply
slow = set()
reset = set()
# the port of the program's own server, if replies come from there
own_port = None


def read_all(client):
    reply = b""
    while piece := client.recv(65536):
        reply += piece
    return reply


def file_of(path):
    """Returns the file whose bytes are the whole reply for a path, its head included."""
    return f"{work}/site/{urllib.parse.quote(path, safe='')}"


def reply_to(path, request, client):
    if own_port:
        with socket.create_connection(("127.0.0.1", own_port), timeout=60) as server:
            server.sendall(request)
            client.sendall(read_all(server))
    elif path in slow:
        with open(file_of(path), "rb") as file:
            for byte in file.read():
                client.sendall(bytes([byte]))
                time.sleep(0.0005)
    elif os.path.exists(file_of(path)):
        with open(file_of(path), "rb") as file:
            client.sendfile(file)
    else:
        client.sendall(b"HTTP/1.1 404 Not Found\r\nContent-Length: 0\r\n\r\n")
    if path in reset:
        client.setsockopt(socket.SOL_SOCKET, socket.SO_LINGER, struct.pack("ii", 1, 0))


def answer(client):
    with client:
        request = b""
        while not request.endswith(b"\r\n\r\n"):
            piece = client.recv(65536)
            if not piece:
                break
            request += piece
        path = request.split(b" ")[1].decode() if request.count(b" ") > 1 else ""
        asked.append(path)
        expected = f"GET {path} HTTP/1.0\r\nHost: 127.0.0.1:{port}\r\nConnection: close\r\n\r\n"
        if request != expected.encode():
            odd_requests.append(request)
        reply_to(path, request, client)


def serve():
    """Answers one connection after the other, since the program makes no two at once."""
    while True:
        try:
            client, _ = listener.accept()
        except OSError:
            return
        try:
            answer(client)
        except OSError:
            # the program closed the connection before it had read the whole reply
            pass


# The replies


def reply(text, *fields, status="200 OK", length=None):
    """Returns a reply with this body. `length` is the Content-Length, which is right if it isn't given."""
    body = text if isinstance(text, bytes) else text.encode()
    lines = [f"HTTP/1.1 {status}", f"Content-Length: {len(body) if length is None else length}", *fields]
    return "".join(f"{line}\r\n" for line in lines).encode() + b"\r\n" + body


def bare(text, *fields):
    """Returns a reply whose body ends with the connection."""
    return "".join(f"{line}\r\n" for line in ["HTTP/1.0 200 OK", *fields]).encode() + b"\r\n" + text.encode()


def feed(*parts, uri="f", updated=DATE):
    return (f'<?xml version="1.0" encoding="utf-8"?>\n<feed xmlns="{ATOM}" xmlns:at="http://purl.org/atompub/tombstones/1.0">'
            f"<id>{uri}</id><title>Feed</title><updated>{updated}</updated>" + "".join(parts) + "</feed>\n")


def entry(uri, updated=DATE, title=None):
    return f"<entry><id>{uri}</id><title>{title or uri}</title><updated>{updated}</updated></entry>"


def gone(uri, when=DATE):
    return f'<at:deleted-entry ref="{uri}" when="{when}"/>'


def prev(href):
    return f'<link rel="prev-archive" href="{href}"/>'


def line(uri, updated=DATE, title=None):
    return f"entry {uri} {updated} {title or uri}\n"


# The cases


def count(name, faults):
    global passed, failed
    if faults:
        failed += 1
        print(f"FAILED: {name}: {'; '.join(faults)}", flush=True)
    else:
        passed += 1


def ended(name, words, status, printed, paths, **more):
    """Runs the program in a folder that stays empty, and compares its end and the paths that were asked."""
    asked.clear()
    odd_requests.clear()
    run = subprocess.run([tool, *words], cwd=f"{work}/empty", stdin=subprocess.DEVNULL, stdout=subprocess.PIPE,
                         stderr=subprocess.PIPE, **more)
    faults = []
    if run.returncode != status:
        faults.append(f"status {run.returncode}, expected {status}")
    if run.stdout != printed.encode():
        faults.append(f"printed {run.stdout[-300:]}, expected {printed[-300:].encode()}")
    if run.stderr:
        faults.append(f"errors {run.stderr[-300:]}")
    if asked != paths:
        faults.append(f"asked {asked[:5]} and {len(asked)} in all, expected {paths[:5]} and {len(paths)}")
    if odd_requests:
        faults.append(f"the request {odd_requests[0]}")
    if os.listdir(f"{work}/empty"):
        faults.append("there are files")
    count(name, faults)


def walk(name, replies, status, printed, paths, start="f.xml"):
    """Walks from a document on. A reply that is a text is the body of one with the status 200."""
    for path, given in replies.items():
        with open(file_of(f"/{path}"), "wb") as file:
            file.write(given if isinstance(given, bytes) else reply(given))
    ended(name, ["foreign", "--from", base + start], status, printed, [f"/{path}" for path in paths])
    for path in os.listdir(f"{work}/site"):
        os.remove(f"{work}/site/{path}")


def refused(name, text, at, **more):
    """A document that is not read, at the offset."""
    walk(name, {"f.xml": text}, 3, f"not read {base}f.xml {at}\n", ["f.xml"], **more)


def faulty(name, given):
    """A reply for which the call fails."""
    walk(name, {"f.xml": given, "g.xml": feed()}, 7, "fetch fault\n", ["f.xml"])


def alone(name, given, live=0, entries=""):
    """A document without an archive before it."""
    walk(name, {"f.xml": given}, 0, f"{entries}complete 1 {live}\n", ["f.xml"])


def try_chains():
    newest = feed(prev("b.xml"), entry("x", "2019-01-02T00:00:00Z", "New"), entry("z"), gone("y", "2019-01-01T00:00:00.001Z"))
    middle = feed(entry("y", "2019-01-01T01:00:00+01:00"), entry("x", "2019-01-01T00:00:00Z", "Old"), prev("a.xml"),
                  updated="2019-06-01T00:00:00Z")
    oldest = feed(entry("w", "2018-01-01T00:00:00.5Z", "&lt;\"a&amp;\t&#10;"), entry("v", "2018-01-01T00:00:00Z"),
                  updated="2018-06-01T00:00:00Z")
    live = (line("v", "2018-01-01T00:00:00Z") + line("w", "2018-01-01T00:00:00.500Z", "&lt;&quot;a&amp;&#9;&#10;")
            + line("x", "2019-01-02T00:00:00Z", "New") + line("z"))
    three = {"f.xml": newest, "b.xml": middle, "a.xml": oldest}
    walk("three documents", three, 0, f"{live}complete 3 4\n", ["f.xml", "b.xml", "a.xml"])
    walk("a missing archive", {"f.xml": newest, "b.xml": middle}, 3, f"missing {base}a.xml\n", ["f.xml", "b.xml", "a.xml"])
    removed = reply("<html>", status="410 Gone")
    walk("an archive that was removed", {**three, "b.xml": removed}, 3, f"missing {base}b.xml\n", ["f.xml", "b.xml"])
    walk("a missing feed", {}, 3, f"missing {base}f.xml\n", ["f.xml"])
    walk("a chain that comes back to the feed", {**three, "a.xml": feed(prev("f.xml"))}, 3, f"chain again {base}f.xml\n",
         ["f.xml", "b.xml", "a.xml"])
    walk("a chain that comes back to an archive", {**three, "a.xml": feed(prev("b.xml"))}, 3, f"chain again {base}b.xml\n",
         ["f.xml", "b.xml", "a.xml"])
    walk("a document before itself", {"f.xml": feed(prev(""))}, 3, f"chain again {base}f.xml\n", ["f.xml"])
    walk("a document before itself, with a fragment", {"f.xml": feed(prev("#a"))}, 3, f"chain again {base}f.xml#a\n",
         ["f.xml", "f.xml"])
    walk("another feed", {**three, "b.xml": feed(prev("a.xml"), uri="g")}, 3, f"other feed {base}b.xml\n", ["f.xml", "b.xml"])
    walk("an archive that is no feed", {**three, "b.xml": "<a/>"}, 3, f"not read {base}b.xml 0\n", ["f.xml", "b.xml"])
    walk("a fetch that fails at the last archive", {**three, "a.xml": b""}, 7, "fetch fault\n", ["f.xml", "b.xml", "a.xml"])
    chain = {f"{number}.xml": feed(prev(f"{number - 1}.xml") if number > 1 else "", entry(f"e{number:03}"))
             for number in range(1, 201)}
    lines = "".join(line(f"e{number:03}") for number in range(1, 201))
    walk("200 documents", chain, 0, f"{lines}complete 200 200\n", [f"{number}.xml" for number in range(200, 0, -1)],
         start="200.xml")


def try_long_chains():
    for length in (MOST_DOCUMENTS, MOST_DOCUMENTS + 1):
        chain = {f"{number}.xml": feed(prev(f"{number - 1}.xml") if number > 1 else "") for number in range(1, length + 1)}
        paths = [f"{number}.xml" for number in range(length, length - MOST_DOCUMENTS, -1)]
        end = (0, f"complete {length} 0\n") if length == MOST_DOCUMENTS else (3, "too many documents\n")
        walk(f"{length} documents", chain, *end, paths, start=f"{length}.xml")


def try_links():
    links = [
        ("a relative link", "f/a.xml", "old.xml", "f/old.xml"),
        ("a relative link with ../", "f/g/a.xml", "../old/./b/../c.xml", "f/old/c.xml"),
        ("more ../ than folders", "f/a.xml", "../../../old.xml", "old.xml"),
        ("a link to a path", "f/a.xml", "/old.xml", "old.xml"),
        ("a link to a query", "f/a.xml", "?page=2&amp;b", "f/a.xml?page=2&b"),
        ("a link to a host", "f/a.xml", f"//127.0.0.1:{port}/old.xml", "old.xml"),
        ("a link with a scheme in capitals", "f/a.xml", f"HTTP://127.0.0.1:{port}/old.xml", "old.xml"),
        ("a link with a space and an e with an accent", "f/a.xml", " o d\u00e9.xml ", "f/o%20d%C3%A9.xml"),
        ("a link with a fragment", "f/a.xml", "old.xml#top", "f/old.xml"),
        ("a link with a line end", "f/a.xml", "o&#10;ld.xml", "f/old.xml"),
    ]
    for name, path, href, target in links:
        walk(name, {path: feed(prev(href)), target: feed()}, 0, "complete 2 0\n", [path, target], start=path)
    for href in (f"https://127.0.0.1:{port}/old.xml", "ftp://a.example/old.xml", "mailto:a@a.example", "file:///etc/passwd"):
        walk(f"a link to {href.split(':')[0]}", {"f.xml": feed(prev(href))}, 3, f"not http {href}\n", ["f.xml"])
    text = feed(prev("http://:0/"))
    refused("a link that makes no URL", text, text.index("<link"))
    text = feed('<link rel="prev-archive"/>')
    refused("a link without href", text, text.index("<link"))
    walk("a link with a user", {"f.xml": feed(prev(f"http://a:b@127.0.0.1:{port}/old.xml")), "old.xml": feed()}, 7,
         "fetch fault\n", ["f.xml"])
    walk("a link to a port where nothing listens", {"f.xml": feed(prev(f"http://127.0.0.1:{free_port()}/old.xml"))}, 7,
         "fetch fault\n", ["f.xml"])
    other = '<link rel="next" href="b.xml"/><link rel="self" href="f.xml"/><link href="c.xml"/>'
    alone("links of other relations", feed(other))
    walk("a fragment in --from", {"f.xml": feed()}, 0, "complete 1 0\n", ["f.xml"], start="f.xml#top")


def try_replies():
    text = feed(entry("x"))
    for status in ("301 Moved Permanently", "302 Found", "303 See Other", "307 Temporary Redirect", "308 Permanent Redirect"):
        faulty(status, reply("", "Location: /g.xml", status=status))
    for status in ("204 No Content", "206 Partial Content", "304 Not Modified", "401 Unauthorized", "403 Forbidden",
                   "429 Too Many Requests", "500 Internal Server Error", "503 Service Unavailable"):
        faulty(status, reply(text, status=status))
    faulty("100 Continue before the reply", b"HTTP/1.1 100 Continue\r\n\r\n" + reply(text))
    chunks = f"{len(text):x}\r\n{text}\r\n0\r\n\r\n"
    faulty("a body in chunks", bare(chunks, "Transfer-Encoding: chunked"))
    faulty("a body in chunks, with a length", reply(chunks, "transfer-encoding: chunked"))
    faulty("two lengths", reply(text, f"Content-Length: {len(text)}"))
    for length in ("", "-1", "+5", "0x10", "1e3", "5, 5", "9" * 31):
        faulty(f"the length '{length}'", reply(text, length=length))
    faulty("no reply", b"")
    faulty("a head that is cut", b"HTTP/1.1 200 OK\r\nContent-Le")
    faulty("no HTTP", b"SSH-2.0-OpenSSH_9.6\r\n")
    faulty("HTTP/0.9", text.encode())
    faulty("65 fields", bare(text, *["A: b"] * 65))
    faulty("a head of over 16,384 bytes", bare(text, "A: " + "b" * 16_384))
    faulty("a length over the body", reply(text, length=len(text) + 1))
    reset.add("/f.xml")
    faulty("a reset within the body", reply(text, length=2 * len(text)))
    reset.clear()
    alone("64 fields", bare(text, *["A: b"] * 64), 1, line("x"))
    alone("a long head", bare(text, "A: " + "b" * 16_000), 1, line("x"))
    alone("a body up to the end of the connection", bare(text), 1, line("x"))
    alone("bytes after the length", reply(text + "<", length=len(text)), 1, line("x"))
    alone("another media type", reply(text, "Content-Type: text/html; charset=iso-8859-1"), 1, line("x"))
    alone("a length of 30 digits", reply(text, length=f"{len(text):030}"), 1, line("x"))
    slow.add("/f.xml")
    alone("a reply byte by byte", reply(text), 1, line("x"))
    slow.clear()
    whole = len(text.rstrip())
    for length in (0, 1, whole // 2, whole - 1):
        refused(f"a length of {length} of {len(text)}", reply(text, length=length), length)
        refused(f"the end of the connection after {length} of {len(text)}", bare(text[:length]), length)
    alone("a length without the last line end", reply(text, length=whole), 1, line("x"))
    # The second byte of gzip isn't one of UTF-8.
    zipped = gzip.compress(text.encode())
    refused("a compressed body", reply(zipped, "Content-Encoding: gzip"), 1)


def try_documents():
    text = feed(entry("x"))
    refused("RSS", '<rss version="2.0"><channel><title>a</title></channel></rss>', 0)
    refused("RSS 1.0", '<?xml version="1.0"?><rdf:RDF xmlns:rdf="http://www.w3.org/1999/02/22-rdf-syntax-ns#"/>', 21)
    refused("a page", '<!DOCTYPE html><html><body><p>a</body></html>', 0)
    refused("a page of XHTML", '<!-- a page --><html xmlns="http://www.w3.org/1999/xhtml"><body/></html>', 15)
    refused("a feed of Atom 0.3", text.replace(ATOM, "http://purl.org/atom/ns#"), text.index("<feed"))
    refused("an entry document", f'<entry xmlns="{ATOM}"><id>x</id><updated>{DATE}</updated></entry>', 0)
    refused("JSON", '{"version": "https://jsonfeed.org/version/1.1"}', 0)
    refused("nothing", "", 0)
    latin = text.replace("utf-8", "ISO-8859-1")
    refused("ISO-8859-1", latin, 0)
    accent = latin.replace("Feed", "F\u00e9").encode("latin-1")
    refused("ISO-8859-1 with an e with an accent", reply(accent), accent.index(0xE9))
    refused("UTF-16", reply(text.encode("utf-16")), 0)
    refused("a DOCTYPE", f"<!DOCTYPE feed>{text[39:]}", 0)
    refused("an entity", text.replace("Feed", "&nbsp;"), text.index("Feed"))
    refused("a character that XML doesn't have", text.replace("Feed", "\x01"), text.index("Feed"))
    refused("an element that isn't closed", text.replace("</entry>", ""), text.index("</entry>"))
    refused("two roots", text + "<a/>", len(text))
    refused("no date", text.replace(f"<updated>{DATE}</updated></entry>", "</entry>"), text.index("<entry"))
    at = text.index("<updated", text.index("<entry"))
    refused("a bad date", text[:at] + text[at:].replace(DATE, "2020-02-30T00:00:00Z"), at)
    refused("two identifiers", feed(entry("x"), "<id>g</id>"), feed(entry("x")).index("</feed>"))
    deep = lambda depth: feed("<a>" * depth + "</a>" * depth)
    alone("depth 256", deep(255))
    refused("depth 257", deep(256), feed().index("</feed>") + 3 * 255)
    alone("a byte order mark", "\ufeff" + text, 1, line("x"))
    prefixed = f'<a:feed xmlns:a="{ATOM}" xmlns="b"><a:id>f</a:id><id/><a:updated>{DATE}</a:updated></a:feed>'
    alone("a prefix", prefixed)
    alone("a title of 65,536 bytes", feed(entry("x", DATE, "t" * 65_536)), 1, line("x", DATE, "t" * 65_536))
    text = feed(entry("x", DATE, "t" * 65_537))
    refused("a title of 65,537 bytes", text, text.index("<title", text.index("<entry")))


def try_limits():
    entries = [entry(f"e{number:05}") for number in range(MOST_ENTRIES)]
    lines = "".join(line(f"e{number:05}") for number in range(MOST_ENTRIES))
    alone("10,000 entries", feed(*entries), MOST_ENTRIES, lines)
    text = feed(*entries, entry("more"))
    refused("10,001 entries", text, text.rindex("<entry"))
    stones = [gone(f"e{number:05}") for number in range(MOST_ENTRIES)]
    alone("10,000 tombstones", feed(entry("e00001"), entry("x"), *stones), 1, line("x"))
    text = feed(*stones, gone("more"))
    refused("10,001 tombstones", text, text.rindex("<at:"))
    # A comment fills the document up to its length.
    long = lambda more: feed("<!--", "a" * (MOST_BYTES + more - len(feed("<!--", "-->"))), "-->")
    alone("67,108,864 bytes", reply(long(0)))
    alone("67,108,864 bytes up to the end of the connection", bare(long(0)))
    faulty("67,108,865 bytes", reply(long(1)))
    faulty("67,108,865 bytes up to the end of the connection", bare(long(1)))


def try_words():
    """Words that name no command: no address is asked."""
    walks = ["foreign", "--from"]
    bad = [["foreign"], walks, [*walks, base, "x"], [*walks, base, "--from", base], ["foreign", base], [*walks, ""],
           ["foreign", "--from="], [*walks, f"https://127.0.0.1:{port}/"], [*walks, base.replace("http", "HTTP")],
           [*walks, base[:-1]], [*walks, f"{base}a b"], [*walks, f"{base}a/../b"], [*walks, "http://a.example:80/"],
           [*walks, "http://A.example/"], [*walks, f"127.0.0.1:{port}/"], ["foreign", "--form", base],
           [b"foreign", b"--from", base.encode() + b"\xff"]]
    for words in bad:
        ended(f"the words {words}", words, 2, USAGE, [])
    with open(file_of("/f.xml"), "wb") as file:
        file.write(reply(feed()))
    ended("--from=", ["foreign", f"--from={base}f.xml"], 0, "complete 1 0\n", ["/f.xml"])
    with open("/dev/full", "wb") as full:
        run = subprocess.run([tool, *walks, f"{base}f.xml"], stdin=subprocess.DEVNULL, stdout=full)
    count("an output without room", [] if run.returncode == 8 else [f"status {run.returncode}"])
    ended("no server", [*walks, f"http://127.0.0.1:{free_port()}/"], 7, "fetch fault\n", [])


# The program's own server


def run(words, folder, **more):
    return subprocess.run([tool, *words], cwd=f"{work}/{folder}", stdout=subprocess.PIPE, check=True, **more)


def change(count, live, added):
    """Adds, changes and removes entries. `live` are the numbers of the entries. Returns how many were added in all."""
    lines = []
    for _ in range(count):
        chosen = random.randrange(4) if live else 0
        title = random.choice(['"A" & <b>', "\u00e9 \u20ac", "News", "x" * 300]) + f" {random.random()}"
        if chosen < 2:
            added += 1
            live.append(added)
            lines.append(f"add {title}\n")
        elif chosen == 2:
            lines.append(f"change {random.choice(live)} {title}\n")
        else:
            lines.append(f"remove {live.pop(random.randrange(len(live)))}\n")
    run(["apply"], "store", input="".join(lines).encode())
    return added


def identified(report):
    """Returns the lines of a mirror's report as those of a walk, with identifiers in place of numbers."""
    lines = [text.split(" ", 2) for text in report.decode().splitlines() if text.startswith("entry ")]
    return "".join(f"entry urn:uuid:{UUID_OF_MEMBER.format(int(number))} {rest}\n" for _, number, rest in lines)


def walk_own(name, words, live):
    """Walks the feed of the program's server, and compares the walk with a mirror of it."""
    global own_port
    pile = run(["show", "pile"], "store").stdout
    archives = len(re.findall(rb"(?m)^http://[^ ]*/archive/\d+ \d+$", pile))
    own_port = free_port()
    server = subprocess.Popen([tool, "serve", "--listen", f"127.0.0.1:{own_port}", "--requests", "1000000"],
                              cwd=f"{work}/store", stdin=subprocess.DEVNULL, stdout=subprocess.DEVNULL)
    try:
        for _ in range(600):
            try:
                socket.create_connection(("127.0.0.1", own_port)).close()
                break
            except OSError:
                time.sleep(0.05)
        report = run(["mirror", "--base", base, "--fetch", "--report"], "mirror").stdout
        lines = identified(report)
        paths = ["/feed", *[f"/archive/{number}" for number in range(archives, 0, -1)]]
        ended(name, words, 0, f"{lines}complete {archives + 1} {live}\n", paths)
    finally:
        server.send_signal(signal.SIGTERM)
        server.wait()
        own_port = None


def try_own():
    run(["init", "--base", base, "--uuid", UUID, "--title", "Feed", "--author", "Editor", "--window", "4"], "store")
    live = []
    added = 0
    for count in (0, 1, 3, 50, 500, 2000):
        added = change(count, live, added)
        walk_own(f"the feed of a store of {len(live)} entries", ["foreign", "--from", f"{base}feed"], len(live))


def try_silent():
    """Walks from a server that accepts and sends nothing, beside the other cases."""
    began = time.monotonic()
    words = [tool, "foreign", "--from", f"http://127.0.0.1:{silent.getsockname()[1]}/"]
    run = subprocess.run(words, cwd=f"{work}/empty", stdin=subprocess.DEVNULL, stdout=subprocess.PIPE)
    took = time.monotonic() - began
    right = (run.returncode, run.stdout) == (7, b"fetch fault\n") and SILENT_SECONDS <= took < SILENT_SECONDS + 10
    waited.append([] if right else [f"status {run.returncode} after {took:.0f} seconds, printed {run.stdout}"])


waited = []
threading.Thread(target=serve, daemon=True).start()
waiting = threading.Thread(target=try_silent)
waiting.start()
try_chains()
try_links()
try_replies()
try_documents()
try_limits()
try_words()
try_own()
try_long_chains()
waiting.join()
count("a silent server", waited[0])
print(f"{passed} passed, {failed} failed")
sys.exit(1 if failed else 0)
PYTHON
status=$?
if [ "$status" -eq 0 ]; then rm -rf "$work"; else echo "the files are in $work"; fi
exit "$status"

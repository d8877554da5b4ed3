#!/bin/sh
# Exports a store by deploy/export, again and again while it changes, and serves the folder by nginx with
# deploy/nginx-export.conf, or by Python where there is no nginx. Exports are killed with SIGKILL at random moments. After
# each one, killed or not, the folder is mirrored by `mirror --fetch`, and the mirror's certificate is audited against the
# store's own pile of that version. A reader beside them asks for the feed and its newest archive all the time. At the end
# an archive is damaged, which an export has to refuse without a change.
# Usage: checks/export.sh [ROUNDS [PROGRAM]]. ROUNDS is 30 if it isn't given. PROGRAM is run in place of the one of this
# repository. It prints a line of counts and ends with 0 if all agrees. It ends at the first difference with 1, and leaves
# the files. It needs python3. With nginx it also compares replies by ETag, with gzip and over one connection.
rounds=${1:-30}
top=$(CDPATH='' cd -- "$(dirname -- "$0")/.." && pwd) || exit 1
tool=${2:-$top/out/feed_tool}
case $tool in
    /*) ;;
    */*) tool=$(CDPATH='' cd -- "$(dirname -- "$tool")" && pwd)/$(basename -- "$tool") || exit 1 ;;
esac
# The launcher isn't used below, because it looks at all sources at each start.
[ -n "$2" ] || "$top/prove" || exit 1

work=$(mktemp -d) || exit 1
mkdir "$work/store" "$work/mirror" || exit 1

python3 - "$rounds" "$tool" "$work" "$top" <<'PYTHON'
import functools
import gzip
import http.client
import http.server
import os
import random
import re
import shutil
import signal
import socket
import subprocess
import sys
import threading
import time

rounds, tool, work, top = int(sys.argv[1]), sys.argv[2], sys.argv[3], sys.argv[4]
folder = f"{work}/folder"
environment = {**os.environ, "FEED_TOOL": tool}
exports = kills = accepted = replies = 0
stopping = threading.Event()
# what the reader found wrong
wrong = []


class Differs(Exception):
    """The folder and the store don't agree."""


def free_port():
    """Returns a port below those that the system gives to clients. One of them may connect to itself."""
    while True:
        port = random.randrange(10000, 30000)
        with socket.socket() as probe:
            try:
                probe.bind(("127.0.0.1", port))
                return port
            except OSError:
                pass


port = free_port()
base = f"http://127.0.0.1:{port}/"


class Files(http.server.SimpleHTTPRequestHandler):
    protocol_version = "HTTP/1.1"

    def log_message(self, *_):
        pass


def serve_by_python():
    handler = functools.partial(Files, directory=folder)
    server = http.server.ThreadingHTTPServer(("127.0.0.1", port), handler)
    threading.Thread(target=server.serve_forever, daemon=True).start()


def serve_by_nginx():
    """Returns nginx, which runs with the example of deploy/."""
    with open(f"{top}/deploy/nginx-export.conf") as file:
        example = file.read()
    example = example.replace("listen 80;", f"listen 127.0.0.1:{port};").replace("/var/lib/feed-export/news", folder)
    with open(f"{work}/nginx.conf", "w") as file:
        # As root, nginx would become a user who can't read this folder.
        file.write("user root;\n" if os.getuid() == 0 else "")
        file.write(f"daemon off;\npid {work}/pid;\nerror_log {work}/errors;\nevents {{ }}\nhttp {{\naccess_log off;\n")
        for kind in ("client_body", "proxy", "fastcgi", "uwsgi", "scgi"):
            file.write(f"{kind}_temp_path {work}/{kind};\n")
        file.write(f"{example}\n}}\n")
    return subprocess.Popen(["nginx", "-c", f"{work}/nginx.conf", "-e", f"{work}/errors"])


def ask(path, connection=None, **fields):
    """Returns the reply to a GET, and its body."""
    own = connection or http.client.HTTPConnection("127.0.0.1", port, timeout=60)
    own.request("GET", path, headers={name.replace("_", "-"): value for name, value in fields.items()})
    reply = own.getresponse()
    body = reply.read()
    if not connection:
        own.close()
    return reply, body


def read_on():
    """Asks for the feed and its newest archive until it is stopped. Each has to be whole, and the archive there."""
    global replies
    while not stopping.wait(0.001):
        reply, body = ask("/feed")
        link = re.search(rb'<link rel="prev-archive" href="[^"]*(/archive/\d+)"/>', body)
        if reply.status != 200 or not body.endswith(b"</feed>\n"):
            wrong.append(f"the feed: status {reply.status}, {body[-100:]}")
            return
        replies += 1
        if link:
            reply, body = ask(link[1].decode())
            if reply.status != 200 or not body.endswith(b"</feed>\n"):
                wrong.append(f"{link[1]}: status {reply.status}, {body[-100:]}")
                return
            replies += 1


def run(words, place, **more):
    return subprocess.run([tool, *words], cwd=f"{work}/{place}", stdout=subprocess.PIPE, **more)


def change():
    """Makes up to 30 changes of the store, and keeps its pile. Returns its version."""
    lines = []
    for _ in range(random.randrange(1, 30)):
        kind = random.randrange(4)
        lines.append(f"change 1 News {random.random()}" if kind == 0 else f"add News {random.random()}")
    subscription = run(["apply"], "store", input="".join(f"{line}\n" for line in lines).encode(), check=True).stdout
    version = int(re.search(rb'<sp:span first="\d+" last="(\d+)"/>', subscription)[1])
    with open(f"{work}/pile.{version}", "wb") as file:
        file.write(run(["show", "pile"], "store", check=True).stdout)
    return version


def start_export():
    global exports
    exports += 1
    return subprocess.Popen([f"{top}/deploy/export", folder], cwd=f"{work}/store", env=environment,
                            stdout=subprocess.PIPE, stderr=subprocess.STDOUT, start_new_session=True)


def export_whole():
    """Returns how long it took."""
    began = time.monotonic()
    process = start_export()
    said, _ = process.communicate()
    if process.returncode != 0:
        raise Differs(f"the export ended with {process.returncode}: {said.decode()}")
    return time.monotonic() - began


def export_killed(seconds):
    """Kills an export within this time, unless it ends before."""
    global kills
    process = start_export()
    time.sleep(random.uniform(0, seconds))
    # The program goes too: it has the store until it ends.
    os.killpg(process.pid, signal.SIGKILL)
    said, _ = process.communicate()
    if process.returncode == -signal.SIGKILL:
        kills += 1
    elif process.returncode != 0:
        raise Differs(f"the export ended with {process.returncode}: {said.decode()}")


def audit(versions):
    """Mirrors the folder. The mirror has to be complete with one of these versions, which the store's pile covers."""
    global accepted
    certificate = run(["mirror", "--base", base, "--fetch"], "mirror")
    version = re.search(rb"^version (\d+)$", certificate.stdout, re.MULTILINE)
    if certificate.returncode != 0 or int(version[1]) not in versions:
        raise Differs(f"the mirror ended with {certificate.returncode}, for the versions {versions}: {certificate.stdout[:300]}")
    with open(f"{work}/pile.{int(version[1])}", "rb") as pile:
        verdict = run(["audit"], "mirror", input=certificate.stdout + pile.read())
    if verdict.returncode != 0:
        raise Differs(f"the audit ended with {verdict.returncode}: {verdict.stdout.decode()}")
    accepted += 1
    if wrong:
        raise Differs(wrong[0])


def state():
    """Returns the files of the folder with their bytes."""
    found = {}
    for place, _, names in os.walk(folder):
        for name in names:
            with open(f"{place}/{name}", "rb") as file:
                found[f"{place}/{name}"] = file.read()
    return found


def refuse(what):
    """Exports to a folder that doesn't fit the store."""
    before = state()
    process = start_export()
    said, _ = process.communicate()
    if process.returncode != 1 or state() != before:
        raise Differs(f"{what}: the export ended with {process.returncode}: {said.decode()}")


def compare_replies():
    """Compares what only nginx does: it knows a document that a reader has, compresses, and keeps a connection."""
    connection = http.client.HTTPConnection("127.0.0.1", port, timeout=60)
    for path in ("/feed", "/archive/1"):
        reply, body = ask(path, connection)
        local = connection.sock.getsockname()
        if reply.getheader("Content-Type") != "application/atom+xml":
            raise Differs(f"{path} has the type {reply.getheader('Content-Type')}")
        known, _ = ask(path, connection, If_None_Match=reply.getheader("ETag"))
        packed, pressed = ask(path, connection, Accept_Encoding="gzip")
        if known.status != 304 or packed.getheader("Content-Encoding") != "gzip" or gzip.decompress(pressed) != body:
            raise Differs(f"{path}: {known.status} by ETag, {packed.getheader('Content-Encoding')}")
        if connection.sock.getsockname() != local:
            raise Differs(f"{path}: the connection wasn't kept")
    for path in ("/archive/99999", "/.pending/feed"):
        if ask(path)[0].status != 404:
            raise Differs(f"{path} is there")


def play(has_nginx):
    version = change()
    seconds = export_whole()
    reader = threading.Thread(target=read_on, daemon=True)
    for _ in range(600):
        try:
            ask("/feed")
            break
        except OSError:
            time.sleep(0.05)
    reader.start()
    for _ in range(rounds):
        before, version = version, change()
        export_killed(seconds)
        audit((before, version))
        seconds = max(export_whole(), 0.02)
        audit((version,))
    if has_nginx:
        compare_replies()
    stopping.set()
    reader.join()
    change()
    with open(f"{folder}/archive/1", "r+b") as file:
        file.seek(100)
        file.write(b"X")
    refuse("a damaged archive")
    shutil.copy(f"{work}/pile.{version}", f"{folder}/archive/1")
    refuse("a longer archive")
    shutil.rmtree(folder)
    export_whole()
    with open(f"{folder}/archive/77777", "wb"):
        pass
    refuse("an archive that the store hasn't")


run(["init", "--base", base, "--uuid", "6d1f0c5a-93be-4c27-8d10-2b7f9e4a5c36", "--title", "Feed", "--author", "Editor",
     "--window", "4"], "store", check=True)
os.mkdir(folder)
has_nginx = bool(shutil.which("nginx"))
server = None
differs = 0
try:
    if has_nginx:
        server = serve_by_nginx()
    else:
        print("there is no nginx: Python serves the folder, and ETag and gzip aren't tried")
        serve_by_python()
    play(has_nginx)
except Differs as difference:
    differs = 1
    print(f"DIFFERS: {difference}; the files are in {work}")
finally:
    stopping.set()
    if server:
        server.terminate()
        server.wait()
print(f"{exports} exports, {kills} killed, {len(state()) - 1} archives, {accepted} certificates accepted, {replies} replies "
      f"read beside them, 3 refused, {differs} differ" if not differs else f"{exports} exports, {differs} differ")
sys.exit(differs)
PYTHON
status=$?
[ "$status" -ne 0 ] || rm -rf "$work"
exit "$status"

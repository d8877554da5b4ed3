#!/bin/sh
# Mirrors the feed of a running server with `feed_tool mirror --fetch --report`, while entries are made, changed and removed.
# The mirror is killed with SIGKILL at a random moment and started again on the same files, ROUNDS times. Each report is
# compared with what the server replied up to the report's version, and the last one also with the server's own members. A
# proxy between the two lists the addresses that were asked: an archive may be asked again only if the mirror was killed
# before it had kept the reply.
# Usage: checks/mirror.sh [ROUNDS [PROGRAM]]. ROUNDS is 20 if it isn't given. PROGRAM is run in place of the one of this
# repository. It prints a line of counts and ends with 0 if all agrees. It ends at the first difference with 1, and leaves
# the files. It needs python3.
rounds=${1:-20}
top=$(CDPATH='' cd -- "$(dirname -- "$0")/.." && pwd) || exit 1
tool=${2:-$top/out/feed_tool}
case $tool in
    /*) ;;
    */*) tool=$(CDPATH='' cd -- "$(dirname -- "$tool")" && pwd)/$(basename -- "$tool") || exit 1 ;;
esac
# The launcher isn't used below, because it looks at all sources at each start.
[ -n "$2" ] || "$top/prove" || exit 1

work=$(mktemp -d) || exit 1
mkdir "$work/server" "$work/mirror" || exit 1

python3 - "$rounds" "$tool" "$work" <<'PYTHON'
import random
import re
import signal
import socket
import subprocess
import sys
import threading
import time

rounds, tool, work = int(sys.argv[1]), sys.argv[2], sys.argv[3]
OPERATIONS = 500
# the addresses that the mirror asked, in order, each with the number of its run
asked = []
# the proxy's threads, one for each connection
forwards = []
# the live members after each operation: by number, the line that a report has of it
versions = [{}]
run = posts = kills = complete = repeated = 0
stopping = threading.Event()
changing = threading.Lock()


class Differs(Exception):
    """The mirror and the server don't agree."""


def free_port():
    """Returns a port below those that the system gives to clients. One of them may connect to itself."""
    while True:
        port = random.randrange(10000, 30000)
        with socket.socket() as probe:
            try:
                probe.bind(("127.0.0.1", port))
                return port
            except OSError:
                pass


feed_port, server_port = free_port(), free_port()
base = f"http://127.0.0.1:{feed_port}/"


def read_all(client):
    reply = b""
    while piece := client.recv(65536):
        reply += piece
    return reply


def forward(client):
    """Passes a request of the mirror on to the server, and its reply back."""
    with client:
        try:
            request = b""
            while b"\r\n\r\n" not in request:
                piece = client.recv(65536)
                if not piece:
                    return
                request += piece
            asked.append((run, request.split(b" ", 2)[1].decode()))
            with socket.create_connection(("127.0.0.1", server_port), timeout=60) as server:
                server.sendall(request)
                client.sendall(read_all(server))
        except OSError:
            # the mirror was killed
            pass


def proxy(listener):
    while True:
        try:
            client, _ = listener.accept()
        except OSError:
            return
        thread = threading.Thread(target=forward, args=(client,), daemon=True)
        thread.start()
        forwards.append(thread)


def ask(method, path, body=b""):
    """Returns status and body of the server's reply."""
    head = f"{method} {path} HTTP/1.1\r\nHost: feed.example\r\nContent-Length: {len(body)}\r\n\r\n"
    with socket.create_connection(("127.0.0.1", server_port), timeout=60) as client:
        client.sendall(head.encode() + body)
        head, _, body = read_all(client).partition(b"\r\n\r\n")
    return int(head[9:12]), body


def line_of(body):
    """Returns a report's line of a member, from its document."""
    number = re.search(rb'/member/(\d+)"', body)[1]
    updated = re.search(rb"<updated>([^<]*)</updated>", body)[1]
    title = re.search(rb"<title>([^<]*)</title>", body)[1]
    return b"entry %s %s %s" % (number, updated, title)


def change():
    """Makes, changes or removes an entry, and keeps which members are live then."""
    global posts
    live = dict(versions[-1])
    entry = f'<entry xmlns="http://www.w3.org/2005/Atom"><title>News {len(versions)}</title></entry>'.encode()
    chosen = random.randrange(4) if live else 0
    if chosen < 2:
        status, body = ask("POST", "/feed", entry)
        expected = 201
    else:
        number = random.choice(list(live))
        status, body = ask("PUT", f"/member/{number}", entry) if chosen == 2 else ask("DELETE", f"/member/{number}")
        expected = 200
    if status != expected:
        raise Differs(f"the server replied {status}: {body}")
    if chosen == 3:
        del live[number]
    else:
        line = line_of(body)
        live[int(line.split()[1])] = line
    versions.append(live)
    posts += 1


def change_on():
    """Goes on until it is stopped."""
    while not stopping.wait(0.002):
        with changing:
            change()


def compare(report):
    """Compares a report with the members that were live at its version, which was served while the mirror ran."""
    global complete
    lines = report.splitlines()
    last = re.fullmatch(rb"complete (\d+) (\d+)", lines[-1]) if lines else None
    if not last:
        raise Differs(f"the report ends with {lines[-1:]}")
    with changing:
        # the change of that version may have been served before its own reply was read
        live = versions[int(last[1])]
    expected = [live[number] for number in sorted(live)]
    if int(last[2]) != len(live) or [line for line in lines if line.startswith(b"entry ")] != expected:
        raise Differs(f"the report at version {int(last[1])} isn't the server's: {report.decode()}")
    complete += 1


def settle():
    """Waits until the proxy is done with what a killed run asked. It takes connections in the order in which they came."""
    with socket.create_connection(("127.0.0.1", feed_port), timeout=60) as client:
        client.shutdown(socket.SHUT_WR)
        read_all(client)
    while forwards:
        forwards.pop().join()


def start():
    global run
    settle()
    run += 1
    words = [tool, "mirror", "--base", base, "--fetch", "--report"]
    return subprocess.Popen(words, cwd=f"{work}/mirror", stdin=subprocess.DEVNULL, stdout=subprocess.PIPE)


def mirror_whole():
    """Runs the mirror to its end, and returns how long it took."""
    began = time.monotonic()
    process = start()
    report, _ = process.communicate()
    if process.returncode != 0:
        raise Differs(f"the mirror ended with {process.returncode}: {report.decode()}")
    compare(report)
    return time.monotonic() - began


def mirror_killed(seconds):
    """Kills the mirror within this time, unless it ends before."""
    global kills
    process = start()
    time.sleep(random.uniform(0, seconds))
    process.kill()
    report, _ = process.communicate()
    if process.returncode == -signal.SIGKILL:
        kills += 1
    elif process.returncode == 0:
        compare(report)
    else:
        raise Differs(f"the mirror ended with {process.returncode}: {report.decode()}")


def check_asked():
    """An archive is asked again only if it was the last one that a killed run asked."""
    global repeated
    runs = {}
    for number, path in asked:
        runs.setdefault(number, []).append(path)
    held = set()
    for number in sorted(runs):
        paths = runs[number]
        if paths[0] != "/feed" or "/feed" in paths[1:]:
            raise Differs(f"run {number} asked {paths[:3]} first")
        again = held.intersection(paths)
        if again:
            raise Differs(f"run {number} asked again for {sorted(again)}")
        # the reply to the last one may have been cut off
        held.update(paths[1:-1])
        repeated += sum(paths[-1] in other for key, other in runs.items() if key > number and paths[-1] != "/feed")


def play():
    worker = threading.Thread(target=change_on, daemon=True)
    for _ in range(OPERATIONS):
        change()
    worker.start()
    seconds = 0.5
    for _ in range(rounds):
        mirror_killed(seconds)
        if random.randrange(3) == 0:
            seconds = max(mirror_whole(), 0.02)
    mirror_whole()
    stopping.set()
    worker.join()
    mirror_whole()
    for number, line in versions[-1].items():
        status, body = ask("GET", f"/member/{number}")
        if status != 200 or line_of(body) != line:
            raise Differs(f"member {number} of the server: status {status}")
    check_asked()


subprocess.run([tool, "init", "--base", base, "--uuid", "6d1f0c5a-93be-4c27-8d10-2b7f9e4a5c36", "--title", "Feed",
                "--author", "Editor", "--window", "4"], cwd=f"{work}/server", check=True, stdout=subprocess.DEVNULL)
server = subprocess.Popen([tool, "serve", "--listen", f"127.0.0.1:{server_port}", "--requests", "1000000"],
                          cwd=f"{work}/server", stdin=subprocess.DEVNULL, stdout=subprocess.DEVNULL)
differs = 0
listener = socket.create_server(("127.0.0.1", feed_port))
try:
    threading.Thread(target=proxy, args=(listener,), daemon=True).start()
    for _ in range(3000):
        try:
            ask("GET", "/feed")
            break
        except OSError:
            time.sleep(0.01)
    play()
except Differs as difference:
    differs = 1
    print(f"DIFFERS: {difference}; the files are in {work}")
finally:
    stopping.set()
    server.kill()
    server.wait()
print(f"{posts} operations, {run} runs, {kills} killed, {complete} complete reports compared, {len(asked)} addresses asked, "
      f"{repeated} asked again after a kill, {differs} differ")
sys.exit(differs)
PYTHON
status=$?
[ "$status" -ne 0 ] || rm -rf "$work"
exit "$status"

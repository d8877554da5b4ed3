#!/bin/sh
# Mirrors a feed over HTTPS by deploy/mirror-https. The files of deploy/export are served by nginx, or by Python where there
# is no nginx, with a certificate that is made on the spot. The mirror is killed with SIGKILL at random moments while the
# feed changes. Each whole run has to be complete, with the entries of the store, and its certificate is audited against the
# store's own pile. Then a document is missing, one is another feed's, the server's certificate isn't trusted, and nothing
# listens.
# Usage: checks/https.sh [ROUNDS [PROGRAM]]. ROUNDS is 10 if it isn't given. PROGRAM is run in place of the one of this
# repository. It prints a line of counts and ends with 0 if all agrees. It ends at the first difference with 1, and leaves
# the files. It needs curl, openssl and python3, and ends with 2 if one isn't there.
rounds=${1:-10}
top=$(CDPATH='' cd -- "$(dirname -- "$0")/.." && pwd) || exit 1
tool=${2:-$top/out/feed_tool}
case $tool in
    /*) ;;
    */*) tool=$(CDPATH='' cd -- "$(dirname -- "$tool")" && pwd)/$(basename -- "$tool") || exit 1 ;;
esac
for needed in curl openssl python3; do
    command -v "$needed" >/dev/null || { echo "https.sh: needs $needed" >&2; exit 2; }
done
# The launcher isn't used below, because it looks at all sources at each start.
[ -n "$2" ] || "$top/prove" || exit 1

work=$(mktemp -d) || exit 1
mkdir "$work/store" "$work/mirror" "$work/home" || exit 1
openssl req -x509 -newkey rsa:2048 -nodes -days 2 -subj /CN=localhost -addext subjectAltName=DNS:localhost \
    -keyout "$work/key" -out "$work/certificate" 2>/dev/null || { echo 'https.sh: openssl makes no certificate' >&2; exit 1; }

python3 - "$rounds" "$tool" "$work" "$top" <<'PYTHON'
import functools
import http.server
import os
import random
import shutil
import signal
import socket
import ssl
import subprocess
import sys
import threading
import time

rounds, tool, work, top = int(sys.argv[1]), sys.argv[2], sys.argv[3], sys.argv[4]
BASE = "http://feed.example/"
ARCHIVES = 60
folder = f"{work}/folder"
# curl reads no settings of its user, and trusts the certificate.
environment = {**os.environ, "FEED_TOOL": tool, "CURL_HOME": f"{work}/home", "HOME": f"{work}/home", "NO_PROXY": "*",
               "CURL_CA_BUNDLE": f"{work}/certificate"}
runs = kills = complete = cases = 0


class Differs(Exception):
    """The mirror and the store don't agree."""


def free_port():
    """Returns a port below those that the system gives to clients. One of them may connect to itself."""
    while True:
        port = random.randrange(10000, 30000)
        with socket.socket() as probe:
            try:
                probe.bind(("127.0.0.1", port))
                return port
            except OSError:
                pass


port = free_port()


class Files(http.server.SimpleHTTPRequestHandler):
    protocol_version = "HTTP/1.1"

    def log_message(self, *_):
        with open(f"{work}/asked", "a") as file:
            file.write(f"{self.path}\n")


def serve_by_python():
    server = http.server.ThreadingHTTPServer(("127.0.0.1", port), functools.partial(Files, directory=folder))
    context = ssl.SSLContext(ssl.PROTOCOL_TLS_SERVER)
    context.load_cert_chain(f"{work}/certificate", f"{work}/key")
    # The handshake is made by the thread of the connection.
    server.socket = context.wrap_socket(server.socket, server_side=True, do_handshake_on_connect=False)
    server.handle_error = lambda *_: None
    threading.Thread(target=server.serve_forever, daemon=True).start()


def serve_by_nginx():
    with open(f"{work}/nginx.conf", "w") as file:
        # As root, nginx would become a user who can't read this folder.
        file.write("user root;\n" if os.getuid() == 0 else "")
        file.write(f"daemon off;\npid {work}/pid;\nerror_log {work}/errors;\nevents {{ }}\nhttp {{\n")
        file.write(f"log_format path '$request_uri';\naccess_log {work}/asked path;\n")
        for kind in ("client_body", "proxy", "fastcgi", "uwsgi", "scgi"):
            file.write(f"{kind}_temp_path {work}/{kind};\n")
        file.write(f"server {{ listen 127.0.0.1:{port} ssl; ssl_certificate {work}/certificate; "
                   f"ssl_certificate_key {work}/key; root {folder}; }}\n}}\n")
    return subprocess.Popen(["nginx", "-c", f"{work}/nginx.conf", "-e", f"{work}/errors"])


def run(words, place, **more):
    return subprocess.run([tool, *words], cwd=f"{work}/{place}", stdout=subprocess.PIPE, **more)


def change(count):
    """Changes the store, and exports it."""
    lines = "".join(f"{'change 1' if random.randrange(4) == 0 else 'add'} News {random.random()}\n" for _ in range(count))
    run(["apply"], "store", input=f"add first\n{lines}".encode(), check=True)
    subprocess.run([f"{top}/deploy/export", folder], cwd=f"{work}/store", env=environment, stdout=subprocess.DEVNULL, check=True)


def start(place, at=None, **more):
    global runs
    runs += 1
    os.makedirs(f"{work}/{place}", exist_ok=True)
    words = [f"{top}/deploy/mirror-https", BASE, f"https://localhost:{at or port}/"]
    return subprocess.Popen(words, cwd=f"{work}/{place}", env={**environment, **more}, stdin=subprocess.DEVNULL,
                            stdout=subprocess.PIPE, stderr=subprocess.PIPE, start_new_session=True)


def shown(report):
    return [line for line in report.splitlines() if line.startswith((b"entry ", b"complete "))]


def mirror_whole(place):
    """Runs the mirror to its end, and compares what it shows with the store. Returns how long it took."""
    global complete
    began = time.monotonic()
    process = start(place)
    report, errors = process.communicate()
    took = time.monotonic() - began
    if process.returncode != 0:
        raise Differs(f"the mirror ended with {process.returncode}: {report.decode()}{errors.decode()}")
    pile = run(["show", "pile"], "store", check=True).stdout
    shutil.rmtree(f"{work}/fresh", ignore_errors=True)
    os.mkdir(f"{work}/fresh")
    expected = run(["mirror", "--base", BASE, "--report"], "fresh", input=pile, check=True).stdout
    if shown(report) != shown(expected):
        raise Differs(f"the report isn't the store's: {report[-300:]}")
    certificate = run(["mirror", "--base", BASE], place, input=b"pile 1\n", check=True).stdout
    verdict = run(["audit"], place, input=certificate + pile)
    if verdict.returncode != 0:
        raise Differs(f"the audit ended with {verdict.returncode}: {verdict.stdout.decode()}")
    complete += 1
    return took


def mirror_killed(seconds):
    """Kills the mirror within this time, unless it ends before."""
    global kills
    process = start("mirror")
    time.sleep(random.uniform(0, seconds))
    os.killpg(process.pid, signal.SIGKILL)
    report, errors = process.communicate()
    if process.returncode == -signal.SIGKILL:
        kills += 1
    elif process.returncode != 0:
        raise Differs(f"the mirror ended with {process.returncode}: {report.decode()}{errors.decode()}")


def ends(what, place, status, line, **more):
    """Compares the end of a run that can't be complete."""
    global cases
    cases += 1
    process = start(place, **more)
    report, errors = process.communicate()
    if process.returncode != status or line not in report + errors:
        raise Differs(f"{what}: the mirror ended with {process.returncode}: {report.decode()}{errors.decode()}")


def try_ends():
    """Tries what ends without a complete mirror."""
    with open(f"{work}/asked") as file:
        before = len(file.readlines())
    mirror_whole("second")
    with open(f"{work}/asked") as file:
        asked = [line.strip() for line in file.readlines()[before:]]
    archives = len(os.listdir(f"{folder}/archive"))
    if sorted(asked) != sorted(["/feed"] + [f"/archive/{number}" for number in range(1, archives + 1)]):
        raise Differs(f"a fresh mirror of {archives} archives asked for {len(asked)} documents")
    os.rename(f"{folder}/archive/9", f"{work}/kept")
    ends("a missing archive", "third", 3, f"missing {BASE}archive/9\n".encode())
    shutil.copy(f"{folder}/archive/10", f"{folder}/archive/9")
    ends("an archive of another number", "third", 3, f"refused {BASE}archive/9 WrongAddress\n".encode())
    os.rename(f"{work}/kept", f"{folder}/archive/9")
    mirror_whole("third")
    os.rename(f"{folder}/feed", f"{work}/kept")
    ends("no feed", "third", 3, f"missing {BASE}feed\n".encode())
    os.rename(f"{work}/kept", f"{folder}/feed")
    ends("a certificate that isn't trusted", "fourth", 7, b"curl: (", CURL_CA_BUNDLE="/dev/null")
    ends("no server", "fourth", 7, b"curl: (7)", at=free_port())
    mirror_whole("fourth")


def play():
    seconds = mirror_whole("mirror")
    for _ in range(rounds):
        change(random.randrange(1, 100))
        mirror_killed(seconds)
        # The next one has about as much to fetch.
        change(50)
        seconds = max(mirror_whole("mirror"), 0.05)
    try_ends()


run(["init", "--base", BASE, "--uuid", "6d1f0c5a-93be-4c27-8d10-2b7f9e4a5c36", "--title", "Feed", "--author", "Editor",
     "--window", "2"], "store", check=True)
change(2 * ARCHIVES)
server = None
differs = 0
try:
    if shutil.which("nginx"):
        server = serve_by_nginx()
    else:
        print("there is no nginx: Python serves the folder")
        serve_by_python()
    for _ in range(600):
        try:
            socket.create_connection(("127.0.0.1", port)).close()
            break
        except OSError:
            time.sleep(0.05)
    play()
except Differs as difference:
    differs = 1
    print(f"DIFFERS: {difference}; the files are in {work}")
finally:
    if server:
        server.terminate()
        server.wait()
print(f"{runs} runs, {kills} killed, {complete} complete and audited, {cases} ends without a complete mirror, {differs} differ")
sys.exit(differs)
PYTHON
status=$?
[ "$status" -ne 0 ] || rm -rf "$work"
exit "$status"

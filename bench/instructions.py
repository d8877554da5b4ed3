#!/usr/bin/env python3
"""Counts the processor instructions of a request and of a load, by `valgrind --tool=callgrind`.

usage: bench/instructions.py PROGRAM..

For each program it prints a line with the instructions of a POST of an entry of some 450 bytes, of a GET of the feed, and of
`show feed` on a store of 15,000 operations, which is mostly the load. The count of the load differs by less than one in a
hundred between two runs, whatever else the machine does. Those of requests differ by a few in a hundred on a busy machine,
where the door takes more turns. So two builds can be compared on a busy machine, where times can't. The first program
makes both stores: let it be the oldest one, since a later build loads the store of an earlier one.

The cost of a request is the difference between two sessions of `serve`, divided by the requests that one has more. The time of
system calls, of the disk and of the network isn't counted. It takes a minute for each program.
"""

import os
import re
import shutil
import socket
import subprocess
import sys
import tempfile
import time

FEW = 10
MANY = 210
ENTRY = (
    '<entry xmlns="http://www.w3.org/2005/Atom"><title>An advisory</title>'
    "<id>urn:uuid:00000000-0000-4000-8000-{:012}</id><updated>2020-01-01T00:00:00Z</updated>"
    "<author><name>Editor</name></author><content>" + "text " * 40 + "</content></entry>"
)
INIT = "init --base http://feed.example/ --uuid 6d1f0c5a-93be-4c27-8d10-2b7f9e4a5c36 --title News --author Editor"


def counted(program, words, folder, meanwhile=lambda: None):
    """Runs the program in the folder under callgrind, and returns its count of instructions."""
    valgrind = ["valgrind", "--tool=callgrind", "--callgrind-out-file=/dev/null", program]
    run = subprocess.Popen(
        valgrind + words.split(), cwd=folder, stdout=subprocess.DEVNULL, stderr=subprocess.PIPE, text=True
    )
    meanwhile()
    said = run.communicate()[1]
    if run.returncode != 0:
        raise SystemExit(f"{program} {words}: status {run.returncode}\n{said}")
    return int(re.search(r"Collected : (\d+)", said).group(1))


def connected(port):
    """Connects to the server, which may not listen yet."""
    for _ in range(600):
        try:
            return socket.create_connection(("127.0.0.1", port))
        except ConnectionRefusedError:
            time.sleep(0.1)
    raise SystemExit("the server doesn't listen")


def ask(port, request, status):
    with connected(port) as link:
        link.sendall(request)
        reply = b"".join(iter(lambda: link.recv(65536), b""))
    if not reply.startswith(b"HTTP/1.1 %d " % status):
        raise SystemExit(f"a reply begins with {reply[:80]}")


def post(number):
    entry = ENTRY.format(number).encode()
    head = "POST /feed HTTP/1.1\r\nHost: localhost\r\nContent-Type: application/atom+xml;type=entry\r\nContent-Length: %d\r\n\r\n"
    return (head % len(entry)).encode() + entry, 201


def get(_number):
    return b"GET /feed HTTP/1.1\r\nHost: localhost\r\nAccept: */*\r\n\r\n", 200


def of_request(program, store, request):
    """Returns the instructions that one request takes."""
    counts = []
    for requests in (FEW, MANY):
        with tempfile.TemporaryDirectory(dir="/dev/shm") as folder, socket.create_server(("127.0.0.1", 0)) as free:
            copy = shutil.copytree(store, f"{folder}/store")
            port = free.getsockname()[1]
            free.close()
            words = f"serve --listen 127.0.0.1:{port} --requests {requests}"

            def ask_all():
                for number in range(requests):
                    ask(port, *request(number))

            counts.append(counted(program, words, copy, ask_all))
    return (counts[1] - counts[0]) // (MANY - FEW)


def main():
    programs = [os.path.abspath(program) for program in sys.argv[1:]]
    if not programs:
        raise SystemExit(__doc__)
    with tempfile.TemporaryDirectory(dir="/dev/shm") as folder:
        stores = f"{folder}/small", f"{folder}/large"
        for store in stores:
            os.mkdir(store)
            subprocess.run([programs[0], *INIT.split()], cwd=store, check=True, stdout=subprocess.DEVNULL)
        lines = [f"add An advisory with number {number} and a long title" for number in range(10000)]
        lines += [f"change {number * 7 % 10000 + 1} A changed advisory" for number in range(5000)]
        text = "".join(line + "\n" for line in lines)
        subprocess.run([programs[0], "apply"], cwd=stores[1], input=text, text=True, check=True, stdout=subprocess.DEVNULL)
        for program in programs:
            posted, got = of_request(program, stores[0], post), of_request(program, stores[0], get)
            loaded = counted(program, "show feed", stores[1])
            print(f"{program}: {posted} a POST, {got} a GET, {loaded} a load", flush=True)


if __name__ == "__main__":
    main()

#!/usr/bin/env python3
"""Measures what FEED_LOG=stderr costs: the processor time of `serve` for a request, with the log and without it.

usage: bench/log.py [PROGRAM [ROUNDS [REQUESTS]]]

PROGRAM is out/feed_tool if it is left out, ROUNDS 15 and REQUESTS 4,000. In each round three servers take turns, each over a
copy of one store in memory: without the variable, with FEED_LOG=stderr to a file, and without it again. Each serves
REQUESTS connections of one client. The processor time is that of the whole process by the system's count, user and
system, so it has the load of the small store. Each line has the median of the rounds: microseconds a request without the
log and with it, and their ratio in the same round. The ratio of the two servers without it says how far the machine
wavers. The last line has both ratios, of a GET and of a POST. It takes a minute or two. Nothing else should run meanwhile.
"""

import os
import shutil
import socket
import statistics
import subprocess
import sys
import tempfile

from instructions import INIT, connected, get, post


def serve(program, store, request, requests, log):
    """Serves so many requests over a copy of the store, and returns the microseconds of the processor for each."""
    with tempfile.TemporaryDirectory(dir="/dev/shm") as folder, socket.create_server(("127.0.0.1", 0)) as free:
        copy = shutil.copytree(store, f"{folder}/store")
        port = free.getsockname()[1]
        free.close()
        environment = {name: value for name, value in os.environ.items() if name != "FEED_LOG"}
        if log:
            environment["FEED_LOG"] = "stderr"
        texts = [request(number) for number in range(requests)]
        with open(f"{folder}/errors", "wb") as errors:
            words = [program, "serve", "--listen", f"127.0.0.1:{port}", "--requests", str(requests)]
            server = subprocess.Popen(words, cwd=copy, env=environment, stdout=subprocess.DEVNULL, stderr=errors)
            for text, status in texts:
                with connected(port) as link:
                    link.sendall(text)
                    reply = b"".join(iter(lambda: link.recv(65536), b""))
                if not reply.startswith(b"HTTP/1.1 %d " % status):
                    raise SystemExit(f"a reply begins with {reply[:80]}")
            _, status, usage = os.wait4(server.pid, 0)
            server.returncode = os.waitstatus_to_exitcode(status)
        with open(f"{folder}/errors", "rb") as errors:
            lines = errors.read().count(b"\n")
        if server.returncode != 0 or lines != (requests + 1 if log else 0):
            raise SystemExit(f"status {server.returncode}, {lines} lines of the log")
    return (usage.ru_utime + usage.ru_stime) * 1e6 / requests


def measured(name, program, store, request, rounds, requests):
    """Prints the line of a kind of request, and returns the median ratio with the log, and that of the machine."""
    without, logged, ratios, wavers = [], [], [], []
    for _ in range(rounds):
        first = serve(program, store, request, requests, False)
        second = serve(program, store, request, requests, True)
        third = serve(program, store, request, requests, False)
        without.append((first + third) / 2)
        logged.append(second)
        ratios.append(second / without[-1])
        wavers.append(third / first)
    medians = [statistics.median(values) for values in (without, logged, ratios, wavers)]
    print("%s: %.1f us without the log, %.1f with it, ratio %.3f; without it twice %.3f" % (name, *medians), flush=True)
    return medians[2], medians[3]


def main():
    top = os.path.dirname(os.path.dirname(os.path.abspath(__file__)))
    words = sys.argv[1:]
    program = os.path.abspath(words[0]) if words else f"{top}/out/feed_tool"
    rounds = int(words[1]) if len(words) > 1 else 15
    requests = int(words[2]) if len(words) > 2 else 4_000
    if not words and subprocess.run([f"{top}/prove"], check=False).returncode != 0:
        raise SystemExit(1)
    with tempfile.TemporaryDirectory(dir="/dev/shm") as store:
        subprocess.run([program, *INIT.split()], cwd=store, check=True, stdout=subprocess.DEVNULL)
        lines = "".join(f"add An advisory with number {number}\n" for number in range(20))
        subprocess.run([program, "apply"], cwd=store, input=lines, text=True, check=True, stdout=subprocess.DEVNULL)
        got = measured("GET of the feed", program, store, get, rounds, requests)
        posted = measured("POST of an entry", program, store, post, rounds, requests)
    print("GET %.3f (%.3f), POST %.3f (%.3f)" % (*got, *posted))


if __name__ == "__main__":
    main()

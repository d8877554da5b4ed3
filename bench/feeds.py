#!/usr/bin/env python3
"""Measures `read_feed` alone, which `foreign.sh` can't: a command also starts, fetches and prints.

usage: bench/feeds.py [ROUNDS]

A program that calls it is proved and built first, by `rt ci` in a workspace of its own, so from what that kept. It
reads each document ten times in each of ROUNDS rounds, 5 if it isn't given, and the least time counts.

- Documents of 10,000 entries of 300 and of 4,096 bytes, in turns with `xmllint --noout --stream`, where that is installed.
  The time of `xmllint` is that of the processor, of the whole process and then without its start.
- The slow documents of `foreign.sh`, 1 MB each: how many times as long they take as 1 MB of plain text in one entry, and as
  1 MB of entries of plain text, of 300 and of 4,096 bytes.
"""

import os
import shutil
import subprocess
import sys
import tempfile

sys.dont_write_bytecode = True
from feed_documents import KINDS, SLOW, SLOW_BYTES, entries_of

TOP = os.path.dirname(os.path.dirname(os.path.abspath(__file__)))
CRATES = ("atom_values", "xml_tokens", "feed_reader")
SIZES = (300, 4096)


def built(work):
    """Proves and builds the program, and returns its path."""
    for crate in CRATES:
        for part in ("src", "specs", "proofs"):
            shutil.copytree(f"{TOP}/crates/{crate}/{part}", f"{work}/crates/{crate}/{part}")
    os.makedirs(f"{work}/crates/feeds/src")
    os.mkdir(f"{work}/.git")
    shutil.copy(f"{TOP}/bench/feeds.rt.txt", f"{work}/crates/feeds/src/main.rt")
    shutil.copy(f"{TOP}/HANDLES", work)
    with open(f"{TOP}/crates.txt") as file, open(f"{work}/crates.txt", "w") as copy:
        copy.writelines(line for line in file if line.split(":")[0] in CRATES)
        copy.write("feeds: feed_reader\n")
    print("feeds: proving and building the program first, which can take some minutes", file=sys.stderr)
    proved = subprocess.run(["rt", "ci"], cwd=work, stdin=subprocess.DEVNULL, capture_output=True, text=True)
    if proved.returncode != 0:
        raise SystemExit(proved.stdout + proved.stderr)
    return f"{work}/crates/feeds/out/feeds"


def read_once(program, document):
    """Returns the milliseconds of a reading."""
    with open(document, "rb") as file:
        return int(subprocess.run([program], stdin=file, stdout=subprocess.PIPE, check=True).stdout) / 1_000_000


def xmllint_once(document):
    """Returns the milliseconds of the processor, user and system."""
    process = subprocess.Popen(["xmllint", "--noout", "--stream", document], stderr=subprocess.DEVNULL)
    _, status, usage = os.wait4(process.pid, 0)
    process.returncode = os.waitstatus_to_exitcode(status)
    return (usage.ru_utime + usage.ru_stime) * 1000


def write(path, text):
    with open(path, "w", encoding="utf-8") as file:
        file.write(text)
    return path


def measure_entries(program, rounds, work):
    """Prints the times of the documents of entries, and returns those of 1 MB of plain text by size."""
    has_xmllint = shutil.which("xmllint")
    empty = write(f"{work}/empty", "<a/>")
    start = min(xmllint_once(empty) for _ in range(rounds)) if has_xmllint else 0
    plain = {}
    for size in SIZES:
        for kind in KINDS:
            text = entries_of(kind, size)
            document = write(f"{work}/document", text)
            took, other = [], []
            for _ in range(rounds):
                took.append(read_once(program, document))
                if has_xmllint:
                    other.append(xmllint_once(document))
            least = min(took)
            line = f"{kind}, {size} bytes: {least:.2f} ms"
            if has_xmllint:
                whole = min(other)
                line += (f", xmllint {whole:.1f} ({whole / least:.2f} times as long), without its start "
                         f"{whole - start:.1f} ({(whole - start) / least:.2f})")
            print(line, flush=True)
            if kind == "text":
                plain[size] = least * SLOW_BYTES / len(text)
    return plain


def measure_slow(program, rounds, work, plain):
    first = worst = None
    for name, (text, _) in SLOW.items():
        document = write(f"{work}/document", text)
        least = min(read_once(program, document) for _ in range(rounds))
        first = first or least
        times = [least / first, *(least / plain[size] for size in SIZES)]
        print(f"{name}: {least:.2f} ms, {times[0]:.1f} times as long as plain text, {times[1]:.1f} and {times[2]:.1f} as entries "
              "of it", flush=True)
        worst = max(worst or (0,), (least, *times, name))
    print(f"the slowest takes {worst[1]:.1f} times as long as plain text, {worst[2]:.1f} and {worst[3]:.1f} as entries of "
          f"it: {worst[4]}")


def main():
    rounds = int(sys.argv[1]) if len(sys.argv) > 1 else 5
    with tempfile.TemporaryDirectory(dir="/dev/shm") as work:
        program = built(work)
        measure_slow(program, rounds, work, measure_entries(program, rounds, work))


main()

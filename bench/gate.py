#!/usr/bin/env python3
"""Measures what the gate costs: runs `rt ci` and adds up the processor seconds of each crate.

Usage: bench/gate.py [WORD ..]. The words go to `rt ci`. Some kits keep what an earlier run proved, unless the word is --anew,
and others take no word and prove all from nothing.

It prints a line for each crate with the seconds of its check, its tests and its must-fail edits, and their sums. The gate's own
lines go to standard error. The seconds are read from /proc every quarter of a second, so a process loses at most its last
quarter.
"""

import os
import re
import subprocess
import sys
import time

TICKS = os.sysconf("SC_CLK_TCK")


def is_below(name, top):
    """Says whether a process was started by the process `top` or by one below it."""
    while name not in ("0", "1"):
        if name == top:
            return True
        with open(f"/proc/{name}/stat") as file:
            name = file.read().rsplit(")", 1)[1].split()[1]
    return False


def processes(top):
    """Yields the number, the words, the folder and the processor seconds of each of the prover's processes below `top`."""
    for name in os.listdir("/proc"):
        if not name.isdigit():
            continue
        try:
            with open(f"/proc/{name}/cmdline", "rb") as file:
                words = file.read().decode(errors="replace").split("\0")
            if not words[0].endswith("/rattle") or not is_below(name, top):
                continue
            with open(f"/proc/{name}/stat") as file:
                fields = file.read().rsplit(")", 1)[1].split()
            folder = os.readlink(f"/proc/{name}/cwd")
        except (OSError, IndexError):
            continue
        yield (name, fields[19]), words, folder, (int(fields[11]) + int(fields[12])) / TICKS


def kind_of(words, folder):
    text = " ".join(words) + folder
    if "rt-edit" in text:
        return "edits"
    return "tests" if "--test" in words else "check"


def passed_on(output):
    """Passes the gate's lines on to standard error, and returns its last line if that is among them."""
    last = ""
    for line in output:
        sys.stderr.write(line)
        if re.match(r"\d+ passed, \d+ failed", line):
            last = line.strip()
    sys.stderr.flush()
    return last


def main():
    seen = {}
    began = time.time()
    words = ["rt", "ci"] + sys.argv[1:]
    gate = subprocess.Popen(words, stdout=subprocess.PIPE, stderr=subprocess.STDOUT, text=True)
    os.set_blocking(gate.stdout.fileno(), False)
    last = ""
    while gate.poll() is None:
        for key, words, folder, seconds in processes(str(gate.pid)):
            crate = words[words.index("--crate-name") + 1] if "--crate-name" in words else "other"
            seen[key] = (crate, kind_of(words, folder), seconds)
        last = passed_on(gate.stdout) or last
        time.sleep(0.25)
    last = passed_on(gate.stdout) or last
    kinds = ["check", "tests", "edits"]
    table = {}
    for crate, kind, seconds in seen.values():
        table.setdefault(crate, dict.fromkeys(kinds, 0.0))[kind] += seconds
    print("| Crate | Check | Tests | Edits | Sum |")
    print("|---|---|---|---|---|")
    for crate, row in sorted(table.items()):
        print(f"| `{crate}` | " + " | ".join(f"{row[kind]:.0f}" for kind in kinds) + f" | {sum(row.values()):.0f} |")
    sums = {kind: sum(row[kind] for row in table.values()) for kind in kinds}
    print("| all | " + " | ".join(f"{sums[kind]:.0f}" for kind in kinds) + f" | {sum(sums.values()):.0f} |")
    print(f"{sum(sums.values()) / 60:.0f} processor minutes in {(time.time() - began) / 60:.0f} minutes; {last}")
    raise SystemExit(gate.returncode)


if __name__ == "__main__":
    main()

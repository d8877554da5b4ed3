#!/bin/sh
# Damages the files of a store that the built program made, and compares what `scrub`, `show pile` and `scrub --repair` do
# with a model of the files that follows docs/FORMATS.md.
# - One byte of `sealed` or `journal` is changed, for each byte in turn or for some, or the file is cut, at each length in
#   turn or at some. Some bytes are added behind the end. `scrub` has to name what is wrong first, and to change no file. Only
#   what a byte within an operation does isn't in the model: there `scrub` may find the operation bad, or an archive that
#   doesn't fit, or nothing if the operation is in no archive.
# - `show pile` has to open the store, or to say the same as `scrub`.
# - `scrub --repair` has to refuse a bad journal and to leave both files, or to leave the operations of the journal and
#   their archives, which `scrub` and `show pile` then show. The archives that were right stay. If no byte within an
#   operation was changed, the files have to be those of the model, byte by byte.
# - The capacity in the journal is made too small for its archives. A repair has to name the first one without room.
# - A repair of a store with many archives is killed by SIGKILL at a random moment. The journal has to be the same, with
#   the archives at the beginning of `sealed` that were right, and a second repair has to bring the others back.
# Usage: checks/scrub.sh [TRIES [PROGRAM]]. TRIES is how many bytes and lengths of each file are tried, and how many
# repairs are killed. Without it, or with `all`, each byte and each length is tried, and 200 repairs are killed. PROGRAM is
# run in place of the one of this repository. SEED in the environment makes a run repeatable, but for the moments of the
# kills. It prints a line of counts and ends with 0 if all agrees. It ends at the first difference with 1, and leaves the
# files. It needs python3.
tries=${1:-all}
top=$(CDPATH='' cd -- "$(dirname -- "$0")/.." && pwd) || exit 1
tool=${2:-$top/out/feed_tool}
case $tool in
    /*) ;;
    */*) tool=$(CDPATH='' cd -- "$(dirname -- "$tool")" && pwd)/$(basename -- "$tool") || exit 1 ;;
esac
# The launcher isn't used below, because it looks at all sources at each start.
[ -n "$2" ] || "$top/prove" || exit 1

# The files are written thousands of times, so they are in memory where it is.
work=$(mktemp -d -p "$([ -d /dev/shm ] && echo /dev/shm || echo "${TMPDIR:-/tmp}")") || exit 1

python3 - "$tries" "$tool" "$work" "${SEED:-$$}" <<'PYTHON'
import concurrent.futures
import multiprocessing
import os
import random
import shutil
import signal
import subprocess
import sys
import time

tries, tool, work, seed = sys.argv[1], sys.argv[2], sys.argv[3], int(sys.argv[4])
random.seed(seed)
BASE = "http://feed.example/"
INIT = ["init", "--base", BASE, "--uuid", "6d1f0c5a-93be-4c27-8d10-2b7f9e4a5c36", "--title", "Feed", "--author", "Editor"]
WINDOW = 4
# 13 operations, so that three windows are sealed and one operation is in the open one
LINES = [b"add One", b"add Two &", b"change 1 Uno", b"remove 2", b"title Other", b"add Three", b"add Four <x>",
         b"change 3 Tre", b"add Five", b"remove 1", b"add Six", b"change 5 Cinque", b"add Seven"]  # fmt: skip
# how many operations and archives the store has of which repairs are killed
MANY = 401


class Differs(Exception):
    """The program does something else than the model."""


def run(folder, *words, given=b""):
    """Runs the program, and returns its status and what it printed."""
    done = subprocess.run([tool, *words], cwd=folder, input=given, stdout=subprocess.PIPE, stderr=subprocess.DEVNULL)
    return done.returncode, done.stdout


def lay(folder, files):
    """Makes a folder with these files."""
    shutil.rmtree(folder, ignore_errors=True)
    os.makedirs(folder)
    for name, text in files.items():
        with open(f"{folder}/{name}", "wb") as file:
            file.write(text)


def held(folder):
    """The files of a folder. One that is missing has no bytes."""
    texts = {}
    for name in ("journal", "sealed"):
        try:
            with open(f"{folder}/{name}", "rb") as file:
                texts[name] = file.read()
        except FileNotFoundError:
            texts[name] = b""
    return texts


# The model: logs, and how many archives there are

class Log:
    """The payloads of a file with their places, and the place of the gate after them."""

    def __init__(self, text):
        self.payloads, self.places, self.gate = [], [], 0
        while len(text) >= 6 and self.gate < len(text) and text[self.gate] == 1:
            begin = self.gate + 5
            end = begin + int.from_bytes(text[self.gate + 1 : begin], "big")
            # The gate after a frame has to be there.
            if end >= len(text):
                break
            self.payloads.append(text[begin:end])
            self.places.append(begin)
            self.gate = end
        self.is_whole = len(text) < 6 or text[self.gate] != 1


def sealed_count(records):
    """How many windows are full and have an operation after them."""
    return max(records - 1, 0) // WINDOW


def full_count(records):
    """How many windows are full. The archive of the last one may be there."""
    return records // WINDOW


def right_count(seals, archives, records):
    """How many archives at the beginning of the file are right."""
    count = 0
    while count < min(len(seals), full_count(records)) and seals[count] == archives[count]:
        count += 1
    return count


def frame(payload):
    return b"\x01" + len(payload).to_bytes(4, "big") + payload


def repaired_files(files, archives, kept, made):
    """The files after a repair of these files that kept and made these numbers of archives."""
    journal, sealed = Log(files["journal"]), Log(files["sealed"])
    texts = dict(files)
    if not journal.is_whole:
        texts["journal"] = closed(files["journal"], journal.gate)
    if made or len(sealed.payloads) != kept or not sealed.is_whole or len(files["sealed"]) < 6:
        right = b"".join(frame(archive) for archive in archives[: kept + made])
        texts["sealed"] = closed(right + files["sealed"][len(right) :], len(right))
    return texts


def closed(text, gate):
    """A file with a closed gate at this place."""
    return text[:gate] + b"\0" + text[gate + 1 :]


def verdict(journal, sealed, archives):
    """The line of `scrub`, if all payloads of the journal can be read."""
    records, seals = len(journal.payloads) - 1, len(sealed.payloads)
    if records < 0:
        return b"not init\n"
    right = right_count(sealed.payloads, archives, records)
    if right < min(seals, full_count(records)):
        return b"bad seal %d\n" % (right + 1)
    if seals not in (sealed_count(records), full_count(records)):
        return b"seal count %d %d\n" % (records, seals)
    for name, log in ((b"journal", journal), (b"sealed", sealed)):
        if not log.is_whole:
            return b"open gate %s %d\n" % (name, log.gate)
    return b"sound %d %d\n" % (records, seals)


# Piles, which `show pile` prints

def read_archives(printed):
    """Returns the archives of a pile in order. The pile has them behind the subscription document, newest first."""
    texts, at = [], len(b"pile 1\n")
    while at < len(printed):
        end = printed.index(b"\n", at)
        length = int(printed[at:end].split(b" ")[1])
        texts.append(printed[end + 1 : end + 1 + length])
        at = end + 2 + length
    return texts[:0:-1]


class Store:
    """A store that isn't damaged: its files, and its archives."""

    def __init__(self, folder, lines):
        lay(folder, {})
        if run(folder, *INIT, "--window", str(WINDOW)) != (0, b"ready\n"):
            raise Differs("init")
        status, _ = run(folder, "apply", given=b"".join(line + b"\n" for line in lines))
        if status:
            raise Differs(f"apply: status {status}")
        self.files = held(folder)
        self.archives = read_archives(run(folder, "show", "pile")[1])
        sound = b"sound %d %d\n" % (len(lines), len(self.archives))
        if run(folder, "scrub") != (0, sound):
            raise Differs(f"the store is {run(folder, 'scrub')}, and not {sound}")


class Damage:
    """A file with one change: a byte has another value, or the file is cut, or bytes are added."""

    def __init__(self, name, kind, at, value=b""):
        self.name, self.kind, self.at, self.value = name, kind, at, value

    def __str__(self):
        return f"{self.name}: {self.kind} {self.at}"

    def apply(self, files):
        text = files[self.name]
        behind = {"byte": text[self.at + 1 :], "cut": b"", "more": b""}[self.kind]
        return files | {self.name: text[: self.at] + self.value + behind}

    def payload_of(self, log):
        """The number of the payload in which a byte was changed, or `None`."""
        if self.kind != "byte" or self.name != "journal":
            return None
        for number, (place, payload) in enumerate(zip(log.places, log.payloads)):
            if place <= self.at < place + len(payload):
                return number
        return None


def try_damage(folder, store, damage):
    """Damages the files, and returns what `scrub` says: its first word, or `sound`."""
    files = damage.apply(store.files)
    lay(folder, files)
    answer = run(folder, "scrub")
    if held(folder) != files:
        raise Differs("scrub changed a file")
    journal, sealed = Log(files["journal"]), Log(files["sealed"])
    status, line = answer
    expected = verdict(journal, sealed, store.archives)
    within = damage.payload_of(Log(store.files["journal"]))
    if within is None and not is_unread(line, journal, store):
        if answer != (6 if not expected.startswith(b"sound") else 0, expected):
            raise Differs(f"{answer}, and not {expected}")
    elif within is not None:
        compare_changed(answer, within, expected, journal, sealed)
    compare_load(folder, files, answer)
    lay(folder, files)
    compare_repair(folder, store, files, answer, within is None)
    return line.split(b" ")[0].decode()


def is_unread(line, journal, store):
    """Whether the journal has a payload that it didn't have before, since a gate or a length was changed, and that is said to
    be bad."""
    known = Log(store.files["journal"]).payloads
    same = 0
    while same < min(len(known), len(journal.payloads)) and known[same] == journal.payloads[same]:
        same += 1
    words = line.split(b" ")
    return words[:2] == [b"bad", b"store"] and same <= int(words[3]) < len(journal.payloads)


def window_of(journal):
    """The window size that the head of a journal states."""
    return int.from_bytes(journal.payloads[0][-20:-16], "big")


def compare_changed(answer, within, expected, journal, sealed):
    """Compares what is said of a journal with a byte changed in this payload."""
    status, line = answer
    words = line.split(b" ")
    if words[:3] == [b"bad", b"store", b"journal"] and status == 6 and int(words[3]) >= within:
        return
    # The operations of the windows after the changed one are the same, and so are their archives but for the title.
    if words[:2] == [b"bad", b"seal"] and status == 6 and (within == 0 or int(words[2]) > (within - 1) // WINDOW):
        return
    # A head with a window that isn't full has no archive.
    records, seals = len(journal.payloads) - 1, len(sealed.payloads)
    if within == 0 and window_of(journal) > records and answer == (6, b"seal count %d %d\n" % (records, seals)):
        return
    if answer != (0, expected):
        raise Differs(f"{answer} for payload {within}")


def compare_load(folder, files, answer):
    """Compares what `show pile` does with what `scrub` said: it opens the store, or says the same."""
    lay(folder, files)
    shown = run(folder, "show", "pile")
    opens = answer[0] == 0 or answer[1].startswith(b"open gate")
    if opens != (shown[0] == 0):
        raise Differs(f"scrub says {answer}, and show pile ends with {shown[0]}")
    # `scrub` compares the archives before it counts them.
    if not opens and not (answer[1].startswith(b"bad seal") and shown[1].startswith(b"seal count")) and shown != answer:
        raise Differs(f"scrub says {answer}, and show pile {shown}")


def compare_repair(folder, store, files, found, is_same):
    """Repairs the store, and compares it. `found` is what `scrub` said before. `is_same` tells that no byte within a
    payload of the journal was changed."""
    status, line = run(folder, "scrub", "--repair")
    if found[1].startswith((b"bad store", b"not init")):
        if (status, line) != found or held(folder) != files:
            raise Differs(f"a repair that has to refuse: {status} {line}")
        return
    records = len(Log(files["journal"]).payloads) - 1
    words = line.split()
    if status or words[:1] != [b"repaired"]:
        raise Differs(f"the repair: {status} {line}")
    kept, made = int(words[1]), int(words[2])
    if is_same:
        right = right_count(Log(files["sealed"]).payloads, store.archives, records)
        if (kept, made) != (right, max(sealed_count(records) - right, 0)):
            raise Differs(f"the repair: {line}, and not {right} kept")
        if held(folder) != repaired_files(files, store.archives, kept, made):
            raise Differs("a file has other bytes after the repair")
    compare_kept(found, kept, made)
    compare_whole(folder, files, records, kept + made)


def compare_kept(found, kept, made):
    """Compares the numbers of a repair with what `scrub` said before."""
    words = found[1].split()
    if words[:2] == [b"bad", b"seal"] and kept != int(words[2]) - 1:
        raise Differs(f"the repair kept {kept} after {found}")
    if words[0] == b"sound" and (kept, made) != (int(words[2]), 0):
        raise Differs(f"the repair kept {kept} and made {made} after {found}")


def compare_whole(folder, files, records, seals):
    """Compares a store after its repair: its operations, and whether it shows its archives."""
    left = held(folder)
    if Log(left["journal"]).payloads != Log(files["journal"]).payloads:
        raise Differs("the journal has other payloads after the repair")
    answer = run(folder, "scrub")
    if answer != (0, b"sound %d %d\n" % (records, seals)):
        raise Differs(f"after the repair: {answer}")
    status, printed = run(folder, "show", "pile")
    shown = read_archives(printed) if status == 0 else []
    # The archive of a full window isn't shown before the next operation.
    archives = Log(left["sealed"]).payloads
    if status or len(archives) != seals or shown != archives[: len(shown)] or len(shown) < seals - 1:
        raise Differs(f"the pile has other archives: status {status}")


def other_byte(chance, byte):
    """Another value, which is mostly one that a gate or a length may have, or differs in one bit."""
    return bytes([chance.choice([it for it in (0, 1, 255, byte ^ 1 << chance.randrange(8), chance.randrange(256)) if it != byte])])


def damages(store):
    """What is tried: each byte and each length, or some of them, and bytes behind the end."""
    for name, text in store.files.items():
        places = list(range(len(text)))
        for kind in ("byte", "cut"):
            chosen = places if tries == "all" else sorted(random.sample(places, min(int(tries), len(places))))
            for at in chosen:
                yield Damage(name, kind, at, other_byte(random, text[at]) if kind == "byte" else b"")
        for count in (1, 5, 6, 5000):
            yield Damage(name, "more", len(text), random.randbytes(count))


def tried(task):
    """Tries a damage. Returns what `scrub` said of it, or what differs."""
    number, damage = task
    folder = f"{work}/tried/{number}"
    try:
        said = try_damage(folder, STORE, damage)
    except Differs as differs:
        return None, f"{damage}: {differs}; the files are in {folder} (seed {seed})"
    shutil.rmtree(folder)
    return said, None


# Repairs without room, and repairs that are killed

def compare_full(folder, store):
    """Lowers the capacity by one byte too many for each archive in turn, and makes all of them again."""
    journal, sealed = store.files["journal"], b""
    head = Log(journal)
    at = head.places[0] + len(head.payloads[0]) - 16
    for number, archive in enumerate(store.archives):
        size, needed = len(sealed) + 1, len(frame(archive))
        sealed += frame(archive)
        capacity = size + needed - 1
        if capacity < 4096:
            continue
        files = {"journal": journal[:at] + capacity.to_bytes(8, "big") + journal[at + 8 :], "sealed": b""}
        lay(folder, files)
        answer = run(folder, "scrub", "--repair")
        if answer != (11, b"full sealed %d %d %d\n" % (size, needed, capacity)):
            raise Differs(f"a repair with a capacity of {capacity}: {answer}; the files are in {folder}")
        if held(folder) != repaired_files(files, store.archives, 0, number):
            raise Differs(f"a repair with a capacity of {capacity} left other files in {folder}")


def kill_repair(folder, store, seconds):
    """Damages the archives of a large store, kills its repair at a random moment, and repairs it again. Returns whether
    the repair was killed."""
    text = store.files["sealed"]
    damage = random.choice((
        Damage("sealed", "cut", random.randrange(len(text))),
        Damage("sealed", "byte", at := random.randrange(len(text)), other_byte(random, text[at])),
        Damage("sealed", "cut", random.randrange(7)),
    ))  # fmt: skip
    files = damage.apply(store.files)
    kept = right_count(Log(files["sealed"]).payloads, store.archives, MANY)
    lay(folder, files)
    repair = subprocess.Popen([tool, "scrub", "--repair"], cwd=folder, stdin=subprocess.DEVNULL, stdout=subprocess.PIPE)
    time.sleep(random.uniform(0, 1.1 * seconds))
    repair.kill()
    repair.communicate()
    if repair.returncode not in (0, -signal.SIGKILL):
        raise Differs(f"{damage}: the repair ended with {repair.returncode}; the files are in {folder}")
    left = held(folder)
    archives = Log(left["sealed"]).payloads
    if left["journal"] != store.files["journal"] or archives[:kept] != store.archives[:kept]:
        raise Differs(f"{damage}: a killed repair lost something; the files are in {folder}")
    kept = right_count(archives, store.archives, MANY)
    made = len(store.archives) - kept
    answer = run(folder, "scrub", "--repair")
    expected = repaired_files(left, store.archives, kept, made)
    if answer != (0, b"repaired %d %d\n" % (kept, made)) or held(folder) != expected:
        raise Differs(f"{damage}: after a killed repair: {answer}; the files are in {folder}")
    answer = run(folder, "scrub")
    if answer != (0, b"sound %d %d\n" % (MANY, len(store.archives))):
        raise Differs(f"{damage}: after a killed repair: {answer}; the files are in {folder}")
    return repair.returncode != 0


def main():
    global STORE
    STORE = Store(f"{work}/small", LINES)
    tasks = list(enumerate(damages(STORE)))
    said = {}
    # The processes have the store from this one.
    pool = concurrent.futures.ProcessPoolExecutor(os.cpu_count(), multiprocessing.get_context("fork"))
    try:
        for word, wrong in pool.map(tried, tasks, chunksize=10):
            if wrong:
                raise Differs(wrong)
            said[word] = said.get(word, 0) + 1
    finally:
        pool.shutdown(cancel_futures=True)
    compare_full(f"{work}/full", STORE)
    large = Store(f"{work}/large", [b"add Entry %d" % number for number in range(MANY)])
    lay(f"{work}/killed", large.files | {"sealed": b""})
    began = time.monotonic()
    made = run(f"{work}/killed", "scrub", "--repair")
    seconds = time.monotonic() - began
    if made != (0, b"repaired 0 %d\n" % len(large.archives)) or held(f"{work}/killed") != large.files:
        raise Differs(f"the archives from nothing: {made}")
    count = 200 if tries == "all" else int(tries)
    killed = sum(kill_repair(f"{work}/killed", large, seconds) for _ in range(count))
    words = ", ".join(f"{said[word]} {word}" for word in sorted(said))
    print(f"{len(tasks)} changes ({words}), {count} repairs, {killed} killed, 0 differ")


STORE = None
try:
    main()
except Differs as differs:
    print(f"DIFFERS: {differs}")
    sys.exit(1)
shutil.rmtree(work)
PYTHON

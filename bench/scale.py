#!/usr/bin/env python3
"""Simulates a day of a feed's readers, and draws two plots into docs/.

- docs/scale-load.svg: the bytes that the server sends in a day, by the number of readers, without a cache, with the
  archives in a cache, and with the feed in it too.
- docs/scale-away.svg: the bytes that a reader fetches by the days since its last visit, beside a plain feed of the same
  entries, which is fetched whole.

Usage: bench/scale.py [FEED ARCHIVE]. FEED and ARCHIVE are the processor time of the server for a GET of the feed and of an
archive, in microseconds, as bench/serve.sh measures it. The program isn't run, and no request is made: all figures are
calculated. The readers' moments are random, the same at each run. It takes half a minute.
"""
import math
import os
import random
import sys

FEED_US, ARCHIVE_US = (float(word) for word in (sys.argv[1:3] or (110, 150)))
TOP = os.path.join(os.path.dirname(os.path.realpath(__file__)), "..")
DAY, HOUR = 86400, 3600
# The feed: operations a day and of an archive, and bytes. bench/serve.sh makes archives of this size.
A_DAY, WINDOW = 100, 100
ARCHIVE_BYTES = 102842
HEAD_BYTES = 600
ITEM_BYTES = (ARCHIVE_BYTES - HEAD_BYTES) / WINDOW
# The readers: the seconds after which they return, and their share. Half of those of an hour come in its first minute.
READERS = {"hour": (HOUR, 0.1), "day": (DAY, 0.6), "month": (30 * DAY, 0.3)}
RELAYS = 10


def sealed(moment):
    """Returns the number of archives at a moment in seconds. The day begins half-way through a window."""
    return math.floor((moment / DAY * A_DAY + WINDOW / 2) / WINDOW)


def feed_bytes(moment):
    """Returns the bytes of the subscription document."""
    return HEAD_BYTES + ((moment / DAY * A_DAY + WINDOW / 2) % WINDOW) * ITEM_BYTES


def visits(name, count, draws):
    """Returns the moments of this day at which readers of a kind ask for the feed."""
    after, share = READERS[name]
    readers = round(count * share)
    if name == "month":
        return [draws.uniform(0, DAY) for _ in range(round(readers * DAY / after))]
    if name == "day":
        return [draws.uniform(0, DAY) for _ in range(readers)]
    moments = []
    for reader in range(readers):
        phase = draws.uniform(0, 60 if reader % 2 else HOUR)
        moments.extend(phase + hour * HOUR for hour in range(24))
    return moments


class Load:
    """What one party serves in a day."""

    def __init__(self):
        self.feeds = self.archives = 0
        self.bytes = 0.0

    def feed(self, moment):
        self.feeds += 1
        self.bytes += feed_bytes(moment)

    def archive(self, count=1):
        self.archives += count
        self.bytes += count * ARCHIVE_BYTES

    def seconds(self):
        """Returns the processor time."""
        return (self.feeds * FEED_US + self.archives * ARCHIVE_US) / 1e6


def simulate(count):
    """Returns the loads of the server by the kind of cache, the hits by the kind of reader, and the most requests for the
    feed in a second."""
    draws = random.Random(count)
    loads = {name: Load() for name in ("none", "archives", "both", "relays")}
    # The seconds in which a cache asked for the feed, of one cache and of each relay, and the archives that it holds.
    asked, held = set(), set()
    asked_by, held_by = [set() for _ in range(RELAYS)], [set() for _ in range(RELAYS)]
    seconds, hits = {}, {}
    for name, (after, _) in READERS.items():
        # What a cache for these readers alone does.
        seen, kept = set(), set()
        fetched = feeds = 0
        for number, moment in enumerate(visits(name, count, draws)):
            second, relay = int(moment), number % RELAYS
            seconds[second] = seconds.get(second, 0) + 1
            loads["none"].feed(moment)
            loads["archives"].feed(moment)
            feeds += 1
            seen.add(second)
            if second not in asked:
                asked.add(second)
                loads["both"].feed(moment)
            if second not in asked_by[relay]:
                asked_by[relay].add(second)
                loads["relays"].feed(moment)
            for archive in range(sealed(moment - after), sealed(moment)):
                fetched += 1
                kept.add(archive)
                loads["none"].archive()
                if archive not in held:
                    held.add(archive)
                    loads["archives"].archive()
                    loads["both"].archive()
                if archive not in held_by[relay]:
                    held_by[relay].add(archive)
                    loads["relays"].archive()
        hits[name] = (feeds, len(seen), fetched, len(kept))
    return loads, hits, max(seconds.values())


# Plots

COLORS = ("#b03a2e", "#1f618d", "#1e8449", "#6c3483")
WIDTH, HEIGHT, LEFT, RIGHT, BELOW, ABOVE = 760, 420, 90, 190, 60, 50


def ticks(low, high):
    return [10**power for power in range(round(math.log10(low)), round(math.log10(high)) + 1)]


def shown(value, units):
    """Returns a number with its unit."""
    for size, unit in units:
        if value >= size:
            return f"{value / size:g}{unit}"
    return f"{value:g}"


NUMBERS = ((1e6, " million"), (1e3, " thousand"), (1, ""))
BYTES = ((1e12, " TB"), (1e9, " GB"), (1e6, " MB"), (1e3, " kB"), (1, " B"))


def plot(path, title, across, up, x_range, y_range, x_units, lines):
    """Draws lines over two logarithmic axes. A line is its name and its points."""
    def x_of(value):
        return LEFT + (math.log10(value / x_range[0]) / math.log10(x_range[1] / x_range[0])) * (WIDTH - LEFT - RIGHT)

    def y_of(value):
        return HEIGHT - BELOW - (math.log10(value / y_range[0]) / math.log10(y_range[1] / y_range[0])) * (HEIGHT - BELOW - ABOVE)

    parts = [f'<svg xmlns="http://www.w3.org/2000/svg" width="{WIDTH}" height="{HEIGHT}" viewBox="0 0 {WIDTH} {HEIGHT}" '
             'font-family="sans-serif" font-size="12">',
             f'<rect width="{WIDTH}" height="{HEIGHT}" fill="#ffffff"/>',
             f'<text x="{LEFT}" y="24" font-size="15">{title}</text>',
             f'<text x="{(LEFT + WIDTH - RIGHT) / 2:.0f}" y="{HEIGHT - 16}" text-anchor="middle">{across}</text>',
             f'<text x="18" y="{(HEIGHT - BELOW + ABOVE) / 2:.0f}" text-anchor="middle" '
             f'transform="rotate(-90 18 {(HEIGHT - BELOW + ABOVE) / 2:.0f})">{up}</text>']
    for value in ticks(*x_range):
        x = x_of(value)
        parts.append(f'<path d="M{x:.1f} {ABOVE}V{HEIGHT - BELOW}" stroke="#dddddd"/>')
        parts.append(f'<text x="{x:.1f}" y="{HEIGHT - BELOW + 18}" text-anchor="middle">{shown(value, x_units)}</text>')
    for value in ticks(*y_range):
        y = y_of(value)
        parts.append(f'<path d="M{LEFT} {y:.1f}H{WIDTH - RIGHT}" stroke="#dddddd"/>')
        parts.append(f'<text x="{LEFT - 8}" y="{y + 4:.1f}" text-anchor="end">{shown(value, BYTES)}</text>')
    for color, (name, points) in zip(COLORS, lines):
        places = [f"{x_of(x):.1f} {y_of(y):.1f}" for x, y in points]
        parts.append(f'<path d="M{"L".join(places)}" fill="none" stroke="{color}" stroke-width="2"/>')
        x, y = map(float, places[-1].split())
        # A line that ends within the plot meets another one there.
        parts.append(f'<text x="{x + 6:.1f}" y="{y + (4 if x > WIDTH - RIGHT - 1 else 16):.1f}" fill="{color}">{name}</text>')
    parts.append("</svg>\n")
    with open(path, "w") as file:
        file.write("\n".join(parts))


def plot_loads(results):
    names = (("none", "no cache"), ("archives", "archives in a cache"), ("both", "and the feed, for 1 s"))
    lines = [(name, [(count, loads[key].bytes) for count, (loads, _, _) in results.items()]) for key, name in names]
    plot(f"{TOP}/docs/scale-load.svg", "Bytes that the server sends in a day", "readers", "bytes a day", (1e3, 1e6),
         (1e7, 1e12), NUMBERS, lines)


def away(days):
    """Returns the bytes that a reader fetches after some days, with the open window half full."""
    return HEAD_BYTES + WINDOW / 2 * ITEM_BYTES + days * A_DAY / WINDOW * ARCHIVE_BYTES


def plot_away():
    days = [10 ** (step / 10) for step in range(-10, 31)]
    plain = [(f"plain feed of {name}", [(day, HEAD_BYTES + kept * A_DAY * ITEM_BYTES) for day in days if day <= kept])
             for name, kept in (("30 days", 30), ("a year", 365), ("ten years", 3650))]
    plot(f"{TOP}/docs/scale-away.svg", "Bytes that a reader fetches at a visit", "days since its last visit", "bytes",
         (0.1, 1e3), (1e4, 1e9), NUMBERS, [("archived feed", [(day, away(day)) for day in days])] + plain)


def main():
    results = {count: simulate(count) for count in (1000, 10000, 100000, 1000000)}
    loads, hits, most = results[1000000]
    print(f"a day of 1,000,000 readers; a GET of the feed takes {FEED_US:g} us, of an archive {ARCHIVE_US:g} us")
    for name, load in loads.items():
        print(f"{name}: {load.feeds:,} GETs of the feed, {load.archives:,} of archives, {load.bytes / 1e9:.1f} GB, "
              f"{load.seconds():.1f} processor seconds")
    for name, (feeds, fresh, fetched, missed) in hits.items():
        print(f"after {'an' if name == 'hour' else 'a'} {name}: {feeds:,} GETs of the feed, {100 * (1 - fresh / feeds):.1f} % from the cache, "
              f"{fetched:,} of archives, {100 * (1 - missed / fetched):.3f} % from the cache")
    for days in (1 / 24, 1, 30, 365):
        print(f"a reader after {days:.2f} days: {away(days) / 1e6:.2f} MB")
    plot_loads(results)
    plot_away()
    print(f"at most {most:,} GETs of the feed in a second")


main()

"""The feed documents that `foreign.sh` and `feeds.py` measure with.

- Documents of 10,000 entries, whose content is plain text, html or xhtml: `entries_of`.
- Documents of 1 MB (1,000,000 bytes) that are made to be slow, and plain text beside them: `SLOW`, with the exit status of
  `feed_tool foreign` for each.
"""

import random

ENTRIES = 10_000
SLOW_BYTES = 1_000_000
DATE = "2020-01-01T00:00:00Z"
OPEN = (f'<feed xmlns="http://www.w3.org/2005/Atom" xmlns:at="http://purl.org/atompub/tombstones/1.0"><id>f</id>'
        f"<title>Feed</title><updated>{DATE}</updated>")
CLOSE = "</feed>"
KINDS = ("text", "html", "xhtml")

# The documents of entries

TEXT = "A line of an advisory, which says what was found and mended in a few plain words. "


def content(kind, length):
    """Returns the content of an entry, which is about as long."""
    if kind == "text":
        opening, part, closing = '<content type="text">', TEXT, "</content>"
    elif kind == "html":
        opening, part, closing = '<content type="html">', f"&lt;p&gt;{TEXT}&lt;/p&gt;\n", "</content>"
    else:
        opening, closing = '<content type="xhtml"><div xmlns="http://www.w3.org/1999/xhtml">', "</div></content>"
        part = f'<p class="a">{TEXT}</p>\n'
    room = length - len(opening) - len(closing)
    copies = room // len(part)
    return opening + part * copies + "x" * (room - copies * len(part)) + closing


def entries_of(kind, size):
    entries = []
    for number in range(ENTRIES):
        front = (f"<entry><id>urn:uuid:6d1f0c5a-93be-8c27-8000-{number:012x}</id><title>Advisory number {number}</title>"
                 f"<updated>{DATE}</updated>")
        back = "</entry>\n"
        entries.append(front + content(kind, size - len(front) - len(back)) + back)
    return OPEN + "".join(entries) + CLOSE


# The slow documents


def filled(front, part, back, filling=" ", room=SLOW_BYTES, shuffled=False):
    """Returns a document of that many bytes: copies of a part, and filling.

    An `@` in the part is the number of the copy. The copies are in the order of their numbers, or in one that looks
    like chance and is the same in each run.
    """
    left = room - len(front) - len(back)
    copies = []
    numbers = "@" in part
    while part and left >= len(part.encode()) + 8:
        copies.append(part.replace("@", f"{len(copies):06}") if numbers else part)
        left -= len(copies[-1].encode())
    if shuffled:
        random.Random(1).shuffle(copies)
    return front + "".join(copies) + filling * left + back


def inside(part, filling=" ", name="content", front="", back=""):
    """Returns a document with copies of a part in an element of an entry."""
    opening = f"{OPEN}<entry><id>x</id><updated>{DATE}</updated><{name}>{front}"
    return filled(opening, part, f"{back}</{name}></entry>{CLOSE}", filling)


def deep_names():
    """Returns a document whose half declares 20 prefixes at each of 250 depths, and whose other half uses the first one."""
    levels = ["<a" + "".join(f' xmlns:p{depth:03}x{prefix:02}="u{prefix:075}"' for prefix in range(20)) + ">"
              for depth in range(250)]
    return inside("<p000x00:a/>", front="".join(levels), back="</a>" * 250)


SLOW = {
    "plain text": (inside("", "a"), 0),
    "elements": (inside("<a/>"), 0),
    "elements with text": (inside("<a>b</a>"), 0),
    "elements with a prefix": (inside("<x:a/>", front='<b xmlns:x="u">', back="</b>"), 0),
    "elements at depth 250": (inside("<a/>", front="<b>" * 247, back="</b>" * 247), 0),
    "elements with a prefix, 250 depths of 20 prefixes": (deep_names(), 0),
    "nesting up to depth 256": (inside("<a>" * 253 + "</a>" * 253), 0),
    "attributes of one element": (inside("", " ", front=filled("<a", ' a@=""', "/>", room=SLOW_BYTES - 300)), 0),
    "attributes of one element, shuffled": (
        inside("", " ", front=filled("<a", ' a@=""', "/>", room=SLOW_BYTES - 300, shuffled=True)), 0),
    "an attribute in each element": (inside('<a b=""/>'), 0),
    "namespaces of one element": (inside("", " ", front=filled("<a", ' xmlns:a@="u"', "/>", room=SLOW_BYTES - 300)), 0),
    "namespaces of one element, shuffled": (
        inside("", " ", front=filled("<a", ' xmlns:a@="u"', "/>", room=SLOW_BYTES - 300, shuffled=True)), 0),
    "a namespace in each element": (inside('<a xmlns="u"/>'), 0),
    "one long attribute": (inside("", " ", front=filled('<a b="', "", '"/>', "v", room=SLOW_BYTES - 300)), 0),
    "references in an attribute": (inside("", " ", front=filled('<a b="', "&#9;", '"/>', "v", room=SLOW_BYTES - 300)), 0),
    "one long title": (inside("", "a", name="title"), 3),
    "line ends in a title": (inside("\r", "a", name="title"), 3),
    "references in a title": (inside("&lt;", "a", name="title"), 3),
    "references": (inside("&lt;"), 0),
    "references by number": (inside("&#x0000041;"), 0),
    "brackets": (inside("]", "]"), 0),
    "comments": (inside("<!---->"), 0),
    "one long comment": (inside("", " ", front=filled("<!--", "- ", "-->", " ", room=SLOW_BYTES - 300)), 0),
    "instructions": (inside("<?a?>"), 0),
    "CDATA": (inside("<![CDATA[]]>"), 0),
    "one long CDATA": (inside("", " ", front=filled("<![CDATA[", "]] ", "]]>", " ", room=SLOW_BYTES - 300)), 0),
    "entries": (filled(OPEN, f"<entry><id>@</id><updated>{DATE}</updated></entry>", CLOSE), 3),
    "tombstones": (filled(OPEN, f'<at:deleted-entry ref="@" when="{DATE}"/>', CLOSE), 3),
    "links": (filled(OPEN, '<link rel="a"/>', CLOSE), 0),
    "links to an archive": (filled(OPEN, '<link rel="prev-archive" href="http://["/>', CLOSE), 3),
    "characters of three bytes": (inside("\u20ac", "a"), 0),
}

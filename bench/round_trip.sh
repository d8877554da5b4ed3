#!/bin/sh
# Reads the largest archive that a feed with a short head can have, which has 100 entries of 394,240 bytes, and writes it
# again. Prints whether the bytes are the same, the milliseconds of both, those of reading it in parts of 1, 7 and 65,536
# bytes, and the seconds and the peak memory in KiB of the run.
# The program is proved and built in a workspace of its own over copies of the crates, without their must-fail edits.
# usage: bench/round_trip.sh
top=$(CDPATH='' cd -- "$(dirname -- "$0")/.." && pwd) || exit 1
work=$(mktemp -d) || exit 1
trap 'rm -rf "$work"' EXIT
trap 'exit 1' HUP INT TERM

for crate in "$top"/crates/*; do
    copy=$work/crates/$(basename "$crate")
    mkdir -p "$copy" || exit 1
    for folder in src specs proofs; do
        if [ -d "$crate/$folder" ]; then
            cp -R "$crate/$folder" "$copy/" || exit 1
        fi
    done
done
mkdir -p "$work/crates/round_trip/src" || exit 1
cp "$top/HANDLES" "$work/HANDLES" || exit 1
cp "$top/crates.txt" "$work/crates.txt" || exit 1
echo 'round_trip: atom_writer atom_grammar' >>"$work/crates.txt" || exit 1
cp "$top/bench/round_trip.rt.txt" "$work/crates/round_trip/src/main.rt" || exit 1

# The content has the 65,536 bytes that a text may have, all escaped. The summary fills the piece up.
awk 'BEGIN {
    base = "http://feed.example/"
    for (count = 0; count < 13000; count++) summary = summary "&amp;"
    content = summary summary summary summary summary
    for (count = 0; count < 536; count++) content = content "&amp;"
    print "<?xml version=\"1.0\" encoding=\"utf-8\"?>"
    print "<feed xmlns=\"http://www.w3.org/2005/Atom\" xmlns:fh=\"http://purl.org/syndication/history/1.0\" xmlns:at=\"http://purl.org/atompub/tombstones/1.0\" xmlns:app=\"http://www.w3.org/2007/app\" xmlns:sp=\"urn:archived-feed:span:1\">"
    print "<id>urn:uuid:6d1f0c5a-93be-4c27-8d10-2b7f9e4a5c36</id>"
    print "<title>Feed</title>"
    print "<updated>2026-11-26T12:00:00.003Z</updated>"
    print "<author><name>Editor</name></author>"
    print "<link rel=\"self\" href=\"" base "archive/2\"/>"
    print "<link rel=\"current\" href=\"" base "feed\"/>"
    print "<link rel=\"prev-archive\" href=\"" base "archive/1\"/>"
    print "<link rel=\"next-archive\" href=\"" base "archive/3\"/>"
    print "<fh:archive/>"
    print "<sp:span first=\"101\" last=\"200\"/>"
    for (number = 200; number > 100; number--) {
        id = "urn:uuid:6d1f0c5a-93be-8c27-8000-" sprintf("%012x", number)
        front = "<entry><id>" id "</id><title>Advisory</title><updated>2026-11-26T12:00:00.002Z</updated><app:edited>2026-11-26T12:00:00.002Z</app:edited><link rel=\"edit\" href=\"" base "member/" number "\"/><summary>" summary
        back = "</summary><content>" content "</content></entry>"
        rest = ""
        for (count = length(front) + length(back) + 1; count < 394240; count++) rest = rest "a"
        print front rest back
    }
    print "</feed>"
}' >"$work/document" || exit 1

echo 'round_trip: proving and building the program first, which can take some minutes' >&2
log=$(cd "$work/crates/round_trip" && rt run <"$work/document" 2>&1) || {
    printf '%s\n' "$log" >&2
    exit 1
}
/usr/bin/time -f '%e seconds, %M KiB' "$work/crates/round_trip/out/round_trip" <"$work/document"

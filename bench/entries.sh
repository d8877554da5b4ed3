#!/bin/sh
# Reads entry documents of 300 bytes, 4 KB and 64 KB many times over, dense in markup and dense in text, and bodies of
# 65,536 bytes that are made to be slow beside one of plain text. Prints the MB (1,000,000 bytes) and the entries per
# second of each, and those of `xmllint --stream --repeat`, where that is installed. It reads a document 100 times.
# The program is proved and built in a workspace of its own over copies of the crates, without their must-fail edits.
# usage: bench/entries.sh
top=$(CDPATH='' cd -- "$(dirname -- "$0")/.." && pwd) || exit 1
work=$(mktemp -d) || exit 1
trap 'rm -rf "$work"' EXIT
trap 'exit 1' HUP INT TERM

for crate in atom_values xml_tokens entry_reader; do
    copy=$work/crates/$crate
    mkdir -p "$copy" || exit 1
    for folder in src specs proofs; do
        if [ -d "$top/crates/$crate/$folder" ]; then
            cp -R "$top/crates/$crate/$folder" "$copy/" || exit 1
        fi
    done
done
mkdir -p "$work/crates/entries/src" || exit 1
cp "$top/HANDLES" "$work/HANDLES" || exit 1
grep -E '^(atom_values|xml_tokens|entry_reader):' "$top/crates.txt" >"$work/crates.txt" || exit 1
echo 'entries: entry_reader' >>"$work/crates.txt" || exit 1
cp "$top/bench/entries.rt.txt" "$work/crates/entries/src/main.rt" || exit 1

# Writes a document of this length: an opening, copies of a part, filling, and an ending. A `#` in the part is replaced
# by the number of the copy, which begins again at 1 after NUMBERS copies.
# usage: document BYTES OPENING PART FILLING ENDING [NUMBERS]
document() {
    BYTES=$1 OPENING=$2 PART=$3 FILLING=$4 ENDING=$5 NUMBERS=${6:-99999} \
        awk 'BEGIN {
        bytes = ENVIRON["BYTES"]; text = ENVIRON["OPENING"]
        part = ENVIRON["PART"]; ending = ENVIRON["ENDING"]
        printf "%s", text
        left = bytes - length(text) - length(ending)
        for (count = 1; length(part) && left >= length(part) + 8; count++) {
            copy = part
            gsub(/#/, sprintf("%05d", (count - 1) % ENVIRON["NUMBERS"] + 1), copy)
            if (length(copy) > left) break
            printf "%s", copy
            left -= length(copy)
        }
        for (; left > 0; left--) printf "%s", ENVIRON["FILLING"]
        printf "%s", ending
    }'
}

open='<entry xmlns="http://www.w3.org/2005/Atom"><title>Advisory</title>'
for bytes in 300 4096 65536; do
    document "$bytes" "$open" '<x:m xmlns:x="u" a="b"/>' ' ' '</entry>' >"$work/markup_$bytes"
    document "$bytes" "$open<content>" 'A line of plain text. ' 'a' '</content></entry>' >"$work/text_$bytes"
done
document 65536 "$open<content>" '' 'a' '</content></entry>' >"$work/plain"
document 65536 '' '<a>' ' ' '' >"$work/nested_tags"
document 65536 "$open<x" ' a#="1"' ' ' '/></entry>' >"$work/attributes"
document 65536 '<entry xmlns="http://www.w3.org/2005/Atom"' ' xmlns:p#="u"' ' ' '><title/></entry>' >"$work/declarations"
document 65536 "$open<content>" '&amp;' 'a' '</content></entry>' >"$work/references"
# Half of the bytes declare prefixes, and the other half use them.
{
    document 32768 '<entry xmlns="http://www.w3.org/2005/Atom"' ' xmlns:p#="u"' ' ' '>'
    document 32768 '<title/>' '<p#:a/>' ' ' '</entry>' 1500
} >"$work/prefixes"

echo 'entries: proving and building the program first, which can take some minutes' >&2
log=$(cd "$work/crates/entries" && rt run <"$work/plain" 2>&1) || {
    printf '%s\n' "$log" >&2
    exit 1
}

for name in markup_300 text_300 markup_4096 text_4096 markup_65536 text_65536 \
    plain nested_tags attributes declarations prefixes references; do
    "$work/crates/entries/out/entries" <"$work/$name" >"$work/took" || exit 1
    sed 's/[a-z,]//g' "$work/took" | awk -v name="$name" '{
        if ($4 == 0) $4 = 1
        printf "%s: %d bytes, %d refused of %d, %.1f MB per second, %d entries per second\n",
            name, $1, $3, $2, $1 * $2 / $4, $2 * 1000000 / $4
    }'
    if command -v xmllint >/dev/null; then
        /usr/bin/time -o "$work/took" -f '%e' xmllint --noout --stream --repeat "$work/$name" 2>/dev/null
        tail -n 1 "$work/took" | awk -v name="$name" -v bytes="$(wc -c <"$work/$name")" '{
            if ($1 == 0) $1 = 0.01
            printf "  xmllint: %.1f MB per second, %d entries per second\n", bytes * 100 / $1 / 1000000, 100 / $1
        }'
    fi
done

#!/bin/sh
# Tries the wrong bodies of bench/edits: an edit of bench/edits/CRATE changes a line or two of the crate, and the
# crate's contracts must refuse it. The gate doesn't read this folder. It tries the edits of crates/CRATE/must-fail,
# which have the same form.
# usage: bench/edits.sh [CRATE ..]. With no name it tries the edits of all crates that have a folder in bench/edits.
# It runs `rt must-fail CRATE ..` on a copy of the crates in which must-fail/ has these edits alone. The copy takes the
# libraries that `./prove` or `rt lib` built here, and `rt` builds the others first.
# It prints a line for each edit: refused with the first goal that failed, NOT REFUSED, BAD EDIT or NOT TRIED. The lines
# of `rt` go to standard error. The last line has the counts. The status is 0 if all edits were refused, 1 if one
# wasn't, and 2 if a crate has no folder in bench/edits.
set -eu
top=$(CDPATH='' cd -- "$(dirname -- "$0")/.." && pwd)
edits=$top/bench/edits
if [ $# -eq 0 ]; then
    for folder in "$edits"/*/; do
        set -- "$@" "$(basename -- "$folder")"
    done
fi
for crate; do
    case $crate in
        '' | *[!a-z0-9_]*) found= ;;
        *) found=$edits/$crate ;;
    esac
    if [ ! -d "$found" ]; then
        echo "usage: bench/edits.sh [CRATE ..]: bench/edits has no folder '$crate'" >&2
        exit 2
    fi
done

work=$(mktemp -d)
gate=
trap 'rm -rf "$work"' EXIT
# `rt` in the background doesn't get the signal of a terminal
trap '[ -z "$gate" ] || kill "$gate" 2>/dev/null; exit 1' HUP INT TERM

# the top of a repository, as `rt` asks
mkdir -p "$work/tree/.git"
tar -C "$top" --no-wildcards-match-slash --exclude='crates/*/out/incremental' \
    --exclude='crates/*/must-fail' -cf "$work/tree.tar" crates crates.txt HANDLES
tar -C "$work/tree" -xf "$work/tree.tar"
for crate; do
    mkdir "$work/tree/crates/$crate/must-fail"
    cp "$edits/$crate"/*.edit "$work/tree/crates/$crate/must-fail"
done

mkfifo "$work/lines"
tee "$work/log" <"$work/lines" >&2 &
(cd "$work/tree" && exec rt must-fail "$@") >"$work/lines" 2>&1 &
gate=$!
# the lines below tell how it ended
wait || :
gate=

refused=0 missed=0 untried=0
for crate; do
    for edit in "$edits/$crate"/*.edit; do
        label=$crate/$(basename -- "$edit")
        line=$(sed -n "s|^rt: must-fail $label: ||p" "$work/log" | head -n 1)
        case $line in
            'refused, '*) refused=$((refused + 1)) ;;
            'NOT REFUSED: '*) missed=$((missed + 1)) ;;
            *) untried=$((untried + 1)) ;;
        esac
        echo "$label: ${line:-NOT TRIED: \`rt\` has no line of it}"
    done
done
echo "$refused refused, $missed not refused, $untried bad or not tried"
[ $((missed + untried)) -eq 0 ]
